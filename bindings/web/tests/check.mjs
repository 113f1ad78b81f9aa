// check.mjs: decodes streams and compares the MD5 of all pictures, and the refusals, with what must come; for Node and for pages.
import { Decoder } from '../avcdec.mjs';
import { Md5 } from './md5.mjs';

/** What comes of a stream that is given in pieces of so many bytes; `feed` gives a piece at once, and not unit by unit. */
export function decode(library, bytes, { early = false, piece = 65536, feed = false } = {}) {
    const decoder = new Decoder(library, { early });
    const md5 = new Md5(), refused = [];
    let pictures = 0, room = new Uint8Array(0);
    const take = event => {
        if (event.kind === 'refused') return refused.push(`refused unit ${event.unit}: ${event.fault} ${event.name}`);
        pictures++;
        if (room.length !== event.size) room = new Uint8Array(event.size);
        md5.update(event.copy(room));
    };
    for (let at = 0; at < bytes.length; at += piece) {
        const part = bytes.subarray(at, at + piece);
        if (feed) decoder.feed(part);
        for (const event of feed ? decoder.events() : decoder.decode(part)) take(event);
    }
    decoder.flush();
    for (const event of decoder.events()) take(event);
    decoder.close();
    return { md5: md5.hex(), refused: refused.join('\n'), pictures };
}

/** Each of: { name, md5, early, refused }. Plain, early, and, where a stream has at most 20,000 bytes, in pieces of 1,000. */
export async function check(library, list, bytesOf) {
    const failed = [];
    let passed = 0, pictures = 0;
    for (const it of list) {
        const bytes = await bytesOf(it.name);
        const ways = [[it.md5, {}], [it.early, { early: true }]];
        if (bytes.length <= 20000) ways.push([it.md5, { piece: 1000, feed: true }]);
        for (const [md5, how] of ways) {
            let got;
            try {
                got = decode(library, bytes, how);
            } catch (thrown) {
                got = { md5: String(thrown) };
            }
            pictures += got.pictures ?? 0;
            if (got.md5 === md5 && got.refused === it.refused) passed++;
            else failed.push(`${it.name} ${JSON.stringify(how)}: ${got.md5} ${got.refused}`);
        }
    }
    return { passed, failed, pictures };
}
