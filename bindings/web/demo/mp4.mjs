// mp4.mjs: the samples of the first AVC track of an MP4 file (ISO/IEC 14496-12 and 14496-15), whole in memory and without fragments.
import { Avcc, byteStream } from '../avcdec-annexb.mjs';

export function isMp4(bytes) {
    return bytes.length > 12 && String.fromCharCode(...bytes.subarray(4, 8)) === 'ftyp';
}

/** { units: access units as byte streams, { bytes, key }, the first with the parameter sets; rate: pictures a second }. */
export function samplesOf(bytes) {
    const view = new DataView(bytes.buffer, bytes.byteOffset, bytes.byteLength);
    const moov = find(view, 0, bytes.length, 'moov');
    for (const track of moov ? boxes(view, moov).filter(it => it.type === 'trak') : []) {
        const table = ['mdia', 'minf', 'stbl'].reduce((box, type) => box && find(view, box.from, box.to, type), track);
        const entry = table && avc1Of(view, table);
        if (entry) return trackOf(view, bytes, table, entry, find(view, ...ends(find(view, ...ends(track), 'mdia')), 'mdhd'));
    }
    throw new Error('this MP4 file has no AVC track without fragments');
}

const ends = box => [box.from, box.to];

function boxes(view, { from, to }) {
    const list = [];
    for (let at = from; at + 8 <= to;) {
        let size = view.getUint32(at), head = 8;
        if (size === 1) size = Number(view.getBigUint64(at + 8)), head = 16;
        if (size === 0) size = to - at;
        if (size < head) break;
        list.push({ type: String.fromCharCode(...[4, 5, 6, 7].map(i => view.getUint8(at + i))), from: at + head, to: Math.min(at + size, to) });
        at += size;
    }
    return list;
}

const find = (view, from, to, type) => boxes(view, { from, to }).find(it => it.type === type);

/** The avcC of the first sample entry avc1 or avc3. */
function avc1Of(view, table) {
    const described = find(view, ...ends(table), 'stsd');
    const entry = described && boxes(view, { from: described.from + 8, to: described.to }).find(it => it.type === 'avc1' || it.type === 'avc3');
    return entry && find(view, entry.from + 78, entry.to, 'avcC');
}

function trackOf(view, bytes, table, entry, header) {
    const avcc = new Avcc(bytes.subarray(entry.from, entry.to));
    const rows = (type, width) => {
        const box = find(view, ...ends(table), type);
        return box && Array.from({ length: view.getUint32(box.from + 4) }, (_, i) => box.from + 8 + i * width);
    };
    const word = at => view.getUint32(at);
    const sizes = find(view, ...ends(table), 'stsz'), same = word(sizes.from + 4), count = word(sizes.from + 8);
    const size = i => same || word(sizes.from + 12 + i * 4);
    const chunks = rows('stco', 4)?.map(word) ?? rows('co64', 8).map(at => Number(view.getBigUint64(at)));
    const runs = rows('stsc', 12).map(at => ({ first: word(at) - 1, each: word(at + 4) }));
    const keys = rows('stss', 4)?.map(at => word(at) - 1), isKey = new Set(keys);
    const units = [];
    for (let chunk = 0, run = 0; chunk < chunks.length; chunk++) {
        while (run + 1 < runs.length && runs[run + 1].first <= chunk) run++;
        for (let left = runs[run].each, at = chunks[chunk]; left > 0 && units.length < count; left--) {
            const length = size(units.length), key = !keys || isKey.has(units.length);
            units.push({ bytes: avcc.annexB(bytes.subarray(at, at + length)), key });
            at += length;
        }
    }
    if (units.length > 0) units[0].bytes = joined(byteStream(avcc.sets), units[0].bytes);
    const scale = word(header.from + (view.getUint8(header.from) === 1 ? 20 : 12));
    const lasts = (rows('stts', 8) ?? []).reduce((sum, at) => sum + word(at) * word(at + 4), 0);
    return { units, rate: lasts > 0 ? units.length * scale / lasts : undefined };
}

function joined(first, second) {
    const both = new Uint8Array(first.length + second.length);
    both.set(first);
    both.set(second, first.length);
    return both;
}
