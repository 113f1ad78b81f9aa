// streams.mjs: the streams of vectors/ with what must come of each.
import { existsSync, readdirSync, readFileSync } from 'node:fs';
import { fileURLToPath } from 'node:url';

export const top = fileURLToPath(new URL('../../..', import.meta.url)).replace(/\/$/, '');
export const vectors = `${top}/vectors`;

export function streams() {
    const list = [];
    for (const folder of readdirSync(vectors).sort()) {
        let files;
        try { files = readdirSync(`${vectors}/${folder}`); } catch { continue; }
        for (const file of files.sort()) {
            if (!file.endsWith('.md5') || !existsSync(`${vectors}/${folder}/${file.slice(0, -4)}.264`)) continue;
            const name = `${folder}/${file.slice(0, -4)}`;
            const text = kind => existsSync(`${vectors}/${name}${kind}`) ? readFileSync(`${vectors}/${name}${kind}`, 'utf8') : undefined;
            const md5 = text('.md5').split(/\s/)[0];
            list.push({ name, md5, early: text('.early')?.split(/\s/)[0] ?? md5, refused: (text('.refused') ?? '').trimEnd() });
        }
    }
    return list;
}

export const bytesOf = name => new Uint8Array(readFileSync(`${vectors}/${name}.264`));
