// page.mjs: what the tests do in a page.
import { load } from '../avcdec.mjs';
import { accessUnits } from '../avcdec-annexb.mjs';
import { WorkerDecoder } from '../avcdec-client.mjs';
import { decodeSequences } from '../avcdec-sequences.mjs';
import { AvcVideoDecoder } from '../avcdec-video.mjs';
import { check } from './check.mjs';
import { Md5 } from './md5.mjs';

export { ours, speedOfFile, speedOfOurs, speedOfShape, speedOfTheirs } from './speed.mjs';

export const module = '/module.wasm';
const bytesOf = async name => new Uint8Array(await (await fetch(`/vectors/${name}.264`)).arrayBuffer());
const inPage = load(module);

/** All streams of a list, decoded in the page. */
export async function streams(list) {
    return check(await inPage, list, bytesOf);
}

/** The MD5 of all pictures of a stream that a worker decodes, and its refusals. */
export async function byWorker(name) {
    const decoder = new WorkerDecoder({ module }), md5 = new Md5(), refused = [], bytes = await bytesOf(name);
    const take = events => {
        for (const event of events) {
            if (event.kind === 'refused') { refused.push(`refused unit ${event.unit}: ${event.fault} ${event.name}`); continue; }
            md5.update(event.samples);
            decoder.giveBack(event);
        }
    };
    for (let at = 0; at < bytes.length; at += 65536) take(await decoder.decode(bytes.slice(at, at + 65536), { transfer: true }));
    take(await decoder.flush());
    decoder.close();
    return { md5: md5.hex(), refused: refused.join('\n') };
}

/** The same by several workers, sequence by sequence. */
export async function bySequences(name) {
    const md5 = new Md5(), refused = [];
    for await (const event of decodeSequences(await bytesOf(name), { workers: 3, module })) {
        if (event.kind === 'refused') { refused.push(`refused unit ${event.unit}: ${event.fault} ${event.name}`); continue; }
        md5.update(event.samples);
        event.giveBack();
    }
    return { md5: md5.hex(), refused: refused.join('\n') };
}

/** The longest time in ms for which the page's own thread was held while a worker decoded. */
export async function freedom(name) {
    let longest = 0, last = performance.now(), runs = true;
    const beat = () => {
        longest = Math.max(longest, performance.now() - last);
        last = performance.now();
        if (runs) setTimeout(beat, 0);
    };
    const bytes = await bytesOf(name), units = accessUnits(bytes), decoder = new WorkerDecoder({ module });
    await decoder.ready;
    last = performance.now();
    beat();
    for (const unit of units) for (const event of await decoder.decode(unit.bytes, { endsUnit: true })) if (event.kind === 'picture') decoder.giveBack(event);
    runs = false;
    decoder.close();
    return longest;
}

/** What a decoder in the shape of WebCodecs' VideoDecoder makes of a stream: timestamps and the MD5 of each picture as I420. */
async function frames(Kind, units, more, avcc) {
    const out = [], waits = [];
    let failed;
    const decoder = new Kind({
        output: frame => {
            const { timestamp, duration } = frame, { width, height } = frame.visibleRect;
            const told = { timestamp, duration, size: `${width}x${height}`, format: frame.format };
            out.push(told);
            waits.push((async () => {
                const samples = new Uint8Array(frame.allocationSize());
                const layout = await frame.copyTo(samples);
                told.md5 = i420(samples, layout, width, height, frame.format);
                frame.close();
            })());
        },
        error: error => { failed = error; },
        ...more,
    });
    decoder.configure({ codec: 'avc1.42E028', hardwareAcceleration: 'prefer-software', ...(avcc && { description: avcc.record }) });
    units.forEach((unit, at) => decoder.decode(new EncodedVideoChunk({ type: unit.key ? 'key' : 'delta', timestamp: at * 40000, duration: 40000, data: avcc ? avcc.sample(unit.bytes) : unit.bytes })));
    await decoder.flush().catch(error => { failed ??= error; });
    await Promise.all(waits);
    if (failed) return { failed: `${failed.name}: ${failed.message}`, out };
    decoder.close();
    return { out };
}

function i420(samples, layout, width, height, format) {
    const md5 = new Md5();
    if (format === 'NV12') {
        plane(md5, samples, layout[0], width, height, 1, 0);
        for (const part of [0, 1]) plane(md5, samples, layout[1], width / 2, height / 2, 2, part);
    } else {
        layout.forEach((it, i) => plane(md5, samples, it, i ? width / 2 : width, i ? height / 2 : height, 1, 0));
    }
    return md5.hex();
}

function plane(md5, samples, { offset, stride }, columns, rows, step, first) {
    const row = new Uint8Array(columns);
    for (let y = 0; y < rows; y++) {
        const from = offset + y * stride + first;
        if (step > 1) for (let x = 0; x < columns; x++) row[x] = samples[from + x * step];
        md5.update(step > 1 ? row : samples.subarray(from, from + columns));
    }
}

/** Where AvcVideoDecoder and the browser's VideoDecoder differ on a stream; undefined where they don't. */
export async function besides(name, words = {}) {
    const units = accessUnits(await bytesOf(name));
    const theirs = await frames(VideoDecoder, units, {});
    const ours = await frames(AvcVideoDecoder, units, words.here ? { library: inPage } : { module, workers: words.workers }, words.avcc && (await import('./avcc.mjs')).avccOf(units));
    if (theirs.failed || ours.failed) return `theirs: ${theirs.failed}, ours: ${ours.failed}`;
    const told = it => ({ ...it, format: undefined });
    if (theirs.out.length !== ours.out.length) return `theirs has ${theirs.out.length} pictures, ours ${ours.out.length}`;
    const at = ours.out.findIndex((it, i) => JSON.stringify(told(it)) !== JSON.stringify(told(theirs.out[i])));
    return at < 0 ? undefined : `picture ${at}: ${JSON.stringify(ours.out[at])}, theirs ${JSON.stringify(theirs.out[at])}`;
}

/** How many of the first frames of AvcVideoDecoder have this matrix and range: in this thread, in a worker, in three, and where `config` names another. */
export async function coloured(name, matrix, fullRange) {
    const units = accessUnits(await bytesOf(name)), counts = [];
    const other = { matrix: 'bt2020-ncl', primaries: 'bt2020', transfer: 'bt709', fullRange: !fullRange };
    for (const [words, colorSpace] of [[{ library: inPage }], [{ module }], [{ module, workers: 3 }], [{ module }, other]]) {
        const told = [], has = it => it.matrix === matrix && it.fullRange === fullRange;
        const decoder = new AvcVideoDecoder({ output: frame => { told.push(has(frame.colorSpace)); frame.close(); }, error: error => told.push(error.message), ...words });
        decoder.configure({ codec: 'avc1.42E028', colorSpace });
        units.forEach((unit, at) => decoder.decode(new EncodedVideoChunk({ type: unit.key ? 'key' : 'delta', timestamp: at, data: unit.bytes })));
        await decoder.flush();
        decoder.close();
        counts.push([...told, false].indexOf(false));
    }
    return counts;
}

/** How a refusal comes out of AvcVideoDecoder. */
export async function refusalOf(name) {
    const units = accessUnits(await bytesOf(name));
    const { failed } = await frames(AvcVideoDecoder, units, { module });
    const refused = [];
    const { failed: none } = await frames(AvcVideoDecoder, units, { module, refused: error => refused.push([error.unit, error.fault, error.faultName]) });
    return { failed, none, refused };
}
