// speed.mjs: pictures a second, in a page or in Node.
import { Decoder, load } from '../avcdec.mjs';
import { accessUnits } from '../avcdec-annexb.mjs';
import { decodeSequences } from '../avcdec-sequences.mjs';
import { AvcVideoDecoder } from '../avcdec-video.mjs';

const bytesOf = async name => new Uint8Array(await (await fetch(`/vectors/${name}.264`)).arrayBuffer());
const WAYS = { read: false, copied: true };

/** Runs for some seconds to warm up, then tells for each way the best of the runs of some seconds. */
async function bestOf(run, seconds, warm) {
    const runs = async (copies, time) => {
        let best = 0;
        for (const until = performance.now() + time * 1000; performance.now() < until; await new Promise(done => setTimeout(done, 0))) best = Math.max(best, await run(copies));
        return best;
    };
    await runs(false, warm);
    const told = {};
    for (const [way, copies] of Object.entries(WAYS)) told[way] = await runs(copies, seconds);
    return told;
}

/** A decoder of the module at this address or of these bytes, and how it decodes the whole stream once: access units, early output, each picture's
 * planes looked at where they lie, or copied as I420. Answers how many pictures there were. */
export async function ours(name, module) {
    const decoder = new Decoder(await load(module), { early: true }), units = accessUnits(await bytesOf(name));
    let pictures = 0, sum = 0, room = new Uint8Array(0);
    const take = (event, copies) => {
        if (event.kind !== 'picture') return;
        pictures++;
        if (!copies) { sum += event.planes[0].samples[0]; return; }
        if (room.length !== event.size) room = new Uint8Array(event.size);
        sum += event.copy(room)[0];
    };
    const run = copies => {
        pictures = 0;
        for (const unit of units) for (const event of decoder.decode(unit.bytes, { endsUnit: true })) take(event, copies);
        decoder.flush();
        for (const event of decoder.events()) take(event, copies);
        decoder.reset();
        return pictures;
    };
    return { run, close: () => decoder.close() };
}

/** Pictures a second of it, { read, copied }. */
export async function speedOfOurs(name, module, { seconds = 3, warm = 3 } = {}) {
    const { run, close } = await ours(name, module);
    const told = await bestOf(async copies => {
        const start = performance.now();
        return run(copies) * 1000 / (performance.now() - start);
    }, seconds, warm);
    close();
    return told;
}

/** How the browser's own VideoDecoder in software, or another of its shape (`Kind`, `words`), decodes access units: `run(copies)` does it once and answers
 * how many pictures there were, each copied by copyTo where asked. */
function theirs(units, config, Kind = VideoDecoder, words = {}) {
    const room = new Uint8Array(1920 * 1088 * 2);
    let pictures = 0, made = 0, failed, copies = false, waits = [];
    const decoder = new Kind({
        output: frame => { pictures++; if (copies) waits.push(frame.copyTo(room).then(() => frame.close())); else frame.close(); },
        error: thrown => { failed = thrown; },
        ...words,
    });
    const run = async way => {
        pictures = 0;
        copies = way;
        decoder.configure({ codec: 'avc1.42E028', hardwareAcceleration: 'prefer-software', ...config });
        for (const unit of units) decoder.decode(new EncodedVideoChunk({ type: unit.key ? 'key' : 'delta', timestamp: made++ * 33333, data: unit.bytes }));
        await decoder.flush();
        await Promise.all(waits);
        waits = [];
        if (failed) throw failed;
        return pictures;
    };
    return { run, close: () => decoder.close() };
}

/** The same of the browser's own VideoDecoder, in software; `copied` by copyTo. */
export async function speedOfTheirs(name, { seconds = 3, warm = 2 } = {}) {
    const { run, close } = theirs(accessUnits(await bytesOf(name)), { optimizeForLatency: true });
    const told = await bestOf(async copies => {
        const start = performance.now();
        return await run(copies) * 1000 / (performance.now() - start);
    }, seconds, warm);
    close();
    return told;
}

/** Pictures a second of AvcVideoDecoder, in so many workers (0: in the page's thread), and of VideoDecoder in software: configured for each run over a
 * stream, each frame copied, in turns. */
export async function speedOfShape(name, workers, module, { seconds = 3, warm = 2 } = {}) {
    const units = accessUnits(await bytesOf(name)), words = workers ? { module, workers } : { library: load(module) }, best = [0, 0];
    const both = [theirs(units, { optimizeForLatency: true }, AvcVideoDecoder, words), theirs(units, { optimizeForLatency: true })];
    for (const [time, counts] of [[warm, false], [seconds, true], [seconds, true]])
        for (const [at, { run }] of both.entries())
            for (const until = performance.now() + time * 1000; performance.now() < until;) {
                const start = performance.now(), rate = await run(true) * 1000 / (performance.now() - start);
                if (counts) best[at] = Math.max(best[at], rate);
            }
    for (const { close } of both) close();
    return { ours: best[0], theirs: best[1] };
}

// so often a stream stands in a file, behind the first time, whose start doesn't count
const SEQUENCES = 16;

/** Pictures a second of a file of several sequences, each picture copied: by decodeSequences in so many workers, or by VideoDecoder in software, with or without
 * its wish for pictures at once, whichever is faster. The time of a short file is taken from that of a long one, so starts don't count. */
export async function speedOfFile(name, workers, module, { seconds = 3, most = 12 } = {}) {
    const bytes = await bytesOf(name), file = times => {
        const all = new Uint8Array(times * bytes.length);
        for (let i = 0; i < times; i++) all.set(bytes, i * bytes.length);
        return all;
    };
    const code = workers ? await WebAssembly.compileStreaming(fetch(module)) : undefined;
    const count = async (times, config) => {
        let pictures = 0;
        if (workers) for await (const event of decodeSequences(file(times), { workers, module: code })) pictures++, event.giveBack();
        else {
            const { run, close } = theirs(accessUnits(file(times)), config);
            pictures = await run(true);
            close();
        }
        return pictures;
    };
    let best = 0;
    for (const config of workers ? [{}] : [{}, { optimizeForLatency: true }]) {
        const least = {}, pictures = {};
        const until = performance.now() + seconds * 1000;
        for (let run = 0; run < 3 || (run < most && performance.now() < until); run++)
            for (const times of [workers || 1, (workers || 1) + SEQUENCES]) {
                const start = performance.now();
                pictures[times] = await count(times, config);
                least[times] = Math.min(least[times] ?? Infinity, performance.now() - start);
            }
        const [short, long] = [workers || 1, (workers || 1) + SEQUENCES];
        best = Math.max(best, (pictures[long] - pictures[short]) * 1000 / (least[long] - least[short]));
    }
    return { copied: best };
}
