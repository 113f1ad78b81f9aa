// avcdec-worker.mjs: a worker with one decoder, for WorkerDecoder of avcdec-client.mjs. Samples and VideoFrames are transferred, not copied.
import { Decoder, load } from './avcdec.mjs';
import { colorSpaceOf } from './avcdec-annexb.mjs';

const port = typeof WorkerGlobalScope !== 'undefined' ? globalThis : (await import('node:worker_threads')).parentPort;
const spare = []; // buffers that came back, for later pictures
let decoder;
let frames = false; // whether pictures leave as VideoFrames
let colorSpace; // of these, where it is not what the stream tells

/** A picture as it leaves: a VideoFrame, or its samples as I420 without gaps. */
function parcel(picture) {
    const { codedWidth, codedHeight, crop, width, height, size, unit, value, info } = picture;
    const told = { kind: 'picture', codedWidth, codedHeight, crop, width, height, size, unit, value, info };
    return frames ? { ...told, videoFrame: picture.frame({ timestamp: 0, colorSpace: colorSpace ?? colorSpaceOf(info) }) } : { ...told, samples: samplesOf(picture) };
}

function samplesOf(picture) {
    let buffer;
    while ((buffer = spare.pop()) && buffer.byteLength !== picture.size);
    return picture.copy(new Uint8Array(buffer ?? new ArrayBuffer(picture.size)));
}

function taken(events) {
    const list = [];
    for (const event of events) list.push(event.kind === 'picture' ? parcel(event) : { ...event });
    return list;
}

const calls = {
    async open({ module, early, ...words }) {
        frames = words.frames && typeof VideoFrame !== 'undefined';
        const library = await load(module);
        decoder = new Decoder(library, { early });
        return { version: library.version };
    },
    decode({ bytes, endsUnit, value, ...words }) {
        colorSpace = words.colorSpace;
        return { events: taken(decoder.decode(bytes, { endsUnit, value })) };
    },
    flush() {
        decoder.flush();
        return { events: taken(decoder.events()) };
    },
    reset() {
        decoder.reset();
        return {};
    },
};

async function answer({ id, call, words, buffers = [] }) {
    spare.push(...buffers);
    spare.splice(0, spare.length - 16);
    try {
        const told = await calls[call](words);
        if (decoder) told.memory = decoder.memory, told.turns = decoder.turns;
        port.postMessage({ id, told }, (told.events ?? []).filter(it => it.kind === 'picture').map(it => it.videoFrame ?? it.samples.buffer));
    } catch (thrown) {
        port.postMessage({ id, error: { name: thrown.name, message: thrown.message, status: thrown.status } });
    }
}

// one at a time, in their order: `open` waits for the module
let last = Promise.resolve();
const take = message => { last = last.then(() => answer(message)); };
if (port === globalThis) port.onmessage = event => take(event.data);
else port.on('message', take);
