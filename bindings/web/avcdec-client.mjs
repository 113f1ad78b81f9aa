// avcdec-client.mjs: WorkerDecoder, a decoder in a worker of its own, so that the thread of a page stays free.
import { compile, DecoderError, frameOf, OutOfMemory } from './avcdec.mjs';

// as many as a worker keeps
const SPARE_BUFFERS = 16;

/** What was thrown by another's name, here or in a worker. */
const decoderError = ({ message, status }) => Object.assign(new DecoderError('', status), { message });

// The modules that workers were given, by their addresses: each is compiled once, and a later worker has its code at once.
const modules = new Map();

/** The module of an address, compiled; one that could not be had is asked for again next time. */
function compiled(module) {
    if (module instanceof WebAssembly.Module) return module;
    const address = module === undefined ? '' : String(module);
    if (!modules.has(address)) modules.set(address, compile(module).catch(thrown => {
        modules.delete(address);
        throw decoderError(thrown);
    }));
    return modules.get(address);
}

/** A picture with samples of its own, as I420 without gaps: luma, Cb, Cr. */
export class OwnPicture {
    #owner;

    constructor(fields, owner) {
        Object.assign(this, fields);
        this.#owner = owner;
    }

    /** Gives its samples back to the decoder for later pictures. */
    giveBack() {
        this.#owner.giveBack(this);
    }

    /** Luma, Cb, Cr. */
    get planes() {
        const { samples, width, height } = this, luma = width * height, chroma = luma / 4;
        return [[0, luma, 1], [luma, chroma, 2], [luma + chroma, chroma, 2]].map(([from, size, part]) =>
            ({ samples: samples.subarray(from, from + size), stride: width / part, columns: width / part, rows: height / part }));
    }

    copy(to = new Uint8Array(this.size)) {
        to.set(this.samples);
        return to;
    }

    /** A VideoFrame that takes the samples over: the picture has none afterwards. */
    frame(init) {
        return frameOf(this.samples, this, init);
    }
}

/** A picture as a VideoFrame that the worker made. */
export class FramedPicture {
    #frame;

    constructor({ videoFrame, ...fields }) {
        Object.assign(this, fields);
        this.#frame = videoFrame;
    }

    /** The VideoFrame, with this timestamp and displayed size: the picture has none afterwards. */
    frame(init) {
        const frame = new VideoFrame(this.#frame, init);
        this.close();
        return frame;
    }

    /** Lets go of the samples. */
    close() {
        this.#frame.close();
    }
}

/** A decoder in a worker. Calls are answered in their order. */
export class WorkerDecoder {
    #worker;
    #waiting = new Map();
    #calls = 0;
    #buffers = [];
    #ready;
    #closed;

    /** `module`: a URL of avcdec.wasm or a WebAssembly.Module. `frames`: pictures come as VideoFrames where workers have these: copied once, by
     * the browser. */
    constructor({ early = false, module, frames = false } = {}) {
        this.#ready = this.#begin(module, { early, frames });
        this.#ready.catch(() => {}); // it is told to whoever calls
    }

    async #begin(from, words) {
        const module = await compiled(from);
        // the URL stands in the call, where bundlers look for it
        const threads = typeof Worker === 'undefined' ? await import('node:worker_threads') : undefined;
        if (this.#closed) throw this.#closed;
        const worker = threads ? new threads.Worker(new URL('avcdec-worker.mjs', import.meta.url)) : new Worker(new URL('avcdec-worker.mjs', import.meta.url), { type: 'module' });
        this.#worker = worker;
        const fail = message => this.#end(new DecoderError(`the worker failed: ${message}`));
        // a worker that is ended while it loads can take the process with it, so one that is closed sooner ends with its first answer
        const told = message => this.#closed ? this.#left(worker, message) : this.#told(message);
        if (worker.on) worker.on('message', told).on('error', it => fail(it.message));
        else worker.onmessage = event => told(event.data), worker.onerror = event => fail(event.message);
        return this.#put('open', { module, ...words });
    }

    #told({ id, told, error }) {
        const { done, failed } = this.#waiting.get(id);
        this.#waiting.delete(id);
        if (error) failed(error.name === 'OutOfMemory' ? new OutOfMemory() : decoderError(error));
        else {
            if (told.memory) this.memory = told.memory, this.turns = told.turns;
            if (told.version) this.version = told.version;
            told.events = told.events?.map(it => it.kind !== 'picture' ? it : it.videoFrame ? new FramedPicture(it) : new OwnPicture(it, this));
            done(told);
        }
    }

    #left(worker, { told }) {
        worker.terminate();
        for (const { videoFrame } of told?.events ?? []) videoFrame?.close();
    }

    #ask(call, words, transfer) {
        return this.#closed ? Promise.reject(this.#closed) : this.#put(call, words, transfer);
    }

    #put(call, words, transfer = []) {
        return new Promise((done, failed) => {
            const id = this.#calls++, buffers = this.#buffers.splice(0);
            this.#waiting.set(id, { done, failed });
            this.#worker.postMessage({ id, call, words, buffers }, [...transfer, ...buffers]);
        });
    }

    /** Version of the library, bytes of the module's memory and macroblocks read, as the worker told them last. */
    version;
    memory = 0;
    turns = 0;

    /** Once the worker and its module are there. */
    get ready() {
        return this.#ready.then(() => {});
    }

    /** Gives bytes (Annex B) and answers the events that they bring; with `endsUnit` they end with a whole access unit, and with `value` their units
     * are marked. All pictures of a call are answered together: give an access unit or 65,536 bytes at a time. With `transfer` the buffer of the
     * bytes goes to the worker. `colorSpace`: that of VideoFrames (`frames`) from here on, in place of what the stream tells. */
    async decode(bytes, { endsUnit = false, value, transfer = false, colorSpace } = {}) {
        await this.#ready;
        return (await this.#ask('decode', { bytes, endsUnit, value, colorSpace }, transfer ? [bytes.buffer] : [])).events;
    }

    /** Ends the stream; answers what was held. */
    async flush() {
        await this.#ready;
        return (await this.#ask('flush')).events;
    }

    async reset() {
        await this.#ready;
        await this.#ask('reset');
    }

    /** Takes the samples of a picture that is done with, for later pictures. */
    giveBack(picture) {
        if (picture.samples.length > 0 && this.#buffers.length < SPARE_BUFFERS) this.#buffers.push(picture.samples.buffer);
        picture.samples = new Uint8Array(0);
    }

    #end(why) {
        this.#closed ??= why;
        if (this.version) this.#worker.terminate();
        for (const { failed } of this.#waiting.values()) failed(why);
        this.#waiting.clear();
    }

    /** Ends the worker; its memory is free. Calls that were not answered fail. */
    close() {
        this.#end(new DecoderError('the decoder is closed', 3));
    }
}
