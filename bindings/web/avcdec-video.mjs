// avcdec-video.mjs: AvcVideoDecoder, the proved decoder in the shape of WebCodecs' VideoDecoder, so that a page changes one word:
//
//     const decoder = new AvcVideoDecoder({ output: frame => { draw(frame); frame.close(); }, error: console.error });
//     decoder.configure({ codec: 'avc1.42E01E', description });   // description: avcC, where chunks are as MP4 has them; none: Annex B
//     decoder.decode(new EncodedVideoChunk({ type: 'key', timestamp: 0, data }));
//     await decoder.flush();
//
// It decodes in a worker, or in this thread where there is none or `library` is given; with `workers: N` in as many, sequence by sequence.
import { Decoder, load } from './avcdec.mjs';
import { Avcc, byteStream, colorSpaceOf, joined, ParameterSets } from './avcdec-annexb.mjs';
import { WorkerDecoder } from './avcdec-client.mjs';
import { Sequences } from './avcdec-sequences.mjs';

const soon = typeof setImmediate === 'function' ? setImmediate : taskBy(new MessageChannel());

function taskBy({ port1, port2 }) {
    const tasks = [];
    port1.onmessage = () => tasks.shift()();
    return task => { tasks.push(task); port2.postMessage(0); };
}

/** What decodes here. */
class Here {
    #decoder;
    #take;
    #sets = 0; // so many units were given first, whose refusals were told when they came first

    constructor(decoder, { take }) {
        this.#decoder = decoder;
        this.#take = take;
    }

    async decode(bytes, words, begins) {
        if (begins) this.#sets = begins.sets;
        for (const event of this.#decoder.decode(bytes, words)) if (event.unit >= this.#sets) this.#take(event);
    }

    async flush() {
        this.#decoder.flush();
        for (const event of this.#decoder.events()) this.#take(event);
        this.#decoder.reset();
    }

    close() {
        this.#decoder.close();
    }
}

// as many marks as the library keeps
const MOST_WAITING = 1024;

/** The chunks whose pictures may come, by the values that the library gives back with them. */
class Waiting {
    #chunks = new Map();
    #last = 0n;

    /** A chunk that is decoded now: what its units are marked with. */
    begin(chunk) {
        this.#chunks.set(++this.#last, chunk);
        if (this.#chunks.size > MOST_WAITING) this.#chunks.delete(this.#chunks.keys().next().value);
        return this.#last;
    }

    /** The chunk of an event. */
    of({ value }) {
        return this.#chunks.get(value);
    }

    /** A picture is out. Once it is an IDR picture, those before it let no more go. */
    shown({ value, info }) {
        if (info.isIdr) for (const other of this.#chunks.keys()) if (other < value) this.#chunks.delete(other);
    }
}

function fault(name, message, more) {
    return Object.assign(new DOMException(`avcdec: ${message}`, name), more);
}

/** Profile and constraint flags of a codec string (RFC 6381); undefined where it is not AVC. */
function codecOf({ codec } = {}) {
    if (typeof codec !== 'string' || codec.trim() === '') throw new TypeError('avcdec: a codec is wanted');
    const found = /^avc[13]\.([0-9a-f]{2})([0-9a-f]{2})[0-9a-f]{2}$/i.exec(codec);
    return found && { profile: parseInt(found[1], 16), flags: parseInt(found[2], 16) };
}

/** Baseline, and Main and Extended that say that they keep to Constrained Baseline: constraint_set0 and constraint_set1. */
function isTaken(config) {
    const codec = codecOf(config);
    return Boolean(codec) && (codec.profile === 66 || ([77, 88].includes(codec.profile) && (codec.flags & 0xc0) === 0xc0));
}

export class AvcVideoDecoder extends EventTarget {
    #output;
    #error;
    #refused;
    #isSeveral;
    #engineOf;
    #engine;
    #isEarly;
    #state = 'unconfigured';
    #queue = [];
    #runs = false;
    #waitsForKey = true;
    #round = 0; // counts resets and the close: what was begun before is void
    #config;
    #sets;
    #waiting;
    #isFresh;

    /** `output` and `error` as WebCodecs has them. With `refused`, a refusal goes there, with its chunk's timestamp, and decoding goes on at the
     * next key picture; without, it is an error and closes the decoder, as WebCodecs has it. `library`: decodes in this thread, in this
     * library. `module`: where avcdec.wasm is. `worker: false`: decodes in this thread. `workers`: in how many workers coded video sequences, each
     * from an IDR picture to the next, are decoded side by side; up to 256 MiB of their pictures wait for those before them. */
    constructor({ output, error, refused, library, module, workers = 1, worker = library === undefined && typeof Worker !== 'undefined' }) {
        super();
        if (typeof output !== 'function' || typeof error !== 'function') throw new TypeError('avcdec: output and error are wanted');
        if (!(workers >= 1)) throw new RangeError('avcdec: at least one worker is wanted');
        this.#output = output;
        this.#error = error;
        this.#refused = refused;
        this.#isSeveral = worker && workers > 1;
        this.#engineOf = async (early, told) => worker ? new Sequences({ make: () => new WorkerDecoder({ early, module, frames: true }), most: workers, ...told })
            : new Here(new Decoder(await (library ?? (library = load(module))), { early }), told);
    }

    static async isConfigSupported(config) {
        return { supported: isTaken(config), config: { ...config } };
    }

    ondequeue = null;

    get state() {
        return this.#state;
    }

    get decodeQueueSize() {
        return this.#queue.filter(it => it.chunk).length;
    }

    configure(config) {
        this.#wants('configured', 'unconfigured');
        const isSupported = isTaken(config), { description, optimizeForLatency = false, colorSpace, displayAspectWidth, displayAspectHeight } = config;
        const avcc = description === undefined ? undefined : new Avcc(description);
        this.#state = 'configured';
        this.#waitsForKey = true;
        this.#put({ run: () => this.#begin(isSupported, { avcc, early: optimizeForLatency, colorSpace, displayAspectWidth, displayAspectHeight }) });
    }

    decode(chunk) {
        this.#wants('configured');
        if (this.#waitsForKey && chunk.type !== 'key') throw fault('DataError', 'a key chunk is wanted after configure and flush');
        this.#waitsForKey = false;
        const bytes = new Uint8Array(chunk.byteLength), { timestamp, duration } = chunk;
        chunk.copyTo(bytes);
        this.#put({ chunk, run: () => this.#decode(bytes, { timestamp, duration: duration ?? undefined }) });
    }

    async flush() {
        this.#wants('configured');
        this.#waitsForKey = true;
        return new Promise((done, failed) => this.#put({ failed, run: async () => { await this.#flush(); done(); } }));
    }

    reset() {
        this.#wants('configured', 'unconfigured');
        this.#abort(fault('AbortError', 'reset'));
        this.#state = 'unconfigured';
    }

    close() {
        this.#wants('configured', 'unconfigured');
        this.#close(fault('AbortError', 'closed'));
    }

    #wants(...states) {
        if (!states.includes(this.#state)) throw fault('InvalidStateError', `the decoder is ${this.#state}`);
    }

    /** Drops what waits. */
    #abort(why) {
        this.#round++;
        this.#engine?.close();
        this.#engine = undefined;
        const dropped = this.#queue.splice(0);
        this.#running?.failed?.(why);
        for (const { failed } of dropped) failed?.(why);
        if (dropped.some(it => it.chunk)) this.#dequeued();
    }

    #close(why) {
        if (this.#state === 'closed') return;
        this.#state = 'closed';
        this.#abort(why);
    }

    #dequeued() {
        const event = new Event('dequeue');
        this.ondequeue?.(event);
        this.dispatchEvent(event);
    }

    #running;

    #put(message) {
        this.#queue.push(message);
        if (!this.#runs) {
            this.#runs = true;
            soon(() => this.#run());
        }
    }

    /** Carries out what waits, one a task. */
    async #run() {
        const message = this.#running = this.#queue.shift(), round = this.#round;
        try {
            if (message?.chunk) this.#dequeued();
            if (round === this.#round) await message?.run();
        } catch (thrown) {
            if (round === this.#round) this.#fail(thrown, message);
        }
        this.#running = undefined;
        if (this.#queue.length > 0) soon(() => this.#run());
        else this.#runs = false;
    }

    #fail(thrown, message) {
        const why = thrown instanceof DOMException ? thrown : fault('EncodingError', thrown.message.replace(/^avcdec: /, ''), { cause: thrown, status: thrown.status });
        message?.failed?.(why);
        this.#close(why);
        this.#error(why);
    }

    async #begin(isSupported, config) {
        if (!isSupported) throw fault('NotSupportedError', 'this profile is not decoded: Constrained Baseline is');
        const round = this.#round;
        await this.#engine?.flush();
        // one that is as it is wanted goes on, with its worker
        if (!this.#engine || this.#isEarly !== config.early) {
            this.#engine?.close();
            this.#engine = undefined;
            const engine = await this.#engineOf(config.early, {
                take: event => round === this.#round ? this.#take(event) : event.close?.(),
                failed: thrown => round === this.#round && this.#fail(thrown),
            });
            if (round !== this.#round) return engine.close();
            this.#engine = engine;
            this.#isEarly = config.early;
        }
        this.#config = config;
        this.#sets = new ParameterSets();
        for (const unit of config.avcc?.sets ?? []) this.#sets.put(unit);
        this.#restart();
    }

    #restart() {
        this.#waiting = new Waiting();
        this.#isFresh = true;
    }

    async #decode(sample, chunk) {
        const bytes = this.#config.avcc ? this.#config.avcc.annexB(sample) : sample;
        // a stream or sequence that begins anew has no parameter sets: it is given those that came last
        const before = this.#sets.units, { idr } = this.#sets.note(bytes);
        const isNew = this.#isFresh || (this.#isSeveral && idr && !this.#sets.dropsPictures(bytes));
        this.#isFresh = false;
        const begins = isNew ? { sets: before.length } : undefined;
        const words = { endsUnit: true, value: this.#waiting.begin(chunk), colorSpace: this.#config.colorSpace };
        await this.#engine.decode(isNew ? joined(byteStream(before), bytes) : bytes, words, begins);
    }

    async #flush() {
        await this.#engine.flush();
        this.#restart();
    }

    #take(event) {
        if (event.kind === 'refused') return this.#refuse(event);
        const { timestamp, duration } = this.#waiting.of(event);
        this.#waiting.shown(event);
        this.#output(event.frame({ timestamp, duration, ...this.#shape(event) }));
    }

    #refuse(event) {
        const { unit, fault: number, name } = event, timestamp = this.#waiting.of(event).timestamp;
        const why = fault('EncodingError', `unit ${unit} refused: ${number} ${name}`, { unit, fault: number, faultName: name, timestamp });
        if (this.#refused) return this.#refused(why);
        throw why;
    }

    /** Colour space and displayed size. */
    #shape({ width, height, info }) {
        const { colorSpace, displayAspectWidth: across, displayAspectHeight: down } = this.#config, shape = { colorSpace: colorSpace ?? colorSpaceOf(info) };
        if (across && down) {
            const wide = Math.round(height * across / down);
            Object.assign(shape, wide >= width ? { displayWidth: wide, displayHeight: height } : { displayWidth: width, displayHeight: Math.round(width * down / across) });
        }
        return shape;
    }
}
