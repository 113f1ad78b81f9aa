// avcdec.mjs: the proved decoder for H.264 (Constrained Baseline profile), for pages, workers and Node.
//
//     const decoder = new Decoder(await load());
//     const take = event => event.kind === 'picture' ? draw(event.planes, event.width, event.height)
//         : console.log(`unit ${event.unit} refused: ${event.fault} ${event.name}`);
//     for (const event of decoder.decode(bytes)) take(event);
//     decoder.flush();
//     for (const event of decoder.events()) take(event);
//
// The contract is that of include/avcdec.h. One call at a time: the memory of a module belongs to one thread, a page's or a worker's.

const OK = 0, OUT_OF_MEMORY = 1, ENDED = 2, NO_VALUE = 9;
const NOTHING = 0, PICTURE = 1;
const EVENT_SIZE = 48, DECODER_SIZE = 16, ROWS_SIZE = 32, INFO_SIZE = 64, USED_SIZE = 8, VALUE_SIZE = 8, NAME_SIZE = 32, PIECE = 65536;
const SHORT_ROW = 1024; // samples
const END_OF_ACCESS_UNIT = Uint8Array.of(0, 0, 1, 9, 0xf0, 0, 0, 1);

/** A call that did not do its work. `status` is a number of avcdec_status. */
export class DecoderError extends Error {
    constructor(message, status) {
        super(`avcdec: ${message}`);
        this.name = new.target.name;
        this.status = status;
    }
}

/** No memory was found. The decoder that says so works again after `reset`. */
export class OutOfMemory extends DecoderError {
    constructor() {
        super('no memory; reset or close', OUT_OF_MEMORY);
    }
}

function check(status) {
    if (status === OUT_OF_MEMORY) throw new OutOfMemory();
    if (status === ENDED) throw new DecoderError('the stream has ended; reset', ENDED);
    if (status !== OK) throw new DecoderError(`status ${status}`, status);
}

/** A module that runs, and how its addresses are passed: as BigInt where its memory has addresses of 64 bits. */
export class Library {
    #wide;
    #scratch;
    #names = new Map();

    /** @param {WebAssembly.Instance} instance of avcdec.wasm */
    constructor(instance) {
        this.calls = instance.exports;
        const probe = this.calls.avcdec_allocate(16n);
        this.#wide = typeof probe === 'bigint';
        this.calls.avcdec_release(probe);
        this.#scratch = this.allocate(NAME_SIZE);
    }

    /** A number as the module's calls take an address. */
    address(number) {
        return this.#wide ? BigInt(number) : number;
    }

    /** An address as it stands in the module's memory: 8 bytes, of which a memory with addresses of 32 bits uses the lower 4. */
    addressAt(view, at) {
        return this.#wide ? Number(view.getBigUint64(at, true)) : view.getUint32(at, true);
    }

    /** The address of so many bytes of the module's memory; 0 where there are none. */
    find(size) {
        const at = Number(this.calls.avcdec_allocate(BigInt(size)));
        return this.#wide ? at : at >>> 0;
    }

    allocate(size) {
        const at = this.find(size);
        if (at === 0) throw new OutOfMemory();
        return at;
    }

    release(at) {
        if (at !== 0) this.calls.avcdec_release(this.address(at));
    }

    /** The bytes there, until memory grows: ask anew after each call. */
    bytes(at, size) {
        return new Uint8Array(this.calls.memory.buffer, at, size);
    }

    view(at, size) {
        return new DataView(this.calls.memory.buffer, at, size);
    }

    /** Whether the library gives one unit at a time, and lends the rows of planes. */
    get feedsUnits() {
        return 'avcdec_feed_unit' in this.calls;
    }

    get lendsPlanes() {
        return 'avcdec_lend_plane' in this.calls;
    }

    /** How many bytes the module's memory has. It grows, and is not given back. */
    get memory() {
        return this.calls.memory.buffer.byteLength;
    }

    get version() {
        const number = this.calls.avcdec_version();
        return `${number >>> 16}.${(number >>> 8) & 255}.${number & 255}`;
    }

    /** The name of a fault by its number; undefined where no fault has it. */
    faultName(fault) {
        if (!this.#names.has(fault)) {
            const status = this.calls.avcdec_fault_name(fault, this.address(this.#scratch), BigInt(NAME_SIZE));
            const bytes = this.bytes(this.#scratch, NAME_SIZE);
            this.#names.set(fault, status === OK ? String.fromCharCode(...bytes.subarray(0, bytes.indexOf(0))) : undefined);
        }
        return this.#names.get(fault);
    }
}

/** Loads the module: from a URL (avcdec.wasm beside this file unless named), a Response, its bytes or a WebAssembly.Module. Each library has a
 * memory of its own; decoders of one library share it. */
export async function load(from) {
    return new Library(await WebAssembly.instantiate(await compile(from), {}));
}

/** The module, compiled: from what `load` takes. A WebAssembly.Module is what several libraries are loaded from, here or in workers. */
export async function compile(from = new URL('avcdec.wasm', import.meta.url)) {
    from = await from;
    if (from instanceof WebAssembly.Module) return from;
    if (typeof from === 'string') from = new URL(from, globalThis.location?.href ?? import.meta.url);
    if (from instanceof URL) from = from.protocol === 'file:' ? await (await import('node:fs/promises')).readFile(from) : await fetch(from);
    if (typeof Response === 'undefined' || !(from instanceof Response)) return WebAssembly.compile(from);
    if (!from.ok) throw new DecoderError(`the module was not found: ${from.status} ${from.url}`);
    // a server that gives the module another type than application/wasm does as well
    if (from.headers.get('Content-Type') !== 'application/wasm') return WebAssembly.compile(await from.arrayBuffer());
    return WebAssembly.compileStreaming(from);
}

/** What a decoder holds in the module's memory. It knows nothing of its Decoder, so that one that is forgotten can be collected. */
class Handle {
    /** Counts what ends the time of a picture: another take, a reset, the close. */
    taken = 0;
    /** Counts resets. */
    begun = 0;

    constructor(library, early) {
        this.library = library;
        this.blocks = [];
        try {
            for (const size of [DECODER_SIZE, EVENT_SIZE, PIECE, ROWS_SIZE, INFO_SIZE]) this.blocks.push(library.allocate(size));
            [this.decoder, this.event, this.piece, this.rows, this.info] = this.blocks;
            library.bytes(this.decoder, DECODER_SIZE).fill(0);
            check(library.calls.avcdec_open(this.self, early ? 1 : 0));
        } catch (thrown) {
            this.release();
            throw thrown;
        }
        this.isOpen = true;
    }

    get self() {
        return this.library.address(this.decoder);
    }

    /** Gives the first `length` bytes of the piece from `from` on; answers how many were taken. */
    feed(from, length) {
        const { library, piece, rows } = this, at = library.address(piece + from), size = BigInt(length);
        if (!library.feedsUnits) {
            check(library.calls.avcdec_feed(this.self, at, size));
            return length;
        }
        check(library.calls.avcdec_feed_unit(this.self, at, size, library.address(rows)));
        return Number(library.view(rows, USED_SIZE).getBigUint64(0, true));
    }

    /** What is known of the picture that was taken last, beside its samples; its fields have the standard's names in JavaScript's letters. */
    pictureInfo() {
        check(this.library.calls.avcdec_picture_info(this.self, this.library.address(this.info)));
        const view = this.library.view(this.info, INFO_SIZE), word = at => view.getUint32(at, true);
        return {
            picOrderCnt: view.getInt32(8, true), isIdr: word(12) !== 0, frameNum: word(16), sarWidth: word(20), sarHeight: word(24),
            videoFullRange: word(28) !== 0, colourPrimaries: word(32), transferCharacteristics: word(36), matrixCoefficients: word(40),
            chromaSampleLocType: word(44), numUnitsInTick: word(48), timeScale: word(52), maxNumReorderFrames: word(56) ? word(60) : undefined,
        };
    }

    release() {
        for (const block of this.blocks.splice(0)) this.library.release(block);
        if (this.copy) this.library.release(this.copy.at);
        this.copy = undefined;
    }

    close() {
        if (!this.isOpen) return;
        this.isOpen = false;
        this.taken++;
        this.library.calls.avcdec_close(this.self);
        this.release();
    }

    /** Where the shown samples of a picture's plane are, and how far its rows are apart. */
    place(number, picture) {
        const columns = number ? picture.width / 2 : picture.width, rows = number ? picture.height / 2 : picture.height;
        if (!this.library.lendsPlanes) {
            const luma = picture.width * picture.height, at = this.copied(picture);
            if (at === 0) throw new OutOfMemory();
            return { at: at + (number && luma + (number - 1) * columns * rows), stride: columns, columns, rows };
        }
        check(this.library.calls.avcdec_lend_plane(this.self, number, this.library.address(this.rows)));
        const view = this.library.view(this.rows, ROWS_SIZE);
        return { at: this.library.addressAt(view, 0), stride: Number(view.getBigUint64(16, true)), columns, rows };
    }

    /** The address of the picture as I420 without gaps; 0 where the module finds no memory for it. */
    copied(picture) {
        if (this.copyOf !== this.taken) {
            if (!this.copy || this.copy.size < picture.size) {
                if (this.copy) this.library.release(this.copy.at);
                this.copy = undefined;
                const at = this.library.find(picture.size);
                if (at === 0) return 0;
                this.copy = { at, size: picture.size };
            }
            check(this.library.calls.avcdec_copy_i420(this.self, this.library.address(this.copy.at), BigInt(picture.size)));
            this.copyOf = this.taken;
        }
        return this.copy.at;
    }
}

const forgotten = new FinalizationRegistry(handle => handle.close());

/** A refusal of a picture, or of a unit (NAL units are counted from 0 since the decoder was made or reset). */
export class Refusal {
    kind = 'refused';

    constructor(unit, fault, name, value = 0n) {
        this.unit = unit;
        this.fault = fault;
        this.name = name;
        this.value = value;
    }
}

/** A VideoFrame that takes over samples as I420 without gaps. */
export function frameOf(samples, { width, height }, init) {
    return new VideoFrame(samples, { ...init, format: 'I420', codedWidth: width, codedHeight: height, transfer: [samples.buffer] });
}

/** A picture, in output order. Its samples are there until the next event is taken, or the decoder is reset or closed; copies stay. */
export class Picture {
    #decoder; // so that it isn't collected before its picture
    #handle;
    #taken;
    kind = 'picture';

    constructor(decoder, handle, word, { unit, value }) {
        this.#decoder = decoder;
        this.#handle = handle;
        this.#taken = handle.taken;
        this.unit = unit;
        this.value = value;
        this.info = handle.pictureInfo();
        this.codedWidth = word(16);
        this.codedHeight = word(20);
        this.crop = { left: word(24), right: word(28), top: word(32), bottom: word(36) };
        this.width = this.codedWidth - this.crop.left - this.crop.right;
        this.height = this.codedHeight - this.crop.top - this.crop.bottom;
        this.size = this.width * this.height * 3 / 2;
    }

    #check() {
        if (this.#taken !== this.#handle.taken) throw new DecoderError('this picture is over: another event was taken');
    }

    #places() {
        this.#check();
        return [0, 1, 2].map(number => this.#handle.place(number, this));
    }

    /** Luma, Cb, Cr: what is shown, as views of the module's memory, to be read and not written. A further call of any decoder of the library may
     * end them; ask anew then. */
    get planes() {
        return this.#places().map(({ at, stride, columns, rows }) =>
            ({ samples: this.#handle.library.bytes(at, stride * (rows - 1) + columns), stride, columns, rows }));
    }

    /** Copies what is shown as I420 without gaps: luma, Cb, Cr, each row by row. */
    copy(to = new Uint8Array(this.size)) {
        if (to.length < this.size) throw new RangeError(`avcdec: ${this.size} bytes are wanted`);
        this.#check();
        // the module joins short rows sooner than a call for each does
        const at = this.width < SHORT_ROW ? this.#handle.copied(this) : 0;
        if (at !== 0) to.set(this.#handle.library.bytes(at, this.size));
        else this.#copyRows(to);
        return to;
    }

    #copyRows(to) {
        let put = 0;
        for (const { samples, stride, columns, rows } of this.planes) {
            if (stride === columns) to.set(samples, put);
            else for (let y = 0; y < rows; y++) to.set(samples.subarray(y * stride, y * stride + columns), put + y * columns);
            put += columns * rows;
        }
    }

    /** A VideoFrame of its own, copied once, from where the rows lie. `init`: timestamp, in microseconds, and what else a VideoFrame of samples takes. */
    frame(init) {
        const places = this.#places(), { library } = this.#handle, { width: codedWidth, height: codedHeight } = this;
        // it wants the last row whole too, up to where the next would begin: there the module's memory goes on, or else samples are copied together first
        const from = Math.min(...places.map(it => it.at)), to = Math.max(...places.map(({ at, stride, rows }) => at + stride * rows));
        if (to > library.memory) return frameOf(this.copy(), this, init);
        const layout = places.map(({ at, stride }) => ({ offset: at - from, stride }));
        return new VideoFrame(library.bytes(from, to - from), { ...init, format: 'I420', codedWidth, codedHeight, layout });
    }
}

/** A decoder. Bytes are Annex B, cut anywhere. */
export class Decoder {
    #library;
    #handle;
    #feeding;

    /** With `early`, pictures go out as soon as the stream's max_num_reorder_frames allows: for calls. */
    constructor(library, { early = false } = {}) {
        this.#library = library;
        this.#handle = new Handle(library, early);
        forgotten.register(this, this.#handle, this.#handle);
    }

    get #open() {
        if (!this.#handle.isOpen) throw new DecoderError('the decoder is closed', 3);
        return this.#handle;
    }

    /** Gives bytes and yields the events that they bring, one unit at a time, so that few pictures wait. With `endsUnit` the bytes end with a
     * whole access unit, as a packet or a container's sample does: its picture is decoded now (this counts one more unit). With `value` the units
     * that begin in them are marked. Take all events: bytes that were not come to are not given. */
    *decode(bytes, { endsUnit = false, value } = {}) {
        const handle = this.#open, { library } = handle, mine = {}, begun = handle.begun;
        const isOver = () => !handle.isOpen || handle.begun !== begun;
        if (this.#feeding) throw new DecoderError('an earlier decode is not at its end');
        this.#feeding = mine;
        try {
            if (value !== undefined) this.mark(value);
            for (const given of endsUnit ? [bytes, END_OF_ACCESS_UNIT] : [bytes])
                for (let from = 0; from < given.length; from += PIECE) {
                    const piece = given.subarray(from, from + PIECE);
                    library.bytes(handle.piece, piece.length).set(piece);
                    for (let at = 0; at < piece.length;) {
                        at += handle.feed(at, piece.length - at);
                        yield* this.events();
                        if (isOver()) return;
                    }
                }
        } finally {
            if (this.#feeding === mine) this.#feeding = undefined;
        }
    }

    /** Gives a value, from 0n to 2n ** 64n - 1n, to the units that begin with the bytes given from here on, up to the next mark. Each event has
     * that of its unit, in whichever order pictures come: see avcdec_mark in include/avcdec.h. */
    mark(value) {
        if (BigInt.asUintN(64, value) !== value) throw new RangeError('avcdec: a value from 0n to 2n ** 64n - 1n is wanted');
        check(this.#library.calls.avcdec_mark(this.#open.self, value));
    }

    /** The oldest value that no event has had and none will have: see avcdec_take_dropped in include/avcdec.h. It goes; undefined where there
     * is none. */
    takeDropped() {
        const { library, self, rows } = this.#open;
        const status = library.calls.avcdec_take_dropped(self, library.address(rows));
        if (status === NO_VALUE) return undefined;
        check(status);
        return library.view(rows, VALUE_SIZE).getBigUint64(0, true);
    }

    /** Gives bytes, all at once. Their pictures wait, each in memory of its own, until they are taken: give at most 65,536 bytes or one access
     * unit, and take all events after each. */
    feed(bytes, { endsUnit = false } = {}) {
        const handle = this.#open, { library } = handle;
        if (this.#feeding) throw new DecoderError('an earlier decode is not at its end');
        for (const given of endsUnit ? [bytes, END_OF_ACCESS_UNIT] : [bytes])
            for (let from = 0; from < given.length; from += PIECE) {
                const piece = given.subarray(from, from + PIECE);
                library.bytes(handle.piece, piece.length).set(piece);
                check(library.calls.avcdec_feed(handle.self, library.address(handle.piece), BigInt(piece.length)));
            }
    }

    /** Ends the stream: all pictures that are held can be taken. */
    flush() {
        const { self } = this.#open;
        if (this.#feeding) throw new DecoderError('an earlier decode is not at its end');
        check(this.#library.calls.avcdec_flush(self));
    }

    /** Begins a new stream, and forgets the old one: its parameter sets, its events, want of memory. */
    reset() {
        const handle = this.#open;
        handle.taken++;
        handle.begun++;
        this.#feeding = undefined;
        check(this.#library.calls.avcdec_reset(handle.self));
    }

    /** The events that have come, one by one. */
    *events() {
        while (this.#handle.isOpen) {
            const event = this.take();
            if (event === undefined) return;
            yield event;
        }
    }

    /** The next event that has come, or undefined. */
    take() {
        const handle = this.#open, library = this.#library;
        handle.taken++;
        check(library.calls.avcdec_take(handle.self, library.address(handle.event)));
        const view = library.view(handle.event, EVENT_SIZE), word = at => view.getUint32(at, true);
        if (word(0) === NOTHING) return undefined;
        const unit = Number(view.getBigUint64(8, true)), value = view.getBigUint64(40, true);
        if (word(0) === PICTURE) return new Picture(this, handle, word, { unit, value });
        return new Refusal(unit, word(4), library.faultName(word(4)), value);
    }

    /** How many macroblocks were read since the last reset: a measure of the work done. */
    get turns() {
        return Number(this.#library.calls.avcdec_turns(this.#open.self));
    }

    /** How many bytes the module's memory has, with that of other decoders of the library. */
    get memory() {
        return this.#library.memory;
    }

    /** Gives its memory back to the module. A decoder that is forgotten is closed when it is collected, at some time. */
    close() {
        forgotten.unregister(this.#handle);
        this.#feeding = undefined;
        this.#handle.close();
    }
}
if (Symbol.dispose) Decoder.prototype[Symbol.dispose] = Decoder.prototype.close;
