// The types of avcdec.mjs. The contract is that of include/avcdec.h.

/** A call that did not do its work. */
export class DecoderError extends Error {
    constructor(message: string, status?: number);
    /** A number of avcdec_status; undefined where the wrapper itself refused. */
    readonly status: number | undefined;
}

/** No memory was found. The decoder works again after `reset`. */
export class OutOfMemory extends DecoderError {
    constructor();
}

/** A module that runs, with a memory of its own. */
export class Library {
    constructor(instance: WebAssembly.Instance);
    readonly version: string;
    /** Bytes of the module's memory. It grows, and is not given back. */
    readonly memory: number;
    /** Whether the library gives one unit at a time, and lends the rows of planes. */
    readonly feedsUnits: boolean;
    readonly lendsPlanes: boolean;
    /** The name of a fault by its number. */
    faultName(fault: number): string | undefined;
}

export type Source = URL | string | Response | BufferSource | WebAssembly.Module;

/** Loads the module: avcdec.wasm beside avcdec.mjs unless named. */
export function load(from?: Source | Promise<Source>): Promise<Library>;

/** The module, compiled: from what `load` takes. Several libraries can be loaded from it, here or in workers. */
export function compile(from?: Source | Promise<Source>): Promise<WebAssembly.Module>;

/** What is shown of a plane: row y are the `columns` bytes from y * stride on. */
export interface Plane {
    readonly samples: Uint8Array;
    readonly stride: number;
    readonly columns: number;
    readonly rows: number;
}

/** Luma samples not shown, from each side. */
export interface Crop {
    readonly left: number;
    readonly right: number;
    readonly top: number;
    readonly bottom: number;
}

export interface FrameInit {
    /** In microseconds. */
    timestamp: number;
    duration?: number;
    colorSpace?: VideoColorSpaceInit;
    displayWidth?: number;
    displayHeight?: number;
}

/** What is known of a picture beside its samples: those of avcdec_info in include/avcdec.h. */
export interface PictureInfo {
    readonly picOrderCnt: number;
    readonly isIdr: boolean;
    readonly frameNum: number;
    readonly sarWidth: number;
    readonly sarHeight: number;
    readonly videoFullRange: boolean;
    readonly colourPrimaries: number;
    readonly transferCharacteristics: number;
    readonly matrixCoefficients: number;
    readonly chromaSampleLocType: number;
    readonly numUnitsInTick: number;
    readonly timeScale: number;
    readonly maxNumReorderFrames: number | undefined;
}

/** A picture, in output order. Its samples are there until the next event is taken, or the decoder is reset or closed; copies stay. */
export class Picture {
    private constructor();
    readonly kind: 'picture';
    /** What is shown, in luma samples; both even. */
    readonly width: number;
    readonly height: number;
    readonly codedWidth: number;
    readonly codedHeight: number;
    readonly crop: Crop;
    /** The NAL unit of its first slice, counted from 0 since the decoder was made or reset. */
    readonly unit: number;
    /** The value that a mark gave to that unit; 0n where none was made before it. */
    readonly value: bigint;
    readonly info: PictureInfo;
    /** Bytes of the picture as I420. */
    readonly size: number;
    /** Luma, Cb, Cr as views of the module's memory, to be read and not written; any further call may end them. */
    readonly planes: [Plane, Plane, Plane];
    /** I420 without gaps. */
    copy(to?: Uint8Array): Uint8Array;
    frame(init: FrameInit): VideoFrame;
}

/** A refusal of a picture, or of a unit. */
export class Refusal {
    constructor(unit: number, fault: number, name: string | undefined, value?: bigint);
    readonly kind: 'refused';
    /** NAL units are counted from 0 since the decoder was made or reset. */
    readonly unit: number;
    readonly fault: number;
    readonly name: string | undefined;
    /** The value that a mark gave to the unit; 0n where none was made before it. */
    readonly value: bigint;
}

export type DecodedEvent = Picture | Refusal;

export interface FeedOptions {
    /** The bytes end with a whole access unit: its picture is decoded now. It counts one unit more. */
    endsUnit?: boolean;
}

export interface DecoderOptions {
    /** Pictures go out as soon as the stream's max_num_reorder_frames allows: for calls. */
    early?: boolean;
}

export interface DecodeOptions extends FeedOptions {
    /** What the units that begin in the bytes are marked with. */
    value?: bigint;
}

/** A decoder. Bytes are Annex B, cut anywhere. Each call throws OutOfMemory where no memory is found, and DecoderError otherwise. */
export class Decoder {
    constructor(library: Library, options?: DecoderOptions);
    /** Gives bytes, one unit at a time, and yields what they bring. */
    decode(bytes: Uint8Array, options?: DecodeOptions): Generator<DecodedEvent, void, undefined>;
    /** Gives a value to the units that begin with the bytes given from here on; each event has that of its unit. */
    mark(value: bigint): void;
    /** The oldest value that no event has had and none will have; it goes. */
    takeDropped(): bigint | undefined;
    /** Gives bytes at once; events wait until they are taken. */
    feed(bytes: Uint8Array, options?: FeedOptions): void;
    /** Ends the stream: all pictures that are held can be taken. */
    flush(): void;
    /** Begins a new stream, and forgets the old one. */
    reset(): void;
    /** The next event that has come. */
    take(): DecodedEvent | undefined;
    events(): Generator<DecodedEvent, void, undefined>;
    /** Macroblocks read since the last reset. */
    readonly turns: number;
    /** Bytes of the module's memory. */
    readonly memory: number;
    close(): void;
}
