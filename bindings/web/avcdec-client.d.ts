// The types of avcdec-client.mjs.
import type { Crop, DecodeOptions, DecoderOptions, FrameInit, PictureInfo, Plane, Refusal } from './avcdec.mjs';

/** A picture with samples of its own, as I420 without gaps. */
export class OwnPicture {
    private constructor();
    readonly kind: 'picture';
    readonly width: number;
    readonly height: number;
    readonly codedWidth: number;
    readonly codedHeight: number;
    readonly crop: Crop;
    readonly unit: number;
    readonly value: bigint;
    readonly info: PictureInfo;
    readonly size: number;
    samples: Uint8Array;
    readonly planes: [Plane, Plane, Plane];
    copy(to?: Uint8Array): Uint8Array;
    /** Takes the samples over. */
    frame(init: FrameInit): VideoFrame;
    /** Gives the samples back to the decoder for later pictures. */
    giveBack(): void;
}

/** A picture as a VideoFrame that the worker made. */
export class FramedPicture {
    private constructor();
    readonly kind: 'picture';
    readonly width: number;
    readonly height: number;
    readonly codedWidth: number;
    readonly codedHeight: number;
    readonly crop: Crop;
    readonly unit: number;
    readonly value: bigint;
    readonly info: PictureInfo;
    readonly size: number;
    /** The VideoFrame, with this timestamp and displayed size; the picture has none afterwards. */
    frame(init: FrameInit): VideoFrame;
    /** Lets go of the samples. */
    close(): void;
}

export type RefusedEvent = Pick<Refusal, 'kind' | 'unit' | 'fault' | 'name' | 'value'>;
export type OwnEvent = OwnPicture | RefusedEvent;

export interface WorkerOptions extends DecoderOptions {
    module?: URL | string | WebAssembly.Module;
    /** Pictures come as VideoFrames, where workers have these: as FramedPicture. */
    frames?: boolean;
}

export interface WorkerDecodeOptions extends DecodeOptions {
    transfer?: boolean;
    /** That of the VideoFrames from here on, in place of what the stream tells. */
    colorSpace?: VideoColorSpaceInit;
}

/** A decoder in a worker of its own. Calls are answered in their order, and fail with OutOfMemory or DecoderError. */
export class WorkerDecoder<Event extends OwnPicture | FramedPicture | RefusedEvent = OwnEvent> {
    constructor(options?: WorkerOptions);
    readonly ready: Promise<void>;
    readonly version: string | undefined;
    readonly memory: number;
    readonly turns: number;
    decode(bytes: Uint8Array, options?: WorkerDecodeOptions): Promise<Event[]>;
    flush(): Promise<Event[]>;
    reset(): Promise<void>;
    /** Takes the samples of a picture that is done with, for later pictures. */
    giveBack(picture: OwnPicture): void;
    close(): void;
}
