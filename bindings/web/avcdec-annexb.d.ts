// The types of avcdec-annexb.mjs.
import type { PictureInfo } from './avcdec.mjs';

export interface Unit {
    readonly start: number;
    readonly from: number;
    readonly to: number;
    /** nal_unit_type */
    readonly type: number;
}
export function unitsOf(bytes: Uint8Array): Generator<Unit, void, undefined>;
export function accessUnits(bytes: Uint8Array): { bytes: Uint8Array; key: boolean }[];
export function byteStream(units: Uint8Array[]): Uint8Array;
export function bytesOf(source: BufferSource): Uint8Array;

/** The parameter sets that came last. */
export class ParameterSets {
    note(bytes: Uint8Array): { coded: boolean; idr: boolean };
    put(unit: Uint8Array): void;
    readonly bytes: Uint8Array;
    readonly sequence: Uint8Array | undefined;
    copy(): ParameterSets;
}

/** An AVCDecoderConfigurationRecord. */
export class Avcc {
    constructor(record: BufferSource);
    readonly profile: number;
    readonly lengthSize: number;
    readonly sets: Uint8Array[];
    /** A sample as a byte stream. */
    annexB(sample: BufferSource): Uint8Array;
}

/** What the info of a picture says of its colours; undefined where it says nothing. */
export function colorSpaceOf(info: PictureInfo): VideoColorSpaceInit | undefined;

export interface SequenceInfo {
    profile: number;
    level: number;
    /** Pictures a second. */
    rate: number | undefined;
    aspect: [number, number];
    colorSpace: VideoColorSpaceInit | undefined;
    /** chroma_sample_loc_type_top_field; 0 where it is not told. */
    chromaLocation: number;
}
export function sequenceInfo(unit: Uint8Array): SequenceInfo;
