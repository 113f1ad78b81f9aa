// avcdec-annexb.mjs: what stands around the decoder's bytes: units and access units of a byte stream (Annex B), avcC as MP4 has it, and
// what a sequence parameter set tells of rate and colour. None of it is proved; the decoder takes any bytes.

export const SLICE = 1, IDR = 5, SPS = 7, PPS = 8;

// profile_idc whose sequence parameter sets are read here
const PROFILES = [66, 77, 88];

/** The NAL units of a byte stream, without their start codes: yields { start, from, to }: where the start code, the unit and what follows begin. */
export function* unitsOf(bytes) {
    let found = startCode(bytes, 0);
    while (found < bytes.length) {
        const from = found + 3, next = startCode(bytes, from);
        let to = next;
        while (to > from && bytes[to - 1] === 0) to--;
        if (to > from) yield { start: found > 0 && bytes[found - 1] === 0 ? found - 1 : found, from, to, type: bytes[from] & 31 };
        found = next;
    }
}

/** Where the first 00 00 01 begins from `from` on; the length where there is none. */
function startCode(bytes, from) {
    for (let at = bytes.indexOf(1, from + 2); at >= 0; at = bytes.indexOf(1, at + 1)) if (bytes[at - 1] === 0 && bytes[at - 2] === 0) return at - 2;
    return bytes.length;
}

/** Cuts a byte stream into access units (7.4.1.2.3), as packets are: { bytes, key }, where a key picture is an IDR picture. */
export function accessUnits(bytes) {
    const units = [];
    let begin = 0, coded = false, key = false;
    for (const { start, from, type } of unitsOf(bytes)) {
        const slice = type === SLICE || type === IDR;
        // first_mb_in_slice 0 is a single 1
        if (coded && (slice ? bytes[from + 1] & 0x80 : (type >= 6 && type <= 9) || (type >= 14 && type <= 18))) {
            units.push({ bytes: bytes.subarray(begin, start), key });
            begin = start;
            coded = key = false;
        }
        coded ||= slice;
        key ||= type === IDR;
    }
    if (begin < bytes.length) units.push({ bytes: bytes.subarray(begin), key });
    return units;
}

/** The parameter sets that came last, by kind and number, so that decoding can begin again at a key picture that does not bring its own. */
export class ParameterSets {
    #sets = new Map();

    /** Looks at the units of an access unit up to its first slice; tells whether it has a slice, and whether that is of an IDR picture. */
    note(bytes) {
        for (const { from, to, type } of unitsOf(bytes)) {
            if (type >= SLICE && type <= IDR) return { coded: true, idr: type === IDR };
            if (type === SPS || type === PPS) this.put(bytes.subarray(from, to));
        }
        return { coded: false, idr: false };
    }

    put(unit) {
        const reader = new Bits(unit, 1), type = unit[0] & 31;
        if (type === SPS) reader.skip(24);
        const name = `${type}:${reader.ue()}`;
        this.#sets.delete(name); // so that the one that came last stands last
        this.#sets.set(name, unit.slice());
    }

    /** Whether the IDR picture of an access unit, whose sets were noted, drops the pictures before it that wait (no_output_of_prior_pics_flag of its
     * first slice, 7.3.3). Where that can't be read, or it is not the slice of the first macroblock: true. */
    dropsPictures(bytes) {
        const idr = [...unitsOf(bytes)].find(it => it.type === IDR);
        if (!idr) return true;
        const bits = new Bits(bytes.subarray(idr.from, idr.to), 1);
        const isFirst = bits.ue() === 0, isIntra = bits.ue() % 5 === 2, picture = this.#numbersOf(`${PPS}:${bits.ue()}`, pictureNumbers);
        const sequence = picture && this.#numbersOf(`${SPS}:${picture.sequence}`, sequenceNumbers);
        if (!isFirst || !isIntra || !sequence?.framesOnly) return true;
        bits.skip(sequence.frameNumBits);
        bits.ue(); // idr_pic_id
        bits.skip(sequence.orderBits);
        const deltas = sequence.hasDeltas ? 1 : 0, hasOrder = sequence.orderBits > 0 || sequence.hasDeltas;
        for (let left = deltas + (hasOrder && picture.hasBottomDelta ? 1 : 0); left > 0; left--) bits.ue();
        if (picture.isRedundant) bits.ue();
        return bits.u(1) === 1;
    }

    #numbersOf(name, read) {
        const unit = this.#sets.get(name);
        return unit && read(unit);
    }

    /** All of them, those that came last behind. */
    get units() {
        return [...this.#sets.values()];
    }

    /** All of them as a byte stream. */
    get bytes() {
        return byteStream(this.units);
    }

    /** The sequence parameter set that came last. */
    get sequence() {
        return this.units.findLast(unit => (unit[0] & 31) === SPS);
    }

    copy() {
        const made = new ParameterSets();
        made.#sets = new Map(this.#sets);
        return made;
    }
}

/** Two lists of bytes as one. */
export function joined(first, second) {
    const both = new Uint8Array(first.length + second.length);
    both.set(first);
    both.set(second, first.length);
    return both;
}

/** Units with a start code before each. */
export function byteStream(units) {
    const bytes = new Uint8Array(units.reduce((sum, unit) => sum + 4 + unit.length, 0));
    let put = 0;
    for (const unit of units) {
        bytes[put + 3] = 1;
        bytes.set(unit, put + 4);
        put += 4 + unit.length;
    }
    return bytes;
}

/** An AVCDecoderConfigurationRecord (ISO/IEC 14496-15), as the avcC box of an MP4 file or a VideoDecoderConfig's description has it. */
export class Avcc {
    constructor(record) {
        const bytes = bytesOf(record);
        if (bytes.length < 7 || bytes[0] !== 1) throw new TypeError('avcdec: not an AVCDecoderConfigurationRecord');
        this.profile = bytes[1];
        this.lengthSize = (bytes[4] & 3) + 1;
        this.sets = [];
        let at = 5;
        for (const mask of [31, 255]) {
            if (at >= bytes.length) throw new TypeError('avcdec: avcC ends early');
            for (let left = bytes[at++] & mask; left > 0; left--) {
                const length = bytes[at] << 8 | bytes[at + 1], from = at + 2;
                if (!(from + length <= bytes.length)) throw new TypeError('avcdec: avcC ends early');
                if (length > 0) this.sets.push(bytes.slice(from, from + length));
                at = from + length;
            }
        }
    }

    /** A sample, whose units have their lengths before them, as a byte stream. */
    annexB(sample) {
        const bytes = bytesOf(sample), units = [];
        for (let at = 0; at < bytes.length;) {
            let length = 0;
            for (let i = 0; i < this.lengthSize; i++) length = length * 256 + (bytes[at + i] ?? NaN);
            at += this.lengthSize;
            if (!(at + length <= bytes.length)) throw new TypeError('avcdec: a length leads past the sample');
            if (length > 0) units.push(bytes.subarray(at, at + length));
            at += length;
        }
        return byteStream(units);
    }
}

/** The bytes of a BufferSource. */
export function bytesOf(source) {
    if (source instanceof Uint8Array) return source;
    return ArrayBuffer.isView(source) ? new Uint8Array(source.buffer, source.byteOffset, source.byteLength) : new Uint8Array(source);
}

/** Bits of a unit without the escapes (7.3.1); past the end they are 0. */
class Bits {
    #bytes = [];
    #at = 0;

    constructor(unit, from) {
        for (let at = from; at < unit.length && this.#bytes.length < 4096; at++)
            if (!(unit[at] === 3 && at > 2 && unit[at - 1] === 0 && unit[at - 2] === 0)) this.#bytes.push(unit[at]);
    }

    u(count) {
        let value = 0;
        for (; count > 0; count--, this.#at++) value = value * 2 + (((this.#bytes[this.#at >> 3] ?? 0) >> (7 - (this.#at & 7))) & 1);
        return value;
    }

    skip(count) {
        this.#at += count;
    }

    ue() {
        let zeros = 0;
        while (zeros < 32 && !this.u(1)) zeros++;
        return 2 ** zeros - 1 + this.u(zeros);
    }
}

const ASPECTS = [[0, 0], [1, 1], [12, 11], [10, 11], [16, 11], [40, 33], [24, 11], [20, 11], [32, 11], [80, 33], [18, 11], [15, 11], [64, 33], [160, 99], [4, 3], [3, 2], [2, 1]];
const MATRICES = { 1: 'bt709', 5: 'bt470bg', 6: 'smpte170m', 9: 'bt2020-ncl' };
const PRIMARIES = { 1: 'bt709', 5: 'bt470bg', 6: 'smpte170m', 9: 'bt2020' };
const TRANSFERS = { 1: 'bt709', 6: 'smpte170m', 13: 'iec61966-2-1' };

/** A colour space as WebCodecs has it, by numbers of Tables E-3 to E-5. */
function colorSpace(primaries, transfer, matrix, fullRange) {
    return { primaries: PRIMARIES[primaries] ?? null, transfer: TRANSFERS[transfer] ?? null, matrix: MATRICES[matrix] ?? null, fullRange };
}

const UNTOLD = 2;

/** What the info of a picture says of its colours, as WebCodecs has it; undefined where it says nothing. */
export function colorSpaceOf({ colourPrimaries, transferCharacteristics, matrixCoefficients, videoFullRange }) {
    const isTold = videoFullRange || [colourPrimaries, transferCharacteristics, matrixCoefficients].some(it => it !== UNTOLD);
    return isTold ? colorSpace(colourPrimaries, transferCharacteristics, matrixCoefficients, videoFullRange) : undefined;
}

/** What a slice header asks of a sequence parameter set (7.3.2.1.1), which is read from behind seq_parameter_set_id up to frame_cropping_flag. */
function sliceNumbers(bits) {
    const frameNumBits = bits.ue() + 4, orderKind = bits.ue();
    let orderBits = 0, hasDeltas = false;
    if (orderKind === 0) orderBits = bits.ue() + 4;
    if (orderKind === 1) {
        hasDeltas = bits.u(1) === 0;
        bits.ue(), bits.ue();
        for (let left = Math.min(bits.ue(), 255); left > 0; left--) bits.ue();
    }
    bits.ue(), bits.skip(1), bits.ue(), bits.ue(); // max_num_ref_frames, gaps, width, height
    const framesOnly = bits.u(1) === 1;
    if (!framesOnly) bits.skip(1);
    bits.skip(1); // direct_8x8_inference_flag
    return { frameNumBits, orderBits, hasDeltas, framesOnly };
}

/** The same of a whole unit; undefined where its profile is not 66, 77 or 88. */
function sequenceNumbers(unit) {
    const bits = new Bits(unit, 1), profile = bits.u(8);
    bits.skip(16);
    bits.ue(); // seq_parameter_set_id
    return PROFILES.includes(profile) ? sliceNumbers(bits) : undefined;
}

/** What a slice header asks of a picture parameter set (7.3.2.2); undefined where it has slice groups. */
function pictureNumbers(unit) {
    const bits = new Bits(unit, 1);
    bits.ue();
    const sequence = bits.ue();
    bits.skip(1); // entropy_coding_mode_flag
    const hasBottomDelta = bits.u(1) === 1;
    if (bits.ue() > 0) return undefined;
    bits.ue(), bits.ue(), bits.skip(3); // reference indices, weights
    bits.ue(), bits.ue(), bits.ue(), bits.skip(2); // QP, deblocking, intra prediction
    return { sequence, hasBottomDelta, isRedundant: bits.u(1) === 1 };
}

/** What a sequence parameter set (7.3.2.1.1, of profiles 66, 77 and 88) and its VUI (E.1.1) tell of profile, level, rate (pictures a second; undefined
 * where it is not told), the sample aspect ratio, the colour space as WebCodecs has it, and chroma_sample_loc_type (Figure E-1; 0 where it is not told). */
export function sequenceInfo(unit) {
    const bits = new Bits(unit, 1);
    const profile = bits.u(8);
    bits.skip(8);
    const info = { profile, level: bits.u(8), rate: undefined, aspect: [1, 1], colorSpace: undefined, chromaLocation: 0 };
    bits.ue(); // seq_parameter_set_id
    if (!PROFILES.includes(profile)) return info;
    sliceNumbers(bits);
    if (bits.u(1)) bits.ue(), bits.ue(), bits.ue(), bits.ue();
    if (!bits.u(1)) return info;
    if (bits.u(1)) {
        const aspect = bits.u(8);
        const ratio = aspect === 255 ? [bits.u(16), bits.u(16)] : ASPECTS[aspect] ?? [0, 0];
        if (ratio[0] && ratio[1]) info.aspect = ratio;
    }
    if (bits.u(1)) bits.skip(1); // overscan
    if (bits.u(1)) {
        bits.skip(3);
        const fullRange = bits.u(1) === 1;
        const colours = bits.u(1) ? [bits.u(8), bits.u(8), bits.u(8)] : [UNTOLD, UNTOLD, UNTOLD];
        info.colorSpace = colorSpace(...colours, fullRange);
    }
    if (bits.u(1)) info.chromaLocation = bits.ue(), bits.ue(); // of the top field, which is that of a frame, and of the bottom field
    if (bits.u(1)) {
        const tick = bits.u(32), scale = bits.u(32), rate = scale / (2 * tick);
        if (rate > 0 && rate <= 1000) info.rate = rate;
    }
    return info;
}
