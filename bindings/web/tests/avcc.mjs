// avcc.mjs: makes of access units what an MP4 file has: an AVCDecoderConfigurationRecord, and samples with a length before each unit.
import { PPS, SPS, unitsOf } from '../avcdec-annexb.mjs';

export function avccOf(units, lengthSize = 4) {
    const sets = { [SPS]: [], [PPS]: [] };
    for (const { from, to, type } of unitsOf(units[0].bytes)) sets[type]?.push(units[0].bytes.subarray(from, to));
    const put = list => list.flatMap(unit => [unit.length >> 8, unit.length & 255, ...unit]);
    const record = Uint8Array.of(1, ...sets[SPS][0].subarray(1, 4), 0xfc | (lengthSize - 1), 0xe0 | sets[SPS].length, ...put(sets[SPS]), sets[PPS].length, ...put(sets[PPS]));
    return { record, sample: (bytes, all = false) => sampleOf(bytes, lengthSize, all) };
}

/** Without the parameter sets, which the record has. */
function sampleOf(bytes, lengthSize, all) {
    const kept = [...unitsOf(bytes)].filter(({ type }) => all || (type !== SPS && type !== PPS));
    const sample = new Uint8Array(kept.reduce((sum, { from, to }) => sum + lengthSize + to - from, 0));
    let put = 0;
    for (const { from, to } of kept) {
        for (let i = 0; i < lengthSize; i++) sample[put + i] = (to - from) / 256 ** (lengthSize - 1 - i) & 255;
        sample.set(bytes.subarray(from, to), put + lengthSize);
        put += lengthSize + to - from;
    }
    return sample;
}
