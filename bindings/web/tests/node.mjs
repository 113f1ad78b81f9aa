// node [--expose-gc] node.mjs MODULE [streams|sequences|calls]: the module and its wrapper in Node. The last line is 'N passed, M failed'.
import { copyFileSync, mkdtempSync, readFileSync, rmSync } from 'node:fs';
import { tmpdir } from 'node:os';
import { join } from 'node:path';
import { pathToFileURL } from 'node:url';
import { Decoder, DecoderError, load, OutOfMemory } from '../avcdec.mjs';
import { accessUnits, Avcc, ParameterSets, sequenceInfo, SPS, unitsOf } from '../avcdec-annexb.mjs';
import { WorkerDecoder } from '../avcdec-client.mjs';
import { decodeSequences } from '../avcdec-sequences.mjs';
import { AvcVideoDecoder } from '../avcdec-video.mjs';
import { avccOf } from './avcc.mjs';
import { check, decode } from './check.mjs';
import { Md5 } from './md5.mjs';
import { bytesOf, streams } from './streams.mjs';

const [, , file, part = 'calls'] = process.argv;
const module = new WebAssembly.Module(readFileSync(file));
let passed = 0, failed = 0;

async function test(name, body) {
    const start = Date.now();
    try {
        await body();
        passed++;
    } catch (thrown) {
        failed++;
        console.log(`failed: ${name}: ${thrown.stack}`);
    }
    if (process.env.TIMES) console.log(`${Date.now() - start} ms: ${name}`);
}

function same(got, wanted) {
    if (JSON.stringify(got) !== JSON.stringify(wanted)) throw new Error(`${JSON.stringify(got)}, wanted ${JSON.stringify(wanted)}`);
}

async function throws(body, kind, word) {
    let thrown;
    try { await body(); } catch (it) { thrown = it; }
    if (!(thrown instanceof kind) || !thrown.message.includes(word)) throw new Error(`thrown was ${thrown}`);
}

const list = streams();
const wanted = name => list.find(it => it.name === name);

async function allStreams() {
    const library = await load(module), got = await check(library, list, bytesOf);
    passed += got.passed;
    failed += got.failed.length;
    for (const it of got.failed.slice(0, 20)) console.log(`failed: ${it}`);
    console.log(`${list.length} streams, ${got.pictures} pictures, memory ${library.memory} bytes`);
}

// what Node lacks of WebCodecs, as strict as that
class Chunk {
    constructor(init) {
        Object.assign(this, init);
        this.byteLength = init.data.length;
    }

    copyTo(to) {
        to.set(this.data);
    }
}

class Frame {
    constructor(samples, init) {
        Object.assign(this, init);
        const { codedWidth: width, codedHeight: height } = init;
        const layout = init.layout ?? [{ offset: 0, stride: width }, { offset: width * height, stride: width / 2 }, { offset: width * height * 5 / 4, stride: width / 2 }];
        const md5 = new Md5(), spans = layout.map(({ offset, stride }, i) => [offset, offset + stride * (i ? height / 2 : height)]);
        if (spans.some(([, end]) => end > samples.length)) throw new TypeError('VideoFrame: data is not large enough');
        if (spans.some(([from, end], i) => spans.slice(0, i).some(other => from < other[1] && other[0] < end))) throw new TypeError('VideoFrame: planes overlap');
        layout.forEach(({ offset, stride }, i) => {
            for (let y = 0; y < (i ? height / 2 : height); y++) md5.update(samples.subarray(offset + y * stride, offset + y * stride + (i ? width / 2 : width)));
        });
        this.md5 = md5.hex();
        if (init.transfer) structuredClone(0, { transfer: init.transfer });
    }
}
globalThis.VideoFrame = Frame;

/** The MD5 of each picture of a stream. */
function pictures(library, bytes) {
    const decoder = new Decoder(library), got = [];
    const take = event => { if (event.kind === 'picture') got.push(new Md5().update(event.copy()).hex()); };
    for (const event of decoder.decode(bytes)) take(event);
    decoder.flush();
    for (const event of decoder.events()) take(event);
    decoder.close();
    return got;
}

/** Runs the first example of a README, but for its line of imports, with these names given. */
async function runExample(readme, given) {
    const lines = readFileSync(new URL(readme, import.meta.url), 'utf8').split('\n');
    const first = lines.findIndex(line => line.includes("from './avcdec.mjs'")) + 1;
    const body = lines.slice(first, lines.findIndex((line, at) => at > first && !line.startsWith('    '))).join('\n');
    const AsyncFunction = runExample.constructor;
    await new AsyncFunction(...Object.keys(given), body)(...Object.values(given));
}

async function shaped(units, init, config = {}, chunkOf = unit => unit.bytes) {
    const frames = [], errors = [];
    const decoder = new AvcVideoDecoder({ output: frame => frames.push(frame), error: error => errors.push(error), ...init });
    decoder.configure({ codec: 'avc1.42E01E', ...config });
    units.forEach((unit, at) => decoder.decode(new Chunk({ type: unit.key ? 'key' : 'delta', timestamp: at * 40, duration: 40, data: chunkOf(unit, at) })));
    await decoder.flush().catch(error => errors.push(error));
    return { frames, errors, decoder };
}

/** The module with this many pages of memory at the most: its memory section (id 5) written anew. */
function withPages(bytes, pages) {
    const leb = value => { const made = []; do { made.push((value & 127) | (value > 127 ? 128 : 0)); value >>>= 7; } while (value); return made; };
    const read = at => { let value = 0, shift = 0, byte; do { byte = bytes[at++]; value += (byte & 127) * 2 ** shift; shift += 7; } while (byte & 128); return [value, at]; };
    for (let at = 8; at < bytes.length;) {
        const [size, from] = read(at + 1);
        if (bytes[at] === 5) {
            const [least] = read(from + 2), body = [1, bytes[from + 1] | 1, ...leb(least), ...leb(pages)];
            return Uint8Array.from([...bytes.subarray(0, at), 5, ...leb(body.length), ...body, ...bytes.subarray(from + size)]);
        }
        at = from + size;
    }
    throw new Error('no memory section');
}

async function calls() {
    const library = await load(module);
    const small = wanted('encoder/pub_x_aud'), bytes = bytesOf(small.name), refusedName = list.find(it => it.refused && bytesOf(it.name).length < 20000).name;

    await test('closed, ended and unfinished decoders say so', async () => {
        const decoder = new Decoder(library);
        decoder.flush();
        await throws(() => decoder.feed(bytes), DecoderError, 'ended');
        decoder.reset();
        const several = bytesOf('encoder/pub_x_keyint3'), events = decoder.decode(several), { value: picture } = events.next();
        same([picture.kind, picture.planes.length], ['picture', 3]);
        await throws(() => decoder.feed(several), DecoderError, 'earlier');
        for (const event of events) void event;
        await throws(() => picture.planes, DecoderError, 'over');
        decoder.close();
        decoder.close();
        await throws(() => decoder.take(), DecoderError, 'closed');
    });
    // where libavcodec's parser cuts the stream, and by its decoder and its trace of the headers of each picture: its packet, unit, nal_unit_type 5,
    // frame_num and PicOrderCnt (type 0)
    const reordered = bytesOf('cases/order_type_0_twice'), places = [0, 26, 34, 42, 50, 58];
    const told = [[0, 2, true, 0, 0], [34, 4, false, 2, 2], [26, 3, false, 1, 4], [42, 5, true, 0, 0], [58, 7, false, 2, 2], [50, 6, false, 1, 4]];
    const tell = ({ value, unit, info }) => [Number(value), unit, info.isIdr, info.frameNum, info.picOrderCnt];
    await test('values come back with their pictures', () => {
        const decoder = new Decoder(library), got = [];
        places.forEach((from, at) => got.push(...[...decoder.decode(reordered.subarray(from, places[at + 1]), { value: BigInt(from) })].map(tell)));
        decoder.flush();
        got.push(...[...decoder.events()].map(tell));
        same(got, told);
        decoder.close();
    });
    await test('a value that never comes is told behind the next IDR picture', () => {
        const decoder = new Decoder(library);
        // the parameter sets are a packet of their own
        for (const [from, to] of [[0, 18], [18, 26], [26, 42]]) {
            decoder.mark(BigInt(from + 1));
            decoder.feed(reordered.subarray(from, to));
        }
        decoder.flush();
        const before = decoder.takeDropped(), { value } = decoder.take();
        same([before, value, decoder.takeDropped(), decoder.takeDropped()].map(String), ['undefined', '19', '1', 'undefined']);
        decoder.close();
    });
    await test('values come back from a worker', async () => {
        const decoder = new WorkerDecoder({ module }), got = [];
        for (const [at, from] of places.entries()) got.push(...(await decoder.decode(reordered.slice(from, places[at + 1]), { value: BigInt(from) })).map(tell));
        got.push(...(await decoder.flush()).map(tell));
        same(got, told);
        decoder.close();
    });
    await test('a frame has the timestamp of its chunk, whatever it is', async () => {
        const units = places.map((from, at) => ({ key: told.some(it => it[0] === from && it[2]), bytes: reordered.slice(from, places[at + 1]) }));
        const { frames, errors } = await shaped(units, { library });
        same([frames.map(it => it.timestamp), errors.length], [[0, 80, 40, 120, 200, 160], 0]);
    });
    await test('values are numbers of 64 bits, and a refusal has that of its unit', async () => {
        const decoder = new Decoder(library);
        await throws(() => decoder.mark(-1n), RangeError, 'value');
        decoder.feed(Uint8Array.of(0, 0, 1, 0xe7));
        decoder.mark(2n ** 64n - 1n);
        decoder.feed(Uint8Array.of(0x42, 0, 0, 1, 0xe8, 0x42));
        decoder.flush();
        same([...decoder.events()].map(it => [it.unit, String(it.value)]), [[0, '0'], [1, String(2n ** 64n - 1n)]]);
        decoder.close();
    });
    await test('decoding goes on after a loop that was left', () => {
        const decoder = new Decoder(library);
        for (const event of decoder.decode(bytes)) { void event; break; }
        decoder.reset();
        let count = 0;
        for (const event of decoder.decode(bytes)) count += event.kind === 'picture';
        decoder.flush();
        for (const event of decoder.events()) count += event.kind === 'picture';
        same(count, pictures(library, bytes).length);
        decoder.close();
    });
    await test('two decoders of one library keep apart', () => {
        const names = ['encoder/pub_x_aud', 'encoder/pub_x_crop_18x34'], decoders = names.map(() => new Decoder(library)), md5s = names.map(() => new Md5());
        const parts = names.map(bytesOf);
        for (let at = 0; at < Math.max(...parts.map(it => it.length)); at += 500)
            parts.forEach((part, i) => { for (const event of decoders[i].decode(part.subarray(at, at + 500))) if (event.kind === 'picture') md5s[i].update(event.copy()); });
        decoders.forEach((decoder, i) => { decoder.flush(); for (const event of decoder.events()) if (event.kind === 'picture') md5s[i].update(event.copy()); decoder.close(); });
        same(md5s.map(it => it.hex()), names.map(name => wanted(name).md5));
    });
    await test('planes are what copies are', () => {
        const decoder = new Decoder(library);
        decoder.feed(bytesOf('encoder/pub_x_crop_18x34'));
        decoder.flush();
        for (const event of decoder.events()) {
            const copy = event.copy(), room = new Uint8Array(event.size + 5);
            let at = 0;
            for (const { samples, stride, columns, rows } of event.planes) for (let y = 0; y < rows; y++) for (let x = 0; x < columns; x++) same(samples[y * stride + x], copy[at++]);
            same(at, event.size);
            event.copy(room);
            same([event.width, event.height, event.planes.length, room[event.size]], [18, 34, 3, 0]);
        }
        decoder.close();
    });
    await test('memory comes back when decoders are closed', () => {
        const rounds = count => { for (let i = 0; i < count; i++) decode(library, bytes); return library.memory; };
        same(rounds(30) === rounds(30), true);
    });
    await test('a decoder that is forgotten is closed', async () => {
        if (!globalThis.gc) return;
        const forgetful = await load(module);
        const rounds = async count => {
            for (let i = 0; i < count; i++) {
                const decoder = new Decoder(forgetful);
                decoder.feed(bytes);
                if (i % 10 === 9) await new Promise(done => setImmediate(done)), globalThis.gc(), await new Promise(done => setTimeout(done, 5));
            }
            return forgetful.memory;
        };
        const before = await rounds(30);
        same(await rounds(60), before);
    });
    await test('no memory is an error; after a reset a smaller stream decodes', async () => {
        const tight = await load(withPages(readFileSync(file), 96));
        const decoder = new Decoder(tight), large = bytesOf('speed/still');
        await throws(() => { for (const event of decoder.decode(large)) void event; decoder.flush(); }, OutOfMemory, 'no memory');
        await throws(() => decoder.feed(large), OutOfMemory, 'no memory');
        decoder.reset();
        const md5 = new Md5();
        for (const event of decoder.decode(bytes)) if (event.kind === 'picture') md5.update(event.copy());
        decoder.flush();
        for (const event of decoder.events()) if (event.kind === 'picture') md5.update(event.copy());
        same(md5.hex(), small.md5);
        decoder.close();
        const shapedErrors = (await shaped(accessUnits(large), { library: tight })).errors;
        same([shapedErrors[0].name, shapedErrors[0].status], ['EncodingError', 1]);
    });
    await test('a worker decodes, refuses and is closed', async () => {
        const decoder = new WorkerDecoder({ module }), md5 = new Md5();
        for (let at = 0; at < bytes.length; at += 3000) for (const event of await decoder.decode(bytes.slice(at, at + 3000), { transfer: true })) { md5.update(event.samples); decoder.giveBack(event); }
        for (const event of await decoder.flush()) md5.update(event.samples);
        same(md5.hex(), small.md5);
        await throws(() => decoder.decode(bytes), DecoderError, 'ended');
        await decoder.reset();
        const events = [...await decoder.decode(bytesOf(refusedName)), ...await decoder.flush()].filter(it => it.kind === 'refused');
        same(events.map(it => `refused unit ${it.unit}: ${it.fault} ${it.name}`).join('\n'), wanted(refusedName).refused);
        decoder.close();
        await throws(() => decoder.flush(), DecoderError, 'closed');
    });
    await test('a worker whose module is no module says so', async () => {
        const decoder = new WorkerDecoder({ module: new URL('md5.mjs', import.meta.url) });
        await throws(() => decoder.decode(bytes), DecoderError, '');
        decoder.close();
    });
    await test('a module that was not there is asked for again', async () => {
        const folder = mkdtempSync(join(tmpdir(), 'avcdec-node-')), address = pathToFileURL(join(folder, 'avcdec.wasm'));
        for (const isThere of [false, true]) {
            if (isThere) copyFileSync(file, address);
            const decoder = new WorkerDecoder({ module: address });
            if (!isThere) await throws(() => decoder.decode(bytes), DecoderError, 'ENOENT');
            else {
                const events = [...await decoder.decode(bytes), ...await decoder.flush()];
                same(events.filter(it => it.kind === 'picture').length, pictures(library, bytes).length);
            }
            decoder.close();
        }
        rmSync(folder, { recursive: true });
    });
    for (const name of ['encoder/pub_x_aud', 'encoder/pub_x_keyint3', 'speed/cif']) {
        const units = accessUnits(bytesOf(name)), md5s = pictures(library, bytesOf(name)), avcc = avccOf(units);
        for (const [way, init] of [['here', { library }], ['in a worker', { module, worker: true }], ['in three workers', { module, worker: true, workers: 3 }]]) {
            await test(`${name} as VideoDecoder ${way}`, async () => {
                const { frames, errors } = await shaped(units, init);
                same(errors, []);
                same(frames.map(it => it.md5), md5s);
                same(frames.map(it => [it.timestamp, it.duration]), md5s.map((_, at) => [at * 40, 40]));
            });
        }
        for (const lengthSize of [4, 2]) {
            await test(`${name} as VideoDecoder from avcC with lengths of ${lengthSize} bytes`, async () => {
                const it = avccOf(units, lengthSize), { frames, errors } = await shaped(units, { library }, { description: it.record }, unit => it.sample(unit.bytes));
                same(errors, []);
                same(frames.map(frame => frame.md5), md5s);
            });
        }
        await test(`${name}: avcC is read`, () => {
            const read = new Avcc(avcc.record.buffer);
            same(read.lengthSize, 4);
            same(decode(library, read.annexB(avcc.sample(units[0].bytes, true))).pictures, 1);
        });
    }
    for (const [way, init] of [['here', { library }], ['in a worker', { module, worker: true }], ['in three workers', { module, worker: true, workers: 3 }]]) {
        // the decoder, or its workers, go on where pictures go out as before, and what they hold goes out first
        await test(`configured again ${way}: other streams, and pictures at once`, async () => {
            const streams = [['encoder/pub_x_keyint3', false], ['speed/cif', false], ['encoder/pub_x_aud', true], ['speed/cif', true]];
            const md5s = streams.map(([name]) => pictures(library, bytesOf(name))), count = md5s.flat().length;
            const { frames, errors, decoder } = await shaped(accessUnits(bytesOf(streams[0][0])), init);
            for (const [name, optimizeForLatency] of streams.slice(1)) {
                decoder.configure({ codec: 'avc1.42E01E', optimizeForLatency });
                accessUnits(bytesOf(name)).forEach(({ key, bytes }, at) => decoder.decode(new Chunk({ type: key ? 'key' : 'delta', timestamp: at * 40, data: bytes })));
            }
            for (let i = 0; frames.length < count && i < 500; i++) await new Promise(done => setTimeout(done, 10));
            same(errors, []);
            same(frames.map(it => it.md5), md5s.flat()); // the last ones too, without a flush
            same(frames.map(it => it.timestamp), md5s.flatMap(of => of.map((_, at) => at * 40)));
            decoder.close();
        });
    }
    // IDR pictures that drop those before them, among others; pictures that go out in another order than they are decoded in
    for (const name of ['cases/idr_drops_held', 'generated/pubgen_31', 'pcm/pcm_11', 'weighted/pubwgt_44', 'encoder/pub_o_idr_listing', 'encoder/pub_x_allintra']) {
        await test(`${name}: sequences side by side`, async () => {
            const units = accessUnits(bytesOf(name)), here = await shaped(units, { library }), there = await shaped(units, { module, worker: true, workers: 3 });
            same(there.errors, []);
            same(there.frames.map(it => it.md5), pictures(library, bytesOf(name)));
            same(there.frames.map(it => it.timestamp), here.frames.map(it => it.timestamp));
        });
    }
    await test('workers whose module is no module close the decoder', async () => {
        const { errors, decoder } = await shaped(accessUnits(bytes), { module: new URL('md5.mjs', import.meta.url), worker: true, workers: 2 });
        same([errors.map(it => it.name), decoder.state], [['EncodingError', 'EncodingError'], 'closed']);
    });
    await test('IDR pictures that drop those before them are found', () => {
        // as ffmpeg's trace_headers tells no_output_of_prior_pics_flag of the first slices
        for (const [name, flags] of [['cases/idr_drops_held', '01'], ['generated/pubgen_12', '110'], ['generated/pubgen_31', '001'], ['pcm/pcm_11', '1011'], ['weighted/pubwgt_44', '111'], ['encoder/pub_x_keyint3', '00000']]) {
            const sets = new ParameterSets();
            same(accessUnits(bytesOf(name)).map(it => sets.note(it.bytes).idr ? Number(sets.dropsPictures(it.bytes)) : '').join(''), flags);
        }
    });
    await test('flush, then a key chunk without parameter sets', async () => {
        const units = accessUnits(bytesOf('encoder/pub_x_keyint3')), { decoder, frames } = await shaped(units, { library });
        const bare = [...unitsOf(units[0].bytes)].filter(it => it.type === 5).map(it => units[0].bytes.subarray(it.start, it.to));
        decoder.decode(new Chunk({ type: 'key', timestamp: 7000, data: Uint8Array.from(bare.flatMap(it => [...it])) }));
        await decoder.flush();
        same([frames.length, frames.at(-1).timestamp, frames.at(-1).md5], [units.length + 1, 7000, frames[0].md5]);
        decoder.close();
        same(decoder.state, 'closed');
    });
    await test('a refusal is an error that closes, or goes to refused', async () => {
        const units = accessUnits(bytesOf(refusedName));
        units.forEach((unit, at) => { unit.key = at === 0; });
        const { errors, decoder } = await shaped(units, { library });
        same([errors[0].name, typeof errors[0].unit, typeof errors[0].fault, decoder.state], ['EncodingError', 'number', 'number', 'closed']);
        const refused = [], again = await shaped(units, { library, refused: error => refused.push(error.faultName) });
        same([again.errors.length, refused.length > 0, again.decoder.state], [0, true, 'configured']);
    });
    await test('states and profiles as WebCodecs has them', async () => {
        const errors = [], decoder = new AvcVideoDecoder({ output() {}, error: error => errors.push(error.name), library });
        const chunk = type => new Chunk({ type, timestamp: 0, data: bytes });
        await throws(() => decoder.decode(chunk('key')), DOMException, 'unconfigured');
        await throws(() => decoder.configure({}), TypeError, 'codec');
        decoder.configure({ codec: 'avc1.42E01E' });
        await throws(() => decoder.decode(chunk('delta')), DOMException, 'key');
        decoder.decode(chunk('key'));
        same([decoder.decodeQueueSize, decoder.state], [1, 'configured']);
        const flushed = decoder.flush().catch(error => error.name);
        decoder.reset();
        same([await flushed, decoder.decodeQueueSize, decoder.state], ['AbortError', 0, 'unconfigured']);
        decoder.configure({ codec: 'avc1.640028' });
        await new Promise(done => setTimeout(done, 20));
        same([errors, decoder.state], [['NotSupportedError'], 'closed']);
        await throws(() => decoder.reset(), DOMException, 'closed');
        const taken = async codec => (await AvcVideoDecoder.isConfigSupported({ codec })).supported;
        same(await Promise.all(['avc1.42E01E', 'avc3.42001f', 'avc1.4D401E', 'avc1.4DC01E', 'avc1.640028', 'vp8'].map(taken)), [true, true, false, true, false, false]);
    });
    for (const readme of ['../README.md', '../../../README.md']) await test(`the example of ${readme} gives all events`, async () => {
        const md5 = new Md5(), told = [], { name, md5: whole, refused } = wanted('cases/held_before_refusal');
        const draw = planes => {
            for (const { samples, stride, columns, rows } of planes)
                for (let y = 0; y < rows; y++) md5.update(samples.subarray(y * stride, y * stride + columns));
        };
        await runExample(readme, { Decoder, load: async () => library, bytes: bytesOf(name), draw, console: { log: line => told.push(line) } });
        same([md5.hex(), told.join('\n')], [whole, refused.replace(/refused unit (\d+):/, 'unit $1 refused:')]);
    });
    await test('parameter sets are told of', () => {
        const units = accessUnits(bytesOf('speed/cif')), sets = new ParameterSets();
        same(sets.note(units[0].bytes), { coded: true, idr: true });
        const { profile, rate } = sequenceInfo(sets.sequence);
        same([profile, rate > 0 && rate < 200], [66, true]);
    });
    // as ffprobe tells them
    for (const [name, matrix, fullRange, location] of [['speed/cif', undefined, undefined, 0], ['speed/call', undefined, undefined, 1], ['encoder/pub_x_hrd_vui', 'bt709', true, 2],
        ['encoder/pub_o_crop_150x90', 'bt709', false, 0], ['encoder/pub_f_aud_fullrange', null, true, 0]]) await test(`${name}: how it is shown`, () => {
        const stream = bytesOf(name), { from, to } = [...unitsOf(stream)].find(it => it.type === SPS), { colorSpace, chromaLocation } = sequenceInfo(stream.subarray(from, to));
        same([colorSpace?.matrix, colorSpace?.fullRange, chromaLocation], [matrix, fullRange, location]);
    });
    await test('avcC that ends early is a TypeError', async () => {
        for (const size of [0, 6, 8, 12]) await throws(() => new Avcc(avccOf(accessUnits(bytes)).record.subarray(0, size)), TypeError, 'avcdec');
        const read = new Avcc(avccOf(accessUnits(bytes)).record);
        await throws(() => read.annexB(Uint8Array.of(0, 0, 0, 9, 1)), TypeError, 'length');
    });
}

/** All streams by decodeSequences: the pictures, the refusals and their units are those of one decoder. */
async function sequences() {
    for (const { name, md5: wanted, refused } of list) await test(`${name}, its sequences side by side`, async () => {
        const md5 = new Md5(), told = [];
        for await (const event of decodeSequences(bytesOf(name), { workers: 3, module })) {
            if (event.kind === 'refused') { told.push(`refused unit ${event.unit}: ${event.fault} ${event.name}`); continue; }
            md5.update(event.samples);
            event.giveBack();
        }
        same([md5.hex(), told.join('\n')], [wanted, refused]);
    });
    await test('at least one worker is wanted', async () => {
        await throws(() => decodeSequences(bytesOf('speed/cif'), { workers: 0, module }).next(), RangeError, 'one worker');
        await throws(() => new AvcVideoDecoder({ output() {}, error() {}, worker: true, workers: 0 }), RangeError, 'one worker');
    });
    await test('who leaves early ends the workers, and a module that is none is told', async () => {
        let pictures = 0;
        for await (const _ of decodeSequences(bytesOf('encoder/pub_x_keyint3'), { workers: 2, module })) if (++pictures === 3) break;
        same(pictures, 3);
        await throws(async () => { for await (const _ of decodeSequences(bytesOf('speed/cif'), { workers: 2, module: new URL('md5.mjs', import.meta.url) })) pictures++; }, DecoderError, '');
        same(pictures, 3);
    });
}

await { streams: allStreams, sequences, calls }[part]();
console.log(`${passed} passed, ${failed} failed`);
process.exit(failed || !passed ? 1 : 0);
