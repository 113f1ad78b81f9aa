// node [--experimental-wasm-memory64] bench.mjs FOLDER SECONDS: a line 'WAY STREAM read|copied PICTURES' for each stream of vectors/speed: pictures a
// second of FOLDER/avcdec.wasm32.wasm and .wasm64.wasm in Node, and in Chromium, where it is there, beside its own VideoDecoder in software. The
// word cpu stands for pictures in a second of the processor, of the thread that decodes, looked at where they lie, and of FOLDER/bench too. Ways with
// the word file are those of a file with the stream seventeen times or more, of which the first times don't count; behind the word shape stand ours
// and theirs, AvcVideoDecoder in a worker and VideoDecoder in turns.
import { spawnSync } from 'node:child_process';
import { readFileSync } from 'node:fs';
import { availableParallelism } from 'node:os';
import { join } from 'node:path';
import { Browser, serve } from './browser.mjs';
import { bytesOf, top } from './streams.mjs';

const [, , folder, words = '3'] = process.argv, seconds = Number(words);
const STREAMS = ['call', 'cif', '720p', '1080i', 'still'], KINDS = ['wasm32', 'wasm64'];
const tell = (way, name, told) => Object.entries(told).forEach(([how, rate]) => console.log(`${way} ${name} ${how} ${rate.toFixed(1)}`));

// what is asked of speed.mjs is tried, and a fault is told and no more
async function attempt(way, name, body) {
    try {
        tell(way, name, await body());
    } catch (thrown) {
        console.error(`${way} ${name}: ${thrown.message}`);
    }
}

/** Milliseconds for which the first thread of a process had a processor (Linux). */
const used = process => Number(readFileSync(`/proc/${process}/task/${process}/schedstat`, 'utf8').split(' ')[0]) / 1e6;

// what is told of a thread that runs can be some milliseconds old
const rest = () => new Promise(done => setTimeout(done, 1));

/** The best of the runs in some seconds of the processor, of a process. */
async function bestOfProcessor(process, run, time) {
    let best = 0;
    await rest();
    const latest = performance.now() + 60000;
    for (const until = used(process) + time * 1000; used(process) < until;) {
        if (performance.now() > latest) throw new Error(`process ${process} is not the one that decodes`);
        const start = used(process), pictures = await run();
        await rest();
        best = Math.max(best, pictures * 1000 / (used(process) - start));
    }
    return best;
}

/** The library, the module in Node and that in a page in turns, since what else a processor's core does changes from second to second. */
async function inTurns(name, browser, page) {
    const stream = `speed/${name}`, here = await ours(stream, readFileSync(`${folder}/avcdec.wasm32.wasm`)), best = [0, 0, 0];
    await page.evaluate(`page.ours('${stream}', '/wasm32.wasm').then(it => { window.ours = it; })`);
    // four runs, so that asking for them counts for little
    const inPage = () => page.evaluate('[1, 2, 3, 4].reduce(sum => sum + ours.run(false), 0)'), inNode = () => here.run(false);
    const { processInfo } = await browser.call('SystemInfo.getProcessInfo');
    // the page's renderer is the one that works now
    const renderers = processInfo.filter(it => it.type === 'renderer').map(it => it.id), before = renderers.map(used);
    // a second: others take some of their own when they begin
    for (const until = performance.now() + 1000; performance.now() < until;) await inPage();
    const took = renderers.map((id, i) => used(id) - before[i]), renderer = renderers[took.indexOf(Math.max(...took))];
    await bestOfProcessor(renderer, inPage, 3);
    await bestOfProcessor(process.pid, inNode, 3);
    for (let turn = 0; turn < 4 * seconds; turn++) {
        const native = spawnSync(`${folder}/bench`, [join(top, `vectors/${stream}.264`), '0.3', 'cpu'], { encoding: 'utf8' });
        const rates = [Number(native.stdout), await bestOfProcessor(process.pid, inNode, 0.3), await bestOfProcessor(renderer, inPage, 0.3)];
        rates.forEach((rate, i) => { best[i] = Math.max(best[i], rate); });
    }
    here.close();
    tell('native', name, { cpu: best[0] });
    tell('node-wasm32', name, { cpu: best[1] });
    return { cpu: best[2] };
}

// speed.mjs fetches its streams
globalThis.fetch = async path => {
    const bytes = bytesOf(/\/vectors\/(.*)\.264$/.exec(path)[1]);
    return { arrayBuffer: async () => bytes.buffer.slice(bytes.byteOffset, bytes.byteOffset + bytes.byteLength) };
};
const { ours, speedOfOurs } = await import('./speed.mjs');
for (const name of STREAMS)
    for (const kind of KINDS) await attempt(`node-${kind}`, name, () => speedOfOurs(`speed/${name}`, readFileSync(`${folder}/avcdec.${kind}.wasm`), { seconds }));

if (spawnSync(process.env.CHROMIUM ?? 'chromium', ['--version']).status !== 0) {
    console.error('Chromium: left out: it is not there');
    process.exit(0);
}
const { address, close } = await serve(top, Object.fromEntries(KINDS.map(kind => [`/${kind}.wasm`, `${folder}/avcdec.${kind}.wasm`])));
for (const name of STREAMS) {
    const ways = KINDS.map(kind => [kind, (_, page) => page.evaluate(`page.speedOfOurs('speed/${name}', '/${kind}.wasm', { seconds: ${seconds} })`)]);
    ways.push(['WebCodecs', (_, page) => page.evaluate(`page.speedOfTheirs('speed/${name}', { seconds: ${seconds} })`)]);
    ways.push(['wasm32', (browser, page) => inTurns(name, browser, page)]);
    // a file of several sequences: VideoDecoder, and decodeSequences in one worker and in as many as there are processors
    for (const [way, workers] of [['file-WebCodecs', 0], ['file-one', 1], ['file-all', availableParallelism()]])
        ways.push([way, (_, page) => page.evaluate(`page.speedOfFile('speed/${name}', ${workers}, '/wasm32.wasm', { seconds: ${seconds} })`)]);
    ways.push(['shape', (_, page) => page.evaluate(`page.speedOfShape('speed/${name}', 1, '/wasm32.wasm', { seconds: ${seconds} })`)]);
    for (const [way, speed] of ways)
        await attempt(`chromium-${way}`, name, async () => {
            const browser = new Browser(); // anew, so that nothing of an earlier one counts
            try {
                const page = await browser.page(`${address}/bindings/web/tests/page.html`);
                await page.until('window.page !== undefined');
                return await speed(browser, page);
            } finally {
                await browser.close();
            }
        });
}
close();
