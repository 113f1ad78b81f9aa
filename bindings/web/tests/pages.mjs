// node pages.mjs MODULE [streams|calls] [FOLDER for screenshots]: the module, its wrapper and the demo in Chromium without a screen, by pages
// that are served on the loopback. Each part ends in a line 'N passed, M failed', or says that it was left out and why.
import { execFileSync, spawnSync } from 'node:child_process';
import { mkdtempSync, rmSync, writeFileSync } from 'node:fs';
import { tmpdir } from 'node:os';
import { join } from 'node:path';
import { Browser, serve } from './browser.mjs';
import { bytesOf, streams, top, vectors } from './streams.mjs';

const [, , file, part = 'calls', folder] = process.argv;
const ALIKE = ['encoder/pub_x_aud', 'encoder/pub_x_keyint3', 'encoder/pub_x_crop_18x34', 'encoder/pub_x_allintra', 'speed/cif', 'speed/call',
    'encoder/pub_o_idr_listing', 'speed/720p', 'speed/1080i', 'speed/still'];
// as ffprobe tells them of the first picture, and how many pictures it holds for: the second sequence of the last one has a set that says nothing
const COLOURED = [['encoder/pub_x_hrd_vui', 'bt709', true, 12], ['encoder/pub_o_crop_150x90', 'bt709', false, 10], ['generated/pubgen_16', 'smpte170m', false, 8]];
const LEAST_QUALITY = 60; // dB; chroma half a sample away gives at most 54
// pictures with their width and height: chroma left, centred, and at the top left; BT.601 and 709, limited and full range; cropped
const DRAWN = [['speed/cif', 17, 352, 288], ['speed/call', 30, 640, 360], ['encoder/pub_x_hrd_vui', 2, 96, 80], ['encoder/pub_o_crop_150x90', 3, 150, 90],
    ['encoder/pub_f_aud_fullrange', 2, 128, 96]];
let passed = 0, failed = 0, allWell = true;

async function test(name, body) {
    const start = Date.now();
    try {
        const why = await body();
        if (why !== undefined) throw new Error(why);
        passed++;
    } catch (thrown) {
        failed++;
        console.log(`failed: ${name}: ${thrown.message}`);
    }
    if (process.env.TIMES) console.log(`${Date.now() - start} ms: ${name}`);
}

function told(name) {
    console.log(`web, ${name}: ${passed} passed, ${failed} failed`);
    if (failed || !passed) allWell = false;
    passed = failed = 0;
}

const differs = (got, wanted) => JSON.stringify(got) === JSON.stringify(wanted) ? undefined : `${JSON.stringify(got)}, wanted ${JSON.stringify(wanted)}`;
const inPage = (page, call, ...words) => page.evaluate(`page.${call}(${words.map(it => JSON.stringify(it)).join(', ')})`);

/** dB between two pictures of three bytes a sample. */
function psnr(a, b) {
    let sum = 0;
    for (let i = 0; i < a.length; i++) sum += (a[i] - b[i]) ** 2;
    return 10 * Math.log10(255 ** 2 * a.length / sum);
}

/** RGB of a picture of a stream, or of a PNG, by ffmpeg. */
function rgb(...words) {
    return execFileSync('ffmpeg', ['-v', 'error', ...words, '-fps_mode', 'passthrough', '-frames:v', '1', '-f', 'rawvideo', '-pix_fmt', 'rgb24', '-'], { maxBuffer: 2 ** 28 });
}

/** Where chroma stands by ffprobe, as ffmpeg's scaler takes it: in 1/256 of a luma sample from the first one. Left alone the scaler takes the centre; and
 * where it writes RGB together and not by planes, it takes a chroma row or the mean of two, and not the weights between. */
function chromaPlace(file) {
    const told = execFileSync('ffprobe', ['-v', 'error', '-select_streams', 'v', '-show_entries', 'stream=chroma_location', '-of', 'csv=p=0', file], { encoding: 'utf8' }).trim();
    const [across, down] = { left: [0, 128], center: [128, 128], topleft: [0, 0], top: [128, 0], bottomleft: [0, 256], bottom: [128, 256] }[told];
    return `in_h_chr_pos=${across}:in_v_chr_pos=${down}`;
}

async function demo(browser, address) {
    for (const [name, number, width, height] of DRAWN) {
        await test(`the demo at picture ${number} of ${name}`, async () => {
            const page = await browser.page(`${address}/bindings/web/demo/?module=/module.wasm&stream=/vectors/${name}.264&picture=${number}&size=actual`, 1280, 800);
            await page.until(`document.body.dataset.picture === '${number}' || document.body.dataset.fault`, 120);
            const fault = await page.evaluate('document.body.dataset.fault');
            if (fault) return fault;
            const clip = await page.evaluate("(({ x, y, width, height }) => ({ x, y, width, height }))(document.getElementById('screen').getBoundingClientRect())");
            const work = mkdtempSync(join(tmpdir(), 'avcdec-demo-'));
            writeFileSync(`${work}/shot.png`, await page.screenshot(clip));
            if (folder) {
                await page.evaluate("document.getElementById('actual').click()");
                writeFileSync(`${folder}/demo-${name.split('/')[1]}.png`, await page.screenshot());
            }
            const ours = rgb('-i', `${work}/shot.png`);
            const theirs = rgb('-flags', 'unaligned', '-i', `${vectors}/${name}.264`, '-vf', `select=eq(n\\,${number}),scale=flags=bilinear+accurate_rnd+full_chroma_int:${chromaPlace(`${vectors}/${name}.264`)},format=gbrp`);
            rmSync(work, { recursive: true });
            await page.close();
            if (ours.length !== theirs.length || ours.length !== width * height * 3) return `${clip.width}x${clip.height}: ${ours.length} bytes, wanted ${theirs.length}`;
            const quality = psnr(ours, theirs);
            console.log(`${name}, picture ${number}: ${quality.toFixed(1)} dB to ffmpeg's RGB`);
            return quality > LEAST_QUALITY ? undefined : `${quality} dB`;
        });
    }
    await test('the demo plays, steps and seeks', async () => {
        const page = await browser.page(`${address}/bindings/web/demo/?module=/module.wasm&stream=/vectors/encoder/pub_x_keyint3.264`);
        const stands = '(document.body.dataset.fault ?? document.body.dataset.picture)';
        await page.until(`${stands} === '0'`);
        await page.evaluate('player.step()');
        await page.evaluate('player.step()');
        const stepped = await page.evaluate(stands);
        await page.evaluate('player.seekKey(1)');
        const sought = await page.evaluate(stands);
        await page.evaluate('player.seek(5)');
        const five = await page.evaluate(stands);
        await page.evaluate('player.seekKey(-1)');
        const back = await page.evaluate(stands);
        await page.evaluate('player.play()');
        const last = await page.evaluate('player.stream.units.length - 1');
        await page.until(`${stands} === '${last}' && !player.isPlaying`);
        await page.close();
        return differs([stepped, sought, five, back], ['2', '3', '5', '3']);
    });
    await test('the demo tells refusals', async () => {
        const { name, refused } = streams().find(it => it.refused && it.name.startsWith('hostile') && bytesOf(it.name).length < 20000) ?? streams().find(it => it.refused);
        const page = await browser.page(`${address}/bindings/web/demo/?module=/module.wasm&stream=/vectors/${name}.264&play`);
        await page.until("Number(document.getElementById('refusals').textContent) > 0 || document.body.dataset.fault");
        const text = await page.evaluate("document.getElementById('refused').textContent");
        await page.close();
        return text.includes(refused.split('\n')[0].split(' ').at(-1)) ? undefined : `${name}: ${text}`;
    });
    await test('the demo without a stream', async () => {
        const page = await browser.page(`${address}/bindings/web/demo/`);
        await page.until("document.getElementById('samples').textContent.length > 0");
        if (folder) writeFileSync(`${folder}/demo-empty.png`, await page.screenshot());
        await page.close();
    });
}

const { address, close } = await serve(top, { '/module.wasm': file });
const browser = new Browser();
browser.onerror = text => console.log(`in the page: ${text}`);
try {
    const page = await browser.page(`${address}/bindings/web/tests/page.html`);
    await page.until('window.page !== undefined');
    if (part === 'streams') {
        const list = streams();
        for (let at = 0; at < list.length; at += 20) {
            const got = await inPage(page, 'streams', list.slice(at, at + 20));
            passed += got.passed;
            failed += got.failed.length;
            for (const it of got.failed.slice(0, 5)) console.log(`failed: ${it}`);
        }
        told('all streams in Chromium');
    } else {
        const list = streams(), wanted = name => list.find(it => it.name === name), there = ALIKE.filter(wanted);
        const refused = list.find(it => it.refused && bytesOf(it.name).length < 20000);
        for (const { name, md5, refused: text } of [...there.slice(0, 5).map(wanted), refused]) await test(`${name} in a worker`, async () => differs(await inPage(page, 'byWorker', name), { md5, refused: text }));
        for (const { name, md5, refused: text } of [...there.map(wanted), refused]) await test(`${name} in three workers`, async () => differs(await inPage(page, 'bySequences', name), { md5, refused: text }));
        await test("the page's thread is free while a worker decodes", async () => {
            const longest = await inPage(page, 'freedom', there[0]);
            console.log(`longest wait of the page's thread: ${longest.toFixed(0)} ms`);
            return longest < 1000 ? undefined : `${longest} ms`;
        });
        told('the worker in Chromium');
        if (await page.evaluate("typeof VideoDecoder === 'function' && VideoDecoder.isConfigSupported({ codec: 'avc1.42E028', hardwareAcceleration: 'prefer-software' }).then(it => it.supported)")) {
            for (const name of there) await test(`${name} beside VideoDecoder`, () => inPage(page, 'besides', name));
            for (const name of there) await test(`${name} beside VideoDecoder, in the page's thread`, () => inPage(page, 'besides', name, { here: true }));
            for (const name of there) await test(`${name} beside VideoDecoder, in three workers`, () => inPage(page, 'besides', name, { workers: 3 }));
            await test(`${there[1]} beside VideoDecoder, from avcC`, () => inPage(page, 'besides', there[1], { avcc: true }));
            for (const [name, matrix, fullRange, count] of COLOURED) await test(`colours of ${name}`, async () =>
                differs(await inPage(page, 'coloured', name, matrix, fullRange), [count, count, count, 0]));
            told("beside Chromium's VideoDecoder");
        } else {
            console.log("web, beside Chromium's VideoDecoder: left out: this Chromium decodes no H.264");
        }
        await test('a refusal as VideoDecoder tells it', async () => {
            const { failed: why, none, refused: numbers } = await inPage(page, 'refusalOf', refused.name);
            return why?.startsWith('EncodingError') && none === undefined && numbers.length > 0 ? undefined : `${why} ${none} ${numbers}`;
        });
        told('refusals in Chromium');
        if (spawnSync('ffmpeg', ['-version']).status === 0) {
            await demo(browser, address);
            told('the demo');
        } else {
            console.log('web, the demo: left out: there is no ffmpeg');
        }
    }
} catch (thrown) {
    failed++;
    console.log(`failed: ${thrown.message}`);
    told('Chromium');
} finally {
    await browser.close();
    close();
}
process.exit(allWell ? 0 : 1);
