// demo.mjs: the page. Words of its address: stream (a file to load), picture (which to stand at, from 0), play, size=actual, module.
import { Screen } from './draw.mjs';
import { Player, Stream } from './player.mjs';

const at = id => document.getElementById(id), words = new URLSearchParams(location.search);
const MOST_REFUSALS = 200;
const SAMPLES = [['A call, 640x360', 'speed/call.264'], ['720p', 'speed/720p.264'], ['CIF', 'speed/cif.264'], ['1080 lines', 'speed/still.264']];
const screen = new Screen(at('screen'));
let refusals = 0, times = [];

const player = new Player({
    module: new URL(words.get('module') ?? '../avcdec.wasm', location.href),
    show(picture, number) {
        screen.draw(picture);
        times.push(performance.now());
        if (times.length > 60) times.shift();
        document.body.dataset.picture = number;
    },
    changed: tell,
    refused({ unit, fault, name }) {
        if (refusals++ === 0) at('refused').replaceChildren();
        at('refusals').parentElement.classList.add('warns');
        if (refusals > MOST_REFUSALS) return;
        const line = document.createElement('li'), strong = document.createElement('b'), number = document.createElement('span');
        strong.textContent = `${name}`;
        number.textContent = `unit ${unit}, fault ${fault}`;
        line.append(strong, number);
        at('refused').prepend(line);
    },
    failed: fail,
});
window.player = player;

function fail(error) {
    at('fault').textContent = error.message;
    at('fault').hidden = false;
    document.body.dataset.fault = error.message;
}

const several = (count, word) => `${count.toLocaleString('en')} ${word}${count === 1 ? '' : 's'}`;
const seconds = value => `${Math.floor(value / 60)}:${(value % 60).toFixed(2).padStart(5, '0')}`;

/** Tells how things stand; the numbers at the side at most ten times a second. */
let toldAt = 0;
function tell() {
    const { stream, shown, decoder } = player;
    document.body.classList.toggle('playing', player.isPlaying);
    if (!stream || shown < 0) return;
    at('place').value = shown;
    const time = at('time'), number = document.createElement('b');
    number.textContent = `${shown + 1}`;
    time.replaceChildren('picture ', number, ` of ${stream.units.length} · ${seconds(shown / stream.rate)}`);
    if (player.isPlaying && performance.now() - toldAt < 100) return;
    toldAt = performance.now();
    at('decodes').textContent = player.decodes ? Math.round(player.decodes).toLocaleString('en') : '–';
    at('shows').textContent = player.isPlaying && times.length > 5 ? ((times.length - 1) * 1000 / (times.at(-1) - times[0])).toFixed(1) : '–';
    at('memory').textContent = decoder.memory ? `${(decoder.memory / 2 ** 20).toFixed(1)} MiB` : '–';
    at('refusals').textContent = refusals;
    at('version').textContent = decoder.version ? `Library ${decoder.version}.` : '';
}

function facts(stream) {
    const { profile, level, colorSpace } = stream.info, canvas = at('screen');
    const list = [
        ['File', stream.name], ['Bytes', stream.size.toLocaleString('en')], ['Size', `${canvas.width} × ${canvas.height}`],
        ['Pictures', `${stream.units.length.toLocaleString('en')}, ${several(stream.keys.length, 'IDR picture')}`],
        ['Rate', stream.isRateTold ? `${+stream.rate.toFixed(3)} a second` : `not told; played at ${stream.rate}`],
        ['Profile', profile ? `${{ 66: 'Baseline', 77: 'Main', 88: 'Extended' }[profile] ?? profile}, level ${level / 10}` : 'not told'],
        ['Colour', colorSpace?.matrix ? `${colorSpace.matrix}${colorSpace.fullRange ? ', full range' : ''}` : 'not told; BT.601'],
    ];
    at('facts').replaceChildren(...list.flatMap(pair => pair.map((text, i) => Object.assign(document.createElement(i ? 'dd' : 'dt'), { textContent: text }))));
}

async function load(bytes, name, picture = 0) {
    try {
        delete document.body.dataset.picture;
        delete document.body.dataset.fault;
        at('fault').hidden = true;
        refusals = 0;
        times = [];
        at('refusals').parentElement.classList.remove('warns');
        const stream = new Stream(bytes, name);
        at('refused').replaceChildren(Object.assign(document.createElement('li'), { className: 'none', textContent: 'None.' }));
        screen.color(stream.info.colorSpace, stream.info.chromaLocation);
        at('place').max = stream.units.length - 1;
        at('keys').replaceChildren(...(stream.keys.length > 400 ? [] : stream.keys).map(key => {
            const tick = document.createElement('i');
            tick.style.left = `${100 * key.at / Math.max(1, stream.units.length - 1)}%`;
            return tick;
        }));
        await player.open(stream);
        document.body.classList.add('loaded');
        for (const id of ['before', 'play', 'step', 'behind', 'place']) at(id).disabled = false;
        if (picture > 0) await player.seek(picture);
        facts(stream);
        tell();
    } catch (thrown) {
        fail(thrown);
    }
}

async function loadFrom(address, picture) {
    try {
        const answer = await fetch(address);
        if (!answer.ok) throw new Error(`${address}: ${answer.status} ${answer.statusText}`);
        at('url').value = address;
        await load(new Uint8Array(await answer.arrayBuffer()), new URL(address, location.href).pathname.split('/').at(-1), picture);
    } catch (thrown) {
        fail(thrown);
    }
}

const loadFile = async file => { if (file) await load(new Uint8Array(await file.arrayBuffer()), file.name); player.play(); };
const halted = action => () => { player.pause(); return action(); };
at('open').onclick = () => at('file').click();
at('file').onchange = () => loadFile(at('file').files[0]);
at('address').onsubmit = event => { event.preventDefault(); loadFrom(at('url').value).then(() => player.play()); };
const toggle = () => player.isPlaying ? player.pause() : player.play();
const actions = { play: toggle, step: halted(() => player.step()), before: halted(() => player.seekKey(-1)), behind: halted(() => player.seekKey(1)) };
for (const [id, action] of Object.entries(actions)) at(id).onclick = action;
at('place').oninput = halted(() => player.seek(Number(at('place').value)));
at('speed').onchange = () => { player.speed = Number(at('speed').value); };
at('actual').onchange = () => at('screen').classList.toggle('actual', at('actual').checked);
onkeydown = event => {
    if (!player.stream || ['INPUT', 'SELECT', 'BUTTON'].includes(event.target.tagName) && event.target.type !== 'range') return;
    const action = { ' ': 'play', '.': 'step', ArrowLeft: 'before', ArrowRight: 'behind' }[event.key];
    if (action) event.preventDefault(), actions[action]();
};
const frame = at('frame');
frame.ondragover = event => { event.preventDefault(); frame.classList.add('over'); };
frame.ondragleave = () => frame.classList.remove('over');
frame.ondrop = event => { event.preventDefault(); frame.classList.remove('over'); loadFile(event.dataTransfer.files[0]); };

if (words.get('size') === 'actual') at('actual').click();
if (words.has('stream')) {
    await loadFrom(words.get('stream'), Number(words.get('picture') ?? 0));
    if (words.has('play')) player.play();
} else {
    // where the whole repository is served, its streams are at hand
    const first = new URL(`../../../vectors/${SAMPLES[0][1]}`, location.href);
    if ((await fetch(first, { method: 'HEAD' }).catch(() => ({}))).ok) {
        const buttons = SAMPLES.map(([text, file]) => {
            const button = Object.assign(document.createElement('button'), { textContent: text });
            button.onclick = () => loadFrom(new URL(`../../../vectors/${file}`, location.href).href).then(() => player.play());
            return button;
        });
        at('samples').replaceChildren('Or one of the test streams: ', document.createElement('br'), ...buttons);
    }
}
