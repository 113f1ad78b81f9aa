// player.mjs: plays a stream by a decoder in a worker: a few pictures ahead, each shown at its time; steps, and seeks to any picture from
// the IDR picture before it.
import { accessUnits, ParameterSets, sequenceInfo, unitsOf } from '../avcdec-annexb.mjs';
import { WorkerDecoder } from '../avcdec-client.mjs';
import { isMp4, samplesOf } from './mp4.mjs';

const AHEAD = 6, RATE = 25;

/** A stream in memory: its access units, where its IDR pictures are, and what is told of it. */
export class Stream {
    constructor(bytes, name) {
        this.name = name;
        this.size = bytes.length;
        const film = isMp4(bytes) ? samplesOf(bytes) : { units: accessUnits(bytes) };
        this.units = film.units.filter(it => hasSlice(it.bytes));
        if (this.units.length === 0) throw new Error(`${name}: no picture of an H.264 stream is in it`);
        this.keys = [];
        const sets = new ParameterSets();
        this.units.forEach(({ bytes: unit, key }, at) => {
            const before = key && at > 0 ? sets.bytes : new Uint8Array(0);
            sets.note(unit);
            if (key) this.keys.push({ at, before });
        });
        if (this.keys.length === 0) this.keys.push({ at: 0, before: new Uint8Array(0) });
        this.info = sets.sequence ? sequenceInfo(sets.sequence) : {};
        this.rate = film.rate ?? this.info.rate ?? RATE;
        this.isRateTold = Boolean(film.rate ?? this.info.rate);
    }
}

function hasSlice(bytes) {
    for (const { type } of unitsOf(bytes)) if (type >= 1 && type <= 5) return true;
    return false;
}

export class Player {
    #decoder;
    #stream;
    #ready = []; // pictures that wait to be shown: { picture, number }
    #next = 0; // the unit that is given next
    #before; // the parameter sets that go before it
    #number = 0; // of the picture that comes next
    #from = 0; // pictures before this one are not shown
    #isEnded = false;
    #round = 0;
    #isPumping = false;
    #due = 0;
    #busy = [];

    /** `show(picture, number)`, `changed()` after anything that a page tells, `refused(refusal)`, `failed(error)`. */
    constructor({ module, show, changed, refused, failed }) {
        Object.assign(this, { module, show, changed, refused, failed });
        this.speed = 1;
        this.isPlaying = false;
        this.shown = -1;
    }

    get stream() {
        return this.#stream;
    }

    get decoder() {
        return this.#decoder;
    }

    /** Pictures a second that the decoder makes, over the last ones. */
    get decodes() {
        const time = this.#busy.reduce((sum, it) => sum + it.time, 0), pictures = this.#busy.reduce((sum, it) => sum + it.pictures, 0);
        return time > 0 ? pictures * 1000 / time : 0;
    }

    /** Plays this stream from its beginning; it stands at the first picture. */
    async open(stream) {
        this.pause();
        this.#decoder?.close();
        this.#decoder = new WorkerDecoder({ early: false, module: this.module });
        this.#stream = stream;
        this.#busy = [];
        this.#begin(0, stream.keys[0]);
        await this.step();
    }

    play() {
        if (!this.#stream || this.isPlaying) return;
        this.isPlaying = true;
        this.#due = performance.now();
        if (this.#isEnded && this.#ready.length === 0) this.seek(0);
        requestAnimationFrame(() => this.#tick());
        this.changed();
    }

    pause() {
        this.isPlaying = false;
        this.changed();
    }

    /** Shows the next picture; false where there is none. */
    async step() {
        const round = this.#round;
        while (this.#ready.length === 0 && !this.#isEnded && round === this.#round) {
            this.#pump();
            await new Promise(done => setTimeout(done, 2));
        }
        return round === this.#round && this.#showNext();
    }

    /** Shows the picture of this number: decodes from the IDR picture at or before it. */
    async seek(number) {
        const { keys, units } = this.#stream, target = Math.max(0, Math.min(number, units.length - 1));
        const key = keys.findLast(it => it.at <= target) ?? keys[0];
        const round = this.#begin(target, key);
        await this.#decoder.reset();
        if (round === this.#round) await this.step();
    }

    /** The IDR picture before or behind the one that is shown. */
    seekKey(direction) {
        const ats = this.#stream.keys.map(it => it.at);
        const at = direction > 0 ? ats.find(it => it > this.shown) : ats.findLast(it => it < this.shown);
        return at === undefined ? undefined : this.seek(at);
    }

    #begin(target, key) {
        for (const { picture } of this.#ready.splice(0)) this.#decoder.giveBack(picture);
        this.#next = this.#number = key.at;
        this.#before = key.before;
        this.#from = target;
        this.#isEnded = false;
        return ++this.#round;
    }

    /** Decodes until enough pictures wait. */
    async #pump() {
        if (this.#isPumping) return;
        this.#isPumping = true;
        try {
            while (this.#ready.length < AHEAD && !this.#isEnded) await this.#decodeOne();
        } catch (thrown) {
            this.#isEnded = true;
            this.failed(thrown);
        }
        this.#isPumping = false;
    }

    async #decodeOne() {
        const round = this.#round, unit = this.#stream.units[this.#next], began = performance.now();
        let events;
        if (unit === undefined) {
            events = await this.#decoder.flush();
            if (round === this.#round) this.#isEnded = true;
        } else {
            const bytes = this.#before.length > 0 ? new Uint8Array([...this.#before, ...unit.bytes]) : unit.bytes;
            this.#before = new Uint8Array(0);
            this.#next++;
            events = await this.#decoder.decode(bytes, { endsUnit: true });
        }
        if (round !== this.#round) return;
        this.#busy.push({ time: performance.now() - began, pictures: unit ? 1 : 0 });
        if (this.#busy.length > 100) this.#busy.shift();
        for (const event of events) this.#take(event);
    }

    #take(event) {
        if (event.kind === 'refused') return this.refused(event);
        const number = this.#number++;
        if (number < this.#from) this.#decoder.giveBack(event);
        else this.#ready.push({ picture: event, number });
    }

    #showNext() {
        const next = this.#ready.shift();
        if (!next) return false;
        this.shown = next.number;
        this.show(next.picture, next.number);
        this.#decoder.giveBack(next.picture);
        this.#pump();
        this.changed();
        return true;
    }

    #tick() {
        if (!this.isPlaying) return;
        const now = performance.now();
        if (now >= this.#due) {
            if (this.#showNext()) {
                const next = this.#due + 1000 / (this.#stream.rate * this.speed);
                this.#due = next < now - 100 ? now : next; // where decoding was late, time waits for it
            } else if (this.#isEnded) {
                this.pause();
                return;
            } else {
                this.#pump();
                this.#due = now;
            }
        }
        requestAnimationFrame(() => this.#tick());
    }
}
