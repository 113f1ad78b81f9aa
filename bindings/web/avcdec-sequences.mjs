// avcdec-sequences.mjs: workers that decode the coded video sequences of a file side by side:
//
//     for await (const event of decodeSequences(bytes, { workers: 4 }))
//         if (event.kind === 'picture') draw(event.planes, event.width, event.height);
//
// A sequence begins with an IDR picture and asks for nothing before it: the pictures of a stream are those of its sequences, joined in order
// (pieces_decode_alike of avc_pieces is the law: of streams without a refusal, where no IDR picture but the first drops pictures before it).
import { accessUnits, byteStream, joined, ParameterSets, unitsOf } from './avcdec-annexb.mjs';
import { WorkerDecoder } from './avcdec-client.mjs';

// Calls that may be on their way to one worker; pictures, and their bytes, that may be on their way through several.
const CALLS_OF_ONE = 4, PICTURES_OF_SEVERAL = 512, BYTES_OF_SEVERAL = 2 ** 28;

/** Lets go of an event that nobody takes. */
const drop = event => event.close?.();

/** A sequence that is not all out: the worker that decodes it, and its answers, each a list of events, up to where one has not come. */
class Sequence {
    answers = [];
    unanswered = 0;
    hasEnded = false;

    constructor(worker, begins) {
        this.worker = worker;
        this.begins = begins;
    }
}

export class Sequences {
    #make;
    #most;
    #workers = [];
    #take;
    #failed;
    #open = []; // the sequences that are not all out, in the stream's order
    #together;
    #pictures = 0; // access units that were given and whose events are not out
    #pictureSize = Infinity;
    #waiting = []; // what goes on once something is out
    #isClosed = false;

    /** `make` makes a WorkerDecoder; `most` are made, each when it is needed. `together`: how many access units a call may give. `take` is given the events in the stream's order, `failed` why there are
     * no more: what a worker or `take` threw. */
    constructor({ make, most, together = 1, take, failed }) {
        if (!(most >= 1)) throw new RangeError('avcdec: at least one worker is wanted');
        this.#make = make;
        this.#most = most;
        this.#together = together;
        this.#take = take;
        this.#failed = failed;
    }

    /** Gives the bytes of an access unit, or of `together`, with the words of WorkerDecoder.decode. Where `begins` stands, a new sequence begins: with
     * `begins.sets` parameter sets, whose refusals were told when they came first. `take` is given `begins` with its events. Resolves once more may be
     * given. */
    async decode(bytes, words, begins) {
        if (begins) this.#begin(begins);
        this.#ask(worker => worker.decode(bytes, { ...words, transfer: true }), this.#together);
        await this.#until(() => this.#pictures < this.#mostPictures);
    }

    /** Ends the stream. Resolves once all is out. */
    async flush() {
        this.#end();
        await this.#until(() => this.#open.length === 0);
    }

    close() {
        this.#isClosed = true;
        for (const worker of this.#workers) worker.close();
        for (const { answers } of this.#open) for (const { events = [] } of answers) events.forEach(drop);
        this.#told();
    }

    get #mostPictures() {
        if (this.#most === 1) return CALLS_OF_ONE * this.#together;
        return Math.min(PICTURES_OF_SEVERAL, Math.max(this.#most * this.#together, BYTES_OF_SEVERAL / this.#pictureSize));
    }

    #begin(begins) {
        this.#end();
        this.#open.push(new Sequence(this.#idle(), begins));
    }

    /** The worker that has the least to do: a new one before one that is busy. */
    #idle() {
        const loads = this.#workers.map(worker => this.#open.filter(it => it.worker === worker).reduce((sum, it) => sum + it.unanswered, 0));
        const least = Math.min(...loads); // Infinity where there is none yet
        if (least === 0 || this.#workers.length === this.#most) return this.#workers[loads.indexOf(least)];
        this.#workers.push(this.#make());
        return this.#workers.at(-1);
    }

    #end() {
        const last = this.#open.at(-1);
        if (!last || last.hasEnded) return;
        this.#ask(worker => worker.flush());
        this.#ask(worker => worker.reset().then(() => []));
        last.hasEnded = true;
    }

    /** Asks the worker of the last sequence; what it answers is put in the place of this call. */
    #ask(call, pictures = 0) {
        const sequence = this.#open.at(-1), answer = { pictures };
        sequence.answers.push(answer);
        sequence.unanswered++;
        this.#pictures += pictures;
        call(sequence.worker).then(events => { answer.events = events; }, thrown => { answer.thrown = thrown; }).then(() => {
            if (this.#isClosed) answer.events?.forEach(drop);
            sequence.unanswered--;
            const picture = answer.events?.find(it => it.kind === 'picture');
            if (picture) this.#pictureSize = picture.size;
            this.#emit();
        });
    }

    /** Lets out what can go: of the first sequence what has come, and so on while one is all out. */
    #emit() {
        try {
            for (let first; (first = this.#open[0]) && !this.#isClosed; this.#open.shift()) {
                while (first.answers.length > 0 && (first.answers[0].events || first.answers[0].thrown)) this.#out(first.answers.shift(), first.begins);
                if (first.answers.length > 0 || !first.hasEnded) break;
            }
        } catch (thrown) {
            if (!this.#isClosed) this.#failed(thrown);
        }
        this.#told();
    }

    #out({ events, thrown, pictures }, begins) {
        this.#pictures -= pictures;
        if (thrown) throw thrown;
        for (const event of events) {
            if (!this.#isClosed && event.unit >= begins.sets) this.#take(event, begins);
            else drop(event);
        }
    }

    #told() {
        for (const go of this.#waiting.splice(0)) go();
    }

    /** Until this holds, or all is over. */
    async #until(holds) {
        while (!holds() && !this.#isClosed) await new Promise(done => this.#waiting.push(done));
    }
}

// Access units, and their bytes, that go to a worker together.
const UNITS_TOGETHER = 8, BYTES_TOGETHER = 65536;

/** The parts of a byte stream that are given one after another: { bytes, begins }. `begins` stands where a sequence begins that any worker may decode:
 * the bytes then begin with the parameter sets before it, of which there are `begins.sets`, and `begins.first` is the number of its first unit. */
function* partsOf(stream) {
    const sets = new ParameterSets();
    let units = 0, part;
    for (const { bytes } of accessUnits(stream)) {
        const before = sets.units, { idr } = sets.note(bytes);
        const begins = units === 0 || (idr && !sets.dropsPictures(bytes)) ? { first: units, sets: before.length } : undefined;
        if (part && (begins || part.count === UNITS_TOGETHER || part.bytes.length + bytes.length > BYTES_TOGETHER)) {
            yield part;
            part = undefined;
        }
        part = { begins: part?.begins ?? begins, count: (part?.count ?? 0) + 1, bytes: joined(part?.bytes ?? byteStream(begins ? before : []), bytes) };
        for (const _ of unitsOf(bytes)) units++;
    }
    if (part) yield part;
}

/** Yields the events of a byte stream (Annex B) in their order, as Decoder does, each picture with samples of its own; `giveBack` of a picture that is
 * done with lets them be used again. `workers`: how many sequences are decoded side by side, as many as there are processors unless named; up to
 * 256 MiB of their pictures wait for those before them. Of a stream with a refusal a later sequence may be decoded that Decoder refuses. */
export async function* decodeSequences(stream, { workers = globalThis.navigator?.hardwareConcurrency ?? 4, early = false, module } = {}) {
    const events = [];
    let thrown, wake = () => {};
    const sequences = new Sequences({
        make: () => new WorkerDecoder({ early, module }),
        most: workers,
        together: UNITS_TOGETHER,
        take: (event, { first, sets }) => {
            event.unit += first - sets;
            events.push(event);
            wake();
        },
        failed: why => {
            thrown = why;
            wake();
        },
    });
    async function* until(given) {
        let isOver = false;
        given.then(() => {
            isOver = true;
            wake();
        });
        while (!isOver || events.length > 0) {
            if (events.length > 0) yield events.shift();
            else if (thrown) throw thrown;
            else await new Promise(done => { wake = done; });
        }
    }
    try {
        for (const { bytes, begins } of partsOf(stream)) yield* until(sequences.decode(bytes, {}, begins));
        yield* until(sequences.flush());
        if (thrown) throw thrown;
    } finally {
        sequences.close();
    }
}
