// The types of avcdec-sequences.mjs.
import type { DecoderOptions } from './avcdec.mjs';
import type { OwnEvent } from './avcdec-client.mjs';

export interface SequencesOptions extends DecoderOptions {
    /** How many coded video sequences are decoded side by side; as many as there are processors unless named. */
    workers?: number;
    /** Where avcdec.wasm is. */
    module?: URL | string | WebAssembly.Module;
}

/** Yields the events of a byte stream (Annex B) in their order, each picture with samples of its own. */
export function decodeSequences(stream: Uint8Array, options?: SequencesOptions): AsyncGenerator<OwnEvent, void, undefined>;
