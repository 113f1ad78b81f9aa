// The types of avcdec-video.mjs.
import type { Library } from './avcdec.mjs';

/** A refusal: an EncodingError with what the decoder tells of it. */
export interface RefusedError extends DOMException {
    readonly unit: number;
    readonly fault: number;
    readonly faultName: string;
    readonly timestamp: number;
}

export interface AvcVideoDecoderInit extends VideoDecoderInit {
    /** Takes refusals; decoding goes on at the next key picture. Without it a refusal is an error, which closes the decoder. */
    refused?: (error: RefusedError) => void;
    /** Decodes in this thread, in this library. */
    library?: Library | Promise<Library>;
    /** Where avcdec.wasm is. */
    module?: URL | string | WebAssembly.Module;
    /** Whether it decodes in a worker. */
    worker?: boolean;
    /** In how many workers (1) coded video sequences, each from an IDR picture to the next, are decoded side by side. Up to 256 MiB of their pictures
     * wait for those before them. */
    workers?: number;
}

/** The decoder in the shape of WebCodecs' VideoDecoder. */
export class AvcVideoDecoder extends EventTarget {
    constructor(init: AvcVideoDecoderInit);
    static isConfigSupported(config: VideoDecoderConfig): Promise<VideoDecoderSupport>;
    ondequeue: ((event: Event) => void) | null;
    readonly state: CodecState;
    readonly decodeQueueSize: number;
    configure(config: VideoDecoderConfig): void;
    decode(chunk: EncodedVideoChunk): void;
    flush(): Promise<void>;
    reset(): void;
    close(): void;
}
