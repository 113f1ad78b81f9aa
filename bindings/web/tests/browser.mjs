// browser.mjs: drives Chromium without a screen over its pipe (DevTools protocol), and serves files on the loopback; no package is wanted.
import { spawn } from 'node:child_process';
import { createReadStream, mkdtempSync, rmSync, statSync } from 'node:fs';
import { createServer } from 'node:http';
import { tmpdir } from 'node:os';
import { join, normalize } from 'node:path';

const TYPES = { html: 'text/html', css: 'text/css', mjs: 'text/javascript', wasm: 'application/wasm', json: 'application/json' };

/** Serves a folder on the loopback, as any static server does; other files by their paths: { '/module.wasm': FILE }. Gives its address. */
export async function serve(folder, others = {}) {
    const server = createServer((request, response) => {
        const path = normalize(decodeURIComponent(request.url.split('?')[0])), file = others[path] ?? join(folder, path.endsWith('/') ? `${path}index.html` : path);
        try {
            const { size } = statSync(file);
            response.writeHead(200, { 'Content-Type': TYPES[file.split('.').at(-1)] ?? 'application/octet-stream', 'Content-Length': size, 'Cache-Control': 'no-store' });
            if (request.method === 'HEAD') response.end();
            else createReadStream(file).pipe(response);
        } catch {
            response.writeHead(404).end();
        }
    });
    await new Promise(done => server.listen(0, '127.0.0.1', done));
    return { address: `http://127.0.0.1:${server.address().port}`, close: () => server.close() };
}

export class Browser {
    #process;
    #profile = mkdtempSync(join(tmpdir(), 'avcdec-page-'));
    #waiting = new Map();
    #calls = 0;
    #rest = '';

    constructor(command = process.env.CHROMIUM ?? 'chromium') {
        // the sandbox wants a user of its own; only files of this repository are loaded
        this.#process = spawn(command, ['--headless', '--no-sandbox', '--enable-unsafe-swiftshader', '--hide-scrollbars', '--mute-audio', '--force-color-profile=srgb',
            `--user-data-dir=${this.#profile}`, '--remote-debugging-pipe', 'about:blank'], { stdio: ['ignore', 'ignore', 'ignore', 'pipe', 'pipe'] });
        this.#process.on('error', error => this.#end(error));
        this.#process.on('exit', code => this.#end(new Error(`${command} ended: ${code}`)));
        this.#process.stdio[4].setEncoding('utf8').on('data', text => {
            const messages = (this.#rest + text).split('\0');
            this.#rest = messages.pop();
            for (const message of messages) this.#told(JSON.parse(message));
        });
        this.#process.stdio[3].on('error', () => {});
    }

    #end(error) {
        this.ended ??= error;
        for (const { failed } of this.#waiting.values()) failed(error);
        this.#waiting.clear();
    }

    #told({ id, result, error, method, params }) {
        if (method === 'Runtime.exceptionThrown') this.onerror?.(params.exceptionDetails.exception?.description ?? params.exceptionDetails.text);
        const call = this.#waiting.get(id);
        this.#waiting.delete(id);
        if (error) call?.failed(new Error(error.message));
        else call?.done(result);
    }

    call(method, params = {}, sessionId = undefined) {
        if (this.ended) return Promise.reject(this.ended);
        return new Promise((done, failed) => {
            const id = ++this.#calls;
            this.#waiting.set(id, { done, failed });
            this.#process.stdio[3].write(`${JSON.stringify({ id, method, params, sessionId })}\0`);
        });
    }

    /** Opens a page of this size in pixels. */
    async page(address, width = 1280, height = 800) {
        const { targetId } = await this.call('Target.createTarget', { url: 'about:blank' });
        const { sessionId } = await this.call('Target.attachToTarget', { targetId, flatten: true });
        const call = (method, params) => this.call(method, params, sessionId);
        await call('Runtime.enable');
        await call('Emulation.setDeviceMetricsOverride', { width, height, deviceScaleFactor: 1, mobile: false });
        await call('Page.enable');
        await call('Page.bringToFront');
        await call('Page.navigate', { url: address });
        const evaluate = async expression => {
            const { result, exceptionDetails } = await call('Runtime.evaluate', { expression, awaitPromise: true, returnByValue: true });
            if (exceptionDetails) throw new Error(exceptionDetails.exception?.description ?? exceptionDetails.text);
            return result.value;
        };
        return {
            evaluate,
            /** Waits until an expression holds in the page. */
            async until(expression, seconds = 60) {
                for (const end = Date.now() + seconds * 1000; Date.now() < end;) {
                    if (await evaluate(expression).catch(() => false)) return true;
                    await new Promise(done => setTimeout(done, 100));
                }
                throw new Error(`after ${seconds} s: ${expression}`);
            },
            /** A picture of the page, or of this part of it, as PNG. */
            screenshot: async clip => Buffer.from((await call('Page.captureScreenshot', { format: 'png', ...(clip && { clip: { ...clip, scale: 1 } }) })).data, 'base64'),
            close: () => this.call('Target.closeTarget', { targetId }),
        };
    }

    async close() {
        await this.call('Browser.close').catch(() => {});
        if (this.#process.exitCode === null) await Promise.race([new Promise(done => this.#process.once('exit', done)), new Promise(done => setTimeout(done, 5000))]);
        this.#process.kill('SIGKILL');
        rmSync(this.#profile, { recursive: true, force: true, maxRetries: 5 });
    }
}
