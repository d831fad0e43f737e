/** Runs a headless Chromium, over the pipe of its DevTools protocol. */
import { spawn, spawnSync } from 'node:child_process';
import fs from 'node:fs';
import os from 'node:os';
import path from 'node:path';
import { setTimeout as wait } from 'node:timers/promises';

/** The names of the program, by which distributions and Google install it. */
const NAMES = ['chromium', 'chromium-browser', 'google-chrome'];
/** Limit of a wait, for a page that hangs. */
const MILLISECONDS = 60_000;

/** Returns the program's name, or `undefined` if it isn't installed. */
export function findBrowser() {
    return NAMES.find((name) => spawnSync(name, ['--version']).status === 0);
}

/** A browser with one page. */
export class Browser {
    #process;
    #profile = fs.mkdtempSync(path.join(os.tmpdir(), 'nosgrivel-browser-'));
    #text = '';
    #waiting = new Map();
    #session;
    /** The URLs that the page requested. */
    requests = [];
    /** The errors of the page. */
    errors = [];

    /** Starts a browser. */
    static async start(name) {
        const browser = new Browser();
        await browser.#open(name);
        return browser;
    }

    async #open(name) {
        const words = ['--headless=new', '--remote-debugging-pipe', `--user-data-dir=${this.#profile}`,
            '--no-first-run', '--hide-scrollbars', '--disable-gpu', '--no-sandbox', 'about:blank'];
        this.#process = spawn(name, words, { stdio: ['ignore', 'ignore', 'ignore', 'pipe', 'pipe'] });
        this.#process.once('error', (error) => this.#fail(error));
        this.#process.once('exit', (status) => this.#fail(new Error(`the browser ended with status ${status}`)));
        this.#process.stdio[3].on('error', (error) => this.#fail(error));
        this.#process.stdio[4].setEncoding('utf-8').on('data', (text) => this.#read(text));
        const { targetInfos } = await this.send('Target.getTargets');
        const { targetId } = targetInfos.find(({ type }) => type === 'page');
        this.#session = (await this.send('Target.attachToTarget', { targetId, flatten: true })).sessionId;
        for (const domain of ['Page', 'Runtime', 'Network', 'Log', 'DOM']) {
            await this.send(`${domain}.enable`);
        }
    }

    /** Sends a command, and returns its result. */
    send(method, params = {}) {
        const id = this.#waiting.size + 1;
        const message = JSON.stringify({ id, method, params, sessionId: this.#session });
        this.#process.stdio[3].write(`${message}\0`);
        return new Promise((resolve, reject) => this.#waiting.set(id, { resolve, reject }));
    }

    /** Fails all commands that have no result yet. */
    #fail(error) {
        this.#waiting.forEach(({ reject }) => reject(error));
    }

    #read(text) {
        const messages = `${this.#text}${text}`.split('\0');
        this.#text = messages.pop();
        messages.map(JSON.parse).forEach((message) => this.#take(message));
    }

    #take({ id, result, error, method, params }) {
        if (error) {
            this.#waiting.get(id).reject(new Error(error.message));
        } else if (id) {
            this.#waiting.get(id).resolve(result);
        } else if (method === 'Network.requestWillBeSent') {
            this.requests.push(params.request.url);
        } else if (method === 'Runtime.exceptionThrown') {
            this.errors.push(params.exceptionDetails.exception?.description ?? params.exceptionDetails.text);
        } else if (method === 'Log.entryAdded' && params.entry.level === 'error') {
            this.errors.push(params.entry.text);
        }
    }

    /** Returns the value of an expression in the page. */
    async value(expression) {
        const told = await this.send('Runtime.evaluate', { expression, returnByValue: true, awaitPromise: true });
        if (told.exceptionDetails) {
            throw new Error(told.exceptionDetails.exception.description);
        }
        return told.result.value;
    }

    /** Waits until an expression in the page is true. */
    async until(expression) {
        for (const end = Date.now() + MILLISECONDS; !await this.value(expression); await wait(20)) {
            if (Date.now() > end) {
                throw new Error(`never true: ${expression}`);
            }
        }
    }

    /** Presses a key, with its text if it has one. */
    async press(key, text = '') {
        const codes = { Tab: 9, Enter: 13 };
        const params = { key, code: key, windowsVirtualKeyCode: codes[key] };
        await this.send('Input.dispatchKeyEvent', { type: text ? 'keyDown' : 'rawKeyDown', text, ...params });
        await this.send('Input.dispatchKeyEvent', { type: 'keyUp', ...params });
    }

    /** Ends the browser, and removes its files. */
    async close() {
        const ended = new Promise((resolve) => this.#process.once('exit', resolve));
        this.send('Browser.close').catch(() => {});
        await ended;
        fs.rmSync(this.#profile, { recursive: true, force: true, maxRetries: 5 });
    }
}
