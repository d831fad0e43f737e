/**
 * Tests the built page in a headless Chromium.
 *
 * usage: node --test page.test.mjs
 *        node page.test.mjs --screenshot FOLDER   also writes pictures of the page
 */
import assert from 'node:assert/strict';
import { createHash } from 'node:crypto';
import fs from 'node:fs';
import http from 'node:http';
import os from 'node:os';
import path from 'node:path';
import { after, before, describe, test } from 'node:test';
import { pathToFileURL } from 'node:url';
import { BROKEN, CANONICAL, moduleOf, PADDED, SKIPPED } from '../test/built.js';
import { Browser, findBrowser } from './browser.mjs';
import { page } from './build.mjs';

const NAME = findBrowser();
const SKIP = SKIPPED || (NAME ? false : 'chromium not found');
const [, PICTURES] = process.argv.slice(process.argv.indexOf('--screenshot')).slice(0, 2);
const HAS_PICTURES = process.argv.includes('--screenshot');
/** A module with sections of debug information and of names. The size of its start section has two bytes. */
const STALE = moduleOf(0x08, 0x81, 0x00, 0x05, ...custom('.debug_info', 40), ...custom('name', 12));
const FILES = { 'good.wasm': CANONICAL, 'padded.wasm': PADDED, 'broken.wasm': BROKEN, empty: new Uint8Array(),
    'stale.wasm': STALE };

/** Returns a custom section of this name, with so many bytes after the name. */
function custom(name, count) {
    const bytes = new TextEncoder().encode(name);
    return [0x00, 1 + bytes.length + count, bytes.length, ...bytes, ...new Array(count).fill(0)];
}

/** Returns a server of an empty page, of the package, and of the package without the built module. */
function serve() {
    return http.createServer(({ url }, response) => {
        const name = url === '/' ? '' : path.basename(url);
        if (url === '/without/nosgrivel.wasm' || !['', 'index.js', 'nosgrivel.wasm'].includes(name)) {
            response.writeHead(404).end();
            return;
        }
        response.setHeader('Content-Type', name === 'index.js' ? 'text/javascript' : 'text/html');
        response.end(name ? fs.readFileSync(new URL(`../${name}`, import.meta.url)) : '<!DOCTYPE html>');
    });
}

function digestOf(bytes) {
    return createHash('sha256').update(bytes).digest('hex');
}

describe('the page', { skip: SKIP }, () => {
    const room = fs.mkdtempSync(path.join(os.tmpdir(), 'nosgrivel-page-'));
    const file = path.join(room, 'nosgrivel.html');
    let browser;
    before(async () => {
        fs.writeFileSync(file, page());
        for (const [name, bytes] of Object.entries(FILES)) {
            fs.writeFileSync(path.join(room, name), bytes);
        }
        browser = await Browser.start(NAME);
        await browser.send('Browser.setDownloadBehavior', { behavior: 'allow', downloadPath: room });
        await browser.send('Page.navigate', { url: pathToFileURL(file).href });
        await browser.until(`document.readyState === 'complete' && location.protocol === 'file:'`);
    });
    after(async () => {
        await browser?.close();
        fs.rmSync(room, { recursive: true });
    });

    /** Waits until the page shows a file. Returns the verdict, and the visible texts by the ids of their elements. */
    async function shown(name) {
        await browser.until(`document.getElementById('name').textContent === ${JSON.stringify(name)}
            && document.getElementById('result').getAttribute('aria-busy') === 'false'`);
        return browser.value(`({
            ...Object.fromEntries(Array.from(document.querySelectorAll('#result [id]'))
                .map((it) => [it.id, it.checkVisibility() ? it.innerText.trim() : ''])),
            verdict: document.getElementById('verdict').dataset.verdict,
            rows: Array.from(document.querySelectorAll('#rows tr')).map((row) => [row.hasAttribute('data-refused'),
                ...Array.from(row.cells).slice(0, 3).map((cell) => cell.textContent),
                row.querySelectorAll('.bar').length]),
        })`);
    }

    /** Chooses a file, and returns what the page shows. */
    async function choose(name) {
        const { result } = await browser.send('Runtime.evaluate', { expression: `document.getElementById('file')` });
        await browser.send('DOM.setFileInputFiles', { files: [path.join(room, name)], objectId: result.objectId });
        return shown(name);
    }

    /** Drops a file on the page, and returns what the page shows. */
    async function drop(name, bytes) {
        await browser.value(`{
            const dataTransfer = new DataTransfer();
            dataTransfer.items.add(new File([Uint8Array.of(${bytes})], ${JSON.stringify(name)}));
            document.body.dispatchEvent(new DragEvent('drop', { dataTransfer, bubbles: true, cancelable: true }));
        }`);
        return shown(name);
    }

    test('a canonical module', async () => {
        const it = await choose('good.wasm');
        assert.equal(it.verdict, 'canonical');
        assert.equal(it['verdict-title'], 'Canonical');
        assert.equal(it.offset, '');
        assert.equal(it.before, '11 bytes');
        assert.equal(it.after, '11 bytes');
        assert.equal(it.digest, digestOf(CANONICAL));
        assert.deepEqual(it.rows, [[false, 'start', '3', '3', 2]]);
    });

    test('a padded module', async () => {
        const it = await choose('padded.wasm');
        assert.equal(it.verdict, 'longer');
        assert.match(it['verdict-title'], /^Not canonical: the first part/);
        assert.equal(it.message, 'start section, offset 0x9: not minimally encoded: 2 bytes, minimal is 1');
        assert.equal(it.offset, '0x9 (9)');
        assert.equal(it.before, '12 bytes');
        assert.equal(it.after, '11 bytes, 1 byte less (8.3 %)');
        assert.equal(it.digest, digestOf(CANONICAL));
        assert.equal(it.stale, '');
        assert.deepEqual(it.rows, [[true, 'start', '4', '3', 2]]);
    });

    test('the canonical form is saved by the keyboard', async () => {
        await choose('padded.wasm');
        await browser.value(`document.getElementById('file').focus()`);
        await browser.press('Tab');
        assert.equal(await browser.value('document.activeElement.id'), 'save');
        await browser.press('Enter', '\r');
        const written = path.join(room, 'padded.canonical.wasm');
        for (let round = 0; round < 500 && !fs.existsSync(written); round += 1) {
            await new Promise((resolve) => setTimeout(resolve, 20));
        }
        assert.deepEqual(new Uint8Array(fs.readFileSync(written)), CANONICAL);
    });

    test('a malformed module', async () => {
        const it = await choose('broken.wasm');
        assert.equal(it.verdict, 'malformed');
        assert.equal(it['verdict-title'], 'Malformed');
        assert.equal(it.message, 'start section, offset 0x9: size 9 too large: 1 byte left');
        assert.equal(it.offset, '0x9 (9)');
        assert.equal(it.before, '11 bytes');
        assert.deepEqual([it.after, it.digest, it.save, it.stale], ['', '', '', '']);
        assert.deepEqual(it.rows, [[true, 'start', '3', '–', 1]]);
    });

    test('an empty file', async () => {
        const it = await choose('empty');
        assert.equal(it.verdict, 'malformed');
        assert.match(it.message, /^offset 0x0: not a WebAssembly module/);
        assert.equal(it.before, '0 bytes');
        assert.deepEqual([it.sections, it.save, it.rows], ['', '', []]);
    });

    test('sections whose offsets become stale', async () => {
        const it = await choose('stale.wasm');
        assert.match(it.stale, /stale: \.debug_info$/);
        assert.deepEqual(it.rows.map(([, name]) => name), ['start', '.debug_info', 'name']);
    });

    test('a dropped module', async () => {
        const it = await drop('dropped.wasm', PADDED);
        assert.equal(it.verdict, 'longer');
        assert.equal(it.digest, digestOf(CANONICAL));
    });

    test('a name in marks of HTML', async () => {
        const it = await drop('<b>&amp;.wasm', PADDED);
        assert.equal(it.name, '<b>&amp;.wasm');
    });

    for (const scheme of ['light', 'dark']) {
        for (const width of [400, 1200]) {
            test(`a window of ${width} pixels, ${scheme}`, async () => {
                const metrics = { width, height: 900, deviceScaleFactor: 1, mobile: false };
                await browser.send('Emulation.setDeviceMetricsOverride', metrics);
                const features = [{ name: 'prefers-color-scheme', value: scheme }];
                await browser.send('Emulation.setEmulatedMedia', { features });
                for (const name of Object.keys(FILES)) {
                    await choose(name);
                    const over = await browser.value('document.documentElement.scrollWidth - innerWidth');
                    assert.ok(over <= 0, `${name}: ${over} pixels too wide`);
                    await picture(`${name.split('.')[0]}-${width}-${scheme}`);
                }
            });
        }
    }

    /** Writes a picture of the page, if the command line asks for it. */
    async function picture(name) {
        if (HAS_PICTURES) {
            fs.mkdirSync(PICTURES, { recursive: true });
            const { data } = await browser.send('Page.captureScreenshot', { captureBeyondViewport: true });
            fs.writeFileSync(path.join(PICTURES, `${name}.png`), Buffer.from(data, 'base64'));
        }
    }

    test('the page requests nothing else', () => {
        const own = pathToFileURL(file).href;
        const others = browser.requests.filter((url) => !/^(blob:|data:)/.test(url) && url !== own);
        assert.deepEqual(others, []);
        assert.deepEqual(browser.errors, []);
    });

    test('the package in a browser', async () => {
        const server = serve().listen(0, 'localhost');
        await new Promise((resolve) => server.once('listening', resolve));
        await browser.send('Page.navigate', { url: `http://localhost:${server.address().port}/` });
        await browser.until(`document.readyState === 'complete' && location.protocol === 'http:'`);
        const told = await browser.value(`(async () => {
            const { load } = await import('/package/index.js');
            const { canonicalise, hash } = await load();
            const other = await import('/without/index.js');
            const error = await other.load().catch(({ message }) => message);
            const bytes = Uint8Array.of(${PADDED});
            return { form: [...canonicalise(bytes)], hash: await hash(bytes), error };
        })()`);
        server.close();
        server.closeAllConnections();
        assert.deepEqual(told.form, [...CANONICAL]);
        assert.equal(told.hash, digestOf(CANONICAL));
        assert.match(told.error, /\/without\/nosgrivel\.wasm: expected a file, found HTTP status 404$/);
    });
});
