/** Tests each call of the package over the built module. The rows are worked out by hand from the binary format. */
import assert from 'node:assert/strict';
import { execFileSync } from 'node:child_process';
import { createHash } from 'node:crypto';
import fs from 'node:fs';
import { before, describe, test } from 'node:test';
import { runInNewContext } from 'node:vm';
import { instantiate, load, MalformedModule } from '../index.js';
import { BROKEN, CANONICAL, HAS_MEMORY64, INDEX, moduleOf, PADDED, SKIPPED, WASM } from './built.js';

/**
 * Malformed modules with the fields of their refusals: the section's number and id, `at`, `offset`, the item, the group
 * of locals, the instruction, the reason, the part, and two numbers. After them comes the message.
 */
const REFUSED = [
    [new Uint8Array(), [null, null, 0, 0, null, null, null, 'not-a-module', null, 0, 0],
        'offset 0x0: not a WebAssembly module: expected the header 00 61 73 6D 01 00 00 00, found no bytes'],
    [new TextEncoder().encode('(module)'), [null, null, 0, 0, null, null, null, 'not-a-module', null, 0x646F6D28, 8],
        'offset 0x0: not a WebAssembly module: expected the header 00 61 73 6D 01 00 00 00, found the text format'],
    [moduleOf(0x0E, 0x00), [0, 14, 8, 8, null, null, null, 'unknown-section', null, 14, 0],
        'section 0, offset 0x8: unknown section id 14'],
    // The size 9 at 9, and one byte after it.
    [BROKEN, [0, 8, 8, 9, null, null, null, 'size-too-large', null, 9, 1],
        'start section, offset 0x9: size 9 too large: 1 byte left'],
    // The parameter has an unknown type. The section is the second one, after a custom section of 3 bytes.
    [moduleOf(0x00, 0x01, 0x00, 0x01, 0x04, 0x01, 0x60, 0x01, 0x40),
        [1, 1, 11, 16, 0, null, null, 'invalid-byte', 'val-type', 0x40, 0],
        'type section, type 0, offset 0x10: invalid value type 0x40'],
    // One group of locals, of an unknown type.
    [moduleOf(0x0A, 0x06, 0x01, 0x04, 0x01, 0x01, 0x40, 0x0B),
        [0, 10, 8, 14, 0, 0, null, 'invalid-byte', 'val-type', 0x40, 0],
        'code section, function 0, local group 0, offset 0xe: invalid value type 0x40'],
    // A `nop`, and an unknown number after the prefix 0xFD.
    [moduleOf(0x0A, 0x08, 0x01, 0x06, 0x00, 0x01, 0xFD, 0x9A, 0x02, 0x0B),
        [0, 10, 8, 14, 0, null, 14, 'unknown-prefixed-opcode', null, 0xFD, 282],
        'code section, function 0, offset 0xe: unknown opcode 0xFD 0x11A'],
];

/** Returns a refusal with these fields. */
function refusalOf(fields, message, malformed = true) {
    const [number, id, at, offset, item, localGroup, instruction, reason, construct, first, second] = fields;
    const names = { 1: 'type', 8: 'start', 10: 'code' };
    const section = number === null ? null : { id, number, name: names[id] ?? null };
    return { malformed, reason, construct, at, offset, section, item, localGroup, instruction, first, second, message };
}

describe('the calls', { skip: SKIPPED }, () => {
    let nosgrivel;
    before(async () => {
        nosgrivel = await load();
    });

    test('a canonical module', async () => {
        assert.deepEqual(nosgrivel.canonicalise(CANONICAL), CANONICAL);
        assert.equal(nosgrivel.isCanonical(CANONICAL), true);
        assert.equal(nosgrivel.check(CANONICAL), null);
        assert.equal(nosgrivel.explain(CANONICAL), null);
    });

    test('a padded module', () => {
        assert.deepEqual(nosgrivel.canonicalise(PADDED), CANONICAL);
        assert.equal(nosgrivel.isCanonical(PADDED), false);
        assert.equal(nosgrivel.explain(PADDED), null);
        const fields = [0, 8, 8, 9, null, null, null, 'not-minimal', null, 2, 1];
        const message = 'start section, offset 0x9: not minimally encoded: 2 bytes, minimal is 1';
        assert.deepEqual(nosgrivel.check(PADDED), refusalOf(fields, message, false));
    });

    for (const [bytes, fields, message] of REFUSED) {
        test(`refused: ${message}`, () => {
            const expected = refusalOf(fields, message);
            assert.deepEqual(nosgrivel.explain(bytes), expected);
            assert.deepEqual(nosgrivel.check(bytes), expected);
            assert.equal(nosgrivel.isCanonical(bytes), false);
            assert.throws(() => nosgrivel.canonicalise(bytes), (error) => {
                assert.ok(error instanceof MalformedModule && error instanceof Error);
                assert.equal(`${error}`, `MalformedModule: ${message}`);
                assert.deepEqual(error.refusal, expected);
                return true;
            });
        });
    }

    test('the refusal of a malformed module after a padded part', () => {
        const bytes = moduleOf(...PADDED.subarray(8), ...BROKEN.subarray(8));
        assert.equal(nosgrivel.check(bytes).reason, 'size-too-large');
        assert.equal(nosgrivel.check(bytes).at, 12);
    });

    test('refusals are frozen', () => {
        const refusal = nosgrivel.explain(BROKEN);
        assert.ok(Object.isFrozen(refusal) && Object.isFrozen(refusal.section));
    });

    test('the digest', async () => {
        const expected = createHash('sha256').update(CANONICAL).digest('hex');
        assert.equal(await nosgrivel.hash(PADDED), expected);
        assert.equal(await nosgrivel.hash(CANONICAL), expected);
        await assert.rejects(nosgrivel.hash(BROKEN), MalformedModule);
        await assert.rejects(nosgrivel.hash('bytes'), TypeError);
    });

    test('buffers and views, also of another realm', () => {
        const around = Uint8Array.of(0xFF, ...PADDED, 0xFF);
        const shared = new Uint8Array(new SharedArrayBuffer(PADDED.length));
        shared.set(PADDED);
        const inputs = [PADDED.slice().buffer, new DataView(around.buffer, 1, PADDED.length), Buffer.from(PADDED),
            new Int16Array(PADDED.slice().buffer), shared, runInNewContext(`Uint8Array.of(${PADDED})`),
            runInNewContext(`Uint8Array.of(${PADDED}).buffer`)];
        for (const input of inputs) {
            assert.deepEqual(nosgrivel.canonicalise(input), CANONICAL);
        }
    });

    test('other values', () => {
        for (const value of [undefined, null, 'bytes', 8, [...PADDED], { length: 8 }]) {
            for (const call of ['canonicalise', 'check', 'explain', 'isCanonical']) {
                assert.throws(() => nosgrivel[call](value), TypeError);
            }
        }
    });

    test('the input never changes, and the results are its own', () => {
        const bytes = PADDED.slice();
        const first = nosgrivel.canonicalise(bytes);
        const second = nosgrivel.canonicalise(bytes);
        first.fill(0xFF);
        assert.deepEqual(bytes, PADDED);
        assert.deepEqual(second, CANONICAL);
        assert.equal(second.buffer.byteLength, CANONICAL.length);
    });

    test('the memory grows', () => {
        const size = 20_000_000;
        const name = [0x01, 0x61];
        // The size of a custom section in five bytes, and in four.
        const digits = [0, 7, 14, 21].map((shift) => 0x80 | (size >> shift) & 0x7F);
        const bytes = new Uint8Array(14 + size).fill(0x55);
        bytes.set(moduleOf(0x00, ...digits, 0x00, ...name));
        const form = nosgrivel.canonicalise(bytes);
        assert.equal(form.length, bytes.length - 1);
        assert.deepEqual(form.subarray(0, 15), moduleOf(0x00, ...digits.slice(0, 3), digits[3] & 0x7F, ...name));
        assert.ok(form.subarray(15).every((byte) => byte === 0x55));
        assert.deepEqual(nosgrivel.canonicalise(PADDED), CANONICAL);
    });

    test('calls need no `this`', () => {
        const { canonicalise, isCanonical } = nosgrivel;
        assert.ok(isCanonical(canonicalise(PADDED)));
    });

    test('instances of bytes and of a module', async () => {
        const bytes = fs.readFileSync(WASM);
        for (const source of [bytes, new Uint8Array(bytes).buffer, new WebAssembly.Module(bytes)]) {
            const other = await instantiate(source);
            assert.deepEqual(other.canonicalise(PADDED), CANONICAL);
        }
        await assert.rejects(instantiate('bytes'), TypeError);
        await assert.rejects(instantiate(PADDED), WebAssembly.CompileError);
    });

    test('the module imports nothing', () => {
        assert.deepEqual(WebAssembly.Module.imports(new WebAssembly.Module(fs.readFileSync(WASM))), []);
    });
});

test('an engine without 64-bit memories', { skip: HAS_MEMORY64 && 'this Node.js has them without a flag' }, () => {
    const source = `import { load } from ${JSON.stringify(INDEX.href)};
        globalThis.process.getBuiltinModule('node:fs/promises').readFile = async () => new Uint8Array();
        await load().catch((error) => console.log(error.message));`;
    const told = execFileSync(process.execPath, ['--input-type=module', '-e', source], { encoding: 'utf-8' });
    assert.match(told, /^no 64-bit memories: .*--experimental-wasm-memory64\n$/);
});
