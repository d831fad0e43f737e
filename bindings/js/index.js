/**
 * The canonical form of WebAssembly modules: every number, size, type, index and limit has its minimal encoding.
 *
 * The module `nosgrivel.wasm` beside this file does the work, and is proved for all inputs. This file is only tested.
 *
 * Canonicalising moves bytes, so offsets in custom sections become stale: those of relocatable object files (`linking`,
 * `reloc.*`), of debug information (`.debug_*`, `external_debug_info`, `sourceMappingURL`) and of code metadata
 * (`metadata.code.*`). Canonicalise linked modules that need none of these.
 */

/** The names of the reasons, in the order of their codes. The first code means none. */
const REASONS = [
    null, 'unexpected-end', 'number-too-long', 'number-out-of-range', 'invalid-byte', 'invalid-number',
    'unknown-opcode', 'unknown-prefixed-opcode', 'invalid-alignment', 'invalid-utf8', 'trailing-bytes',
    'size-too-large', 'missing-end', 'stray-delimiter', 'unknown-section', 'not-a-module', 'unsupported-version',
    'not-minimal', 'long-form', 'unexplained',
];

/** The names of the parts of the binary format, in the order of their codes. The first code means none. */
const CONSTRUCTS = [
    null, 'byte', 'number', 'u32', 'u64', 's32', 's64', 'type-index', 'constant', 'body', 'name', 'val-type',
    'heap-type', 'ref-type', 'type-form', 'mutability', 'limits', 'memory-flags', 'table', 'tag-attribute',
    'import-kind', 'export-kind', 'opcode', 'block-type', 'clause', 'ordering', 'cast-flags', 'element-form',
    'element-kind', 'data-form', 'section-id', 'subsection-id', 'reserved', 'abstract-heap-type', 'handler-clause',
    'composite-type', 'global-mutability', 'branch-hint', 'feature-prefix', 'linking-version', 'symbol-kind',
    'core-dump-value',
];

/** The names of the sections, in the order of their ids. */
const SECTIONS = [
    'custom', 'type', 'import', 'function', 'table', 'memory', 'global', 'export', 'start', 'element', 'code', 'data',
    'data count', 'tag',
];

/** The statuses of the export `nosgrivel_canonicalise`. */
const CANONICAL = 0;
const MALFORMED = 1;

/** Sizes in bytes: a page of memory, the record of a refusal, and the longest message with its NUL. */
const PAGE_SIZE = 65536;
const RECORD_SIZE = 80;
const MESSAGE_SIZE = 257;

/** A module that only has a 64-bit memory. Engines without such memories reject it. */
const MEMORY64 = Uint8Array.of(0x00, 0x61, 0x73, 0x6D, 0x01, 0x00, 0x00, 0x00, 0x05, 0x03, 0x01, 0x04, 0x00);

/** The error for a module that doesn't decode. `refusal` says why and where. */
export class MalformedModule extends Error {
    constructor(refusal) {
        super(refusal.message);
        this.name = 'MalformedModule';
        this.refusal = refusal;
    }
}

/**
 * Loads `nosgrivel.wasm` from the folder of this file, and returns its calls.
 *
 * Fails if the file can't be read, or as `instantiate`.
 */
export async function load() {
    return instantiate(await read(new URL('./nosgrivel.wasm', import.meta.url)));
}

/**
 * Returns the calls of `nosgrivel.wasm`, given as bytes or as a `WebAssembly.Module`.
 *
 * Fails if the engine has no 64-bit memories, or with the errors of `WebAssembly.instantiate`.
 */
export async function instantiate(source) {
    if (!WebAssembly.validate(MEMORY64)) {
        throw new Error('no 64-bit memories: use a newer engine, or start Node.js with --experimental-wasm-memory64');
    }
    const made = await WebAssembly.instantiate(source);
    return callsOf(new Room((made.instance ?? made).exports));
}

/** Reads a file in Node.js, or fetches it. */
async function read(url) {
    const files = globalThis.process?.getBuiltinModule?.('node:fs/promises');
    if (files && url.protocol === 'file:') {
        return files.readFile(url);
    }
    const response = await fetch(url);
    if (!response.ok) {
        throw new Error(`${url}: expected a file, found HTTP status ${response.status}`);
    }
    return response.arrayBuffer();
}

/** Returns the calls, which need no `this`. */
function callsOf(room) {
    function canonicalise(bytes) {
        if (room.run(bytes) === MALFORMED) {
            throw new MalformedModule(room.refusal());
        }
        return room.canonicalForm();
    }
    function check(bytes) {
        return room.run(bytes) === CANONICAL ? null : room.refusal();
    }
    function explain(bytes) {
        return room.run(bytes) === MALFORMED ? room.refusal() : null;
    }
    function isCanonical(bytes) {
        return room.run(bytes) === CANONICAL;
    }
    async function hash(bytes) {
        return digestOf(canonicalise(bytes));
    }
    return Object.freeze({ canonicalise, check, explain, isCanonical, hash });
}

/** Returns the SHA-256 digest of bytes, in hex. */
async function digestOf(bytes) {
    const subtle = globalThis.crypto?.subtle;
    if (!subtle) {
        throw new Error('no crypto.subtle: browsers have it only for https, localhost and local files');
    }
    const digest = new Uint8Array(await subtle.digest('SHA-256', bytes));
    return Array.from(digest, (byte) => byte.toString(16).padStart(2, '0')).join('');
}

/** Returns a view of all bytes of an input. Fails with `TypeError` if the input has none. */
function bytesOf(input) {
    if (ArrayBuffer.isView(input)) {
        return new Uint8Array(input.buffer, input.byteOffset, input.byteLength);
    }
    // Unlike `instanceof`, this also knows buffers of other realms, such as frames.
    if (Object.prototype.toString.call(input) === '[object ArrayBuffer]') {
        return new Uint8Array(input);
    }
    throw new TypeError(`invalid module: expected a Uint8Array, an ArrayBuffer or a view, found ${kindOf(input)}`);
}

/** Returns what a value is, for messages. */
function kindOf(value) {
    return value === null ? 'null' : value?.constructor?.name ?? typeof value;
}

/** An instance of `nosgrivel.wasm`, whose memory holds, from `__heap_base` on, what the last call left. */
class Room {
    #exports;
    #record;
    #count;
    #message;
    #module;
    #status;

    constructor(exports) {
        this.#exports = exports;
        this.#record = aligned(Number(exports.__heap_base.value));
        this.#count = this.#record + RECORD_SIZE;
        this.#message = this.#count + 16;
        this.#module = aligned(this.#message + MESSAGE_SIZE);
    }

    /** Rewrites a copy of the input as its canonical form, and returns the status. */
    run(input) {
        const bytes = bytesOf(input);
        growTo(this.#exports.memory, this.#module + bytes.length);
        this.#bytes(this.#module, bytes.length).set(bytes);
        const numbers = [this.#module, bytes.length, this.#count, this.#record];
        this.#status = this.#exports.nosgrivel_canonicalise(...numbers.map(BigInt));
        return this.#status;
    }

    /** Returns a copy of the canonical form that the last run wrote. */
    canonicalForm() {
        return this.#bytes(this.#module, Number(this.#view().getBigUint64(this.#count, true))).slice();
    }

    /** Returns why and where the last run refused its input. */
    refusal() {
        const view = this.#view();
        const code = (at) => view.getUint32(this.#record + at, true);
        const number = (at) => Number(view.getBigUint64(this.#record + at, true));
        // In these fields, -1 means none.
        const known = (at) => (view.getBigInt64(this.#record + at, true) < 0n ? null : number(at));
        return Object.freeze({
            malformed: this.#status === MALFORMED,
            reason: REASONS[code(4)] ?? 'unexplained',
            construct: CONSTRUCTS[code(8)] ?? null,
            at: number(16),
            offset: number(24),
            section: placeOf(view.getInt32(this.#record + 12, true), known(32)),
            item: known(40),
            localGroup: known(48),
            instruction: known(56),
            first: number(64),
            second: number(72),
            message: this.#text(),
        });
    }

    /** Returns the text of the record. */
    #text() {
        const numbers = [this.#record, this.#message, MESSAGE_SIZE];
        const length = Number(this.#exports.nosgrivel_message(...numbers.map(BigInt)));
        return String.fromCharCode(...this.#bytes(this.#message, Math.min(length, MESSAGE_SIZE - 1)));
    }

    #bytes(start, length) {
        return new Uint8Array(this.#exports.memory.buffer, start, length);
    }

    #view() {
        return new DataView(this.#exports.memory.buffer);
    }
}

/** Returns the place of a section, or `null` outside of sections. */
function placeOf(id, number) {
    return number === null ? null : Object.freeze({ id, number, name: SECTIONS[id] ?? null });
}

/** Rounds a pointer up to a multiple of 16. */
function aligned(pointer) {
    return Math.ceil(pointer / 16) * 16;
}

/** Grows a memory to so many bytes, if it is shorter. Fails with `RangeError` if the engine has no more memory. */
function growTo(memory, length) {
    const pages = Math.ceil((length - memory.buffer.byteLength) / PAGE_SIZE);
    if (pages <= 0) {
        return;
    }
    try {
        memory.grow(BigInt(pages));
    } catch (error) {
        // Older engines take a number.
        if (!(error instanceof TypeError)) {
            throw error;
        }
        memory.grow(pages);
    }
}
