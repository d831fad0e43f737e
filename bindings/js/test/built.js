/** What the tests share: the built module, bytes of small modules, and why tests are skipped. */
import fs from 'node:fs';
import v8 from 'node:v8';

/** The built module, and the package's entry. */
export const WASM = new URL('../nosgrivel.wasm', import.meta.url);
export const INDEX = new URL('../index.js', import.meta.url);

/** Whether this engine has 64-bit memories without a flag. */
export const HAS_MEMORY64 = hasMemory64();
if (!HAS_MEMORY64) {
    v8.setFlagsFromString('--experimental-wasm-memory64');
}

/** Why the tests of the module can't run, or `false`. */
export const SKIPPED = whySkipped();

/** Returns a module that consists of the header and these bytes. */
export function moduleOf(...bytes) {
    return Uint8Array.of(0x00, 0x61, 0x73, 0x6D, 0x01, 0x00, 0x00, 0x00, ...bytes);
}

/** A start section: its size 1 is in two bytes. */
export const PADDED = moduleOf(0x08, 0x81, 0x00, 0x05);
/** Its canonical form. */
export const CANONICAL = moduleOf(0x08, 0x01, 0x05);
/** A start section whose size is larger than the rest of the module. */
export const BROKEN = moduleOf(0x08, 0x09, 0x05);

function whySkipped() {
    if (!hasMemory64()) {
        return 'this Node.js has no 64-bit memories';
    }
    return fs.existsSync(WASM) ? false : 'nosgrivel.wasm not found: run scripts/wasm-module bindings/js';
}

function hasMemory64() {
    return WebAssembly.validate(moduleOf(0x05, 0x03, 0x01, 0x04, 0x00));
}
