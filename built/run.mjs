// Runs a module of this folder and checks what it computes: run.mjs NAME FILE. The status is 3 where node doesn't know an
// instruction of it.
import assert from "node:assert/strict";
import { readFileSync } from "node:fs";

// What every_section imports. The function keeps what it is given; it throws the tag below 0, and another error at 7.
function environment() {
    const noted = [];
    const foreign = new WebAssembly.Tag({ parameters: ["i32"] });
    const note = (value) => {
        noted.push(value);
        if (value < 0) throw new WebAssembly.Exception(foreign, [value]);
        if (value === 7) throw new Error("seven");
    };
    const callbacks = new WebAssembly.Table({ initial: 4, maximum: 10, element: "anyfunc" });
    const calls = new WebAssembly.Global({ value: "i32", mutable: true }, 41);
    return { noted, env: { note, callbacks, base: 3, calls, foreign } };
}

// The call throws this tag with this value.
function throws(call, tag, value) {
    assert.throws(call, (thrown) => thrown.is(tag) && thrown.getArg(tag, 0) === value);
}

// What is imported or exported, in whichever order.
const kinds = (list) => list.map(({ name, kind }) => `${kind} ${name}`).sort().join(", ");

const checks = {
    every_section(module) {
        assert.equal(
            kinds(WebAssembly.Module.imports(module)),
            "function note, global base, global calls, table callbacks, tag foreign",
        );
        assert.equal(
            kinds(WebAssembly.Module.exports(module)),
            "function apply, function attempt, function checked, function reference, function sums, " +
                "global limit, global state, memory memory, table operations, tag negative",
        );
        const { noted, env } = environment();
        const it = new WebAssembly.Instance(module, { env }).exports;
        // The start function ran once.
        assert.deepEqual(noted, [624485]);
        assert.equal(env.calls.value, 42);
        // Globals.
        assert.equal(it.limit.value, 624485);
        assert.equal(it.state.value, -(2n ** 63n));
        assert.equal(it.sums(), 0.5 + 10 + 1 + 300);
        assert.equal(it.state.value, -(2n ** 63n) + 1n);
        // Data segments: active at 16 and at the imported 3, and the passive one, which the start function copied to 64.
        const memory = new Uint8Array(it.memory.buffer);
        const text = (from, to) => new TextDecoder().decode(memory.slice(from, to));
        assert.equal(memory.length, 65536);
        assert.deepEqual([...memory.slice(2, 7)], [0, 0, 255, 128, 0]);
        assert.deepEqual([text(16, 21), text(64, 69)], ["hello", "later"]);
        assert.equal(it.memory.grow(3), 1);
        assert.throws(() => it.memory.grow(1), RangeError);
        // Tables and element segments.
        assert.equal(env.callbacks.get(3)(21), 42);
        assert.equal(env.callbacks.get(1)(-9), 81);
        assert.equal(env.callbacks.get(2), null);
        assert.deepEqual([it.apply(0, 21), it.apply(1, 9), it.apply(2, 5)], [42, 81, 10]);
        assert.throws(() => it.apply(3, 5), WebAssembly.RuntimeError);
        assert.equal(it.reference(), it.apply);
        // Tags, thrown and caught in the module, thrown out of it, and caught in it.
        assert.equal(it.apply(2, -5), 995);
        throws(() => it.checked(-6), it.negative, -6);
        assert.deepEqual([it.attempt(5), it.attempt(-8), it.attempt(7)], [0, -8, -1]);
        assert.deepEqual(noted, [624485, 5, -8, 7]);
    },

    passive_elements(module) {
        const it = new WebAssembly.Instance(module, {}).exports;
        assert.equal(it.operations.get(0), null);
        assert.deepEqual([it.apply(1, 21), it.apply(2, 9), it.apply(3, 8)], [42, 81, 16]);
        // The segment is gone.
        assert.throws(() => it.again(), WebAssembly.RuntimeError);
        const kept = {};
        assert.equal(it.keep(kept), kept);
    },

    try_table(module) {
        const it = new WebAssembly.Instance(module, {}).exports;
        assert.deepEqual([it.catch(21), it.catch(-5), it.catch_all(9)], [42, 995, 9]);
        throws(() => it.catch_ref(7), it.negative, 7);
        throws(() => it.catch_all_ref(8), it.negative, 8);
    },
};

// A function that has an empty try_table.
const handling = "0061736D01000000010401600000030201000A080106001F40000B0B";

const [name, file] = process.argv.slice(2);
if (name === "try_table" && !WebAssembly.validate(Buffer.from(handling, "hex"))) {
    process.exit(3);
}
checks[name](new WebAssembly.Module(readFileSync(file)));
