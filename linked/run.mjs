// Prints what `run` of a module answers for some numbers. If example_edit added its trace to the module, checks that as
// many calls were counted as functions were entered, and that `run` is the first, by its name.
import { readFileSync } from "node:fs";

let entered = 0;
let first;
const enter = () => {
    entered += 1;
    first ??= new Error().stack.match(/at (\S+) \(wasm:/)?.[1];
};
const calls = new WebAssembly.Global({ value: "i32", mutable: true }, 0);
const { instance, module } = await WebAssembly.instantiate(readFileSync(process.argv[2]), { trace: { enter, calls } });
for (const number of [0, 1, 2, 7, 100, -1, 2147483647, -2147483648]) {
    console.log(number, instance.exports.run(number));
}
const isTraced = WebAssembly.Module.imports(module).some(({ module: name }) => name === "trace");
if (isTraced && !(first === "run" && entered > 0 && calls.value === entered)) {
    console.log(`${first} was entered first, and ${calls.value} calls of ${entered} were counted`);
}
