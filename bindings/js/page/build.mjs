/**
 * Writes the page as one file that works offline, with the script and nosgrivel.wasm inside.
 *
 * usage: node build.mjs [OUTPUT]
 *
 * OUTPUT is by default the file nosgrivel.html beside this one.
 */
import fs from 'node:fs';
import { fileURLToPath } from 'node:url';

const HERE = new URL('./', import.meta.url);
const WASM = new URL('../nosgrivel.wasm', HERE);
const IMPORT = /^import .* from '\.\.\/index\.js';\n/m;

function textOf(file) {
    return fs.readFileSync(new URL(file, HERE), 'utf-8');
}

/** Returns the script of the page after that of the package, from which it imports. */
function script() {
    const whole = `${textOf('../index.js')}\n${textOf('page.js').replace(IMPORT, '')}`;
    if (/<\/script|<!--/i.test(whole)) {
        throw new Error('index.js or page.js has a mark that ends a script in HTML');
    }
    return whole;
}

/** Returns the page with each `{{name}}` replaced. */
export function page() {
    const parts = {
        version: JSON.parse(textOf('../package.json')).version,
        wasm: fs.readFileSync(WASM).toString('base64'),
        script: script(),
    };
    return textOf('index.html').replace(/\{\{(\w+)\}\}/g, (_, name) => parts[name]);
}

if (process.argv[1] === fileURLToPath(import.meta.url)) {
    if (!fs.existsSync(WASM)) {
        console.error('error: nosgrivel.wasm not found: run scripts/wasm-module bindings/js');
        process.exit(1);
    }
    fs.writeFileSync(process.argv[2] ?? new URL('nosgrivel.html', HERE), page());
}
