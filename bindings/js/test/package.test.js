/** Compares the package with the version of the repository, the C header and the types, and runs the README. */
import assert from 'node:assert/strict';
import fs from 'node:fs';
import { test } from 'node:test';
import { INDEX, SKIPPED } from './built.js';

const HERE = new URL('../', import.meta.url);
const REPOSITORY = new URL('../../', HERE);

function textOf(file, folder = HERE) {
    return fs.readFileSync(new URL(file, folder), 'utf-8');
}

/** Returns the names in quotes between two marks of a text. */
function namesIn(text, start, end) {
    const part = text.slice(text.indexOf(start)).split(end)[0];
    return Array.from(part.matchAll(/'([a-z0-9-]+)'/g), ([, name]) => name);
}

/** Returns the members of an enum of the C header, in kebab-case and in the order of their numbers from 1 on. */
function membersOf(header, kind, prefix) {
    const text = header.slice(header.indexOf(`enum nosgrivel_${kind} {`)).split('};')[0];
    const found = Array.from(text.matchAll(/NOSGRIVEL_(\w+) = (\d+)/g), ([, name, number]) => [Number(number), name]);
    const members = found.filter(([number]) => number > 0).sort(([one], [other]) => one - other);
    assert.deepEqual(members.map(([number]) => number), members.map((_, index) => index + 1));
    return members.map(([, name]) => name.slice(prefix.length).toLowerCase().replaceAll('_', '-'));
}

test('the version', () => {
    assert.equal(JSON.parse(textOf('package.json')).version, textOf('VERSION', REPOSITORY).trim());
});

test('the files of the package', () => {
    for (const file of JSON.parse(textOf('package.json')).files) {
        assert.ok(file === 'nosgrivel.wasm' || fs.existsSync(new URL(file, HERE)), file);
    }
});

test('the names of reasons and parts', () => {
    const header = textOf('bindings/c/nosgrivel.h', REPOSITORY);
    const [script, types] = [textOf('index.js'), textOf('index.d.ts')];
    for (const [kind, list, union, prefix] of [['reason', 'REASONS', 'Reason', ''],
        ['construct', 'CONSTRUCTS', 'Construct', 'CONSTRUCT_']]) {
        const members = membersOf(header, kind, prefix);
        assert.ok(members.length > 10);
        assert.deepEqual(namesIn(script, `const ${list} = [`, '];'), members);
        assert.deepEqual(namesIn(types, `type ${union} =`, ';\n'), members);
    }
});

test('the examples of the README', { skip: SKIPPED }, async () => {
    const blocks = Array.from(textOf('README.md').matchAll(/```js\n(.*?)```/gs), ([, code]) => code);
    assert.ok(blocks.length > 0);
    const code = blocks.join('').replaceAll("'nosgrivel'", JSON.stringify(INDEX.href));
    await import(`data:text/javascript,${encodeURIComponent(code)}`);
});
