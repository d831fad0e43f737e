/**
 * Prints, as JSON, what the calls return for each file of a folder: the length and the digest of the canonical form,
 * the digest by `hash`, the refusal of `check`, and whether the other calls agree with it.
 *
 * usage: node answers.js FOLDER
 */
import { createHash } from 'node:crypto';
import fs from 'node:fs';
import path from 'node:path';
import { load } from '../index.js';
// This import turns 64-bit memories on.
import './built.js';

const [folder] = process.argv.slice(2);
const nosgrivel = await load();

/** Returns what the calls return for a module. `explain` and `isCanonical` must agree with `check`. */
async function answersOf(bytes) {
    const refusal = nosgrivel.check(bytes);
    const explained = nosgrivel.explain(bytes);
    const agrees = nosgrivel.isCanonical(bytes) === (refusal === null)
        && JSON.stringify(explained) === JSON.stringify(refusal?.malformed ? refusal : null);
    if (refusal?.malformed) {
        return { agrees, refusal };
    }
    const form = nosgrivel.canonicalise(bytes);
    const sha256 = createHash('sha256').update(form).digest('hex');
    return { agrees, refusal, length: form.length, sha256, hash: await nosgrivel.hash(bytes) };
}

const answers = {};
for (const name of fs.readdirSync(folder)) {
    answers[name] = await answersOf(fs.readFileSync(path.join(folder, name)));
}
console.log(JSON.stringify(answers));
