/** The page: shows the module that the reader drops or chooses, and saves its canonical form. */
import { instantiate } from '../index.js';

/** The custom sections whose offsets become stale when bytes move. */
const KEEPS_OFFSETS = /^(linking|reloc\..*|\.debug_.*|external_debug_info|sourceMappingURL|metadata\.code\..*)$/;

/** The names of the sections in a list, by their ids. */
const KINDS = ['custom', 'type', 'import', 'function', 'table', 'memory', 'global', 'export', 'start', 'element',
    'code', 'data', 'data count', 'tag'];

const element = (id) => document.getElementById(id);

/** The file that `save` writes: its name and its bytes. */
let saved = null;
/** Counts the files that were chosen, because a slow one may end after the next one. */
let turn = 0;
/** The calls of the module in this page. */
const started = start();

function start() {
    const bytes = Uint8Array.from(atob(element('wasm').textContent), (character) => character.charCodeAt(0));
    return instantiate(bytes);
}

/** Reads a number in LEB128 and returns it with the offset of its end, or `null` if it is cut or too long. */
function readNumber(bytes, at) {
    let value = 0;
    for (let index = 0; index < 5 && at + index < bytes.length; index += 1) {
        value += (bytes[at + index] & 0x7F) * 2 ** (7 * index);
        if (bytes[at + index] < 0x80) {
            return { value, end: at + index + 1 };
        }
    }
    return null;
}

/** Returns the sections of a module that begin before the offset `end`: the name and the size of each. */
function sectionsOf(bytes, end) {
    const sections = [];
    for (let at = 8; at < end;) {
        const size = readNumber(bytes, at + 1);
        const next = size === null ? bytes.length : Math.min(size.end + size.value, bytes.length);
        sections.push({ size: next - at, name: nameOf(bytes, at, size?.end ?? next, next) });
        at = next;
    }
    return sections;
}

/** Returns the name of a section. For a custom section, that is the name in its body. */
function nameOf(bytes, at, body, end) {
    const length = bytes[at] === 0 ? readNumber(bytes, body) : null;
    if (length === null || length.end + length.value > end) {
        return KINDS[bytes[at]] ?? `unknown id ${bytes[at]}`;
    }
    return new TextDecoder().decode(bytes.subarray(length.end, length.end + length.value));
}

/** Shows a file, and keeps its canonical form for `save`. */
async function show(file) {
    turn += 1;
    const mine = turn;
    saved = null;
    element('result').hidden = false;
    element('result').setAttribute('aria-busy', 'true');
    let shown;
    try {
        shown = await resultOf(new Uint8Array(await file.arrayBuffer()));
    } catch (error) {
        shown = { verdict: 'failed', title: 'Failed', message: error.message, before: [], after: [], stale: [] };
    }
    if (mine === turn) {
        showResult(file.name, shown);
        element('result').setAttribute('aria-busy', 'false');
    }
}

/** Returns what the page shows of a module. */
async function resultOf(bytes) {
    const nosgrivel = await started;
    const refusal = nosgrivel.check(bytes);
    // Sections after the one that is malformed aren't shown.
    const end = refusal?.malformed ? Math.min(refusal.at + 1, bytes.length) : bytes.length;
    const result = { ...verdictOf(refusal), refusal, size: bytes.length, before: sectionsOf(bytes, end), after: [] };
    if (refusal?.malformed) {
        return { ...result, stale: [] };
    }
    const form = nosgrivel.canonicalise(bytes);
    const after = sectionsOf(form, form.length);
    const stale = refusal ? after.map(({ name }) => name).filter((name) => KEEPS_OFFSETS.test(name)) : [];
    const digest = await nosgrivel.hash(bytes).catch((error) => error.message);
    return { ...result, form, after, stale, digest };
}

/** Returns the verdict in words. */
function verdictOf(refusal) {
    if (refusal === null) {
        return { verdict: 'canonical', title: 'Canonical', message: 'Every part is minimally encoded' };
    }
    const { malformed, message } = refusal;
    return malformed ? { verdict: 'malformed', title: 'Malformed', message }
        : { verdict: 'longer', title: 'Not canonical: the first part that isn’t minimally encoded', message };
}

function showResult(name, result) {
    const { verdict, title, message, refusal, size, form, digest } = result;
    element('name').textContent = name;
    element('verdict').dataset.verdict = verdict;
    element('verdict-title').textContent = title;
    element('message').textContent = message;
    showFact('offset', refusal ? `0x${refusal.offset.toString(16)} (${amount(refusal.offset)})` : '');
    showFact('before', size === undefined ? '' : counted(size));
    showFact('after', form ? counted(form.length) + savings(size, form.length) : '');
    showFact('digest', digest ?? '');
    const stale = [...new Set(result.stale)].join(', ');
    element('stale').textContent = `Offsets in these custom sections of the canonical form are stale: ${stale}`;
    element('stale').hidden = stale === '';
    element('save').hidden = !form;
    saved = form ? { name: name.replace(/(\.wasm)?$/, '.canonical.wasm'), bytes: form } : null;
    showSections(result);
}

/** Shows a fact, or hides it if it is empty. */
function showFact(id, text) {
    element(id).textContent = text;
    element(id).hidden = text === '';
    element(id).previousElementSibling.hidden = text === '';
}

function showSections({ before, after, refusal }) {
    const largest = before.reduce((most, { size }) => Math.max(most, size), 1);
    const rows = before.map(({ name, size }, index) => {
        const row = document.createElement('tr');
        const other = after[index]?.size;
        row.append(cell('th', name), cell('td', amount(size), 'size'));
        row.firstChild.scope = 'row';
        row.append(cell('td', other ? amount(other) : '–', 'size'), bars(other ? [size, other] : [size], largest));
        row.toggleAttribute('data-refused', refusal?.section?.number === index);
        return row;
    });
    element('rows').replaceChildren(...rows);
    element('sections').hidden = rows.length === 0;
}

function cell(kind, text, name = '') {
    const made = document.createElement(kind);
    made.textContent = text;
    made.className = name;
    return made;
}

/** Returns a cell with a bar for each size. The cells before it have the sizes as text. */
function bars(sizes, largest) {
    const made = cell('td', '', 'bars');
    made.setAttribute('aria-hidden', 'true');
    for (const size of sizes) {
        const bar = document.createElement('div');
        bar.className = 'bar';
        bar.style.setProperty('--share', `${100 * size / largest}%`);
        made.append(bar);
    }
    return made;
}

function amount(number) {
    return number.toLocaleString('en');
}

function counted(number) {
    return `${amount(number)} ${number === 1 ? 'byte' : 'bytes'}`;
}

/** Returns how much shorter the canonical form is. */
function savings(before, after) {
    const percent = (100 * (before - after) / before).toFixed(1);
    return before === after ? '' : `, ${counted(before - after)} less (${percent} %)`;
}

function save() {
    const link = document.createElement('a');
    link.href = URL.createObjectURL(new Blob([saved.bytes], { type: 'application/wasm' }));
    link.download = saved.name;
    link.click();
    setTimeout(() => URL.revokeObjectURL(link.href), 60_000);
}

/** Takes files that are dropped anywhere on the page. */
function takeDrops() {
    const mark = (isOver) => (event) => {
        event.preventDefault();
        element('drop').classList.toggle('over', isOver);
    };
    document.addEventListener('dragover', mark(true));
    document.addEventListener('dragleave', mark(false));
    document.addEventListener('drop', (event) => {
        mark(false)(event);
        const [file] = event.dataTransfer.files;
        if (file) {
            show(file);
        }
    });
}

takeDrops();
element('save').addEventListener('click', save);
element('file').addEventListener('change', ({ target }) => {
    const [file] = target.files;
    if (file) {
        show(file);
    }
});
// The same file may be chosen again, after it changed.
element('file').addEventListener('click', ({ target }) => {
    target.value = '';
});
