/** A module: its bytes, or a view of them. No call changes them. */
export type Bytes = ArrayBuffer | ArrayBufferView;

/** Why a module is refused. The names in backquotes are fields of `Refusal`. */
export type Reason =
    /** The module, or the body that holds the part, ends before or inside `construct`. */
    | 'unexpected-end'
    /** A LEB128 number has more than `first` bytes. */
    | 'number-too-long'
    /** A LEB128 number is too large or too small for `construct`. */
    | 'number-out-of-range'
    /** The byte `first` is no `construct`. */
    | 'invalid-byte'
    /** The number `first` is no `construct`. */
    | 'invalid-number'
    /** No instruction has the opcode `first`. */
    | 'unknown-opcode'
    /** No instruction has the prefix `first` and, after it, the number `second`. */
    | 'unknown-prefixed-opcode'
    /** The alignment in the flags `first` of a memory argument is 64 or more. */
    | 'invalid-alignment'
    /** A name isn't UTF-8 from its byte `first` on. */
    | 'invalid-utf8'
    /** After the last part, `first` bytes follow. */
    | 'trailing-bytes'
    /** The size `first` is larger than `second`, the number of bytes after it. */
    | 'size-too-large'
    /** A constant expression has no final `end`. */
    | 'missing-end'
    /** A `delegate` is outside of a block of a constant expression. */
    | 'stray-delimiter'
    /** No section has the id `first`. */
    | 'unknown-section'
    /**
     * The module, of `second` bytes, doesn't begin with the header 00 61 73 6D 01 00 00 00. `first` holds its first four
     * bytes, the first in the lowest bits. Each that is missing counts as 0.
     */
    | 'not-a-module'
    /** The version in the header is `first`, not 1. It is 0x1000D in a component. */
    | 'unsupported-version'
    /** A part has `first` bytes, and `second` in its minimal encoding. Only `check` returns this. */
    | 'not-minimal'
    /** A number or a form isn't minimally encoded. Only `check` returns this. */
    | 'long-form'
    /** The reason wasn't confirmed. No known module has it. */
    | 'unexplained';

/** A part of the binary format. */
export type Construct =
    /** A byte. */
    | 'byte'
    /** A number in LEB128. */
    | 'number'
    /** An unsigned number of 32 bits. */
    | 'u32'
    /** An unsigned number of 64 bits. */
    | 'u64'
    /** A signed number of 32 bits. */
    | 's32'
    /** A signed number of 64 bits. */
    | 's64'
    /** A type index, encoded as a non-negative number of 33 bits. */
    | 'type-index'
    /** A float or a vector. */
    | 'constant'
    /** Bytes after their size, such as a section. */
    | 'body'
    /** A name. */
    | 'name'
    /** A value type. */
    | 'val-type'
    /** A heap type. */
    | 'heap-type'
    /** A reference type. */
    | 'ref-type'
    /** The first byte of a recursive type, a sub type or a composite type. */
    | 'type-form'
    /** Whether a field is mutable. */
    | 'mutability'
    /** The flags of limits. */
    | 'limits'
    /** The flags of a memory type. */
    | 'memory-flags'
    /** A table. */
    | 'table'
    /** The attribute of a tag type. */
    | 'tag-attribute'
    /** The kind of an import. */
    | 'import-kind'
    /** The kind of an export. */
    | 'export-kind'
    /** An opcode, or the number after its prefix. */
    | 'opcode'
    /** A block type. */
    | 'block-type'
    /** A clause of `try_table`. */
    | 'clause'
    /** The ordering of an atomic instruction. */
    | 'ordering'
    /** The flags of a branch on a cast. */
    | 'cast-flags'
    /** The form of an element segment. */
    | 'element-form'
    /** The kind of an element segment's items. */
    | 'element-kind'
    /** The form of a data segment. */
    | 'data-form'
    /** The id of a section. */
    | 'section-id'
    /** The id of a subsection. */
    | 'subsection-id'
    /** A byte that is 0. */
    | 'reserved'
    /** An abstract heap type, after the byte of a shared one. */
    | 'abstract-heap-type'
    /** A clause of `resume`, which handles a tag. */
    | 'handler-clause'
    /** The byte of a function, structure, array or continuation type. */
    | 'composite-type'
    /** Whether a global is mutable, and whether it is shared. */
    | 'global-mutability'
    /** The byte of a branch hint. */
    | 'branch-hint'
    /** The prefix of a target feature. */
    | 'feature-prefix'
    /** The version of a `linking` section. */
    | 'linking-version'
    /** The kind of a symbol. */
    | 'symbol-kind'
    /** The first byte of a value in a core dump. */
    | 'core-dump-value';

/** The place of a section. */
export interface SectionPlace {
    /** Id of the section. */
    readonly id: number;
    /** Number of sections before this one. */
    readonly number: number;
    /** Name of the id, such as `code`. `null` means that the id is unknown. */
    readonly name: string | null;
}

/** Why and where a module is refused. Offsets are in bytes from the start of the module. */
export interface Refusal {
    /** Whether the module is malformed. Otherwise it decodes, but a part isn't minimally encoded. */
    readonly malformed: boolean;
    /** Why the module is refused. */
    readonly reason: Reason;
    /** The part that the reason names. `null` means none. */
    readonly construct: Construct | null;
    /** Length of the longest prefix that is accepted: the offset of the refused section, or 0 for the header. */
    readonly at: number;
    /** Offset of the bytes for which the reason is given. */
    readonly offset: number;
    /** The section. `null` outside of sections. */
    readonly section: SectionPlace | null;
    /** Index of the item, such as a function of the code section. `null` outside of lists. */
    readonly item: number | null;
    /** Index of the group of locals in its code body. `null` outside of locals. */
    readonly localGroup: number | null;
    /** Offset of the instruction. `null` outside of instructions. */
    readonly instruction: number | null;
    /** The first number that the reason carries. 0 means none. */
    readonly first: number;
    /** The second number that the reason carries. 0 means none. */
    readonly second: number;
    /** All of this as text, such as `code section, function 12, offset 0x1a4f: unknown opcode 0xFF`. */
    readonly message: string;
}

/** The error for a malformed module. */
export class MalformedModule extends Error {
    constructor(refusal: Refusal);
    readonly name: 'MalformedModule';
    /** Why and where the module is malformed. */
    readonly refusal: Refusal;
}

/**
 * The calls of one instance of `nosgrivel.wasm`. They need no `this`.
 *
 * Each call fails with `TypeError` if the module is neither an `ArrayBuffer` nor a view, and with `RangeError` if the
 * engine has no memory for a copy of it.
 */
export interface Nosgrivel {
    /**
     * Returns the canonical form of a module in an array of its own. It is never longer than the module.
     *
     * Two modules have the same canonical form if and only if their decoded sections are equal. Section order is not
     * checked.
     *
     * Fails with `MalformedModule` if a section is malformed.
     */
    canonicalise(this: void, bytes: Bytes): Uint8Array;
    /**
     * Checks whether a module is in its canonical form. If not, returns why and where.
     *
     * The refusal of a malformed module is that of `explain`, even if an earlier part isn't minimally encoded.
     */
    check(this: void, bytes: Bytes): Refusal | null;
    /** Checks whether every section of a module decodes, in any encoding. If not, returns why and where. */
    explain(this: void, bytes: Bytes): Refusal | null;
    /** Checks whether a module is in its canonical form. Returns `false` for malformed modules too. */
    isCanonical(this: void, bytes: Bytes): boolean;
    /**
     * Returns the SHA-256 digest of the canonical form, in hex, as `wasmcanon --hash` prints it.
     *
     * Fails as `canonicalise`, and with `Error` if `crypto.subtle` is missing, as in browsers for `http:` pages.
     */
    hash(this: void, bytes: Bytes): Promise<string>;
}

/**
 * Loads `nosgrivel.wasm` from the folder of this package, and returns its calls. Each call of `load` makes an instance
 * with a memory of its own.
 *
 * Fails if the file can't be read, or as `instantiate`.
 */
export function load(): Promise<Nosgrivel>;

/**
 * Returns the calls of `nosgrivel.wasm`, given as bytes or as a `WebAssembly.Module`. The types of Node.js lack a name
 * for the latter.
 *
 * Fails with `Error` if the engine has no 64-bit memories, or with the errors of `WebAssembly.instantiate`.
 */
export function instantiate(source: Bytes | object): Promise<Nosgrivel>;
