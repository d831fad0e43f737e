"""The lines that each section has in other crates, in the JavaScript bindings and on pages: see sections.py."""
from documentation.section_edits import Block, Listed, Names, Number, Use, Wrapped

PARTS = Names("wasm_sections.specs.formats.ModuleSectionParts", "$part")
KINDS = Names("wasm_sections.proofs.ModuleSectionLaws", "${part}_kind")

BUILT = {
    "type": """\
        ModuleSection::Types(entries) => {
            let mut types = TypeSection::new(alloc);
            types.entries(entries.as_slice())?;
            module.section(&types)
        }
""",
    "start": """\
        ModuleSection::Start(function_index) => module.section(&StartSection {
            function_index: *function_index,
        }),
""",
    "code": """\
        ModuleSection::Code(bodies) => {
            let mut code = CodeSection::new(alloc);
            code.bodies(bodies.as_slice())?;
            module.section(&code)
        }
""",
    "data": "        ModuleSection::Data(segments) => add_list(alloc, module, segments.as_slice()),\n",
    "list": "        ModuleSection::$variant($snake) => add_list(alloc, module, $snake.as_slice()),\n",
    "number": "        ModuleSection::$variant($bound) => module.section(&$builder_name { $bound: *$bound }),\n"}

# What the check of the order notes of a section: its own count, if another must agree, else nothing.
NOTED = ("adds check ($part $short) = record { ranked = refl; last = refl; functions = λ more. refl; "
         "bodies = λ more. refl; segments = λ more. refl; told = λ more. refl }\n")
ADDS = {
    "function": NOTED.replace("functions = λ more. refl", "functions = λ more. known_number check.functions "
                              "(length fs) (function_count more)"),
    "code": NOTED.replace("bodies = λ more. refl", "bodies = λ more. known_number check.bodies (length bs) "
                          "(length (code_bodies more))"),
    "data": NOTED.replace("segments = λ more. refl", "segments = λ more. known_number check.segments (length ds) "
                          "(segment_count more)"),
    "data count": NOTED.replace("told = λ more. refl", "told = λ more. known_told check.told n "
                                "(first_data_count more)"),
    "any": NOTED}

FACTS = {
    "data count": "facts_of (data_count n) = told.DataCount n\n",
    "told": "facts_of ($part $short) = told.$facts (length $short)\n",
    "any": "facts_of ($part $short) = told.Other $id\n"}

COUNTS = {
    "data count": "told_count raw (data_count c) count holds begins = rw holds.id (ap (λ (n : ℕ). told.DataCount n) "
                  "(begins raw.body [] c (sym (append-nil raw.body)) holds.content))\n",
    "told": "told_count raw ($part c) count holds begins = rw holds.id (ap (λ (n : ℕ). told.$facts n) "
            "(begins holds.content.0 holds.content.1 (length c) holds.content.2 holds.content.3))\n",
    "any": "told_count raw ($part c) count holds begins = rw holds.id refl\n"}

FIRST_BYTE = ("      first_is first $id (λ is. of_kind ${part}_kind (λ v body g. %s) (λ v. refl) "
              "bytes tail s parts is g) (λ no$id.\n")
OTHER_BYTE = "(first == $id) ≡ false → "

SOURCES = {
    "crates/wasm_codec/src/reader/names.rt": [
        Block('        0 => ("custom", "byte"),\n', "        _ =>", '        $id => ("$name", "$item"),\n'),
        Number("(λ _. id ≤ #)"), Number("IfNone result (# < id)"),
    ],
    "crates/wasm_code/src/reasons.rt": [Number("Reason::UnknownSection { id } => id > # &&")],
    "crates/wasm_code/specs/Reasons.antt": [
        Number("(reasons.UnknownSection id) bytes = (head_of bytes ≡ Some id) × (# < id)"),
    ],
    "crates/wasm_modules/src/modules.rt": [Number("if its id is above # or")],
    "crates/wasm_modules/src/order.rt": [
        Wrapped("/// The standard's order is: ", ". Each may come once", "$plural", ", ", "rank", indent="/// "),
        Block("        ModuleSection::Custom(_) => SectionFacts::Other(0),\n", "    }\n", {
            "function": "        ModuleSection::Functions(functions) => SectionFacts::Functions(functions.len()),\n",
            "data count": "        ModuleSection::DataCount(count) => SectionFacts::DataCount(*count),\n",
            "told": "        ModuleSection::$variant($bound) => SectionFacts::$facts($bound.len()),\n",
            "any": "        ModuleSection::$variant(_) => SectionFacts::Other($id),\n"}),
    ],
    "crates/wasm_modules/src/order/check.rt": [
        Block("    {\n        match self {\n", "            SectionFacts::Other(_) => 0", {
            "told": "            SectionFacts::$facts(_) => $rank,\n",
            "any": "            SectionFacts::Other($id) => $rank, // $part\n"}, order="rank"),
    ],
    "crates/wasm_modules/specs/ModuleOrder.antt": [
        PARTS,
        Block("rank (custom c) = 0\n", "\n-- ", "rank ($part $short) = $rank\n", order="rank"),
        Block("facts_of (custom c) = told.Other 0\n", "\n-- ", FACTS),
        Block("rank_of_id id =\n    ", "    else 0", {
            "told": "", "any": "if id == $id then $rank\n"},
            "    else ", "rank"),
        Block("rank_of : SectionFacts → ℕ\n", "rank_of (told.Other id)", {
            "told": "rank_of (told.$facts n) = $rank\n"}),
    ],
    "crates/wasm_modules/proofs/ModuleOrderLaws.antt": [
        PARTS,
        Block("adds : (check : OrderCheck) (s : ModuleSectionParts) → Adds check s\n"
              + NOTED.replace("$part $short", "custom c"), "\n-- ", ADDS),
    ],
    "crates/wasm_modules/proofs/EncodedOrderLaws.antt": [
        PARTS,
        Block("other_section before (custom c) raw check.bodies last (λ more. refl) knows\n", "\n-- ", {
            "code": "more_code before check (code bs) raw last holds knows = "
                    "code_section before bs raw check.bodies last holds knows\n",
            "any": "more_code before check ($part c) raw last holds knows = "
                   "other_section before ($part c) raw check.bodies last (λ more. refl) knows\n"}),
        Block("told_count raw (custom c) count holds begins = rw holds.id refl\n", "\n-- ", COUNTS),
    ],
    "crates/wasm_modules/proofs/EncodedSectionLaws.antt": [
        KINDS,
        Block("nothing_at : (tail : List ℕ) (first : ℕ) → (first == 0) ≡ false → ", "module_section.at", OTHER_BYTE),
        Block("\nnothing_at tail first no0", " =", " no$id"),
        Block("= rw (no0", ") refl", ", no$id"),
        Block("module_section.Encodes bytes s → (first == 0) ≡ false → ", "HasRaw", OTHER_BYTE),
        Block("\nno_kind bytes tail s first parts g no0", " =", " no$id"),
        Block("(sym (nothing_at tail first no0", ")", " no$id"),
        Block("(λ v. refl) bytes tail s parts is g) (λ no0.\n", "      no_kind", {
            "told": FIRST_BYTE % "g", "any": FIRST_BYTE % "tt"}),
        Block("      no_kind bytes tail s first parts g no0", "\n", " no$id", end="$parentheses"),
    ],
    "crates/wasm_encoder/src/lib.rt": [
        Use({"type": "", "function": "", "global": "", "code": "", "list": "sections::$bare"}, "pub use"),
        Use({"type": "", "code": "", "any": "sections::$builder_name"}, "pub use"),
    ],
    "crates/wasm_encoder/src/sections.rt": [
        Use({"type": "", "code": "", "list": "wasm_sections::$snake::$exported"}, "pub use"),
    ],
    "crates/wasm_encoder/src/wasm_core.rt": [
        Block("    /// A custom section, 0.\n    Custom,\n", "}\n", "    /// The $name section, $id.\n    $kind,\n"),
        Block("            SectionId::Custom => 0,\n", "        }\n", {
            "type": "            SectionId::Types => TYPE_SECTION_ID,\n",
            "any": "            SectionId::$kind => $id,\n"}),
    ],
    "crates/wasm_encoder/specs/SectionIds.antt": [
        Block("section_id ids.Custom = 0\n", None, {
            "type": "section_id ids.Types = type_section_id\n",
            "any": "section_id ids.$kind = $id\n"}),
    ],
    "crates/replay/src/encoded.rt": [
        Block('        "custom" => SectionId::Custom,\n', "        _ =>", {
            "data count": '        "datacount" => SectionId::DataCount,\n',
            "any": '        "$word" => SectionId::$kind,\n'}),
    ],
    "crates/replay/src/decoded/modules.rt": [
        Block("    match section {\n", "        _ =>", '        "$word" => $id,\n'),
    ],
    "crates/replay/src/decoded/bodies.rt": [
        Listed({"type": "", "code": "", "any": "$builder_name"}),
        Block("    match section {\n", '        "names" =>', {
            "type": "", "code": "",
            "any": '        "$name" => answers_of::<$builder>(alloc, body),\n'}, order="shape"),
    ],
    "crates/replay/src/decoded/built.rt": [
        Block("        ModuleSection::Custom(custom) => module.section(custom),\n", "    }\n}\n", BUILT),
    ],
    "crates/replay/src/refusals/calls.rt": [
        Listed("$builder_name"),
        Block('    match what {\n        "types" => check_calls::<TypeSection>(alloc, calls, bytes, expected),\n',
              '        "custom" =>', {
                  "type": "",
                  "any": '        "$name" => check_calls::<$builder>(alloc, calls, bytes, expected),\n'}),
    ],
    "crates/conformance/src/tests/contents.rt": [
        Block("        Contents::Custom(section) => Ok(section.bytes.len()),\n", "        Contents::Unknown", {
            "start": "        Contents::Start(number) | Contents::DataCount(number) => Ok(number as usize),\n",
            "element": "        Contents::Elements(elements) => count(elements),\n", "data count": "",
            "list": "        Contents::$variant($binder) => count($binder),\n",
            "number": "        Contents::$variant(number) => Ok(number as usize),\n"}),
        Block("        ModuleSection::Custom(section) => section.bytes.len(),\n", "    }\n", {
            "start": "        ModuleSection::Start(number) | ModuleSection::DataCount(number) => *number as usize,\n",
            "element": "        ModuleSection::Elements(elements) => elements.len(),\n", "data count": "",
            "list": "        ModuleSection::$variant($binder) => $binder.len(),\n",
            "number": "        ModuleSection::$variant(number) => *number as usize,\n"}),
    ],
    "crates/conformance/src/tests/lists.rt": [
        Block("        SectionId::Custom,\n", "    ];", "        SectionId::$kind,\n"),
        Number("for (number, id) in (0..#)", "count"),
    ],
    "crates/conformance/src/tests/reasons.rt": [
        Block('    (0, "custom section, byte 1, "),\n', "];", '    ($id, "$name section, $item 1, "),\n'),
        Number("const SECTIONS: [(u8, &str); #]", "count"),
    ],
    "crates/conformance/src/tests/written_back.rt": [
        Number("const ROWS: [(SectionId, &str, &str); #]", "count"),
    ],
    "bindings/js/index.js": [Wrapped("const SECTIONS = [\n    'custom', ", "];", "'$name'", ", ", end=",\n")],
    "bindings/js/page/page.js": [Wrapped("const KINDS = ['custom', ", "];", "'$name'", ", ")],
    "docs/FORMAT.md": [
        Block("| Body | Entries |\n|---|---|\n", "\nThe type of", {
            "type": "", "code": "", "list": "| $name (`$format`) | $bytes |\n"}),
        Number("Each is an id from 0 to #, a"),
    ],
}
