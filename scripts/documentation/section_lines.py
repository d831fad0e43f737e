"""The lines that each section has in the sources of `wasm_sections`: see sections.py."""
from documentation.section_edits import Block, Names, Number, Use

PARTS = "wasm_sections.specs.formats.ModuleSectionParts"
LAWS = "wasm_sections.proofs.ModuleSectionLaws"
IMPORTED_PARTS = Names(PARTS, "$part")
IMPORTED_GETTERS = Names(PARTS, "$getter")
IMPORTED_FORMATS = Names("$format_home", {"list": "$format"})
IMPORTED_VIEWS = Names("wasm_sections.specs.formats.EntryParts", {"list": "$view"})
IMPORTED_VALUES = Names("$value_home", {"function": "", "list": "$value"})
IMPORTED_CONDITIONS = Names("wasm_sections.specs.ClosedEntries", {"list": "$conditions"})
IMPORTED_KINDS = Names(LAWS, "${part}_kind")
IMPORTED_LAWS = Names("$law_home", {"list": "$law"})

IMPL = {
    "list": """
impl SectionKind for $visited {
    ghost content = { list_of $part $getter $format_rt };

    ghost ContentBreaks = { BreaksInList $format_rt };

    fn read<'a>(alloc: Global, cursor: &mut Cursor<'a>) -> Result<ModuleSection<'a>, Fault> {
        Ok(ModuleSection::$variant(read_sized_list(alloc, cursor)?))
    }
}
""",
    "number": """
/// The $name section.
struct $variant;

impl SectionKind for $variant {
    ghost content = { one_of $part $getter $format_rt };

    fn read<'a>(_alloc: Global, cursor: &mut Cursor<'a>) -> Result<ModuleSection<'a>, Fault> {
        Ok(ModuleSection::$variant(read_sized_number(cursor)?))
    }
}
"""}

GETTER = {
    "list": """
abbrev pub $getter : ModuleSectionParts → Option (List $value)
$getter ($part $short) = Some $short
$getter s = None
""",
    "number": """
abbrev pub $getter : ModuleSectionParts → Option $value
$getter ($part $short) = Some $short
$getter s = None
"""}

KIND = {
    "list": """
pub ${part}_kind : IsKind $id $part (items $format)
unfolding module_section
${part}_kind = record { small = lit≤ tt; law = Lawful-body (Lawful-items $law); at_is = λ p after e. rw e refl; \
bytes_are = λ v. refl }
""",
    "number": """
pub ${part}_kind : IsKind $id $part $format
unfolding module_section
${part}_kind = record { small = lit≤ tt; law = Lawful-body $law; at_is = λ p after e. rw e refl; \
bytes_are = λ v. refl }
"""}

ENCODED = {
    "list": """
pub ${snake}_encoded : Gives $encoding $can $written $refuses sections.$variant
${snake}_encoded = list_encoded ${snake}_lawful ${part}_kind $can $refuses $only sections.$variant $same \
(λ ys can. can) (λ ys can. can) $closes
"""}

NUMBER_ENCODED = {
    "number": """
pub ${snake}_encoded : (section : ModuleSection) (n : ℕ) (old new : List ℕ) (r : Result (Unit {0}) EncodeError) → \
section ≡ sections.$variant n → OnOk r (new ≡ old ++ byte_list_bytes (unsigned_leb128 n)) → \
OnOk r (IsWrittenNumber u32 $id $part n) → IfErr r (IsRefusal Always NoError n) → OnErr r (new ≡ old) → \
EncodesContent section old new r
${snake}_encoded = number_encoded ${part}_kind sections.$variant (λ n. refl) (λ n. tt)
"""}

# The calls of `encode_sized_list` are numbered by their variants, but for the first.
ANSWER = """
pub returns-in-$variant : goal.returns-in-$variant
returns-in-$variant g c = record { encodes = ${snake}_encoded c.args.self.now c.in-$variant.$binder \
c.args.sink.now.items CALL.new.sink.items CALL.result c.in-$variant.is CALL.ensures.ok CALL.ensures.can \
CALL.ensures.written CALL.ensures.refused CALL.ensures.err }
"""
ANSWERS = {"type": ANSWER.replace("CALL", "c.encode_sized_list"),
           "list": ANSWER.replace("CALL", "c.encode_sized_list-in-$variant"),
           "number": ANSWER.replace(" CALL.ensures.can", "").replace("CALL", "c.encode-in-$variant")
                     .replace("\nreturns", "\nunfolding ${snake}_body\nreturns")}

LAWFUL = {
    "type": "", "code": "",
    "function": """
pub functions_lawful : LawfulEntry (λ (index : ℕ). index) function_section
functions_lawful = entries_lawful (λ (index : ℕ). index) function_section Lawful-u32 (is_body_of functions_kind)
""",
    "data": """
pub data_lawful : LawfulIf data_parts data_section (λ segment. IsClosedData segment.mode)
data_lawful = fitting_lawful data_parts data_section data_is_lawful (is_body_of data_segments_kind) \
(λ segment. IsClosedData segment.mode)
""",
    "closed": """
pub ${snake}_lawful : LawfulIf $typed_view ${one}_section $closing
${snake}_lawful = fitting_lawful $typed_view ${one}_section $law (is_body_of ${part}_kind) $closing
""",
    "list": """
pub ${snake}_lawful : LawfulEntry $typed_view ${one}_section
${snake}_lawful = entries_lawful $typed_view ${one}_section $law (is_body_of ${part}_kind)
"""}

SOURCES = {
    "crates/wasm_sections/src/module_sections.rt": [
        Use({"list": "$use"}),
        Block("    Custom(CustomSection<'a>),\n", "}\n", {
            "list": "    /// The $name section (id $id)$note.\n    $variant(Items<$type>),\n",
            "number": "    /// The $name section (id $id)$note.\n    $variant($type),\n"}),
    ],
    "crates/wasm_sections/src/module_sections/kinds.rt": [
        IMPORTED_PARTS, IMPORTED_GETTERS, Use({"list": "$use"}),
        Names("$format_home", {"function": "u32 as u32_format", "list": "$format"}),
        Block("        0 => visitor.visit_body::<Custom, Custom>(),\n", "    }\n", {
            "list": "        $id => visitor.visit_list::<$visited>(),\n",
            "number": "        $id => visitor.visit_body::<Number, $variant>(),\n"},
            end="        $count.. => visitor.visit_unknown(id),\n"),
        Block("        Ok(ModuleSection::Custom(read_sized_custom(cursor)?))\n    }\n}\n", None, IMPL),
    ],
    "crates/wasm_sections/src/module_sections/writer.rt": [
        Block("            ModuleSection::Custom(_) => 0,\n", "        }\n",
              "            ModuleSection::$variant(_) => $id,\n"),
        Block("            ModuleSection::Custom(section) => section.encode(sink),\n", "        }\n    }\n", {
            "start": "            ModuleSection::Start(function) => StartSection {\n"
                     "                function_index: *function,\n            }\n            .encode(sink),\n",
            "list": "            ModuleSection::$variant($binder) => encode_sized_list($binder, sink),\n",
            "number": "            ModuleSection::$variant($bound) => "
                      "${builder_name} { $bound: *$bound }.encode(sink),\n"}),
    ],
    "crates/wasm_sections/src/contents.rt": [
        Use({"code": "", "list": "$use"}),
        Block("    Custom(CustomSection<'a>),\n", "    /// A section with another id", {
            "code": "    /// The code section (id 10): function bodies whose instructions are still bytes.\n"
                    "    Code(ItemReader<'a, FunctionBody<'a>>),\n",
            "list": "    /// The $name section (id $id)$note.\n    $variant(ItemReader<'a, $type>),\n",
            "number": "    /// The $name section (id $id)$note.\n    $variant($type),\n"}),
        Block("        0 => Contents::Custom(custom_at(body, start, is_strict)?),\n", "    })\n", {
            "list": "        $id => Contents::$variant(ItemReader::list_at(alloc, body, start, is_strict)?),\n",
            "number": "        $id => Contents::$variant(number_at(body, start, is_strict)?),\n"},
            end="        $count.. => Contents::Unknown,\n"),
    ],
    "crates/wasm_sections/specs/SectionContents.antt": [
        IMPORTED_VIEWS, Names("$format_home", {"code": "", "list": "$format"}),
        Block("HoldsValue 0 custom_body strict section (custom_parts c)\n", "\n\n", {
            "code": "GivesContents strict start section (contents.Code r) = "
                    "GivesItemsOf 10 function_parts function_body strict start section r\n",
            "list": "GivesContents strict start section (contents.$variant r) = "
                    "GivesItemsOf $id $viewed $format strict start section r\n",
            "number": "GivesContents strict start section (contents.$variant n) = "
                      "HoldsValue $id $format strict section n\n"},
            end="GivesContents strict start section contents.Unknown = $last < section.id"),
        Block("  no_custom : section.id ≡ 0 → EncodesNoValue strict custom_body start section.body at → "
              "HasNoContents strict start section at\n", None, {
            "code": "  no_code : section.id ≡ 10 → EncodesNoList strict function_body start section.body at → "
                    "HasNoContents strict start section at\n",
            "list": "  no_$snake : section.id ≡ $id → EncodesNoList strict $format start section.body at → "
                    "HasNoContents strict start section at\n",
            "number": "  no_$snake : section.id ≡ $id → EncodesNoValue strict $format start section.body at → "
                      "HasNoContents strict start section at\n"}),
    ],
    "crates/wasm_sections/specs/WrittenSections.antt": [
        IMPORTED_VIEWS, IMPORTED_FORMATS, IMPORTED_CONDITIONS,
        Block("CountedContent (sections.Custom section) = CountedCustom section\n", "\n-- ", {
            "function": "CountedContent (sections.Functions indexes) = CountedList u32.bytes (λ i. Unit {0}) indexes\n",
            "list": "CountedContent (sections.$variant $bound) = CountedList $encoding $counting $bound\n",
            "number": "CountedContent (sections.$variant $bound) = Unit {0}\n"}),
        Block("IsClosedContent : ModuleSection → Type 0\n", "IsClosedContent section = ", {
            "closed": "IsClosedContent (sections.$variant $bound) = All $closing $bound\n"}),
    ],
    "crates/wasm_sections/specs/SectionKinds.antt": [
        Names(PARTS, {"type": "", "code": "", "list": "$part"}),
        Names("$format_home", {"type": "", "code": "", "list": "$format"}),
        Names("$value_home", {"type": "", "function": "", "code": "", "list": "$value"}),
        Block("  pub holding : List V → ModuleSectionParts\n", None, {
            "type": "", "code": "",
            "list": "\nabbrev pub ${one}_section : SectionOf $value\n"
                    "${one}_section = record { id = $id; format = $format; holding = $part }\n"}),
    ],
    "crates/wasm_sections/specs/formats/ModuleSectionParts.antt": [
        IMPORTED_VALUES, Names("wasm_sections.specs.formats.EntryParts", {"list": "$all_view"}),
        Block("  custom : CustomParts → ModuleSectionParts\n", "\n-- ", {
            "list": "  $part : List $value → ModuleSectionParts\n",
            "number": "  $part : $value → ModuleSectionParts\n"}),
        Block("module_section_parts (sections.Custom section) = custom (custom_parts section)\n", "\n-- ", {
            "list": "module_section_parts (sections.$variant $bound) = $part $all_parts\n",
            "number": "module_section_parts (sections.$variant $bound) = $part $bound\n"}),
        Block("section_id (custom c) = 0\n", "\nabbrev", "section_id ($part $short) = $id\n"),
        Block("custom_part s = None\n", None, GETTER),
    ],
    "crates/wasm_sections/specs/formats/ModuleSections.antt": [
        IMPORTED_PARTS, IMPORTED_GETTERS, IMPORTED_FORMATS,
        Block("--   customsec ::= section_0(custom)\n", "unfoldable", "--   $production\n"),
        Block("    (tagged section_id 0 (one_of custom custom_part custom_body)\n", "    no_other", {
            "list": "    (tagged section_id $id (list_of $part $getter $format)\n",
            "number": "    (tagged section_id $id (one_of $part $getter $format)\n"}),
        Block("    no_other", "\n", "", end="$parentheses"),
        Block("Body _ custom_body (one_of custom custom_part custom_body) → OfKind Listed Body Unknown id\n", "\n-- ", {
            "list": "  of_$snake : id ≡ $id → Listed _ $format (list_of $part $getter $format) → "
                    "OfKind Listed Body Unknown id\n",
            "number": "  of_$snake : id ≡ $id → Body _ $format (one_of $part $getter $format) → "
                      "OfKind Listed Body Unknown id\n"},
            end="  of_unknown : $last < id → Unknown → OfKind Listed Body Unknown id\n"),
    ],
    "crates/wasm_sections/proofs/ModuleSectionLaws.antt": [
        IMPORTED_PARTS, IMPORTED_GETTERS, IMPORTED_FORMATS, IMPORTED_LAWS,
        Names("wasm_sections.specs.formats.ModuleSections", "of_$snake"),
        Block("(one custom custom_part (λ c. refl) custom_is_lawful)\n", "    Tagged-never", {
            "list": "    (Tagged-or section_id $id refl (lit≤ tt) (Every-made (λ c. refl)) "
                    "(list $part $getter (λ c. refl) $law)\n",
            "number": "    (Tagged-or section_id $id refl (lit≤ tt) (Every-made (λ c. refl)) "
                      "(one $part $getter (λ c. refl) (Lawful-body $law))\n"}),
        Block("    Tagged-never", ".choice.lawful", "", end="$parentheses"),
        Block("custom_kind = record { small = lit≤ tt; law = custom_is_lawful; at_is = λ p after e. rw e refl; "
              "bytes_are = λ v. refl }\n", "\nother :", KIND),
        Number("unknown_at : {id : ℕ} → # <"), Number("    → (# < id → U → P)"),
        Number("unknown_rewritten : {id : ℕ} → # <"),
        Block("rw (e, other id 0 (omega (arith, far))", ") refl", ", other id $id (omega (arith, far))"),
        Block("by_kind l b u (of_custom is h) = b _ custom custom_part custom_body (rw is custom_kind) h\n",
              "by_kind l b u (of_unknown", {
            "list": "by_kind l b u (of_$snake is h) = l _ $part $getter $format (rw is ${part}_kind) h\n",
            "number": "by_kind l b u (of_$snake is h) = b _ $part $getter $format (rw is ${part}_kind) h\n"}),
        Block("of_kind l b u (of_custom is h) = of_custom is (b _ _ _ h)\n", "of_kind l b u (of_unknown", {
            "list": "of_kind l b u (of_$snake is h) = of_$snake is (l _ _ _ h)\n",
            "number": "of_kind l b u (of_$snake is h) = of_$snake is (b _ _ _ h)\n"}),
    ],
    "crates/wasm_sections/proofs/ItemLaws.antt": [
        Names("wasm_sections.specs.ClosedEntries", {"closed": "$closed_name"}), Names(PARTS, {"number": "$part"}),
        Names("$value_home", {"type": "", "function": "", "code": "", "list": "$own_value"}),
        Names("wasm_sections.specs.formats.EntryParts", {"list": "$view"}),
        Names(LAWS, {"type": "", "code": "", "any": "${part}_kind"}),
        Names("$law_home", {"type": "", "code": "", "list": "$law"}),
        Names("wasm_sections.specs.SectionKinds", {"type": "", "code": "", "list": "${one}_section"}),
        Block("number_section id section of n fits = section_written section u32 of n (unsigned_leb128 n) "
              "(short_number n fits) (number_written n fits).encodes refl\n", "\n-- ", {
            "number": "\npub ${snake}_written : (n : ℕ) → n < 2 ^ 32 → "
                      "IsSectionAfter $id (byte_list_bytes (unsigned_leb128 n)) ($part n)\n"
                      "${snake}_written n fits = number_section $id $part (is_body_of ${part}_kind) n fits\n"}),
        Block("written = λ item written fits. written fits; body = body }\n", "\n-- ", LAWFUL),
    ],
    "crates/wasm_sections/proofs/WrittenSectionLaws.antt": [
        IMPORTED_PARTS, IMPORTED_FORMATS, IMPORTED_VIEWS, IMPORTED_CONDITIONS, IMPORTED_KINDS,
        Names("wasm_sections.proofs.CountedSections", {"list": "$counted_law"}),
        Names("wasm_sections.proofs.ItemLaws", {"type": "", "code": "", "list": "${snake}_lawful"}),
        Block("content_after_id (custom c) = refl\n", "\n-- ", "content_after_id ($part $short) = refl\n"),
        Block("section_counted (sections.Custom c) fits = custom_counted (custom_parts c) fits.0\n", "\n-- ", {
            "function": "section_counted (sections.Functions indexes) fits = "
                        "counted_values functions_lawful Always (λ n few. tt) indexes fits.0\n",
            "list": "section_counted (sections.$variant $bound) fits = "
                    "$counter ${snake}_lawful $can $count_law $bound fits.0\n",
            "number": "section_counted (sections.$variant $bound) fits = tt\n"}),
        Block("NoError x e = ⊥\n", "\n-- ", ENCODED),
        Block("        only_memory (Err e) (inr refused) = absurd refused.1\n", None, NUMBER_ENCODED),
    ],
    "crates/wasm_sections/proofs/module_sections/writer/ModuleSectionEncode/encode/Answers.antt": [
        Names("wasm_sections.proofs.WrittenSectionLaws", "${snake}_encoded"),
        Names("wasm_sections.specs.formats.Sections", {"number": "${snake}_body"}),
        Block("c.encode.ensures.refused c.encode.ensures.err }\n", None, ANSWERS, order="shape"),
    ],
    "crates/wasm_sections/proofs/RawSections.antt": [
        IMPORTED_PARTS, IMPORTED_KINDS,
        Block("raw_by bytes (custom v) g r = of_kind custom_kind v bytes g r.0.1\n", "\none_raw",
              "raw_by bytes ($part v) g r = of_kind ${part}_kind v bytes g r.0.1\n"),
        Block("custom_only (custom c) rest e = record { parts = c; is = refl }\n", "\nin_custom_range",
              "custom_only ($part v) rest e = other (sym (${part}_kind.bytes_are v) ∙ e)\n"),
    ],
}
