"""The planted edits tried on a small crate of which every verdict is known, and cases for the choice and the cache."""
import dataclasses
import os
import unittest.mock

from parts import planted_kept_test, planted_turns_test
from parts.common import room
from parts.planted_crates import Options, chosen, named, try_all
from parts.planted_edits import FILE, parse
from parts.planted_kit import Fault, kit
from parts.planted_rounds import BAD, BY_ANSWER_ALONE, BY_BOTH, BY_SEARCH, NOT_REFUSED, REFUSED

SAMPLE = """\
#![tactic(auto)]

ghost use Rattle.std.specs.Prelude.{◌≡◌, ◌+◌, ◌*◌, ◌<◌, ◌≤◌, length};
ghost use Rattle.sample.specs.Doubles.{double};

const STEP: u64 = 1;

pub trait Grown {
    fn grown(&self) -> u64;
}

pub struct Small {
    pub size: u8,
}

pub struct Large {
    pub size: u32,
}

impl Grown for Small {
    fn grown(&self) -> u64
        ensures { result ≡ self.now.size + 1 }
    {
        u64::from(self.size) + 1
    }
}

impl Grown for Large {
    fn grown(&self) -> u64
        ensures { result ≡ self.now.size + 1 }
    {
        1 + u64::from(self.size)
    }
}

pub fn by_one(x: u64) -> u64
    requires { x < 100 }
    ensures { result ≡ x + 1 }
{
    x + 1
}

pub fn by_two(x: u64) -> u64
    requires { x < 90 }
    ensures { result ≡ x + 2 }
{
    let next = by_one(x);
    by_one(next)
}

pub fn by_three(x: u64) -> u64
    requires { x < 80 }
    ensures { result ≡ x + 3 }
{
    by_one(by_two(x))
}

pub fn by_step(x: u64) -> u64
    requires { x < 100 }
    ensures { result ≡ x + 1 }
{
    x + STEP
}

pub fn same(x: u64) -> u64
    ensures { result ≡ x }
{
    let copied = x;
    copied
}

/// The number before.
pub fn before(x: u64) -> u64
    requires { 2 < x }
    ensures below { result < x }
    ensures near { x ≤ result + 1 }
{
    x - 1
}

/// The number after.
pub fn after(x: u64) -> u64
    requires { x < 100 }
    ensures above { x < result }
    ensures close { result ≤ x + 1 }
{
    1 + x
}

pub fn by_one_again(x: u64) -> u64
    requires { x < 100 }
    ensures more { x < result }
{
    by_one(x)
}

pub fn above_again(x: u64) -> u64
    requires { x < 100 }
    ensures more { x < result }
{
    by_one_again(x)
}

pub fn doubled(x: u64) -> u64
    requires { x < 100 }
    ensures { result ≡ double x }
{
    x + x
}

/// A total of bytes.
pub fn total(bytes: &[u8]) -> usize
    requires { length bytes.now ≤ 65536 }
    ensures { result ≤ 255 * length bytes.now }
{
    let mut sum: usize = 0;
    for byte in bytes {
        sum += *byte as usize;
    }
    sum
}
"""

SAMPLE_INVARIANTS = """\
use Rattle.std.proofs.Common.{◌*◌, ◌≤◌}
use Rattle.sample.proofs.total.Given as goal

abbrev pub invariant-loop-byte : goal.invariant-loop-byte
invariant-loop-byte l = l.sum ≤ 255 * l.byte-index
"""

# The search doesn't look into this definition.
SAMPLE_SPECS = """\
use Rattle.std.specs.Prelude.{ℕ, ◌+◌}

unfoldable pub double : ℕ → ℕ
double n = n + n
"""

SAMPLE_ANSWERS = {
    "before": """\
use Rattle.std.proofs.Common.{◌<◌, arith}
use Rattle.sample.proofs.before.Goals as goal

pub returns-clause-below : goal.returns-clause-below
returns-clause-below c = omega arith
""",
    "after": """\
use Rattle.std.proofs.Common.{◌+◌, ◌<◌, ◌≤◌, arith}
use Rattle.sample.proofs.after.Goals as goal

pub returns : goal.returns
returns c = record { above = omega arith; close = omega arith }
""",
    "by_one_again": """\
use Rattle.std.proofs.Common.{◌+◌, ◌<◌, arith}
use Rattle.sample.proofs.by_one_again.Goals as goal

pub returns : goal.returns
returns c = record { more = omega (arith, c.by_one.ensures) }
""",
    "doubled": """\
use Rattle.std.proofs.Common.{◌≡◌, ◌+◌, refl}
use Rattle.sample.specs.Doubles.{double}
use Rattle.sample.proofs.doubled.Goals as goal

pub returns : goal.returns
unfolding double
returns c = refl
""",
}


@dataclasses.dataclass
class Case:
    """A planted edit: what it replaces by what, the verdict on it, and the clause that it names."""

    old: str
    new: str
    kind: str
    how: str = ""
    clause: str = ""

    def entry(self, name):
        clause = f"clause: {self.clause}\n" * bool(self.clause)
        return f"[{name}]\n{clause}file: src/lib.rt\nold: {self.old}\nnew: {self.new}\n"


EDITS = {
    "wrong": Case("    x + 1", "    x + 2", REFUSED, BY_SEARCH),
    "wrong_beside_its_callee": Case("    by_one(by_two(x))", "    by_one(by_two(x)) + 1", REFUSED, BY_SEARCH),
    "the_same_above_its_callee": Case("    by_one(next)", "    let last = by_one(next); last", NOT_REFUSED),
    "the_same_above_its_answered_callee": Case("    by_one_again(x)", "    by_one_again(x) + 0", NOT_REFUSED),
    "the_same": Case("    let copied = x;", "    let copied = x + 0;", NOT_REFUSED),
    "the_same_in_one_impl": Case("        u64::from(self.size) + 1", "        1 + u64::from(self.size)", NOT_REFUSED),
    "wrong_in_the_other_impl": Case("        1 + u64::from(self.size)", "        2 + u64::from(self.size)",
                                    REFUSED, BY_SEARCH),
    "wrong_constant": Case("const STEP: u64 = 1;", "const STEP: u64 = 2;", REFUSED, BY_SEARCH),
    "wrong_constant_too": Case("const STEP: u64 = 1;", "const STEP: u64 = 3;", REFUSED, BY_SEARCH),
    "the_same_constant": Case("const STEP: u64 = 1;", "const STEP: u64 = 2 - 1;", NOT_REFUSED),
    "wrong_beside_a_constant": Case("    x + STEP", "    x + STEP + 1", REFUSED, BY_SEARCH),
    "the_same_beside_a_constant": Case("    x + STEP", "    STEP + x", NOT_REFUSED),
    "wrong_too": Case("    by_one(by_two(x))", "    by_two(by_two(x))", REFUSED, BY_SEARCH),
    "the_same_too": Case("    by_one(by_two(x))", "    by_two(by_one(x))", NOT_REFUSED),
    "the_same_total": Case("    let mut sum: usize = 0;", "    let mut sum = 0usize;", NOT_REFUSED),
    "the_same_total_too": Case("        sum += *byte as usize;", "        sum = sum + *byte as usize;", NOT_REFUSED),
    "too_large_a_total": Case("        sum += *byte as usize;", "        sum += *byte as usize + 1;",
                              REFUSED, BY_SEARCH),
    "wrong_by_this_clause": Case("    x - 1", "    x - 2", REFUSED, BY_SEARCH, clause="near"),
    "right_by_that_clause": Case("    x - 1", "    x - 2", NOT_REFUSED, clause="below"),
    "wrong_by_both_clauses": Case("    x - 1", "    x + 1", REFUSED, BY_SEARCH, clause="below"),
    "no_such_clause": Case("    x - 1", "    x", BAD, clause="far"),
    "clause_answered_with_others": Case("    1 + x", "    2 + x", BAD, clause="close"),
    "away_with_what_its_proof_names": Case("    by_one(x)", "    x + 2", NOT_REFUSED),
    "wrong_without_its_answer": Case("    by_one(x)", "    by_one(x) - 1", REFUSED, BY_BOTH),
    "wrong_by_its_answer": Case("    x + x", "    x + x + 1", REFUSED, BY_ANSWER_ALONE),
    "clause_of_a_trait": Case("        1 + u64::from(self.size)", "        3 + u64::from(self.size)",
                              BAD, clause="near"),
    "outside_of_functions": Case("    pub size: u8,", "    pub size: u16,", NOT_REFUSED),
    "unfinished": Case("    copied", "    copied +", BAD),
    "unknown_name": Case("    x + STEP", "    x + STEPS", BAD),
    "not_there": Case("    x + 3", "    x + 4", BAD),
    "there_twice": Case("    requires { x < 100 }", "    requires { x < 10 }", BAD),
}

# Lines that are no file of edits, and the line that says so.
MALFORMED = {
    "file: src/lib.rt\n": "1: a line before the first edit: expected [NAME], found file: src/lib.rt",
    "[one]\nold: 1\nnew: 2\n\n[one]\n": "5: a second edit named one",
    "[one]\nold 1\n": "2: expected a line of an edit, found old 1",
    "[one]\nclause: near\nclause: below\n": "3: expected a line of an edit, found clause: below",
}

# Words on the command line that name no edits of the sample.
UNKNOWN = ["simple", "sample:right", "simple:wrong", "crates/sample"]


def write_sample(root):
    crate = root / "crates/sample"
    (root / "crates.txt").write_text("sample:\n", "utf-8")
    entries = ["# Edits of the sample.\n", *(case.entry(name) for name, case in EDITS.items())]
    answers = {f"proofs/{name}/Answers.antt": text for name, text in SAMPLE_ANSWERS.items()}
    texts = {
        "src/lib.rt": SAMPLE,
        "specs/Lib.antt": "pub mod Doubles\n",
        "specs/Doubles.antt": SAMPLE_SPECS,
        "proofs/total/Invariants.antt": SAMPLE_INVARIANTS,
        **answers,
        FILE: "\n".join(entries),
    }
    for path, text in texts.items():
        (crate / path).parent.mkdir(parents=True, exist_ok=True)
        (crate / path).write_text(text, "utf-8")


def fault_of(call):
    """What the call says is wrong, if it says so."""
    try:
        call()
    except Fault as fault:
        return str(fault)
    return ""


def verdicts_of(root):
    """The verdicts on the edits of the sample, by the edits' names."""
    options = Options(all=True, searched=True, verbose=True)
    return {it.edit.name: it for it in try_all(chosen(root, options)[0], options)}


def wrong_verdicts(root):
    """The edits of the sample whose verdict isn't the one that is right."""
    verdicts = verdicts_of(root)
    found = {name: (it.kind, it.how) for name, it in verdicts.items()}
    wrong = [name for name, case in EDITS.items() if found.get(name) != (case.kind, case.how)]
    above = [name for name in EDITS if name.startswith("the_same_above_")]
    return wrong + [name for name in above if name in verdicts and not verdicts[name].alone]


def wrong_again(root):
    """The edits of the sample that a second run tries though they were refused, or that it takes for refused."""
    kept = unittest.mock.Mock(side_effect=lambda works, _: [it for work in works for it in work.known])
    with unittest.mock.patch("parts.planted_crates.try_pending", kept):
        found = {name: it.how for name, it in verdicts_of(root).items()}
    expected = {name: case.how for name, case in EDITS.items() if case.kind == REFUSED}
    return [f"{name}, kept" for name in EDITS if found.get(name) != expected.get(name)]


def wrong_faults(root):
    """The malformed files and the unknown names that aren't refused."""
    crates = kit().rtlib.crates_below(str(root))
    wrong = [text for text, fault in MALFORMED.items() if fault_of(lambda: parse(text, "at")) != f"at:{fault}"]
    return wrong + [word for word in UNKNOWN if not fault_of(lambda: named(crates, [word]))]


def self_test():
    """Tries the sample and all cases, prints the wrong ones, and returns the exit status."""
    with room() as root, room() as cache, unittest.mock.patch.dict(os.environ, {"XDG_CACHE_HOME": str(cache)}):
        write_sample(root)
        wrong = [*wrong_faults(root), *wrong_verdicts(root), *wrong_again(root)]
    cases = [*planted_turns_test.cases(), *planted_kept_test.cases()]
    wrong += [name for name, is_right in cases if not is_right]
    for it in wrong:
        print(f"planted --self-test: {it!r} doesn't end as it should")
    total = sum(map(len, (MALFORMED, UNKNOWN, EDITS, EDITS, cases)))
    print(f"{total - len(wrong)} passed, {len(wrong)} failed")
    return int(bool(wrong))
