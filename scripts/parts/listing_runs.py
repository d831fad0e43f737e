"""Listings of chosen sections and of custom sections, and places of differences: part of wasmcanon_runs.py."""
import json
import re

from parts.listing_cases import CONTENTS, GLOBALS, GLOBAL_LISTING, LISTING, PLACES
from parts.wasmcanon_cases import CUT, HEADER, NO


def list_in(text):
    """The list that is printed as JSON; if there is none, an empty one."""
    try:
        told = json.loads(text)
        return told if isinstance(told, list) else []
    except ValueError:
        return []


def sections_in(listing):
    """The lines of each section of a listing, with the line of the section first."""
    return re.findall(r"^section .*\n(?:[^s].*\n)*", listing, re.MULTILINE)


def try_chosen_sections(runs):
    sections = sections_in(LISTING)
    heads = [section.partition("\n")[0] + "\n" for section in sections]
    for words, numbers in ((["type"], [0]), (["memory"], [4]), (["name"], [13]), (["custom"], [13]),
                           (["data count"], [10]), (["data", "import"], [1, 12]), (["code", "code"], [11]),
                           (["name", "custom", "function"], [2, 13])):
        options = [it for word in words for it in ("--section", word)]
        title = " ".join(options)
        right = runs.answers(0, "", "--list", *options, "every")
        runs.holds(title, right and runs.out.decode() == "".join(sections[it] for it in numbers))
        right = runs.answers(0, "", "--list", *options, "--headers", "every")
        runs.holds(f"{title} --headers", right and runs.out.decode() == "".join(heads[it] for it in numbers))
        right = runs.answers(0, "", "--list", *options, "--json", "every")
        told = [section["section"] for it in list_in(runs.out) for section in it["sections"]]
        runs.holds(f"{title} --json", right and told == numbers)
    right = runs.answers(0, "", "--list", "--headers", "every", "header")
    runs.holds("--headers", right and runs.out.decode() == f"every:\n{''.join(heads)}header:\n")
    right = runs.answers(0, "", "--list", "--headers", "--json", "every")
    told = [(section["offset"], section["items"]) for it in list_in(runs.out) for section in it["sections"]]
    runs.holds("--headers --json", right and told == [(int(re.search("0x\\w+", it)[0], 16), []) for it in heads])
    (runs.room / "indexed").write_bytes(HEADER + GLOBALS)
    right = runs.answers(0, "", "--list", "--section", "global", "indexed")
    runs.holds("indexes after sections that aren't shown", right and runs.out.decode() == GLOBAL_LISTING)
    try_wrong_choices(runs)


def try_wrong_choices(runs):
    warning = "warning: --section {}: no section has this kind or name\n"
    for word, shown in (("nam", "nam"), ("Code", "Code"), ("", ""), ("a\x1b", "a\\u{1b}")):
        runs.run("--list", "--section", word, "every")
        runs.holds(f"no section {shown}", runs.status == 0 and not runs.out and runs.err == warning.format(shown))
    runs.run("--list", "--section", "x", "--section", "type", "--section", "y", "--json", "every")
    runs.holds("two words of three", runs.status == 0 and runs.err == warning.format("x") + warning.format("y"))
    right = runs.answers(0, "", "--list", "--section", "name", "header", "every")
    runs.holds("a section of one of two modules", right)
    listed = "section 0: type, offset 0x8, 9 bytes, 1 type; size 2 bytes, minimal is 1\n"
    right = runs.answers(1, f"error: cut: {CUT}\n", "--list", "--section", "type", "--headers", "cut")
    runs.holds("a section of a malformed module", right and runs.out.decode() == listed)
    for words in (["--section", "type"], ["--headers"], ["--check", "--headers"], ["--report", "--section=type"]):
        right = runs.answers(2, "error: ", *words, "long")
        runs.holds(f"{' '.join(words)} without --list", right and "\nUsage: wasmcanon " in runs.err)


def try_contents(runs):
    for name, data, wanted in CONTENTS:
        (runs.room / "listed").write_bytes(HEADER + data)
        right = runs.answers(0, "", "--list", "listed")
        runs.holds(f"contents: {name}", right and runs.out.decode() == wanted)
        right = runs.answers(0, "", "--list", "--json", "listed")
        items = [section["items"] for it in list_in(runs.out) for section in it["sections"]]
        lines = [item_line(item) for listed in items for item in listed]
        numbers = [[item["item"] for item in listed] for listed in items]
        runs.holds(f"contents as JSON: {name}", right and lines == re.findall("^ .*", wanted, re.MULTILINE)
                   and numbers == [list(range(len(listed))) for listed in items])


def item_line(item):
    """The line of a listing that says the same as an item of JSON."""
    minimal = item["minimal"]
    mark = "" if minimal is None else f"; {item['size']} bytes, minimal is {minimal}"
    return f" {item['offset']:06x} {item['size']:>6} | {item['text']}{mark}"


def try_places(runs):
    for name, first, second, section, number, kind, item, offsets in PLACES:
        (runs.room / "one_of_two").write_bytes(HEADER + first)
        (runs.room / "other_of_two").write_bytes(HEADER + second)
        words = ["--any-order", "--diff", "--json", "one_of_two", "other_of_two"]
        runs.run(*words)
        told, error = json.loads(runs.out), runs.err.partition("\n")[0]
        text = error.removeprefix("error: one_of_two and other_of_two differ: ")
        wanted = {"files": words[-2:], "same": False, "section": section, "id": number, "kind": kind, "item": item,
                  "offsets": offsets, "difference": text}
        runs.holds(f"the place of {name}", runs.status == NO and told == wanted)
        runs.run("--all", *words)
        all_told = json.loads(runs.out)
        parts = all_told.pop("differences")
        right = runs.status == NO and all_told == wanted and parts[0]["item"] == item
        runs.holds(f"the place of {name} with --all", right)
        sides = (parts[0]["first"], parts[0]["second"])
        numbers = [None if item is None and side is None else section for side in sides]
        runs.holds(f"section numbers of {name}", parts[0]["sections"] == numbers)
