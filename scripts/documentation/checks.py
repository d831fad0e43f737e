"""What scripts/api writes, and what items lack."""
import re

from documentation import sources
from documentation.api_pages import API, LEADS_NOWHERE, all_pages
from documentation.definitions import PAGE as DEFINITIONS, definitions_page
from documentation.handed_on import kept_back
from documentation.interface import BUILDERS
from documentation.promises import BEGIN, END, PROMISES, promises_page
from documentation.sources import ROOT

# The names of readers, or their beginnings, which need an example as traits and builders do.
READERS = re.compile("(read|normalise|rewrite|check)(_|$)")
WITHOUT_EXAMPLE = {
    "check_whole_module": "as check_module, and check::<WholeModule> does the same",
    "read_custom": "as read::<CustomSection>, and it never fails with Memory",
    "read_number": "as read::<StartSection>, and it never fails with Memory",
    "read_number_strict": "the same",
    "check_list_to_end": "for implementations of Decode; crates/example_sections is the example",
    "rewrite_list_to_end": "the same",
    "RewritableBody": "for implementations of Readable; crates/example_sections is the example",
    "rewrite_sized": "the same",
}


def made(interface):
    """The texts of the files that scripts/api writes."""
    files = all_pages(interface)
    files[DEFINITIONS] = definitions_page(interface)
    page = promises_page(interface)
    if page:
        files[PROMISES] = page
    return files


def missing(interface):
    """The items without documentation, those without an example, links of their pages that lead nowhere, and
    definitions that callers can't name."""
    faults = [fault for entry in interface.entries.values() for fault in missing_of(entry)]
    for module in [interface.top, *interface.chapters.values()]:
        if not module.docs:
            faults.append((module.place(), "no documentation"))
    for name in WITHOUT_EXAMPLE.keys() - {entry.name for entry in interface.entries.values()}:
        faults.append(("scripts/documentation/checks.py", f"{name}: excepted, but no item has this name"))
    if not list(interface.top.blocks()):
        faults.append((interface.top.place(), "no example"))
    faults += [(f"docs/api/{page}.md", f"the link {label} leads nowhere") for page, label in sorted(LEADS_NOWHERE)]
    return faults + kept_back(interface)


def missing_of(entry):
    for item in [*sources.walk(entry.item), *entry.methods]:
        hidden = item.kind == "field" and not item.public and item.outer.kind != "variant"
        if not item.docs and not hidden:
            yield item.place(), f"{item.path()}: no documentation"
    needed = entry.item.kind == "trait" or entry.name.endswith(BUILDERS) or READERS.match(entry.name)
    if needed and entry.name not in WITHOUT_EXAMPLE and not list(entry.item.blocks()):
        yield entry.item.place(), f"{entry.name}: no example"


def differing(files):
    """The files that differ from these texts, and those that scripts/api doesn't write."""
    faults = [(file.relative_to(ROOT), "differs from what scripts/api writes") for file, text in files.items()
              if not file.exists() or file.read_text("utf-8") != text]
    faults += [(file.relative_to(ROOT), "scripts/api doesn't write it") for file in API.glob("*") if file not in files]
    if PROMISES not in files:
        faults.append((PROMISES.relative_to(ROOT), f"no lines {BEGIN} and {END}"))
    return faults
