"""The version in the file VERSION, and the same one in the sources, the C header, the packages and CHANGELOG.md."""
import re

from parts.common import ROOT, VERSION

MAJOR, MINOR, PATCH = map(int, VERSION.split("."))
NUMBER = MAJOR << 16 | MINOR << 8 | PATCH
HEADER = "bindings/c/nosgrivel.h"
# Where the version is, the text around it, and the text expected there.
PLACES = [
    ("CHANGELOG.md", r"^## (\S+)", VERSION),
    ("bindings/rust/Cargo.toml", r'^version = "(.*)"', VERSION),
    ("bindings/js/package.json", r'"version": "(.*)"', VERSION),
    ("crates/canon_cli/src/options.rt", r'VERSION: &str = "([^,"]*), written', VERSION),
    ("crates/wasmnorm/src/texts.rt", r'VERSION: &str = "wasmnorm (.*)"', VERSION),
    ("crates/nosgrivel_c/src/version.rt", r"ensures version \{ result ≡ (\w+) \}", f"0x{NUMBER:06x}"),
    (HEADER, r'^#define NOSGRIVEL_VERSION "(.*)"', VERSION),
    (HEADER, r"^#define NOSGRIVEL_VERSION_MAJOR (.*)", str(MAJOR)),
    (HEADER, r"^#define NOSGRIVEL_VERSION_MINOR (.*)", str(MINOR)),
    (HEADER, r"^#define NOSGRIVEL_VERSION_PATCH (.*)", str(PATCH)),
]


def run(report):
    for file, pattern, version in PLACES:
        found = re.findall(pattern, (ROOT / file).read_text("utf-8"), re.MULTILINE)
        report.check(file, found[:1] == [version], f"expected {version}, as in VERSION, found {found[:1]}")
