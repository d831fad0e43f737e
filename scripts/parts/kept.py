"""The cache of proved builds in the user's folder, which scripts/builds.bash describes."""
from parts.common import ROOT, run, text_of

SOURCES = '. scripts/builds.bash && rt version && checksum "$1"'
TAKE = '. scripts/builds.bash && take_cached "$1" "$2" "$3"'
KEEP = '. scripts/builds.bash && cache "$1" "$2" "$3"'


def sources(crate, **how):
    """The kit's line, and the checksum of what a build of the crate depends on."""
    return text_of(run("bash", "-c", SOURCES, "gate", crate, check=True, **{"cwd": ROOT, **how}).stdout)


def take(name, known, file):
    """Copies a build from these sources to the file. Returns whether there is one."""
    return run("bash", "-c", TAKE, "gate", name, known, file, cwd=ROOT).returncode == 0


def keep(crate, known, file, **how):
    """Keeps a proved build of the crate from these sources."""
    run("bash", "-c", KEEP, "gate", crate, known, file, check=True, **{"cwd": ROOT, **how})
