# shellcheck shell=sh
# Sourced by bin/wasmnorm, bin/wasmcanon and bin/launch.bash: whether the program that was built last is current.
#
# The script that sources this file sets $root to the folder of the repository, and $program to the name of the program
# and its crate.

# Prints the path of the kit's command, then for each of these FILES its inode and its change time, which no command can
# set back. A file that doesn't exist has no line, and stat fails.
stamps() {
    export LC_ALL=C
    command -v rt || :
    exec stat -L -c '%i %.9Z' "$@" 2>/dev/null
}

# Checks whether all stamps are as they were. If so, the program in this folder is current, and nothing else is checked.
# The folder's file `stamps.sh` sets the arguments to the files, and $known to their stamps.
is_untouched() {
    [ -x "$1/$program" ] && [ -r "$1/stamps.sh" ] || return 1
    . "$1/stamps.sh"
    [ "$(cd "$root" && stamps "$@")" = "$known" ]
}

# Runs the program in this FOLDER with these arguments. It asks the C library for huge pages: a large module then takes
# a fraction of the page faults.
run_kept() {
    kept=$1
    shift
    export GLIBC_TUNABLES="${GLIBC_TUNABLES-glibc.malloc.hugetlb=1}"
    exec "$kept/$program" "$@"
}

# Runs the program with these arguments: at once if it is current, and by bin/launch.bash if not. One program is started
# before it, since each costs a millisecond.
start() {
    case ${1-} in
        --help | -h | --version | -V | --unproved) ;;
        *) if is_untouched "$root/crates/$program/out/kept"; then run_kept "$root/crates/$program/out/kept" "$@"; fi ;;
    esac
    exec bash "$root/bin/launch.bash" "$program" "$@"
}
