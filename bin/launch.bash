# shellcheck shell=bash
# Run by bin/wasmnorm and bin/wasmcanon, and sourced by scripts/install. Runs a program of this repository. If the
# program isn't built yet, or its sources have changed, it comes from the user's cache, or the kit's command rt proves
# and builds it. Progress goes to standard error.
#
# The first argument is the name of the program and its crate. A script that sources this file passes it, too.
set -euo pipefail
program=$1
here=$PWD
cd "${BASH_SOURCE[0]%/*}/.."
root=$PWD
speaker=$program
. bin/stamps.sh
. scripts/builds.bash
# The program answers the argument $words at once. $usual is the usual time of a proof from a fresh clone, and $help the
# source of its help text.
case $program in
    wasmnorm) words=--version usual="15 minutes" help=crates/wasmnorm/src/texts.rt ;;
    wasmcanon) words=--version usual="30 minutes" help=crates/canon_cli/src/options.rt ;;
esac
# The exit status if the program can't be built: `git bisect run` skips such a commit.
not_built=125
out=$root/crates/$program/out
built=$out/$program
# The program, the checksum and stamps of its sources, and the output of the build; without proof in $out/unproved.
kept=$out/kept

need_rt() {
    command -v rt >/dev/null || { say "rt not found: put the kit's command rt on the PATH"; exit "$not_built"; }
}

# Prints the kit's version and a checksum of the sources. Without the kit, takes the version of the last build.
sources() {
    if command -v rt >/dev/null; then rt version; else head -n 1 "$kept/sources"; fi
    checksum "$program"
}

# Prints the paths of all that a build depends on, each with a zero byte after it: the files and folders of the crates
# except for proofs, crates.txt, HANDLES, and the kit's command. Arguments: conditions for find.
paths() {
    local list
    read -ra list < <(folders "$program")
    find -L "${list[@]}" \( -name out -o -name proofs \) -prune -o "$@" -print0
    printf '%s\0' crates.txt HANDLES "$(command -v rt || true)"
}

# Prints the stamps of the files that a build depends on. Folders change while rt writes its output.
file_stamps() {
    local list
    mapfile -d '' -t list < <(paths -type f)
    stamps "${list[@]}"
}

# Prints these words in quotes, for a shell.
quoted() { printf "'%s' " "${@//\'/\'\\\'\'}"; }

# Checks whether the program was built from the sources as they are. If so, keeps their stamps once all are a second
# old: a file that is written twice in one tick of the clock has one stamp.
is_current() {
    local began list now
    [ -x "$kept/$program" ] || return 1
    began=$(date +%s)
    mapfile -d '' -t list < <(paths)
    now=$(stamps "${list[@]}") || true
    [ "$(sources)" = "$(cat "$kept/sources" 2>/dev/null)" ] || return 1
    if awk -v began="$began" '!/^\// && (!/^[0-9]+ [0-9]+\.[0-9]+$/ || $2 > began - 1) { exit bad = 1 }
            END { exit bad || NR < 2 }' <<<"$now"; then
        printf 'set -- %s\nknown=%s\n' "$(quoted "${list[@]}")" "$(quoted "$now")" >"$kept/stamps.$$"
        mv -f "$kept/stamps.$$" "$kept/stamps.sh"
    fi 2>/dev/null || true
}

# Notes the state of the sources before a build.
begin() {
    need_rt
    began=$SECONDS
    before=$(file_stamps) || true
    now=$(sources)
    mkdir -p "$kept"
    : >"$kept/log"
}

# Keeps the program in this FILE, unless the sources have changed since the build began.
keep() {
    if [ "$(file_stamps)" != "$before" ]; then
        rm -f "$1"
        say "the sources changed during the build: run it again"
        exit "$not_built"
    fi
    rm -f "$kept/stamps.sh" "$kept/sources"
    mv -f "$1" "$kept/$program"
    echo "$now" >"$kept/sources"
    say "$2"
}

fail() {
    tail -n 5 "$kept/log" | cut -c 1-300 >&2
    say "$1: the output of the build is in $kept/log"
    exit "$not_built"
}

# Proves and builds a crate in its folder, and the program in the last one.
prove() {
    if [ "$1" = "$program" ]; then
        (cd "crates/$1" && rt run -- "$words" </dev/null) >>"$kept/log" 2>&1 || true
    else
        (cd "crates/$1" && rt lib) >>"$kept/log" 2>&1
    fi
}

# Takes the program from the cache, or else proves and builds it.
build() {
    local began before now count crate number=0
    begin
    if take_cached "$program" "$now" "$kept/next"; then
        keep "$kept/next" "taken from the cache: these sources were proved with ${now%%$'\n'*}"
        return
    fi
    count=$(crates_of "$program" | wc -l)
    say "proving and building the program and its dependencies: about $usual on two cores from a fresh clone"
    rm -f "$built"
    for crate in $(crates_of "$program"); do
        number=$((number + 1))
        with_clock "$number of $count: $crate" 60 prove "$crate" || break
    done
    [ -x "$built" ] || fail "build failed"
    cp "$built" "$kept/next"
    keep "$kept/next" "proved and built in $((SECONDS - began)) seconds"
    cache "$program" "$now" "$kept/$program"
}

# Builds the sources without proof, and with run-time checks.
build_unproved() {
    local began before now
    begin
    with_clock "building all crates without proof" 10 try || fail "build without proof failed"
    keep "$kept/next" "built without proof in $((SECONDS - began)) seconds"
}

try() { scripts/trial --keep "$kept/next" "$program" >"$kept/log" 2>&1; }

# Prints the help text of the program from its source, and the lines on this launcher.
print_help() {
    sed -n '/^const HELP: /,/";$/ { /^const/d; s/";$//; p }' "$help"
    cat <<END_OF_HELP
  $not_built  the program could not be built

The first run proves and builds the program: about $usual on two cores.
With --unproved as the first argument, $program runs without proof. The first
such run builds it, and shows for how long.
END_OF_HELP
}

# Prints the version of the program, and the kit that proved it.
print_version() {
    local kit state="not built yet"
    if kit=$(head -n 1 "$kept/sources" 2>/dev/null); then state="proved with $kit"; fi
    echo "$program $(cat VERSION), $state"
}

# Takes or builds the proved program, if it isn't current.
ensure_proved() { is_untouched "$kept" || is_current || build; }

# Runs the proved program with these arguments, in the folder of the caller.
run_proved() {
    ensure_proved
    cd "$here"
    run_kept "$kept" "$@"
}

# Runs the program without proof with these arguments, in the folder of the caller.
run_unproved() {
    kept=$out/unproved
    say "without proof: running the sources as they are"
    is_untouched "$kept" || is_current || build_unproved
    cd "$here"
    run_kept "$kept" "$@"
}

# Runs the launcher with these arguments.
launch() {
    case ${1-} in
        --help | -h) print_help ;;
        --version | -V) print_version ;;
        --unproved) shift; run_unproved "$@" ;;
        *) run_proved "$@" ;;
    esac
}

[ "${BASH_SOURCE[0]}" != "$0" ] || launch "${@:2}"
