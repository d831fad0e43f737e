# shellcheck shell=bash
# Sourced after scripts/builds.bash by the scripts that take --target MACHINE: builds for x86_64 and aarch64 Linux.
#
# The libraries that rt builds serve every machine, so for aarch64 only the crate on top is proved and compiled again.
# The kit has C objects for x86-64 alone. bindings/runtime has their functions for the C compiler $cc.

# Exits with the usage of the script.
misused() {
    sed -n 's/^# usage: /usage: /p' "$0" >&2
    exit 2
}

# Chooses the MACHINE that is built for, and its C compiler: $CC if it is set. Exits with 2 for another machine.
choose_machine() {
    case $1 in
        x86_64) cc=${CC:-cc} ;;
        aarch64) cc=${CC:-aarch64-linux-gnu-gcc} ;;
        *) say "unknown target '$1': expected aarch64 or x86_64"; exit 2 ;;
    esac
    machine=$1
}

# Reads the arguments of a script: chooses the machine, and sets the array $words to what isn't an option. Prints the
# comment at the head of the script for --help. With --after-gate, which is for c-library, sets $gate.
read_arguments() {
    gate='' words=()
    choose_machine x86_64
    while [ $# != 0 ]; do
        case $1 in
            -h | --help) sed -n '2,/^[^#]/s/^# \{0,1\}//p' "$0"; exit ;;
            --after-gate) [ "$speaker" = c-library ] || misused; gate=yes ;;
            --target) [ $# != 1 ] || misused; choose_machine "$2"; shift ;;
            --target=*) choose_machine "${1#*=}" ;;
            -*) misused ;;
            *) words+=("$1") ;;
        esac
        shift
    done
}

# Checks that the C compiler is there, and compiles for the machine.
need_compiler() {
    local found package=''
    [ "$cc" != aarch64-linux-gnu-gcc ] || package="install the package gcc-aarch64-linux-gnu, or "
    command -v "$cc" >/dev/null || { say "$cc not found: ${package}name a C compiler for $machine in CC"; exit 1; }
    found=$("$cc" -dumpmachine 2>/dev/null) || return 0
    [[ $found == "$machine"-* ]] || { say "$cc compiles for $found: name a C compiler for $machine in CC"; exit 1; }
}

# Proves a CRATE over the libraries below it as they are, and compiles it into FILE, an absolute path: a static library,
# or the object file of a program. Takes over what earlier checks of the crate kept, as rt does. More arguments go to
# the compiler.
over_libraries() {
    local crate=$1 file=$2 kit line library libraries folder root=src/main.rt words=()
    kit=$(dirname "$(rt doc)")
    line=$(crate_lines "$crate" | tail -n 1)
    read -ra libraries <<<"std ${line#*:}"
    for library in "${libraries[@]}"; do
        folder=$kit/rlibs
        [ ! -d "crates/$library" ] || folder=$PWD/crates/$library/out/rlib
        words+=(--extern "$library=$folder/$library.rlib")
    done
    for library in $(crates_below "$crate"); do words+=(-L "dependency=$PWD/crates/$library/out/rlib"); done
    if [[ ${line%%:*} == *" staticlib" ]]; then
        root=src/lib.rt
        words+=(--crate-type staticlib)
    fi
    (
        cd "crates/$crate" && mkdir -p out || exit
        "$kit/bin/rattle" build --crate-name "$crate" "$root" -L "dependency=$kit/rlibs" "${words[@]}" --jobs 2 \
            --links "$crate=" --antt-project "$kit/rattle/logic/antt-project.json" --logic-built "$kit/logic_built" \
            --incremental out/incremental --toolchain "$kit/toolchain" "${@:3}" -o "$file"
    )
}

# Checks whether rt ci left the libraries below a CRATE as it proved them from these SOURCES, as the gate notes. A stamp
# means that rt itself has built a library since.
left_by_ci() {
    local library left
    [ "$(cat "crates/$1/out/proved" 2>/dev/null)" = "$2" ] || return
    for library in $(crates_below "$1"); do
        left=crates/$library/out/rlib
        [ -f "$left/$library.rlib/format" ] && [ ! -e "$left/stamp" ] || return
    done
}

# Proves the libraries below a CRATE that rt doesn't know to be proved.
prove_below() {
    local library
    for library in $(crates_below "$1"); do (cd "crates/$library" && rt lib) || return; done
}

# Runs a command with its output at the end of the file $log.
to_log() { "$@" >>"$log" 2>&1; }

# Does the same beside a clock, and exits if the command fails. The first argument says what the command does.
logged() {
    with_clock "$1" 60 to_log "${@:2}" && return
    tail -n 20 "$log" >&2
    say "build failed: the output of rt is in $log"
    exit 1
}

# Prints the kit's version and a checksum of what a build of this CRATE depends on.
sources_of() { rt version && checksum "$1"; }

# Exits unless the sources of a CRATE are still these SOURCES.
need_unchanged() {
    [ "$2" = "$(sources_of "$1")" ] || { say "the sources changed during the build: run it again"; exit 1; }
}

# Compiles a CRATE for a machine that rt doesn't build for, as over_libraries does, after it proved the libraries below.
# If the same sources were compiled before, FILE comes from the user's cache. A third argument names the target of a
# machine that doesn't run Linux.
compile_for_machine() {
    local crate=$1 file=$2 target=${3:-$machine-unknown-linux-gnu} now
    now=$(sources_of "$crate")
    if take_cached "$crate-$machine" "$now" "$file"; then
        say "$crate for $machine: taken from the cache: these sources were proved with ${now%%$'\n'*}"
        return
    fi
    : >"$log"
    left_by_ci "$crate" "$now" ||
        logged "proving libraries for $crate: about 30 minutes on two cores from a fresh clone" prove_below "$crate"
    logged "proving and compiling $crate for $machine" \
        over_libraries "$crate" "$file" --target "$target"
    need_unchanged "$crate" "$now"
    cache "$crate-$machine" "$now" "$file"
}

# Links the OBJECT of a program into FILE, which needs no shared library.
link_program() { "$cc" -std=c11 -O2 -static -s -o "$2" "$1" bindings/runtime/heap.c bindings/runtime/process.c; }
