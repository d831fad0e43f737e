# shellcheck shell=bash
# Sourced by bin/launch.bash and scripts/c-library, at the top of the repository: which sources a build depends on, the
# proved builds that the user's cache folder keeps, and progress. The script that sources this file sets $speaker, its
# name in messages.

say() {
    echo "$speaker: $*" >&2
}

# Prints the lines of crates.txt for this CRATE and its dependencies, lowest first.
crate_lines() {
    awk -F: -v top="$1" '/^[a-z]/ {
            split($1, name, " "); uses[name[1]] = $2; line[name[1]] = $0; order[++count] = name[1]
        }
        function reach(crate, list, n, i) {
            if (crate in reached || !(crate in uses)) return
            reached[crate] = 1
            n = split(uses[crate], list, " ")
            for (i = 1; i <= n; i++) reach(list[i])
        }
        END {
            reach(top)
            for (i = 1; i <= count; i++) if (order[i] in reached) print line[order[i]]
        }' crates.txt
}

# Prints this CRATE and its dependencies, lowest first.
crates_of() { crate_lines "$1" | sed 's/[ :].*//'; }

# Prints the dependencies of this CRATE, lowest first.
crates_below() { crates_of "$1" | grep -vx "$1"; }

# Prints the folders of this CRATE and its dependencies in one line.
folders() { crates_of "$1" | sed 's|^|crates/|' | paste -sd ' '; }

# Prints a checksum of all that a build of this CRATE depends on, except for the kit. What was proved of a source stays
# proved whatever becomes of its proof, so proofs don't count.
checksum() {
    local list
    read -ra list < <(folders "$1")
    {
        crate_lines "$1"
        cat HANDLES 2>/dev/null || true
        find -L "${list[@]}" \( -name out -o -name proofs \) -prune -o \
            -type f \( -name '*.rt' -o -name '*.antt' \) -print0 | LC_ALL=C sort -z | xargs -0 sha256sum
    } | sha256sum
}

# Prints the folder of the user's cache for a build of this CRATE from these SOURCES, or nothing if there is no cache.
cached() {
    local cache=${XDG_CACHE_HOME-}
    [[ $cache == /* ]] || cache=${HOME:+$HOME/.cache}
    [[ $cache != /* ]] || echo "$cache/nosgrivel/$1-$(sha256sum <<<"$2" | cut -c 1-32)"
}

# Describes a built FILE from these SOURCES, as the cache notes it.
described() { printf '%s\n' "$2" "$(sha256sum <"$1")"; }

# Copies the cached build of this CRATE from these SOURCES to this FILE. Fails if there is none, or if it is damaged.
take_cached() {
    local entry
    entry=$(cached "$1" "$2")
    [ -f "$entry/build" ] && cp "$entry/build" "$3" 2>/dev/null || return 1
    [ "$(cat "$entry/sources" 2>/dev/null)" = "$(described "$3" "$2")" ]
}

# Keeps this proved build of this CRATE from these SOURCES in the cache. A new folder is renamed when it is complete, so
# no other run sees a part of it. A cache that can't be written is no error.
cache() {
    local entry room
    entry=$(cached "$1" "$2")
    [ -n "$entry" ] && mkdir -p "${entry%/*}" && room=$(mktemp -d "$entry.XXXXXX") || return 0
    if cp "$3" "$room/build" && described "$room/build" "$2" >"$room/sources"; then
        rm -rf "$entry"
        mv -T "$room" "$entry" || true
    fi
    rm -rf "$room"
} 2>/dev/null

# Waits for so many seconds. Fails at once when standard input, which nothing is written to, is closed.
tick() {
    local status=0
    read -rt "$1" || status=$?
    [ "$status" -gt 128 ]
}

# Shows how long a build has taken, until standard input is closed: on a terminal each second in one line, else in a
# line after so many seconds.
clock() {
    local began=$SECONDS
    if [ -t 2 ]; then
        while printf '\r%s: %s: %d s' "$speaker" "$1" $((SECONDS - began)) >&2; tick 1; do :; done
        echo >&2
    else
        say "$1"
        while tick "$2"; do say "$1: $((SECONDS - began)) s"; done
    fi
}

# Runs a command beside a clock. Arguments: a line on what it does, the seconds between lines, the command. The status
# is the command's if `pipefail` is set. A pipe between the two ends the clock: if an EXIT trap is set and a shell in
# the background is killed, bash 5.2 prints `wait_for: No record of process`.
with_clock() {
    { { "${@:3}" >&3 3>&-; } | clock "$1" "$2" 3>&-; } 3>&1
}
