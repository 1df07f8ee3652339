# shellcheck shell=bash
# What the commands of this repository share. Each sources this file first, with its own arguments in place:
# the first of them may be -h or --help.

unset CDPATH
root=$(cd "$(dirname "${BASH_SOURCE[0]}")/../.." && pwd -P)
self=$(cd "$(dirname "$0")" && pwd -P)/$(basename "$0")
me=${self#"$root/"}

# The comment that heads the command.
usage() { sed -n '2,${/^#/!q; s/^# \{0,1\}//; p}' "$self"; }

# Something that was asked wrongly, something that is missing or went wrong.
wrong() { printf '%s: %s\n\n' "$me" "$*" >&2; usage >&2; exit 2; }
fail() { printf '%s: %s\n' "$me" "$*" >&2; exit 1; }

# A tool that must be there: need TOOL WHAT-IT-IS
need() { command -v "$1" > /dev/null || fail "$1 is missing: $2"; }

# An argument that must be a number: number NAME VALUE
number() { case $2 in '' | *[!0-9]*) wrong "$1 is a number, not '$2'" ;; esac; }

# No more arguments than the command takes: most COUNT ARGUMENTS..
most() { [ $(($# - 1)) -le "$1" ] || { shift "$(($1 + 1))" && wrong "'$1' is one argument too many"; }; }

# Sets kit, the folder of the Rattle toolchain, which has the page that `rt doc` names.
find_kit() {
    need rt "it is the command of the Rattle toolchain"
    kit=$(rt doc) || exit 1
    kit=$(cd "${kit%/*}" && pwd -P)
    "$kit/bin/rattle" --help > /dev/null 2>&1 || fail "the Rattle toolchain does not run here: it is for x86-64 Linux"
}

# Crates and all that they stand on, a line each: reached NAME..
reached() {
    WANTED="$*" awk '
        { sub(/#.*/, "") }
        /:/ { name = $1; sub(/:.*/, "", name); sub(/^[^:]*:/, ""); below[name] = $0 }
        function visit(name,    parts, count, k) {
            if (!(name in below) || name in seen) return
            seen[name] = 1
            count = split(below[name], parts, " ")
            for (k = 1; k <= count; k++) visit(parts[k])
            print name
        }
        END { count = split(ENVIRON["WANTED"], wanted, " "); for (k = 1; k <= count; k++) visit(wanted[k]) }
    ' "$root/crates.txt"
}

# One word for all that decides what is built from a crate: its sources and those below it, the toolchain and these
# scripts. stamp_of NAME
stamp_of() (
    cd "$root"
    {
        printf '%s\0' "$me" bin/inner/* crates.txt "$kit/KIT-ID"
        for crate in $(reached "$1"); do
            find "crates/$crate"/{src,specs,proofs} -type f -print0 2> /dev/null || true # some have no proofs
        done
    } | LC_ALL=C sort -z | xargs -0 sha256sum | sha256sum | sed 's/ .*//'
)

# Has rt make a file in a crate's out/, with a line for each crate that it proves. All that it says goes to
# target/log/LOG: proving LOG CRATE FILE WORDS..
proving() {
    local log=$root/target/log/$1 crate=$2 made=$root/crates/$2/out/$3 line
    shift 3
    mkdir -p "$root/target/log"
    rm -f "$made"
    : > "$log"
    (cd "$root/crates/$crate" && exec rt "$@") < /dev/null 2>&1 | {
        # rt names a crate as it begins with it, and tells a proof by its last line.
        local name=$crate began=$SECONDS
        while IFS= read -r line; do
            printf '%s\n' "$line" >> "$log"
            case $line in
            'rt: chose --jobs '*' for '*) name=${line##* } began=$SECONDS ;;
            'logic=proved '*) printf '  %s proved (%s s)\n' "$name" $((SECONDS - began)) >&2 ;;
            esac
        done
    } || true # the file tells: a program that rt also runs has a status of its own
    if [ -f "$made" ]; then return; fi
    tail -n 12 "$log" | cut -c 1-300 >&2
    fail "rt $1 failed (${log#"$root/"} has all that it said)"
}

# A folder that callers name from where they stand is the same folder for every command that this one starts.
case ${EVINDRAST_LIB_DIR:-/} in /*) ;; *) export EVINDRAST_LIB_DIR=$PWD/$EVINDRAST_LIB_DIR ;; esac

case ${1:-} in -h | --help) usage; exit ;; esac
