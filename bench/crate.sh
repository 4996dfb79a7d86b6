#!/bin/sh
# To be sourced, by `. "$(dirname "$(readlink -f "$0")")/crate.sh"`: what folder.sh has, and how a script makes a program of its
# own over crates of the repository.
# shellcheck source=bench/folder.sh
. "$(dirname -- "$(readlink -f -- "$0")")/folder.sh"
# shellcheck source=bin/common.sh
. "$root/bin/common.sh"

# The folder $folder/crates/NAME/src of a program, beside copies of the crates that it needs:
#     new_crate NAME 'CRATE..' 'USED..'     crates with all that they use; what the program uses itself
new_crate() {
    mkdir -p "$folder/crates/$1/src"
    cp "$root/HANDLES" "$folder"
    # shellcheck disable=SC2086 # the names are words of their own
    crates_below $2 > "$folder/crates.txt"
    # shellcheck disable=SC2086
    names_below $2 | while read -r crate; do cp -R "$root/crates/$crate" "$folder/crates"; done
    echo "$1: $3" >> "$folder/crates.txt"
}

# Proves and builds it, and runs it once on an input; it is $program then: build_crate NAME INPUT [WORD..]
build_crate() {
    # shellcheck disable=SC2034 # for the script that sources this
    program=$folder/crates/$1/out/$1
    crate=$1
    input=$2
    shift 2
    [ $# -eq 0 ] || set -- -- "$@"
    (cd "$folder/crates/$crate" && rt run "$@" < "$input" > "$folder/log" 2>&1) || { cat "$folder/log" >&2; exit 1; }
}

# of lines `name number` the smallest number of each name, in the order in which the names come first
smallest() {
    awk '
        !($1 in best) { name[++count] = $1 }
        !($1 in best) || $2 < best[$1] { best[$1] = $2 }
        END { for (i = 1; i <= count; i++) print name[i], best[name[i]] }'
}
