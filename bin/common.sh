#!/bin/sh
# To be sourced, by `. "$(dirname "$(readlink -f "$0")")/common.sh"`: $root, the repository, and what the scripts of this folder
# share: which crates stand below which, and whether what was built or released is made of the sources as they are.
# shellcheck disable=SC2034 # for the scripts that source this
root=$(CDPATH='' cd -- "$(dirname -- "$(readlink -f -- "$0")")/.." && pwd)
built_program=$root/crates/conode/out/release/conode
built_archive=$root/crates/bafokun/out/release/libbafokun.a
release=$root/release
# what is released beside MADE-OF and SHA256SUMS, which has a line for each of these
released_files='conode libbafokun.a libbafokun.so bafokun.h aarch64/libbafokun.a aarch64/libbafokun.so'

# Prints the lines of crates.txt of these crates and of all crates of the repository that they stand on, lowest first.
crates_below() {
    awk -v wanted="$*" '
        function visit(name,    count, i, below) {
            if (name in seen || !(name in uses)) return
            seen[name] = 1
            count = split(uses[name], below, " ")
            for (i = 1; i <= count; i++) visit(below[i])
            print line[name]
        }
        { sub(/#.*/, ""); gsub(/[ \t]+/, " "); sub(/ $/, "") }
        split($0, half, ":") == 2 { split(half[1], words, " "); uses[words[1]] = half[2]; line[words[1]] = $0 }
        END { count = split(wanted, names, " "); for (i = 1; i <= count; i++) visit(names[i]) }
    ' "$root/crates.txt"
}

# The names alone: names_below CRATE..
names_below() { crates_below "$@" | sed 's/[ :].*//'; }

# Whether a file is there, and no source, definition or proof of a crate or of those below it is newer: is_current FILE CRATE
is_current() {
    [ -e "$1" ] || return 1
    made=$1
    names=$(names_below "$2")
    set -- "$root/crates.txt"
    for name in $names; do
        set -- "$@" "$root/crates/$name/src" "$root/crates/$name/specs" "$root/crates/$name/proofs"
    done
    [ -z "$(find "$@" -newer "$made" -print 2> /dev/null | head -n 1)" ]
}

# Whether a program with some commands is there, and nothing that it is made of, by the note beside it, is newer: is_current_part FILE
is_current_part() {
    made=$1
    note=$(dirname -- "$made")/made-of
    [ -e "$made" ] && [ -s "$note" ] || return 1
    set --
    while read -r path; do set -- "$@" "$root/$path"; done < "$note"
    [ -z "$({ find "$@" -newer "$made" -print || echo gone; } 2> /dev/null | head -n 1)" ]
}

# Prints the checksum of what goes into the program and the library: the code of their crates, their lines of crates.txt, the
# header, the heap of the library on ARM, and how its functions are aligned.
sources_sum() (
    cd "$root" || exit
    {
        crates_below conode bafokun
        names_below conode bafokun | sed 's/.*/crates\/&\/src/' | xargs sh -c 'find "$@" include/bafokun.h share/heap.c bin/align.py -type f' find |
            LC_ALL=C sort | xargs sha256sum
    } | sha256sum | cut -d ' ' -f 1
)

# What release/MADE-OF says after a word: version, kit or sources.
released() { sed -n "s/^$1 //p" "$release/MADE-OF" 2> /dev/null; }

# Whether the files of a release are there, with the checksums that are released with them, and the program can be run; else standard
# error names, once, those that aren't so.
has_named=
is_intact() {
    [ -n "$(damaged_files)" ] || return 0
    [ -n "$has_named" ] || echo "$(damaged_files): not what was released; git checkout release restores it" >&2
    has_named=yes
    return 1
}
damaged_files() {
    {
        [ -s "$release/MADE-OF" ] || echo MADE-OF
        [ "$(sed 's/^[0-9a-f]*  //' "$release/SHA256SUMS" | paste -s -d ' ' -)" = "$released_files" ] || echo SHA256SUMS
        failed=$(cd "$release" && LC_ALL=C sha256sum --quiet --strict -c SHA256SUMS) || echo "${failed:-SHA256SUMS}"
        [ ! -e "$release/conode" ] || [ -x "$release/conode" ] || echo conode
    } 2> /dev/null | sed 's/: FAILED.*//; s/^/release\//' | uniq | paste -s -d ' ' -
}

# Whether the released files are there, whole, and made of exactly these sources. Where that was found before and nothing is newer,
# it isn't looked at again.
is_released() {
    [ -e "$release/MADE-OF" ] || return 1
    mark=$root/crates/conode/out/released
    if [ -e "$mark" ]; then
        set -- "$root/crates.txt" "$root/include" "$root/share/heap.c" "$root/bin/align.py" "$release"
        for name in $(names_below conode bafokun); do set -- "$@" "$root/crates/$name/src"; done
        # (by the time of the last change of a file's state, since an editor or a copy may keep that of its content)
        [ -n "$(find "$@" -cnewer "$mark" -print 2> /dev/null | head -n 1)" ] || return 0
    fi
    [ "$(sources_sum)" = "$(released sources)" ] || return 1
    is_intact || return 1
    # not `:`, whose failed redirection would end the shell
    { mkdir -p "$root/crates/conode/out" && true > "$mark"; } 2> /dev/null || true
}

# Whether the proof kit is there: other programs have the name rt, too.
has_kit() { case $(rt version 2> /dev/null) in rattle-kit-*) ;; *) return 1 ;; esac }
