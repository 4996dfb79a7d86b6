#!/bin/sh
# To be sourced, by `. "$(dirname "$(readlink -f "$0")")/program.sh"`: what folder.sh has; $program, the program that bin/conode
# runs, built where it has to be; and functions on times.
# shellcheck source=bench/folder.sh
. "$(dirname -- "$(readlink -f -- "$0")")/folder.sh"
"$root/bin/conode" --help > /dev/null
# shellcheck disable=SC2034 # for the script that sources this
program=$("$root/bin/conode" --which | head -n 1)

# the smallest number of a file of the folder, with a number on each line
best() { sort -n "$folder/$1" | head -n 1; }

ratio() { awk -v a="$1" -v b="$2" 'BEGIN { printf "%.2f\n", a / (b > 0 ? b : 0.0001) }'; }

# the best of so many runs of a command, in microseconds; its output is left in `out`
best_of() {
    count=$1
    shift
    shortest=
    for _ in $(seq "$count"); do
        begin=$(date +%s%N)
        "$@" > "$folder/out" || true
        end=$(date +%s%N)
        spent=$(((end - begin) / 1000))
        if [ -z "$shortest" ] || [ "$spent" -lt "$shortest" ]; then shortest=$spent; fi
    done
    echo "$shortest"
}
