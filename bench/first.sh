#!/bin/sh
# Answers a million upload requests, and reads and prints the same trace by log2asc of can-utils, side by side.
set -eu
# shellcheck source=bench/program.sh
. "$(dirname "$(readlink -f "$0")")/program.sh"
trace=$folder/uploads.log

awk 'BEGIN { for (i = 0; i < 1000000; i++) printf "(%010d.%06d) can0 605#4000100000000000\n", i / 1000, i % 1000 * 1000 }' > "$trace"

answer() { "$program" < "$trace"; }

ours=$(($(best_of 3 answer) / 1000))
[ "$(grep -c ' 585#' "$folder/out")" -eq 1000000 ] || { echo "not a million answers" >&2; exit 1; }
echo "conode:  $ours ms for a million uploads answered"
if command -v log2asc > /dev/null; then
    theirs=$(($(best_of 3 log2asc -I "$trace" can0) / 1000))
    echo "log2asc: $theirs ms for the same trace read and printed"
    echo "ratio:   $(ratio "$ours" "$theirs") (aim: below 0.33)"
else
    echo "log2asc is not installed (package can-utils), so there is no ratio"
fi
