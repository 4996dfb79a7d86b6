#!/bin/sh
# Plays traces to devices: a million SDO uploads a microsecond apart, beside log2asc (of the package can-utils) and the device
# written by hand in node_by_hand; two million; an hour of ticks on the I/O module and on the greatest device; a gap of a day;
# 1 GB through a pipe, with the most memory that it takes; a line at a time through a pipe, with the time to its answer; and a
# run whose reader has gone. Prints the seconds of a processor of the best of so many runs, in turn, and their ratios. Status 1
# where a bound is broken, or where the two devices print different lines.
#     replay.sh [RUNS]      20 if not given; of log2asc, which takes longer, 3 at most
set -eu
runs=${1:-20}
# shellcheck source=bench/program.sh
. "$(dirname "$(readlink -f "$0")")/program.sh"
broken=0

# so many uploads of 1000:00, from the clock 0 on
uploads() {
    awk -v count="$1" 'BEGIN {
        for (i = 0; i < count; i++) printf "(%010d.%06d) can0 605#4000100000000000\n", i / 1000000, i % 1000000
    }'
}

# appends the seconds of a processor that a command takes to a file; its output is left in `printed`
timed() {
    file=$1
    shift
    /usr/bin/time -f '%U %S' -o "$folder/used" "$@" > "$folder/printed"
    awk '{ printf "%.2f\n", $1 + $2 }' "$folder/used" >> "$file"
}

# notes where the first number is above the second, a bound
within() {
    if awk -v a="$1" -v b="$2" 'BEGIN { exit a <= b }'; then
        broken=1
        echo "    above the bound $2"
    fi
}

tr -d "\r" < "$root/examples/io-module.eds" > "$folder/module.eds"
"$root/bench/greatest_device.sh" > "$folder/greatest.eds"
rustc -O --edition 2024 -o "$folder/by_hand" "$root/bench/node_by_hand/replay.rs"
rustc -O --edition 2024 -o "$folder/round_trip" "$root/bench/round_trip.rs"

uploads 1000000 > "$folder/one.log"
uploads 2000000 > "$folder/two.log"
: > "$folder/none.log"
for turn in $(seq "$runs"); do
    timed "$folder/one" "$program" replay "$folder/module.eds" "$folder/one.log" --node 5
    mv "$folder/printed" "$folder/ours"
    timed "$folder/hand" "$folder/by_hand" "$folder/module.eds" "$folder/one.log"
    cmp "$folder/ours" "$folder/printed"
    if [ "$turn" -le 3 ] && command -v log2asc > /dev/null; then timed "$folder/log2asc" log2asc -I "$folder/one.log" can0; fi
    timed "$folder/two" "$program" replay "$folder/module.eds" "$folder/two.log" --node 5
done
one=$(best one)
echo "a million uploads: $one s"
if [ -e "$folder/log2asc" ]; then
    echo "log2asc of the same trace: $(best log2asc) s; replay takes $(ratio "$one" "$(best log2asc)") of it (aim 0.3)"
else
    echo "log2asc is not installed"
fi
echo "the device by hand: $(best hand) s; replay takes $(ratio "$one" "$(best hand)") times as long (aim 1.2)"
within "$(ratio "$one" "$(best hand)")" 1.5
echo "two million: $(best two) s, $(ratio "$(best two)" "$one") times as long"
within "$(ratio "$(best two)" "$one")" 2.1

# An hour of ticks, in operational.
printf '(0000000000.000000) can0 000#0105\n!tick 3600000\n' > "$folder/hour.log"
for sheet in module greatest; do
    timed "$folder/$sheet.none" "$program" replay "$folder/$sheet.eds" "$folder/none.log" --node 5
    timed "$folder/$sheet.hour" "$program" replay "$folder/$sheet.eds" "$folder/hour.log" --node 5
    mv "$folder/printed" "$folder/ours"
    timed "$folder/$sheet.hand.none" "$folder/by_hand" "$folder/$sheet.eds" "$folder/none.log"
    timed "$folder/$sheet.hand" "$folder/by_hand" "$folder/$sheet.eds" "$folder/hour.log"
    cmp "$folder/ours" "$folder/printed"
    awk -v sheet="$sheet" -v a="$(best $sheet.hour)" -v b="$(best $sheet.none)" -v c="$(best $sheet.hand)" -v d="$(best $sheet.hand.none)" '
        BEGIN { printf "%s: %.0f ns a tick, by hand %.0f ns\n", sheet, (a - b) / 3.6e6 * 1e9, (c - d) / 3.6e6 * 1e9 }'
done

printf '(0000000000.000000) can0 000#0105\n(0000086400.000000) can0 605#4000100000000000\n' > "$folder/day.log"
timed "$folder/day" "$program" replay "$folder/module.eds" "$folder/day.log" --node 5
echo "a gap of a day on the I/O module: $(best day) s"
within "$(best day)" 5

# uploads for ever, all at the clock 0
endless() { yes '(0000000000.000000) can0 605#4000100000000000'; }

for size in 10000000 1000000000; do
    endless 2> /dev/null | head -c $size | head -n -1 |
        /usr/bin/time -f %M -o "$folder/memory.$size" "$program" replay "$folder/module.eds" - --node 5 > /dev/null
done
echo "memory at most: $(cat "$folder/memory.10000000") KB at 10 MB of trace, $(cat "$folder/memory.1000000000") KB at 1 GB"
within "$(cat "$folder/memory.1000000000")" $(($(cat "$folder/memory.10000000") + 512))

"$folder/round_trip" 2000 '(0000000000.000000) can0 605#4000100000000000' 1 "$program" replay "$folder/module.eds" - --node 5 > "$folder/spent"
read -r usual longest < "$folder/spent"
echo "through a pipe from a line to its answer: $usual us at the median, $longest us at most (aim 1000)"

echo 0 > "$folder/status"
endless 2> /dev/null | {
    timeout 60 "$program" replay "$folder/module.eds" - --node 5 2> /dev/null || echo $? > "$folder/status"
} | head -n 1 > /dev/null
echo "with its reader gone it ends with status $(cat "$folder/status")"
[ "$(cat "$folder/status")" -eq 1 ] || broken=1
exit $broken
