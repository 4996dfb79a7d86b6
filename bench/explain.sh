#!/bin/sh
# Explains a log of a million frames, of the mix of a running machine, with two data sheets, one of them for every node, beside
# `conode decode` with that one, log2asc (of the package can-utils) and, where it is installed, tshark: the seconds of the best of
# five runs, in turn, and their ratios. Then explains 1 GB of frames through a pipe. Status 1 where a line is missing, or where the
# long run takes more than 20 MB.
set -eu
# shellcheck source=bench/frames.sh
. "$(dirname "$(readlink -f "$0")")/frames.sh"
sheet=$root/examples/temperature-sensor.eds
explained() { "$program" explain "$@" --sheet "$sheet" --sheet "8=$root/examples/io-module.eds"; }

frames 1000000 > "$folder/one.log"
# (the lines of transfers that ended are no frames)
ends=$(explained "$folder/one.log" --transfers | wc -l)
lines=$(($(explained "$folder/one.log" | wc -l) - ends))
if [ "$lines" -ne 1000000 ]; then
    echo "explained $lines of 1000000 frames" >&2
    exit 1
fi

for _ in 1 2 3 4 5; do
    timed "$folder/explain" explained "$folder/one.log"
    timed "$folder/decode" "$program" decode "$folder/one.log" --sheet "$sheet"
    if command -v log2asc > /dev/null; then timed "$folder/log2asc" log2asc -I "$folder/one.log" can0; fi
    if command -v tshark > /dev/null; then timed "$folder/tshark" tshark -r "$folder/one.log"; fi
done
explain=$(best explain)
echo "explain of a million frames: $explain s"
echo "decode of them: $(best decode) s; explain takes $(ratio "$explain" "$(best decode)") times as long (aim 2)"
for other in log2asc tshark; do
    if [ -e "$folder/$other" ]; then
        echo "$other of them: $(best $other) s; explain takes $(ratio "$explain" "$(best $other)") of it"
    else
        echo "$other is not installed"
    fi
done

# 1 GB, in pieces of the same log
size=$(wc -c < "$folder/one.log")
for _ in $(seq $((1000000000 / size))); do cat "$folder/one.log"; done |
    /usr/bin/time -f %M -o "$folder/memory" \
        "$program" explain - --sheet "$sheet" --sheet "8=$root/examples/io-module.eds" > /dev/null
echo "1 GB of log through a pipe: $(tail -n 1 "$folder/memory") KB of memory at most"
[ "$(tail -n 1 "$folder/memory")" -le 20480 ]
