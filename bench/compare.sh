#!/bin/sh
# Compares a log of a million frames, of the mix of a running machine, with a data sheet by `conode compare`, beside `conode replay` of it:
# the seconds of the best of five runs, in turn, and their ratio. Then compares 1 GB of frames through a pipe. Status 1 where a frame isn't
# read, or where the long run takes more than 20 MB.
set -eu
# shellcheck source=bench/frames.sh
. "$(dirname "$(readlink -f "$0")")/frames.sh"
sheet=$root/examples/temperature-sensor.eds
# the frames are random, so that there may be differences
compared() { "$program" compare "$sheet" "$@" --node 5 || [ $? = 1 ]; }

frames 1000000 > "$folder/one.log"
compared "$folder/one.log" | grep -q '^node 5: [0-9]* frames as prescribed' || {
    echo "it doesn't compare them to the end" >&2
    exit 1
}

for _ in 1 2 3 4 5; do
    timed "$folder/compare" compared "$folder/one.log"
    timed "$folder/replay" "$program" replay "$sheet" "$folder/one.log" --node 5
done
compare=$(best compare)
echo "compare of a million frames: $compare s"
echo "replay of them: $(best replay) s; compare takes $(ratio "$compare" "$(best replay)") times as long (aim 1.5)"

# 1 GB, in pieces of the same log
size=$(wc -c < "$folder/one.log")
for _ in $(seq $((1000000000 / size))); do cat "$folder/one.log"; done |
    /usr/bin/time -f %M -o "$folder/memory" "$program" compare "$sheet" - --node 5 > /dev/null || true
echo "1 GB of log through a pipe: $(tail -n 1 "$folder/memory") KB of memory at most"
[ "$(tail -n 1 "$folder/memory")" -le 20480 ]
