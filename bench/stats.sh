#!/bin/sh
# Counts a log of a million frames, of the mix of a running machine, by `conode stats` with a bit rate, beside `conode decode` with a
# data sheet: the seconds of the best of five runs, in turn, and their ratio. Then counts 1 GB of frames through a pipe. Status 1 where a
# frame isn't counted, or where the long run takes more than 20 MB.
set -eu
# shellcheck source=bench/frames.sh
. "$(dirname "$(readlink -f "$0")")/frames.sh"
counted() { "$program" stats "$@" --bitrate 500k; }

frames 1000000 > "$folder/one.log"
counted "$folder/one.log" | grep -q ': 1000000 frames in ' || {
    echo "it doesn't count 1000000 frames" >&2
    exit 1
}

for _ in 1 2 3 4 5; do
    timed "$folder/stats" counted "$folder/one.log"
    timed "$folder/decode" "$program" decode "$folder/one.log" --sheet "$root/examples/temperature-sensor.eds"
done
stats=$(best stats)
echo "stats of a million frames: $stats s"
echo "decode of them: $(best decode) s; stats takes $(ratio "$stats" "$(best decode)") times as long (aim 1.5)"

# 1 GB, in pieces of the same log
size=$(wc -c < "$folder/one.log")
for _ in $(seq $((1000000000 / size))); do cat "$folder/one.log"; done |
    /usr/bin/time -f %M -o "$folder/memory" "$program" stats - --bitrate 500k > /dev/null
echo "1 GB of log through a pipe: $(tail -n 1 "$folder/memory") KB of memory at most"
[ "$(tail -n 1 "$folder/memory")" -le 20480 ]
