#!/bin/sh
# Decodes a log of a million frames and one of two million, of the mix of a running machine, with the names of a data
# sheet; prints the first log with log2asc (of the package can-utils) and, where it is installed, with tshark. Prints the
# seconds of the best of five runs, in turn, and their ratios, and the instructions for a frame where valgrind is installed.
# Status 1 where the program decodes something else than it should.
#     decode.sh [PROGRAM]      PROGRAM: another conode, as one of an earlier commit, which decodes the same in the same run
set -eu
earlier=${1:-}
# shellcheck source=bench/frames.sh
. "$(dirname "$(readlink -f "$0")")/frames.sh"
sheet=$root/examples/temperature-sensor.eds

# how many instructions a frame more takes a program: of 100,000 frames and of 200,000
instructions() {
    for log in 100 200; do
        valgrind --tool=callgrind --callgrind-out-file=/dev/null "$1" decode "$folder/$log.log" --sheet "$sheet" 2>&1 > /dev/null |
            awk '/Collected/ { print $NF }'
    done | awk 'NR == 1 { few = $1 } NR == 2 { printf "%.0f\n", ($1 - few) / 100000 }'
}

frames 1000000 > "$folder/one.log"
frames 2000000 > "$folder/two.log"
head -n 100000 "$folder/one.log" > "$folder/100.log"
head -n 200000 "$folder/one.log" > "$folder/200.log"

lines=$("$program" decode "$folder/one.log" --sheet "$sheet" | wc -l)
if [ "$lines" -ne 1000000 ]; then
    echo "decoded $lines of 1000000 frames" >&2
    exit 1
fi
if [ -n "$earlier" ]; then
    "$program" decode "$folder/100.log" --sheet "$sheet" > "$folder/decoded"
    "$earlier" decode "$folder/100.log" --sheet "$sheet" | cmp - "$folder/decoded"
fi

for _ in 1 2 3 4 5; do
    timed "$folder/one" "$program" decode "$folder/one.log" --sheet "$sheet"
    if [ -n "$earlier" ]; then timed "$folder/earlier" "$earlier" decode "$folder/one.log" --sheet "$sheet"; fi
    if command -v log2asc > /dev/null; then timed "$folder/log2asc" log2asc -I "$folder/one.log" can0; fi
    timed "$folder/two" "$program" decode "$folder/two.log" --sheet "$sheet"
    if command -v tshark > /dev/null; then timed "$folder/tshark" tshark -r "$folder/one.log"; fi
done
one=$(best one)
two=$(best two)
echo "decode of a million frames: $one s"
echo "of two million: $two s, $(ratio "$two" "$one") times as long (aim 2.1)"
if [ -n "$earlier" ]; then
    echo "the earlier program: $(best earlier) s; decode takes $(ratio "$one" "$(best earlier)") of it (aim 1)"
fi
for other in log2asc tshark; do
    if [ -e "$folder/$other" ]; then
        echo "$other of a million frames: $(best $other) s; decode takes $(ratio "$one" "$(best $other)") of it"
    else
        echo "$other is not installed"
    fi
done
if command -v valgrind > /dev/null; then
    echo "instructions for a frame: $(instructions "$program")"
    if [ -n "$earlier" ]; then echo "of the earlier program: $(instructions "$earlier")"; fi
else
    echo "valgrind is not installed"
fi
