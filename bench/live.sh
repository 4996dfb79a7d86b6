#!/bin/sh
# Feeds `conode decode -` a frame at a time through a pipe and waits for its text each time; then decodes a long trace
# through a pipe. Prints the ms from a frame to its text, the shell's own part included, and the most memory of the long
# run. Status 1 where a text doesn't come within a second, where the long run takes more than 10 MB, or where a run whose
# reader has gone doesn't end.
set -eu
# shellcheck source=bench/program.sh
. "$(dirname "$(readlink -f "$0")")/program.sh"

mkfifo "$folder/in" "$folder/out"
"$program" decode - < "$folder/in" > "$folder/out" &
exec 3> "$folder/in" 4< "$folder/out"
start=$(date +%s%N)
for i in 1 2 3 4 5 6 7 8 9 10; do
    echo "(000000000$((i % 10)).000000) can0 705#05" >&3
    timeout 1 head -n 1 <&4 > "$folder/text" || true
    [ -s "$folder/text" ] || { echo "no text within a second" >&2; exit 1; }
done
end=$(date +%s%N)
exec 3>&- 4<&-
wait
echo "from a frame to its text: $(awk -v spent="$((end - start))" 'BEGIN { printf "%.1f", spent / 1e7 }') ms"

# 1 GB of frames
long_trace() {
    awk 'BEGIN {
        line = "(1700000000.000000) can0 605#4017100000000000\n"
        for (i = 0; i < 8; i++) line = line line
        for (i = 0; i < 1000000000 / length(line); i++) printf "%s", line
    }'
}
long_trace | /usr/bin/time -f %M -o "$folder/memory" "$program" decode - > /dev/null
echo "1 GB of trace through a pipe: $(cat "$folder/memory") KB of memory at most"
[ "$(cat "$folder/memory")" -le 10240 ]

echo 0 > "$folder/status"
long_trace 2> /dev/null | { timeout 60 "$program" decode - 2> /dev/null || echo $? > "$folder/status"; } | head -n 1 > /dev/null
[ "$(cat "$folder/status")" -eq 1 ] || { echo "with its reader gone it ended with $(cat "$folder/status")" >&2; exit 1; }
echo "with its reader gone it ends with status 1"
