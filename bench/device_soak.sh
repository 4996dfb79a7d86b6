#!/bin/sh
# Gives canopen-device random frames and lines, ten million, or as many as are asked for: bench/device_soak.sh [COUNT [SEED]].
# Half of them are frames and event lines, each played to conode replay too: both write the same. The others are all kinds of
# lines, with mistakes, to a client that watches, without and with AddressSanitizer; among them a question with a known answer
# each 1,000 lines. Status 1 where an answer differs, memory leaks or grows.
set -eu
# shellcheck source=bench/program.sh
. "$(dirname "$(readlink -f "$0")")/program.sh"
count=${1:-10000000}
seed=${2:-1}
sheet=$root/examples/io-module.eds
"$root/bin/libbafokun" "$folder/lib"
make -s -C "$root/tools/device" LIB="$folder/lib" OUT="$folder/made"
make -s -C "$root/tools/device" LIB="$folder/lib" OUT="$folder/asan" \
    CFLAGS='-std=c11 -g -O1 -fsanitize=address,undefined -fno-sanitize-recover=all'

# Random lines: lines COUNT KIND, frames or all.
lines() {
    awk -v count="$1" -v kind="$2" -v seed="$seed" '
        function below(bound) { return int(rand() * bound) }
        function pick(text,    all, many) { many = split(text, all, " "); return all[1 + below(many)] }
        function bytes(many,    text) { while (many-- > 0) text = text sprintf("%02X", below(256)); return text }
        function key() { return pick("1001:00 1003:00 1014:00 1015:00 1016:01 1017:00 1029:01 1400:01 1600:01 1800:01 1801:02 \
            1A00:01 2000:00 2001:00 2002:00 6000:01 6000:02 6200:01 6401:01 6411:01 6411:02 7000:00") }
        function sdo(    at) {
            at = key()
            return "608#" pick("40 40 2F 2B 23 21 60 70 00 10 01 11 C0 C2 A0 A3 A1 80 81 02 7F") \
                substr(at, 3, 2) substr(at, 1, 2) substr(at, 6) bytes(4)
        }
        function frame() {
            now += below(20)
            return sprintf("(%d.%06d) can0 ", 1700000000 + now / 1000, now % 1000 * 1000) \
                (rand() < 0.6 ? sdo() : pick("000#0108 000#0208 000#8008 000#8208 000#8108 080# 701#05 208# 308# 208#01") \
                (rand() < 0.3 ? bytes(below(3)) : ""))
        }
        function event_line(    name) {
            name = pick("!write !write !changed !event !raise !clear !tick")
            if (name == "!write") return name " " key() " " bytes(1 + below(4))
            if (name == "!changed") return name " " key()
            if (name == "!event") return name " " below(6)
            if (name == "!raise") return name " " bytes(2) " " bytes(1) " " bytes(5)
            if (name == "!clear") return name " " bytes(1)
            return name " " 1 + below(50)
        }
        function line() {
            return pick("set get watch event raise clear state help 8 9 can0:8 !write !raise !x ( ;") " " \
                pick("6000:01 2000:00 1008:00 Vendor-ID Read 1 2 -1 FF x") (rand() < 0.5 ? " " pick("1 -1 0x7F x \\x00 -") : "")
        }
        BEGIN {
            srand(seed)
            for (i = 1; i <= count; i++) {
                if (kind == "all" && i % 1000 == 0) print "get 1018:02"
                else if (kind == "all" && rand() < 0.3) print line()
                else print rand() < 0.3 ? event_line() : frame()
            }
        }'
}

half=$((count / 2))
lines $half frames > "$folder/lines"
"$folder/made/canopen-device" "8=$sheet" --stdio --stamps < "$folder/lines" > "$folder/by_device"
"$program" replay "$sheet" "$folder/lines" --node 8 > "$folder/by_replay"
cmp "$folder/by_device" "$folder/by_replay"
echo "$half frames and event lines: as conode replay, $(wc -l < "$folder/by_device") lines"

# so many lines of all kinds, to one of the two: fails where an answer is wrong; the peak of memory in kB goes into a file
run() {
    lines "$1" all | {
        /usr/bin/time -f %M -o "$folder/memory" "$folder/$2/canopen-device" "8=$sheet" --stdio --stamps || echo $? > "$folder/failed"
    } | awk '/^; 1018:02 / { if ($3 == 2622465) right++; else wrong++ } END { print right + 0, wrong + 0 }' > "$folder/answers"
    read -r right wrong < "$folder/answers"
    echo "$1 lines of all kinds, $2: $right questions answered, $wrong wrong; $(cat "$folder/memory") kB"
    [ ! -e "$folder/failed" ] && [ "$right" -ge $(($1 / 1000)) ] && [ "$wrong" -eq 0 ]
}
run $((half / 100)) made
few=$(cat "$folder/memory")
run $half made
[ "$(cat "$folder/memory")" -le $((few + 1024)) ]
run $half asan
