#!/bin/sh
# To be sourced, by `. "$(dirname "$(readlink -f "$0")")/frames.sh"`: what program.sh has; a log of the mix of a running machine; and
# the time of a run.
# shellcheck source=bench/program.sh
. "$(dirname -- "$(readlink -f -- "$0")")/program.sh"

# so many frames: of 100 there are 10 SYNC, 66 PDO, 14 SDO, 6 heartbeats, 3 EMCY and an NMT
frames() {
    awk -v count="$1" '
        BEGIN {
            split("180 200 280 300 380 400", pdo)
            split("4017100000000000 4018100100000000 2B171000E8030000 4008100000000000 6000000000000000", request)
            split("4B171000E8030000 43181001A2F10000 6017100000000000 4108100009000000 005453312D505431", answer)
            for (i = 0; i < count; i++) {
                seed = (seed * 1103515245 + 12345) % 2147483648
                kind = int(seed / 65536) % 100
                node = 1 + int(seed / 1024) % 64
                base = 0
                if (kind < 10) { id = "080"; text = "" }
                else if (kind < 76) {
                    id = hex3(dec(pdo[1 + kind % 6]) + node)
                    text = sprintf("%08X%08X", seed, (seed * 7) % 2147483648)
                }
                else if (kind < 83) { id = hex3(1536 + node); text = request[1 + i % 5] }
                else if (kind < 90) { id = hex3(1408 + node); text = answer[1 + i % 5] }
                else if (kind < 96) { id = hex3(1792 + node); text = "05" }
                else if (kind < 99) { id = hex3(128 + node); text = "1082110000000000" }
                else { id = "000"; text = "01" sprintf("%02X", node) }
                printf "(%010d.%06d) can0 %s#%s\n", 1700000000 + i / 2000, (i % 2000) * 500, id, text
            }
        }
        function hex3(n) { return sprintf("%03X", n) }
        function dec(s,  n, k) {
            n = 0
            for (k = 1; k <= length(s); k++) n = n * 16 + index("0123456789ABCDEF", substr(s, k, 1)) - 1
            return n
        }'
}

# appends the seconds of a run of a command to a file, and throws its output away
timed() {
    file=$1
    shift
    start=$(date +%s%N)
    "$@" > /dev/null
    end=$(date +%s%N)
    awk -v ns=$((end - start)) 'BEGIN { printf "%.3f\n", ns / 1e9 }' >> "$file"
}
