#!/bin/sh
# Checks a data sheet of 1 MiB and one of half its size, lints the first beside its check, without and with a node-ID, and reads
# it by the C library inih and by Python's configparser, side by side. Status 1 where the first takes more than 2.5 times as long as the second.
set -eu
# shellcheck source=bench/program.sh
. "$(dirname "$(readlink -f "$0")")/program.sh"

# A data sheet of at most so many bytes: the mandatory objects, and ARRAYs with as many sub-indices as there is room for.
# Its list of ARRAYs stands last. On standard error: its objects and its entries.
make_sheet() {
    awk -v room="$1" '
        function put(text) { printf "%s", text; room -= length(text) }
        function entry(name, type) { return "[" name "]\nDataType=" type "\nAccessType=ro\n" }
        BEGIN {
            put("[MandatoryObjects]\nSupportedObjects=3\n1=0x1000\n2=0x1001\n3=0x1018\n")
            put(entry("1000", 7) entry("1001", 5) "[1018]\nObjectType=9\n" entry("1018sub0", 5) entry("1018sub1", 7))
            entries = 4
            room -= length("[ManufacturerObjects]\nSupportedObjects=0000\n")
            for (;;) {
                object = sprintf("%X", 8192 + arrays)
                begin = "[" object "]\nObjectType=8\n" entry(object "sub0", 5)
                line = (arrays + 1) "=0x" object "\n"
                if (length(begin line) > room) break
                put(begin)
                list = list line
                room -= length(line)
                arrays++
                entries++
                for (sub_index = 1; sub_index < 256; sub_index++) {
                    more = entry(object "sub" sprintf("%X", sub_index), 7)
                    if (length(more) > room) break
                    put(more)
                    entries++
                }
            }
            printf "[ManufacturerObjects]\nSupportedObjects=%d\n%s", arrays, list
            print arrays + 3 " objects, " entries " entries" > "/dev/stderr"
        }'
}

# checks a sheet, which has to hold what it was made of, and sets `spent_best`
measure() {
    spent_best=$(best_of 5 "$program" check "$2")
    [ "$(cat "$folder/out")" = "ok: $3, 0 notes" ] || { echo "not ok: $3, but $(cat "$folder/out")" >&2; exit 1; }
    awk -v name="$1" -v spent="$spent_best" -v bytes="$(wc -c < "$2")" -v held="$3" \
        'BEGIN { printf "%-13s %8.1f ms for %d bytes, %s\n", name ":", spent / 1000, bytes, held }'
}

whole=$folder/whole.eds
half=$folder/half.eds
tiny=$folder/tiny.eds
in_whole=$(make_sheet 1048576 2>&1 > "$whole")
in_half=$(make_sheet $(($(wc -c < "$whole") / 2)) 2>&1 > "$half")
in_tiny=$(make_sheet 0 2>&1 > "$tiny")

measure "conode check" "$tiny" "$in_tiny"
measure "conode check" "$half" "$in_half"
time_of_half=$spent_best
measure "conode check" "$whole" "$in_whole"
time_of_whole=$spent_best
status=0
awk -v a="$time_of_whole" -v b="$time_of_half" \
    'BEGIN { printf "whole / half: %8.2f (at most 2.5)\n", a / b; exit (a > 2.5 * b) }' || status=1

# lints the text with these words, beside its check with them: what is found in it are warnings alone
lint_beside() {
    time_of_lint=$(best_of 9 "$program" lint "$whole" "$@")
    # with a node-ID, 28,294 entries are more than a device has room for: one error
    grep -q '^[01] error' "$folder/out" || { echo "lint finds errors: $(tail -n 1 "$folder/out")" >&2; exit 1; }
    time_of_check=$(best_of 9 "$program" check "$whole" "$@")
    awk -v a="$time_of_lint" -v b="$time_of_check" -v words="$*" \
        'BEGIN {
            printf "%-13s %8.1f ms for the same text\n", "lint" (words == "" ? "" : " " words) ":", a / 1000
            printf "ratio:        %8.2f of check %s (aim: at most 2)\n", a / b, words
        }'
}

lint_beside
lint_beside --node 5

# The C library cuts the text into sections, names and values, and this hashes them.
cat > "$folder/inih.c" << 'END'
#include <ini.h>
#include <stdio.h>

static unsigned hash = 5381;

static void add(const char *text) {
    for (; *text; text++) hash = hash * 33 ^ (unsigned char)*text;
}

static int take(void *user, const char *section, const char *name, const char *value) {
    (void)user;
    add(section), add(name), add(value);
    return 1;
}

int main(int argc, char **argv) {
    int bad = argc != 2 || ini_parse(argv[1], take, NULL);
    printf("%u\n", hash);
    return bad;
}
END
if cc -O2 -o "$folder/inih" "$folder/inih.c" -linih 2> "$folder/cc"; then
    "$folder/inih" "$whole" > "$folder/out" || { echo "inih refuses the text" >&2; exit 1; }
    time_of_inih=$(best_of 5 "$folder/inih" "$whole")
    awk -v a="$time_of_whole" -v b="$time_of_inih" \
        'BEGIN { printf "inih:         %8.1f ms for the same text, sections, names and values hashed\nratio:        %8.2f (aim: at most 1.5)\n", b / 1000, a / b }'
else
    echo "libinih-dev is not installed, so inih is not measured"
fi

if command -v python3 > /dev/null; then
    time_of_python=$(python3 - "$whole" << 'END'
import configparser, sys, time

with open(sys.argv[1], encoding="latin-1") as file:
    text = file.read()


def spent():
    parser = configparser.RawConfigParser(strict=False)
    begin = time.perf_counter()
    parser.read_string(text)
    return time.perf_counter() - begin


print(int(min(spent() for _ in range(5)) * 1_000_000))
END
    )
    awk -v a="$time_of_whole" -v b="$time_of_python" \
        'BEGIN { printf "configparser: %8.1f ms for the same text, sections and keys alone\nratio:        %8.2f\n", b / 1000, a / b }'
else
    echo "python3 is not installed, so configparser is not measured"
fi
exit "$status"
