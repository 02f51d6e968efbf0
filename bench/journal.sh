#!/usr/bin/env bash
# Appends 2,000 changes to a journal in a file, and lets a bare program write the same bytes at the same places with the same
# syncs: the ratio of the two times, by the clock, is to be below 1.2. Each has the least of nine runs in turn.
# Then it opens a journal of 60,000 records and one of half as many: where regions come and go, 50 times each, and where each
# record makes an item of one region, 20 times, the least of five runs. The ratio of the two times, of the processor, is to be
# below 2.3 in the first case. That of the second is only told: the rows of 60,000 items are more than a processor's caches hold.
# With a word it appends so many changes.
set -eu
top=$(cd "$(dirname "$0")/.." && pwd)
changes=${1:-2000}
folder=$(mktemp -d "$top/bench/journal.XXXXXX")
trap 'rm -rf "$folder"' EXIT
(cd "$top/crates/journal_bench" && rt run -- append 4 >/dev/null 2>&1)
cp "$top/crates/journal_bench/out/journal_bench" "$folder/"
gcc -O2 -o "$folder/bare" "$top/bench/journal_bare.c"
cd "$folder"

# the milliseconds that a command takes, by the clock (%3R) or of the processor (%3U)
spent() {
    TIMEFORMAT=$1
    local time
    time=$({ time "${@:2}" >told; } 2>&1)
    [ -s told ]
    echo $((10#${time/./}))
}

# the lesser of two numbers
lesser() {
    echo $(($1 < $2 ? $1 : $2))
}

# a ratio, in hundredths, as a number with two places
tell() {
    echo "$(($1 / 100)).$(printf %02d $(($1 % 100)))"
}

failed=0
journal=999999999
bare=999999999
for _ in 1 2 3 4 5 6 7 8 9; do
    journal=$(lesser "$journal" "$(spent %3R ./journal_bench append "$changes")")
    bare=$(lesser "$bare" "$(spent %3R ./bare bench.journal)")
done
cmp bench.journal bare.journal
ratio=$((journal * 100 / bare))
echo "$changes appends: $journal ms; bare: $bare ms; ratio $(tell $ratio)"
[ "$ratio" -lt 120 ] || failed=1

# the milliseconds that opening a journal of a kind and of so many records takes, so often, the least of so many runs
opening() {
    ./journal_bench "$1" "$2" >/dev/null
    local least=999999999
    for ((run = 0; run < $4; run++)); do
        least=$(lesser "$least" "$(spent %3U ./journal_bench open "$3")")
    done
    echo "$least"
}

half=$(opening few 30000 50 5)
whole=$(opening few 60000 50 5)
ratio=$((whole * 100 / half))
echo "50 openings of 30000 records: $half ms; of 60000: $whole ms; ratio $(tell $ratio)"
[ "$ratio" -lt 230 ] || failed=1

half=$(opening many 30000 20 5)
whole=$(opening many 60000 20 5)
ratio=$((whole * 100 / half))
echo "20 openings of 30000 items: $half ms; of 60000: $whole ms; ratio $(tell $ratio)"
exit $failed
