#!/usr/bin/env bash
# Times `famrun sim` on scripts of two sizes, one twice the other, and prints the ratio of the two times and the events a
# second of the larger one. Times are those of the processor, the least of five runs. Where the cost of an event does not
# grow with the events before it, the ratio is about 2; the script fails where one is 2.3 or more. It builds the program
# first (`rt run`).
set -eu
cd "$(dirname "$0")/../crates/famrun"
printf 'service 1 1 64\nstop\n' | rt run -- sim 0 >/dev/null 2>&1
program=$PWD/out/famrun
folder=$(mktemp -d)
trap 'rm -rf "$folder"' EXIT

# so many nonblocking puts by each of so many programs, with a quiet after every 64
puts() {
    awk -v programs="$1" -v count="$2" 'BEGIN {
        print "service 2 4 64"
        for (p = 0; p < programs; p++) {
            print "pe 5 5"
            for (k = 0; k < count; k++) {
                printf "put-nb c0 i0 %d 01\n", (k * 67 + p * 5) % 4096
                if (k % 64 == 63) print "quiet c0"
            }
            print "end"
        }
        print "stop"
    }'
}

# so many fetching adds on one number by each of so many programs
adds() {
    awk -v programs="$1" -v count="$2" 'BEGIN {
        print "service 2 4 64"
        for (p = 0; p < programs; p++)
            printf "pe 5 5\nrepeat %d\natomic c0 i0 0 u64 fetch-add 1\ndone\nend\n", count
        print "stop"
    }'
}

# so many scatters of 4,096 elements over 64 stripes by each of so many programs
scatters() {
    awk -v programs="$1" -v count="$2" 'BEGIN {
        for (k = 0; k < 4096; k++) bytes = bytes "07"
        print "service 8 8 64"
        for (p = 0; p < programs; p++)
            printf "pe 5 5\nrepeat %d\nscatter c0 i0 0 1 1 4096 %s\ndone\nend\n", count, bytes
        print "stop"
    }'
}

# so many copies of 1,048,576 bytes by each of so many programs, each in a region of its own
copies() {
    awk -v programs="$1" -v count="$2" 'BEGIN {
        print "service 8 8 65536"
        for (p = 0; p < programs; p++)
            printf "pe 5 5\nregion r1 a%d 2097152 700\nalloc i1 x 2097152 600 r1\nrepeat %d\ncopy c0 i1 0 i1 1048576 1048576\nquiet c0\ndone\nend\n", p, count
        print "stop"
    }'
}

# milliseconds of one run
spent() {
    local time
    rm -f "$folder/fam.journal"
    time=$({ cd "$folder"; TIMEFORMAT=%3U; time "$program" sim 1 <"$1" >"$folder/report"; } 2>&1 | tr -d .)
    echo $((10#$time))
}

least() {
    for _ in 1 2 3 4 5; do spent "$1"; done | sort -n | head -1
}

measure() {
    "$1" "$2" "$3" >"$folder/small"
    "$1" "$2" $(($3 * 2)) >"$folder/large"
    local small large events
    small=$(least "$folder/small")
    large=$(least "$folder/large")
    events=$(awk '$1 == "events" { print $2 }' "$folder/report")
    awk -v name="$1" -v p="$2" -v n="$3" -v a="$small" -v b="$large" -v e="$events" 'BEGIN {
        printf "%s of %d programs, %d and %d each: ratio %.2f, %d events a second\n", name, p, n, 2 * n, b / a, e * 1000 / b
        exit !(b / a < 2.3)
    }'
}

measure puts 1 20000
measure puts 64 400
measure adds 64 500
measure scatters 8 8
measure copies 64 2
