#!/usr/bin/env bash
# Times `famrun sim` and `famrun audit` on made scripts of two sizes, one twice the other: about 100,000 and 200,000 events.
# It prints the ratio of the two times of each command, and the events a second of the larger run. Times are those of the
# processor, the least of nine runs of each in turn, so that other work on the machine falls on both sizes alike. Where the
# cost of an event does not grow with the events before it, the ratio is about 2; the script fails where one is 2.3 or more,
# or where a report is not judged legal. It builds the program first (`rt run`), and runs it in a folder of its own, since
# `sim` keeps a journal in the current one.
set -eu
cd "$(dirname "$0")/../crates/famrun"
rt run -- --version >/dev/null 2>&1
program=$PWD/out/famrun
folder=$(mktemp -d)
trap 'rm -rf "$folder"' EXIT
cd "$folder"

# milliseconds of one run of these words over an input
spent() {
    local time
    rm -f fam.journal
    time=$({ TIMEFORMAT=%3U; time "$program" $2 <"$1" >told; } 2>&1 | tr -d .)
    echo $((10#$time))
}

lesser() {
    echo $(($1 < $2 ? $1 : $2))
}

# the script of so many programs with so many calls each, its report behind it, and how many events that has
make_input() {
    "$program" make 1 "$2" "$3" >"$1.script"
    rm -f fam.journal
    "$program" sim 1 <"$1.script" >"$1.report"
    cat "$1.script" "$1.report" >"$1.input"
    awk '$1 == "events" { print $2 }' "$1.report"
}

# times a command on the small input and on the large one, by its words and the ending of their names
compare() {
    local a=999999999 b=999999999
    for _ in 1 2 3 4 5 6 7 8 9; do
        a=$(lesser "$a" "$(spent "small.$2" "$1")")
        b=$(lesser "$b" "$(spent "large.$2" "$1")")
    done
    awk -v name="${1%% *}" -v programs="$3" -v small="$4" -v large="$5" -v a="$a" -v b="$b" 'BEGIN {
        printf "%s of %d programs, %d and %d events: %d and %d ms, ratio %.2f, %d events a second\n",
            name, programs, small, large, a, b, b / a, large * 1000 / b
        exit !(b / a < 2.3)
    }'
}

measure() {
    local small large failed=0
    small=$(make_input small "$1" "$2")
    large=$(make_input large "$1" $(($2 * 2)))
    compare "sim 1" script "$1" "$small" "$large" || failed=1
    compare audit input "$1" "$small" "$large" || failed=1
    [ "$(cat told)" = "legal $large" ] || failed=1
    return $failed
}

failed=0
measure 64 735 || failed=1
measure 24 1960 || failed=1
exit $failed
