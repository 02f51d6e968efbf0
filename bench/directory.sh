#!/usr/bin/env bash
# Makes N regions of a directory with 15 items in each, looks each item up and takes each second one away, and does the
# same with half as many regions. It tells the ratio of the two times, below 2.3 where the cost of a call does not grow
# with the rows. Times are those of the processor, of nine runs of each in turn. N is 4,000, or the first word.
set -eu
cd "$(dirname "$0")/../crates/directory_bench"
n=${1:-4000}
TIMEFORMAT=%3U

# milliseconds that a run with so many regions takes
spent() {
    local time
    time=$({ time out/directory_bench "$1" >/dev/null; } 2>&1 | tr -d .)
    echo $((10#$time))
}

rt run -- 10 >/dev/null 2>&1
half=0
whole=0
for _ in 1 2 3 4 5 6 7 8 9; do
    half=$((half + $(spent $((n / 2)))))
    whole=$((whole + $(spent "$n")))
done
if [ "$half" -lt 1 ]; then
    echo "too few regions to tell"
    exit 1
fi
ratio=$((whole * 100 / half))
items=$((15 * n))
echo "$((items / 2)) items: $((half / 9)) ms; $items: $((whole / 9)) ms; ratio $((ratio / 100)).$(printf %02d $((ratio % 100)))"
echo "$((9 * (2 * items + items / 2) * 1000 / whole)) calls a second"
[ "$ratio" -lt 230 ]
