#!/usr/bin/env bash
# Steps a history of N pieces through the memory machine, and one of twice as many. It tells the ratio of the two times,
# below 2.3 where the cost of a step does not grow with the events before it, and the events a second: the pieces, the
# issue of each, and a quiet for 64. Times are those of the processor, of nine runs of each in turn. N is 250,000, or
# the first word.
set -eu
cd "$(dirname "$0")/../crates/machine_bench"
n=${1:-250000}
TIMEFORMAT=%3U

# milliseconds that a run of so many pieces takes
spent() {
    local time
    time=$({ time out/machine_bench "$1" >/dev/null; } 2>&1 | tr -d .)
    echo $((10#$time))
}

rt run -- 0 >/dev/null 2>&1
once=0
twice=0
for _ in 1 2 3 4 5 6 7 8 9; do
    once=$((once + $(spent "$n")))
    twice=$((twice + $(spent $((2 * n)))))
done
if [ "$once" -lt 1 ]; then
    echo "too few pieces to tell"
    exit 1
fi
events=$((4 * n + 2 * n / 64))
ratio=$((twice * 100 / once))
echo "$n pieces: $((once / 9)) ms; $((2 * n)): $((twice / 9)) ms; ratio $((ratio / 100)).$(printf %02d $((ratio % 100)))"
echo "$((9 * events * 1000 / twice)) events a second"
[ "$ratio" -lt 230 ]
