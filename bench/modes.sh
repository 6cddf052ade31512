#!/usr/bin/env bash
# The modes side by side: four cores on lines of their own and on lines that they share, over 200,000 cycles. For each slack
# and interval, simulated core-cycles a second, and in speculative mode how many of the intervals were rolled back. It is a
# measurement and no test, and differs from run to run.
set -eu
top=$(cd "$(dirname "${BASH_SOURCE[0]}")/.." && pwd)
limit=200000

# The seconds of a run of an image, its notes left in the file.
timed() {
    local image=$1
    shift
    { /usr/bin/time -f '%e' "$top/slacksim" run --cores 4 --limit "$limit" --notes on "$@" <"$top/bench/$image.slk1" |
        grep '^interval' >"$notes" || true; } 2>&1 | tail -n 1
}

line() {
    awk -v i="$1" -v m="$2" -v s="$3" -v k="$4" -v t="$5" -v n="$(grep -c . "$notes" || true)" -v r="$(grep -c rolled "$notes" || true)" -v l="$limit" \
        'BEGIN { if (t == 0) t = 0.01; printf "%-8s %-12s %6s %9s %15.0f %9d %7d\n", i, m, s, k, 4 * l / t, n, r }'
}

notes=$(mktemp)
trap 'rm -f "$notes"' EXIT
printf '%-8s %-12s %6s %9s %15s %9s %7s\n' loop mode slack interval core-cycles/s intervals rolled
for image in private shared; do
    line "$image" lockstep - - "$(timed "$image")"
    line "$image" "quantum 16" - 10000 "$(timed "$image" --mode quantum --quantum 16 --interval 10000)"
    for mode in bounded speculative; do
        for slack in 8 64 1000; do
            for interval in 1000 10000 100000; do
                line "$image" "$mode" "$slack" "$interval" "$(timed "$image" --mode "$mode" --slack "$slack" --interval "$interval")"
            done
        done
    done
done
