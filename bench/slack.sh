#!/usr/bin/env bash
# How far bounded mode is from a run cycle by cycle: for programs of examples/ and some slacks the cycles of both, the
# difference in percent, and how often the monitors recorded something. It differs from run to run. It is a measurement
# and no test.
set -eu
top=$(cd "$(dirname "${BASH_SOURCE[0]}")/.." && pwd)
image=$(mktemp)
trap 'rm -f "$image"' EXIT

# The cycles of a run of the image.
cycles() {
    "$top/slacksim" run "$@" <"$image" | awk '$1 == "cycles" { print $2; exit }'
}

printf '%-12s %6s %9s %9s %9s %6s %6s %6s %6s\n' program slack lockstep bounded percent bus map line reply
while read -r program cores; do
    "$top/slacksim" asm <"$top/examples/$program.s" >"$image"
    exact=$(cycles --cores "$cores")
    for slack in 1 2 8 64 1000; do
        "$top/slacksim" run --cores "$cores" --mode bounded --slack "$slack" --notes on <"$image" |
            awk -v p="$program" -v k="$slack" -v e="$exact" '
                $1 == "cycles" { c = $2 }
                $1 == "interval" { bus += $6; map += $8; line += $10; reply += $12 }
                END { printf "%-12s %6d %9d %9d %9.1f %6d %6d %6d %6d\n", p, k, e, c, 100 * (c - e) / e, bus, map, line, reply }'
    done
done <<'END'
lock 4
conditional 2
sharing 4
producer 2
barrier 3
END
