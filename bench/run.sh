#!/usr/bin/env bash
# Times the built program on loops that never end, up to a limit of 10,000,000 cycles: in registers, with
# multiplications and divisions, on lines of each core's own, and on lines that cores share. It prints simulated
# core-cycles a second and the peak memory; then the same in pieces of some cycles, and by threads. Then it times posts through a ring,
# in one thread and across two, and cores that advance through a clock table, in one thread and in threads of their own.
# It is a measurement and no test. First it sees that each image is what its text assembles to.
set -eu
top=$(cd "$(dirname "${BASH_SOURCE[0]}")/.." && pwd)

cycles=10000000

# The seconds and the kilobytes of the fastest of three runs.
fastest() {
    for _ in 1 2 3; do
        { /usr/bin/time -f '%e %M' "$top/slacksim" run --cores "$2" --limit "$cycles" <"$top/bench/$1.slk1" >/dev/null; } 2>&1 | tail -n 1
    done | sort -n | head -n 1
}

for loop in loop products private shared; do
    "$top/slacksim" asm <"$top/bench/$loop.s" | cmp - "$top/bench/$loop.slk1"
done
printf '%-10s %6s %12s %8s %15s %8s\n' loop cores core-cycles seconds core-cycles/s peak-KB
for loop in loop products private shared; do
    for cores in 1 2 4 8; do
        read -r seconds memory <<<"$(fastest "$loop" "$cores")"
        awk -v l="$loop" -v c="$cores" -v s="$seconds" -v m="$memory" -v t="$cycles" \
            'BEGIN { n = c * t; if (s == 0) s = 0.01; printf "%-10s %6d %12d %8.2f %15.0f %8d\n", l, c, n, s, n / s, m }'
    done
done

# The same in quantum mode, four cores, in intervals of 100,000 cycles, up to a limit of 1,000,000.
printf '%-10s %8s %12s %8s %15s %8s\n' loop quantum core-cycles seconds core-cycles/s peak-KB
for loop in loop private shared; do
    for quantum in 2 16 256 65535 65536 100000; do
        read -r seconds memory <<<"$(for _ in 1 2 3; do
            { /usr/bin/time -f '%e %M' "$top/slacksim" run --cores 4 --limit 1000000 --interval 100000 --mode quantum --quantum "$quantum" \
                <"$top/bench/$loop.slk1" >/dev/null; } 2>&1 | tail -n 1
        done | sort -n | head -n 1)"
        awk -v l="$loop" -v q="$quantum" -v s="$seconds" -v m="$memory" \
            'BEGIN { n = 4000000; if (s == 0) s = 0.01; printf "%-10s %8d %12d %8.2f %15.0f %8d\n", l, q, n, s, n / s, m }'
    done
done

# Drifts by threads, of 20 intervals, beside the same cycle by cycle, and how many intervals were quiet.
printf '%-10s %6s %9s %9s %12s %8s\n' loop cores interval slack ms/interval quiet
for loop in private shared; do
    for cores in 2 4; do
        for interval in 1000 10000 100000; do
            for slack in none 8 64 1000; do
                mode=(--mode bounded --slack "$slack")
                [ "$slack" != none ] || mode=(--mode lockstep)
                text=$({ /usr/bin/time -f '%e' "$top/slacksim" run --cores "$cores" --interval "$interval" --limit $((20 * interval)) \
                    "${mode[@]}" --notes on <"$top/bench/$loop.slk1"; } 2>&1 || true)
                quiet=$(grep -c 'bus 0 map 0 line 0 reply 0$' <<<"$text" || true)
                awk -v l="$loop" -v c="$cores" -v i="$interval" -v k="$slack" -v s="$(tail -n 1 <<<"$text")" -v q="$quiet" \
                    'BEGIN { printf "%-10s %6d %9d %9s %12.2f %8d\n", l, c, i, k, 50 * s, q }'
            done
        done
    done
done

# Posts through a ring.
rounds=100
(cd "$top/crates/ring_bench" && rt run) >/dev/null
printf '%-10s %12s %8s %10s %8s\n' threads posts seconds ns/post peak-KB
for threads in one two; do
    read -r seconds memory <<<"$(for _ in 1 2 3; do
        { /usr/bin/time -f '%e %M' "$top/crates/ring_bench/out/ring_bench" "$threads" "$rounds" >/dev/null; } 2>&1 | tail -n 1
    done | sort -n | head -n 1)"
    awk -v w="$threads" -v n="$((rounds * 100000))" -v s="$seconds" -v m="$memory" \
        'BEGIN { printf "%-10s %12d %8.2f %10.0f %8d\n", w, n, s, 1e9 * s / n, m }'
done

# Cores that advance through a clock table.
(cd "$top/crates/gate_bench" && rt run -- apart 2 8 1000) >/dev/null
printf '%-10s %6s %6s %12s %8s %10s\n' threads cores slack clocks seconds ns/clock
for threads in alone apart; do
    for cores in 2 4; do
        for slack in 1 8 64 1000; do
            case "$threads $slack" in
                alone*) clocks=10000000 ;;
                'apart 1') clocks=100000 ;;
                *) clocks=1000000 ;;
            esac
            seconds=$(for _ in 1 2 3; do
                { /usr/bin/time -f '%e' "$top/crates/gate_bench/out/gate_bench" "$threads" "$cores" "$slack" "$clocks" >/dev/null; } 2>&1 | tail -n 1
            done | sort -n | head -n 1)
            awk -v w="$threads" -v c="$cores" -v k="$slack" -v n="$clocks" -v s="$seconds" \
                'BEGIN { printf "%-10s %6d %6d %12d %8.2f %10.0f\n", w, c, k, n, s, 1e9 * s / n }'
        done
    done
done
