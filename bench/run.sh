#!/bin/bash
# Times the Rattle program crates/bench and the C program bench/levels.c on the same numbers, in turns, and prints for each input
# the nanoseconds a pixel (the least user time of the runs over 16,769,025 pixels) and the ratio. First `tools/prove bench` makes the program.
# bench/run.sh [RUNS]   (10)
set -eu
cd "$(dirname "$0")/.."
runs=${1:-10}
rattle=target/bin/bench c=target/bench-levels
[ -x "$rattle" ] || { echo "no $rattle: run tools/prove bench"; exit 2; }
gcc -O2 -Wall -Wextra -o "$c" bench/levels.c
TIMEFORMAT=%3U

# the user time of a run, in seconds; what it wrote goes to a file
timed() { { time "$1" <"$2" >"$3"; } 2>&1; }

# the least of the numbers, as nanoseconds a pixel
least() { printf '%s\n' "$@" | sort -n | head -n 1 | awk '{ printf "%.1f", $1 * 1e9 / 16769025 }'; }

for input in crates/bench/stdin bench/sweep.txt bench/multiplier.txt; do
    rattle_times=() c_times=()
    for ((i = 0; i < runs; i++)); do
        rattle_times+=("$(timed "$rattle" "$input" "$c.rattle")")
        c_times+=("$(timed "$c" "$input" "$c.c")")
        cmp -s "$c.rattle" "$c.c" || { echo "$input: the checksums differ"; exit 1; }
    done
    r=$(least "${rattle_times[@]}") k=$(least "${c_times[@]}")
    echo "$input: Rattle $r, C $k ns a pixel, ratio $(awk "BEGIN { printf \"%.2f\", $r / $k }"), checksum $(cat "$c.c")"
done
