#!/bin/bash
# Times the places (N) and the words (L) of a field's last two pixels, each with its check, and the check alone (C): the Rattle program crates/bench, the same program from an earlier commit
# where one is named, and the C program bench/places.c, in turns on the same scripts. Prints the nanoseconds an answer (the least user time of the runs over
# 100,000 answers) and the ratios. First `tools/prove bench` makes the program; for the earlier one, do the same in a clone into which crates/bench was copied.
# bench/places.sh [RUNS] [PROGRAM]   (10)
set -eu
cd "$(dirname "$0")/.."
runs=${1:-10} before=${2:-}
rattle=target/bin/bench c=target/bench-places
[ -x "$rattle" ] || { echo "no $rattle: run tools/prove bench"; exit 2; }
gcc -std=c99 -O2 -Wall -Wextra -o "$c" bench/places.c
work=$(mktemp -d)
trap 'rm -rf "$work"' EXIT
TIMEFORMAT=%3U

# the writers of records, numbers and patterns, which write their own examples too, and of the two fields
. examples/make.sh "$work"
. bench/fields.sh

# the user time of a run, in seconds; what it wrote goes to a file
timed() { { time "$1" <"$2" >"$3"; } 2>&1; }

# the least of the numbers, as nanoseconds an answer
least() { printf '%s\n' "$@" | sort -n | head -n 1 | awk '{ printf "%.0f", $1 * 1e9 / 100000 }'; }

ratio() { awk "BEGIN { printf \"%.3f\", $1 / $2 }"; }

for job in C N L; do
    for field in one_region seven_regions; do
        { printf %s $job; $field; } >"$work/input"
        rattle_times=() before_times=() c_times=()
        for ((i = 0; i < runs; i++)); do
            rattle_times+=("$(timed "$rattle" "$work/input" "$work/rattle")")
            c_times+=("$(timed "$c" "$work/input" "$work/c")")
            cmp -s "$work/rattle" "$work/c" || { echo "$job, $field: the checksums differ"; exit 1; }
            [ -n "$before" ] || continue
            before_times+=("$(timed "$before" "$work/input" "$work/before")")
            cmp -s "$work/rattle" "$work/before" || { echo "$job, $field: the checksums differ from before"; exit 1; }
        done
        r=$(least "${rattle_times[@]}") k=$(least "${c_times[@]}")
        told="$job, $field: Rattle $r, C $k ns an answer, ratio $(ratio "$r" "$k")"
        if [ -n "$before" ]; then
            b=$(least "${before_times[@]}")
            told="$told; before $b ns, ratio to it $(ratio "$r" "$b")"
        fi
        echo "$told, checksum $(cat "$work/c")"
    done
done
