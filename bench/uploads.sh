#!/bin/bash
# Times reading a script of 16,384 bytes at once (R), in one chunk (U), in chunks of 64 bytes (S) and byte by byte (B): the Rattle program crates/bench and
# the C program bench/uploads.c, in turns. Prints the microseconds a script (the least user time of the runs over 1,000 reads), the ratio to reading at
# once, and to C. First `tools/prove bench` makes the program.
# bench/uploads.sh [RUNS]   (10)
set -eu
cd "$(dirname "$0")/.."
runs=${1:-10}
rattle=target/bin/bench c=target/bench-uploads
[ -x "$rattle" ] || { echo "no $rattle: run tools/prove bench"; exit 2; }
gcc -std=c99 -O2 -Wall -Wextra -Wno-unused-function -o "$c" bench/uploads.c
work=$(mktemp -d)
trap 'rm -rf "$work"' EXIT
TIMEFORMAT=%3U

# the writers of records, numbers and patterns, which write their own examples too
. examples/make.sh "$work"

# the base profile behind as many register records as fit: 100 of 8 bytes each, written again and again
for ((i = 0; i < 100; i++)); do register $((20 + i)) 4096; done >"$work/registers"
base >"$work/base"
for ((i = 0; i < 21; i++)); do cat "$work/registers"; done | head -c $((8 * ((16384 - $(wc -c <"$work/base")) / 8))) >"$work/script"
cat "$work/base" >>"$work/script"

# the user time of a run, in seconds; what it wrote goes to a file
timed() { { time "$1" <"$2" >"$3"; } 2>&1; }

# the least of the numbers, as microseconds a script
least() { printf '%s\n' "$@" | sort -n | head -n 1 | awk '{ printf "%.1f", $1 * 1e6 / 1000 }'; }

ratio() { awk "BEGIN { printf \"%.2f\", $1 / $2 }"; }

for job in R U S B; do { printf %s $job; cat "$work/script"; } >"$work/$job"; done
declare -A rattle_times c_times
for ((i = 0; i < runs; i++)); do
    for job in R U S B; do
        rattle_times[$job]+=" $(timed "$rattle" "$work/$job" "$work/rattle")"
        c_times[$job]+=" $(timed "$c" "$work/$job" "$work/c")"
        cmp -s "$work/rattle" "$work/c" || { echo "$job: the checksums differ"; exit 1; }
    done
done
once=$(least ${rattle_times[R]}) c_once=$(least ${c_times[R]})
echo "$(wc -c <"$work/script") bytes"
for job in R U S B; do
    r=$(least ${rattle_times[$job]}) k=$(least ${c_times[$job]})
    echo "$job: Rattle $r us, $(ratio "$r" "$once") of reading at once; C $k us, $(ratio "$k" "$c_once") of its reading at once; Rattle to C $(ratio "$r" "$k")"
done
