#!/bin/bash
# How the cost of the whole job grows: edges a line, lines and pixels a line are doubled, one at a time, from a field of 512 lines of 1024 pixels with 16 edges a
# line. Both engines of the program target/bin/bench beside the C programs bench/edges.c and bench/job.c, as in bench/job.sh. Prints the least CPU times in
# milliseconds and draws them into docs/growth.svg (bench/plot.py). No list has room, so that all go over the field once. First `tools/prove bench` makes the program.
# bench/growth.sh [RUNS] [SVG]   (10, docs/growth.svg)
set -eu
cd "$(dirname "$0")/.."
runs=${1:-10} svg=${2:-docs/growth.svg}
[ -x target/bin/bench ] || { echo "no target/bin/bench: run tools/prove bench"; exit 2; }
for program in edges job; do gcc -std=c99 -O2 -Wall -Wextra -o target/bench-$program bench/$program.c; done
work=$(mktemp -d)
trap 'rm -rf "$work"' EXIT

# the writers of records, numbers and patterns; it writes its own examples too
. examples/make.sh "$work"

# Lines, pixels a line, and edges a line, 16 or a multiple of it: repetitions of 16 toggles, evenly spread over the line. V1 to V5 have three of them, V6 one.
spread() {
  local lines=$1 pixels=$2 edges=$3 gap=$((($2 + $3 - 1) / $3)) k toggles=()
  local length=$((16 * gap < 4095 ? 16 * gap : 4095))
  for ((k = 0; k < 5; k++)); do toggles+=($((k * gap)) $(((k + 5) * gap)) $(((k + 10) * gap))); done
  pattern 0 $length 21 "${toggles[@]}" $((15 * gap))
  sequence 0 0 "$pixels" 0 $((edges / 16)) $((edges / 16)) 0
  field "$lines" "$pixels" 0 $none 0 0 $plain
}

# a row of the table and of the plot: what is doubled, lines, pixels and edges
row() {
  local times
  spread "$2" "$3" "$4" >"$work/script"
  [ "$(target/bench-edges <"$work/script")" == "refused 18 $(($2 * $4))" ] || { echo "$1 $2 $3 $4: not so many edges"; exit 1; }
  times=$(python3 bench/cpu.py "$runs" "$work/script") || { echo "$1 $2 $3 $4: not timed"; exit 1; }
  echo "$*" "$times" >>"$work/rows"
  echo "$*" "$times" | awk '{ printf "| %s | %d | %d | %d | %.2f | %.2f | %.1f | %.1f |\n", $1, $2, $3, $4, $5, $6, $7, $8 }'
}

echo "| doubled | lines | pixels a line | edges a line | edge engine, ms | C by edges, ms | pixel engine, ms | C by pixels, ms |"
echo "|---|---|---|---|---|---|---|---|"
for edges in 16 32 64 128 256 512 1024; do row edges 512 1024 $edges; done
for lines in 512 1024 2048 4095; do row lines $lines 1024 16; done
for pixels in 512 1024 2048 4095; do row pixels 512 $pixels 16; done
python3 bench/plot.py <"$work/rows" >"$work/svg"
mv "$work/svg" "$svg"
echo "drawn: $svg"
