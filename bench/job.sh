#!/bin/bash
# Times the whole job by both engines of the program target/bin/bench, beside the C programs bench/edges.c and bench/job.c, in turns on the same scripts, and
# prints for each script what is printed first, the least CPU times in milliseconds less the start (bench/cpu.py), and the ratios; the first four also together.
# Then the least stack in which the program target/bin/booth does all of them. First `tools/prove bench` and `tools/prove booth` make the programs.
# bench/job.sh [RUNS]   (10)
set -eu
cd "$(dirname "$0")/.."
runs=${1:-10}
booth=target/bin/booth c=target/bench-edges
for program in bench booth; do [ -x target/bin/$program ] || { echo "no target/bin/$program: run tools/prove $program"; exit 2; }; done
for program in edges job; do gcc -std=c99 -O2 -Wall -Wextra -o target/bench-$program bench/$program.c; done
work=$(mktemp -d)
trap 'rm -rf "$work"' EXIT

# the writers of records, numbers and patterns; it writes its own examples too
. examples/make.sh "$work"
multiplier=2

# kind 6: which, active level, on line, on pixel, off line, off pixel
shutter() { numbers 12 6 "$@"; }

# the two freezes and resumes of pattern k
masks() { register $((12 * $1 + 10)) $(($2 + 4096 * $3)); register $((12 * $1 + 11)) $(($4 + 4096 * $5)); }

# what every script but `still` has: the five gates on, on the gate line; SUBCK on so many lines; both shutters, over most of the field
others() {
  gate 0 1 1 100 2000
  gate 1 1 0 200 2100
  gate 2 1 1 300 2200
  gate 3 1 0 400 2300
  gate 4 1 1 500 2400
  subck 1 600 2500 1 "$1"
  shutter 0 1 50 1000 4000 3000
  shutter 1 0 1000 3000 3000 1000
}

# Every field has 4095 lines of 4095 pixels. All but `flip2` have three toggles on each V output.

# ten repetitions of 19 steps a line, parts of two of them frozen; the second pattern on line 2000
plain_lines() {
  pattern 0 400 21 10 110 210 20 120 220 30 130 230 40 140 240 50 150 250 60 160 260
  masks 0 500 700 2500 2600
  pattern 1 4050 42 1 21 34 4 22 35 7 23 36 10 24 37 13 25 38 16 26 39
  sequence 0 0 4095 50 10 10 3
  field 4095 4095 2000 1 0 0 $plain
  others 2000
}

# as many repetitions as a list has room for: they fill a third of the field, three steps each
one_sweep() {
  pattern 0 4095 21 0 1000 3000 0 1000 3000 0 1000 3000 0 1000 3000 0 1000 3000 0 1000 3000
  sequence 0 0 4095 50 1355 1355 0
  field 4095 4095 2000 $none 0 0 $sweep
  others 2
}

# the toggles 228 lines apart
one_multiplier() {
  pattern 0 4095 21 228 1596 2964 456 1824 3192 684 2052 3420 912 2280 3648 1140 2508 3876 1368 2736 4094
  sequence 0 0 4095 50 4094 4094 0
  field 4095 4095 2000 $none 0 0 $multiplier
  others 4
}

# twenty lines of ten repetitions, as in plain_lines, among lines of none
few_busy_lines() {
  pattern 0 400 21 10 110 210 20 120 220 30 130 230 40 140 240 50 150 250 60 160 260
  masks 0 500 700 2500 2600
  sequence 0 0 4095 50 10 10 3
  sequence 1 0 4095 50 0 0 3
  field 4095 4095 2000 $none 0 1 $plain 1990 0 $plain 2010 1 $plain
  others 20
}

# nothing repeats: the whole field is one step
still() {
  pattern 0 400 21 10 110 210 20 120 220 30 130 230 40 140 240 50 150 250 60 160 260
  sequence 0 0 4095 50 0 0 0
  field 4095 4095 2000 $none 0 0 $plain
}

# an edge every so many pixels: the 18 toggles lie so far apart, and the line's end cuts the last repetition
busy() {
  local n=$1 repetitions=$((4095 / (18 * $1) + 1)) k toggles=()
  for ((k = 0; k < 6; k++)); do toggles+=($((k * n)) $(((k + 6) * n)) $(((k + 12) * n))); done
  pattern 0 $((18 * n)) 21 "${toggles[@]}"
  sequence 0 0 4095 0 $repetitions $repetitions 0
  field 4095 4095 2000 $none 0 0 $plain
  others 2000
}

# V1 flips once in a repetition of two pixels: a step every two pixels, a toggle or a repetition's end in every pixel
flip2() {
  pattern 0 2 21 1
  sequence 0 0 4095 0 2048 2048 0
  field 4095 4095 2000 $none 0 0 $plain
  others 2000
}

plain_lines >"$work/plain.script"
one_sweep >"$work/sweep.script"
one_multiplier >"$work/multiplier.script"
few_busy_lines >"$work/long.script"
still >"$work/still.script"
for n in 4 3 2 1; do busy $n >"$work/busy$n.script"; done
flip2 >"$work/flip2.script"

# a row of the table from a name, what is printed first, and the times of edge engine, C by edges, pixel engine, C by pixels
row() {
  printf '| %s | %s ' "$1" "$2"
  awk '{ printf "| %.2f | %.2f | %.2f | %.1f | %.1f | %.2f | %.1f |\n", $1, $2, $1 / $2, $3, $4, $3 / $4, $3 / $1 }' <<<"$3"
}

echo "| script | prints first | edge engine, ms | C by edges, ms | ratio | pixel engine, ms | C by pixels, ms | ratio | pixel engine / edge engine |"
echo "|---|---|---|---|---|---|---|---|---|"
inputs="plain sweep multiplier long still busy4 busy3 busy2 busy1 flip2" all=
for input in $inputs; do
    "$c" <"$work/$input.script" >"$work/$input.c"
    times=$(python3 bench/cpu.py "$runs" "$work/$input.script") || { echo "$input: not timed"; exit 1; }
    row $input "\`$(head -n 1 "$work/$input.c")\`" "$times"
    all+=$times$'\n'
    [ $input != long ] || row "the four together" "" "$(awk 'NF { for (i = 1; i <= 4; i++) sum[i] += $i } END { print sum[1], sum[2], sum[3], sum[4] }' <<<"$all")"
done

# whether the program does a script in a stack of so many KB
in_stack() { { (ulimit -s "$1" && exec env -i "$booth" <"$2" >"$work/booth"); } 2>/dev/null && cmp -s "$work/booth" "$3"; }

# the same ten times in ten, for a short field, which takes the stack of a long one: where the stack starts differs by up to 8 KB from run to run
"$c" <"$work/sweep.bin" >"$work/short.c"
always_in_stack() { for _ in {1..10}; do in_stack "$1" "$work/sweep.bin" "$work/short.c" || return 1; done; }

for input in $inputs; do
    in_stack 256 "$work/$input.script" "$work/$input.c" || { echo "$input: not in a stack of 256 KB"; exit 1; }
done
kb=256
while always_in_stack $((kb - 4)); do kb=$((kb - 4)); done
echo "stack: all in 256 KB; the least is $kb KB"
