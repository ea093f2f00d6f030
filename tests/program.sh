#!/usr/bin/env bash
# What the two programs, booth and ask, do with their input and their output, whatever they are: ends, errors, sizes, slow and closed pipes, a small stack; the
# examples. ./booth, which people run, is tested by command.sh.
set -u
cd "$(dirname "$0")/.." || exit 1
program=$PWD/target/bin/booth ask=$PWD/target/bin/ask
for name in "$program" "$ask"; do [ -x "$name" ] || { echo "program: no $name"; exit 1; }; done
work=$(mktemp -d) || exit 1
trap 'rm -rf "$work"' EXIT
passed=0 bad=0

# check WHAT STDOUT STDERR: what was left in $work/out and $work/err; STDERR is a pattern, empty for nothing
check() {
  if [ "$(cat "$work/out")" == "$2" ] && [[ "$(cat "$work/err")" =~ ^${3:-}$ ]]; then
    passed=$((passed + 1))
  else
    bad=$((bad + 1)); echo "program: $1: printed '$(head -c 200 "$work/out")', said '$(head -c 200 "$work/err")'"
  fi
}
run() { timeout 20 "$program" > "$work/out" 2> "$work/err"; }
w1=$'steps 7 pixels 20\n3 0FC1\n2 0FC0\n8 0FC1\n2 0FC0\n2 0FC1\n2 0FC0\n1 0FC1'

# a read that fails is no end of a script
run < . ; check "a directory" "" "booth: cannot read standard input"
run <&- ; check "a closed input" "" "booth: cannot read standard input"

run < /dev/null; check "an empty input" "refused 6 0"
head -c 16384 /dev/zero | run; check "16,384 bytes" "refused 3 0"
head -c 16385 /dev/zero | run; check "16,385 bytes" "refused 1 0"
yes | run; check "an input that never ends" "refused 1 0"

# one byte at a time
slowly() {
  local byte
  while read -r byte; do printf "\\x$byte"; sleep 0.002; done < <(od -An -v -tx1 -w1 "$1" | tr -d ' ')
}
slowly examples/base.bin | run; check "a slow pipe" "$w1"

# a write that fails is said; an output that closes early ends it quietly, with the status of the pipe's signal
: > "$work/out"
timeout 20 "$program" < examples/base.bin >&- 2> "$work/err"
check "a closed output" "" "booth: cannot write standard output"
timeout 20 "$program" < examples/base.bin > /dev/full 2> "$work/err"
check "a full output" "" "booth: cannot write standard output"
early() {
  local status=${PIPESTATUS[0]}
  [ "$status" -eq 141 ] || [ "$status" -eq 0 ] || echo "early: status $status" > "$work/err"
}
(trap '' PIPE; timeout 20 "$program" < examples/sweep.bin 2> "$work/err") | true; early
check "an output that closes early, no signal" ""
timeout 20 "$program" < examples/sweep.bin 2> "$work/err" | true; early
check "an output that closes early" ""
# one that is closed before anything is written ends it with that status, and says nothing
mkfifo "$work/pipe"
(timeout 20 "$program" < <(sleep 0.3; cat examples/sweep.bin) 2> "$work/err"; echo $? > "$work/status") > "$work/pipe" & : < "$work/pipe"; wait $!
[ "$(cat "$work/status")" == 141 ] || echo "closed before: status $(cat "$work/status")" > "$work/err"
check "an output that is closed before" ""

(ulimit -s 256; run < examples/base.bin); check "a stack of 256 KB" "$w1"

# the examples, and that they are what their script makes
run < examples/base.bin; check "base.bin" "$w1"
run < examples/refused.bin; check "refused.bin" "refused 13 0"
run < examples/sweep.bin; head -n 1 "$work/out" > "$work/line"; mv "$work/line" "$work/out"; check "sweep.bin" "steps 142 pixels 230"
run < examples/interlaced.bin; head -n 1 "$work/out" > "$work/line"; mv "$work/line" "$work/out"; check "interlaced.bin" "steps 43 pixels 240"
run < examples/flips.bin; check "flips.bin" "steps 3 pixels 8
2 0FC1
4 0FC0
2 0FC1"
bash examples/make.sh "$work" > "$work/out" 2> "$work/err"
for name in base sweep refused interlaced flips; do cmp "examples/$name.bin" "$work/$name.bin" >> "$work/out"; done
check "make.sh" ""

# ask: a question on the first line, then a script. For a line that is no question nothing is printed.
asks() { { printf '%b' "$1"; cat "${2:-examples/base.bin}"; } | timeout 20 "$ask" > "$work/out" 2> "$work/err"; }
asks 'C\n'; check "ask C" "accepted"
asks 'L 1 5\n'; check "ask L" "word 0FC1"
asks 'N 15\n'; check "ask N" "line 1 pixel 5"
asks 'E 0 0\n'; check "ask E" "line 0 pixel 3"
asks 'E 0 5\n'; check "ask E, a later line" "line 1 pixel 3"
asks 'E 1 9\n'; check "ask E, none" "none"
asks 'E 1 10\n'; check "ask E, no such pixel" "refused 19 0"
asks 'E 0 0\n' examples/refused.bin; check "ask E of a script that is refused" "refused 13 0"
asks 'F\n' examples/refused.bin; check "ask F" "124 120 0 0"
asks 'F\n'; check "ask F of a script that is accepted" "0 0 0 0"
asks 'C\n' /dev/null; check "ask C of no script" "refused 6 0"
asks 'C' /dev/null; check "ask C without an end of line" "refused 6 0"
for line in '' 'X' 'c' 'CC' 'C ' ' C' 'W 1' 'L' 'L 1' 'L 1 ' 'L 1 2 3' 'L  1 2' 'L 1  2' 'L 1 2 ' 'L 1x 2' 'L -1 2' 'L\t1 2' 'L1 2' 'N' 'N ' 'N 1 2' 'N 1\r' 'E' 'E 1' 'E 1 2 3' 'e 1 2' 'F 1' 'C\r'; do
  asks "$line\n"; check "ask '$line'" "" "ask: no such question"
done
# a line of 123 bytes is a question and leaves room for one byte more than the longest script; a longer line is none
digits=$(printf '0%.0s' {1..119})
asks "N 1$digits\n"; check "a line of 122 bytes" "refused 19 0"
asks "N 0$digits\n"; check "a line of 122 bytes, of zeros" "line 0 pixel 0"
head -c 16384 /dev/zero > "$work/most"; head -c 16385 /dev/zero > "$work/more"
asks "N 10$digits\n" "$work/most"; check "a line of 123 bytes and 16,384 bytes" "refused 3 0"
asks "N 10$digits\n" "$work/more"; check "a line of 123 bytes and 16,385 bytes" "refused 1 0"
asks "N 100$digits\n"; check "a line of 124 bytes" "" "ask: no such question"
yes | tr -d '\n' | timeout 20 "$ask" > "$work/out" 2> "$work/err"; check "a line that never ends" "" "ask: no such question"
{ echo C; yes; } | timeout 20 "$ask" > "$work/out" 2> "$work/err"; check "a script that never ends" "refused 1 0"
timeout 20 "$ask" < . > "$work/out" 2> "$work/err"; check "ask: a directory" "" "ask: cannot read standard input"
timeout 20 "$ask" <&- > "$work/out" 2> "$work/err"; check "ask: a closed input" "" "ask: cannot read standard input"
: > "$work/out"
echo C | timeout 20 "$ask" > /dev/full 2> "$work/err"; check "ask: a full output" "" "ask: cannot write standard output"
{ echo W; slowly examples/base.bin; } | timeout 20 "$ask" > "$work/slow" 2> "$work/err"; { echo W; cat examples/base.bin; } | "$ask" | cmp - "$work/slow" > "$work/out"; check "ask: a slow pipe" ""
(ulimit -s 256; asks 'W\n'; head -c 4 "$work/out" | od -An -tx1 > "$work/line"; mv "$work/line" "$work/out"); check "ask: a stack of 256 KB" " 04 00 01 00"

echo "program: $passed passed, $bad failed"
[ "$passed" -gt 0 ] && [ "$bad" -eq 0 ]
