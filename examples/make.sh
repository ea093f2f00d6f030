#!/usr/bin/env bash
# Writes the example scripts into a folder: this one, or the one that is named.
set -eu
out=${1:-$(cd "$(dirname "${BASH_SOURCE[0]}")" && pwd)}

byte() { printf "\\x$(printf %02x "$1")"; }

# numbers of two bytes, the low byte first
numbers() { for n in "$@"; do byte $((n % 256)); byte $((n / 256)); done; }

# kind 1: an address, and a value of three bytes
register() { numbers 4 1; byte "$1"; byte $(($2 % 256)); byte $(($2 / 256 % 256)); byte $(($2 / 65536)); }

# pattern k from its length, the start levels of V1 to V6 as bits, and pairs of toggles from V1 first on; what is not given is unused
pattern() {
  local k=$1 length=$2 levels=$3 word
  shift 3
  register $((12 * k)) $((levels + 4096 * length))
  for ((word = 1; word <= 9; word++)); do
    register $((12 * k + word)) $((${1:-4095} + 4096 * ${2:-4095}))
    shift $(($# < 2 ? $# : 2))
  done
}

# kind 2: number, pattern, line length, start, odd repetitions, even repetitions, mask
sequence() { numbers 14 2 "$@"; }

# kind 3: lines, last-line length, gate line, second pattern, then first line, sequence and mode of each region; and with a second gate line after the first
field() {
  local n=$((($# - 4) / 3))
  numbers $((10 + 6 * n)) 3 "$1" "$2" "$3" "$4" $n "${@:5}"
}
interlaced_field() {
  local n=$((($# - 5) / 3))
  numbers $((12 + 6 * n)) 3 "$1" "$2" "$3" "$4" "$5" $n "${@:6}"
}

# kind 4: number, on, start level, two toggles. kind 5: start level, two toggles, suppressed lines, count
gate() { numbers 10 4 "$@"; }
subck() { numbers 10 5 "$@"; }

none=65535 plain=0 sweep=1

# base profile A of docs/RULES.md: V1 goes low for two pixels, once on line 0 and twice on line 1
base() {
  pattern 0 4 1 1 3
  sequence 0 0 10 2 1 2 0
  field 2 10 0 $none 0 0 $plain
}

# Pattern 0 moves a line (V1, V2 and V3 in turn), pattern 1 clears fast. Lines 0 to 2 are one sweep of so many repetitions of pattern 1, 4 pixels each;
# then plain lines, of which line 3 is the gate line, with a pulse on VSG1 there and a pulse on SUBCK on the line after it.
clearing() {
  pattern 0 12 1 2 8 4095 4 10 4095 6 11
  pattern 1 4 1 1 3 4095 0 2
  sequence 0 1 40 0 "$1" "$1" 0
  sequence 1 0 40 4 1 1 0
  field 6 30 3 $none 0 0 $sweep 3 1 $plain
  gate 0 1 1 20 32
  subck 1 24 30 1 1
}

# An interlaced sensor: plain lines, of which lines 3 and 1 are the gate lines, with a pulse on VSG1 on both; SUBCK pulses on line 4, the one after line 3, which is named first.
interlaced() {
  pattern 0 12 1 2 8 4095 4 10 4095 6 11
  sequence 0 0 40 4 1 1 0
  interlaced_field 6 40 3 1 $none 0 0 $plain
  gate 0 1 1 20 32
  subck 1 24 30 1 1
}

# Runs that flip: V1 starts high, has one used toggle, at 2, and runs twice on a line of 8. The second run takes over the level that the first ended with.
flips() {
  pattern 0 4 1 2
  sequence 0 0 8 0 2 2 0
  field 1 8 0 $none 0 0 $plain
}

base > "$out/base.bin"
clearing 30 > "$out/sweep.bin"
clearing 31 > "$out/refused.bin"
interlaced > "$out/interlaced.bin"
flips > "$out/flips.bin"
