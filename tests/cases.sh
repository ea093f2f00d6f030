#!/usr/bin/env bash
# Asks the entry points and a second implementation, reference/, the same questions and compares every answer, byte by byte: the stored batch, and
# a random one with a fresh seed (CASES_SEED=N repeats one). Then breaks one rule in each of nine copies of the second implementation, which must be noticed.
set -u
cd "$(dirname "$0")/.." || exit 1
program=$PWD/target/bin/cases
[ -x "$program" ] || { echo "cases: no $program"; exit 1; }
command -v cargo > /dev/null 2>&1 || { echo "cases: cargo, Rust's build tool, is not on PATH: the second implementation cannot be built"; exit 1; }
work=$(mktemp -d) || exit 1
trap 'rm -rf "$work"' EXIT
bad=0
fail() { bad=$((bad + 1)); echo "cases: $*"; }

# build SOURCE TARGET: the programs of a copy of reference/
build() {
  (cd "$1" && CARGO_TARGET_DIR=$2 timeout 600 cargo build --release --offline --quiet) || { echo "cases: $1 cannot be built"; exit 1; }
}
# differs A B: the case of the first line that differs; nothing where all lines are the same
differs() {
  awk -v other="$2" '/^CASE / { k = $0 } { if ((getline line < other) <= 0 || line != $0) { print k; found = 1; exit } }
    END { if (!found && (getline line < other) > 0) print "past the last case" }' "$1"
}
# compare NAME: the batch and the answers of that name
compare() {
  timeout 600 "$program" < "$work/$1.batch" > "$work/$1.got" 2> "$work/$1.err"
  timeout 600 "$work/target/release/answers" < "$work/$1.batch" > "$work/$1.expected" || fail "$1: the second implementation refuses the batch"
  [ ! -s "$work/$1.err" ] || fail "$1: said '$(head -c 200 "$work/$1.err")'"
  if [ -s "$work/$1.expected" ] && cmp -s "$work/$1.expected" "$work/$1.got"; then
    echo "cases: $1: $(grep -c '^CASE ' "$work/$1.expected") cases agreed"
  else
    fail "$1: differs at $(differs "$work/$1.expected" "$work/$1.got")"
  fi
}

build reference "$work/target"
# its own tests: W cases by hand, and that the stored batch has every number of refusal
(cd reference && CARGO_TARGET_DIR=$work/target timeout 600 cargo test --release --offline --quiet) > "$work/tests" 2>&1 || fail "the second implementation's own tests: $(tail -n 3 "$work/tests")"
seed=${CASES_SEED:-$(od -An -N4 -tu4 /dev/urandom | tr -d ' ')}
echo "cases: seed $seed"
"$work/target/release/batch" stored > "$work/stored.batch" || fail "no stored batch"
"$work/target/release/batch" random "$seed" 6000 > "$work/random.batch" || fail "no random batch"
compare stored
compare random

# broken WHAT FILE EDIT: a copy in which sed's edit of the file breaks a rule must answer otherwise
broken() {
  rm -rf "$work/broken" "$work/broken-target" && mkdir "$work/broken" && cp -r reference/Cargo.toml reference/Cargo.lock reference/src "$work/broken/"
  sed -i "$3" "$work/broken/src/$2"
  cmp -s "reference/src/$2" "$work/broken/src/$2" && { fail "$1: the edit that breaks it changes nothing"; return; }
  build "$work/broken" "$work/broken-target"
  timeout 600 "$work/broken-target/release/answers" < "$work/stored.batch" > "$work/broken.expected" || { fail "$1: the broken copy does not answer"; return; }
  if cmp -s "$work/broken.expected" "$work/stored.got"; then
    fail "$1: goes unnoticed"
  else
    echo "cases: $1: noticed at $(differs "$work/broken.expected" "$work/stored.got")"
  fi
}
broken "18 asks for one step of room too many" list.rs 's/demand(needed <= room, NO_ROOM/demand(needed < room, NO_ROOM/'
broken "10 names the highest output out of order" rules.rs 's/(1\.\.=OUTPUTS)\.find_map/(1..=OUTPUTS).rev().find_map/'
broken "gates and the second pattern act on the first gate line alone" word.rs 's/gate_lines(profile)\.any/gate_lines(profile).take(1).any/'

broken "a field pixel is looked for as if the last line had its sequence's length" word.rs 's/let length = line_length(profile, line);/let length = profile.sequence_of(region_of_line(profile, line)).length as u64;/'
broken "after the last run the level returns, by version 2 too" word.rs 's/let ended = if running { t \/ length } else { r };/let ended = if running { t \/ length } else { 0 };/'
broken "the next edge is looked for on the asked line alone" edge.rs 's/for number in line\.\.profile\.field\.lines as u64/for number in line..line + 1/'
broken "the next edge is told as the pixel before it" edge.rs 's/Ok(Some((number, edge)))/Ok(Some((number, edge.saturating_sub(1))))/'
broken "bytes are not counted after a refusal" upload.rs 's/demand(total <= SCRIPT_MOST as u64,/demand(upload.refused().is_some() || total <= SCRIPT_MOST as u64,/'
broken "bytes held past the end of their record count" upload.rs 's/&self\.room\[\.\.held\.min(whole)\]/\&self.room[..held.min(whole.max(held))]/'

# a batch at fault: one line on standard error, and no answer
fault() {
  local what=$1 said="cases: the batch is at fault"
  printf "$2" | timeout 20 "$program" > "$work/out" 2> "$work/err"
  [ ! -s "$work/out" ] && [ "$(cat "$work/err")" == "$said" ] || fail "$what: printed '$(head -c 100 "$work/out")', said '$(head -c 100 "$work/err")'"
}
fault "a head cut off" 'R\1\0'
fault "a payload cut off" 'R\3\0\0\0ab'
fault "a payload too long" 'R\1\0\1\0'
fault "a kind that is none" 'X\0\0\0\0'
fault "a profile too short" 'C\2\0\0\0ab'
zeros() { printf '\\0%.0s' $(seq "$1"); }
fault "chunks without the lengths that they say" 'U\6\0\0\0\2\0\2\0\1\0'
fault "chunks without a whole number of lengths" 'U\3\0\0\0\2\0\0'
fault "chunks of a script too long" "U\105\234\0\0$(zeros 4)$(printf %40001s)"
fault "a state that is not whole" "V\117\3\0\0$(zeros 847)"
fault "a state without the lengths that it says" "V\124\3\0\0$(zeros 848)\2\0\1\0"
fault "a state with too many bytes behind it" "V\223\237\0\0$(zeros 850)$(printf %40001s)"
fault "a next edge without a whole pixel" "E\13\3\0\0$(zeros 779)"
fault "a next edge with a byte too many" "E\15\3\0\0$(zeros 781)"
fault "a compile from edge to edge without the counts it says" "J\4\3\0\0$(zeros 764)\1\0\0\0$(zeros 4)"
fault "a text without a whole version" 'T\1\0\0\0a'
fault "a text of a script too long" "T\103\234\0\0$(printf %40003s)"
fault "lists shorter than they say" 'P\30\0\0\0\1\0\0\0\0\0\0\0\0\0\0\0\0\0\0\0\0\0\0\0\0\0\0\0'
timeout 20 "$program" < . > "$work/out" 2> "$work/err"
[ ! -s "$work/out" ] && [ "$(cat "$work/err")" == "cases: cannot read standard input" ] || fail "a directory: said '$(head -c 100 "$work/err")'"

[ "$bad" -eq 0 ] && echo "cases: all agreed" || echo "cases: $bad failed"
[ "$bad" -eq 0 ]
