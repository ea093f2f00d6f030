#!/usr/bin/env bash
# ./booth, the command for people: each status, what is printed and said at each, every fault, the first use. Where a program or the prover has to
# misbehave, a copy of the command runs stubs.
set -u
cd "$(dirname "$0")/.." || exit 1
booth=$PWD/booth
for name in booth ask; do [ -x "target/bin/$name" ] || { echo "command: no target/bin/$name"; exit 1; }; done
work=$(mktemp -d) || exit 1
trap 'chmod -R u+w "$work" 2> /dev/null; umount "$work/small" 2> /dev/null; rm -rf "$work"' EXIT
chmod 755 "$work"
passed=0 bad=0

# saw STATUS WHAT EXPECTED-STATUS STDOUT STDERR: what a command left in $work/out and $work/err; STDERR is a pattern for all of it, empty for nothing
saw() {
  local out err
  out=$(< "$work/out") err=$(< "$work/err")
  if [ "$1" -eq "$3" ] && [ "$out" == "$4" ] && [[ "$err" =~ ^${5:-}$ ]]; then
    passed=$((passed + 1))
  else
    bad=$((bad + 1)); echo "command: $2: status $1, printed '${out:0:200}', said '${err:0:300}'"
  fi
}
# try WHAT STATUS STDOUT STDERR COMMAND..
try() {
  local what=$1 status=$2 out=$3 err=$4
  shift 4
  timeout 60 "$@" > "$work/out" 2> "$work/err"
  saw $? "$what" "$status" "$out" "$err"
}
bytes() { python3 -c 'import sys; sys.stdout.buffer.write(bytes.fromhex(sys.argv[1]))' "$1"; }
w1=$'steps 7 pixels 20\n3 0FC1\n2 0FC0\n8 0FC1\n2 0FC0\n2 0FC1\n2 0FC0\n1 0FC1'
too_far='booth: refused 13: in region 0 the run ends at pixel 124 of 120; lower the repetitions or the start, or give the region more lines'

# ---- the list, by its status
try "a list" 0 "$w1" "" "$booth" examples/base.bin
try "a list from standard input" 0 "$w1" "" "$booth" < examples/base.bin
try "a list from -" 0 "$w1" "" "$booth" - < examples/base.bin
try "a list after --" 0 "$w1" "" "$booth" -- examples/base.bin
(cd / && try "a list from another folder" 0 "$w1" "" "$booth" "$OLDPWD/examples/base.bin"; [ "$bad" -eq 0 ]) && passed=$((passed + 1)) || bad=$((bad + 1))
ln -s "$booth" "$work/link"
try "a list through a link" 0 "$w1" "" "$work/link" examples/base.bin
try "a refusal" 1 "refused 13 0" "$too_far" "$booth" examples/refused.bin
try "an empty script" 1 "refused 6 0" "booth: refused 6: the script gives no field; .*" "$booth" /dev/null
head -c 100 examples/base.bin > "$work/cut"
try "a script cut off in a header" 1 "refused 2 98" "booth: refused 2: the record at byte 98 needs at least 4 bytes and has 2; .*" "$booth" "$work/cut"
head -c 117 examples/base.bin > "$work/cut"
try "a script cut off in a body" 1 "refused 2 98" "booth: refused 2: the record at byte 98 needs at least 20 bytes and has 19; .*" "$booth" "$work/cut"
{ cat examples/base.bin; printf '\1\0\7\0'; } > "$work/kind"
try "a kind that is none" 1 "refused 3 118" "booth: refused 3: the record at byte 118 has kind 7, .*" "$booth" "$work/kind"
yes | try "an input that never ends" 1 "refused 1 0" "booth: refused 1: the script is longer than 16,384 bytes; .*" "$booth"
head -c 16384 /dev/zero | try "16,384 bytes" 1 "refused 3 0" "booth: refused 3: .*" "$booth"
head -c 16385 /dev/zero | try "16,385 bytes" 1 "refused 1 0" "booth: refused 1: .*" "$booth"
slowly() {
  local byte
  while read -r byte; do printf "\\x$byte"; sleep 0.002; done < <(od -An -v -tx1 -w1 "$1" | tr -d ' ')
}
slowly examples/base.bin | try "a slow pipe" 0 "$w1" "" "$booth"

# one sentence for each number that a script can be refused with, whole: no figure is left out
sentences=0
while IFS=$'\t' read -r name script printed; do
  [ -n "$printed" ] || { printed=$script; script=; }
  read -r _ number _ <<< "$printed"
  case " ${seen:-} " in *" $number "*) continue ;; esac
  seen="${seen:-} $number" sentences=$((sentences + 1))
  bytes "$script" > "$work/script"
  try "the sentence of $number ($name)" 1 "${printed%|}" "booth: refused $number: [^{}]*[a-z0-9]" "$booth" "$work/script"
  [ "$number" -ne 10 ] || cp "$work/script" "$work/toggle"
done < <(grep -v '^#' tests/vectors.tsv | grep -P '\trefused ')
[ "$sentences" -eq 18 ] || { bad=$((bad + 1)); echo "command: $sentences sentences were seen, and not those of 1 to 18"; }
rows=$(sed -n '/^## Refusals/,/^## /p' docs/RULES.md | grep -E '^\| [0-9]+ \| [^|]*[^| ] \|' | cut -d' ' -f2 | tr '\n' ' ')
[ "$rows" == "$(seq -s ' ' 20) " ] || { bad=$((bad + 1)); echo "command: the sentences of docs/RULES.md are of: $rows"; }

# 10 names the output, the toggle and the two numbers that collide, whatever was asked: W2, where toggle 3 of V1 is 0 after 3
w2='booth: refused 10: region 0 uses pattern 0, in which V1, toggle 3, is 0 and the one before it 3; used toggles come first and rise strictly: .*'
for question in "" check write level locate edge; do
  case $question in level | edge) at=(0 0) ;; locate) at=(0) ;; *) at=() ;; esac
  try "10, ${question:-the list}" 1 "refused 10 0 1 3" "$w2" "$booth" ${question:+"$question"} "$work/toggle" "${at[@]}"
done
# all numbers different: region 1, sequence 4, pattern 7, V3, toggle 2
{
  cat examples/base.bin
  printf '\4\0\1\0\x54\0\x90\0\4\0\1\0\x55\xff\xff\xff\4\0\1\0\x56\xff\xff\xff\4\0\1\0\x57\xff\xff\xff\4\0\1\0\x58\x06\x50\0'
  printf '\16\0\2\0\4\0\7\0\12\0\0\0\1\0\1\0\0\0\26\0\3\0\2\0\12\0\0\0\xff\xff\2\0\0\0\0\0\0\0\1\0\4\0\0\0'
} > "$work/toggle"
try "10 of a later region" 1 "refused 10 1 3 2" "booth: refused 10: region 1 uses pattern 7, in which V3, toggle 2, is 5 and the one before it 6; .*" "$booth" "$work/toggle"

# 14 to 16, by hand: gate line 2 of 2 and no second pattern; second pattern 3, of length 0; gate line 1 twice; gate 1 with toggles 8 and 5, and on gate lines of 10 and of 7 pixels; SUBCK with no
# suppressed line
field() { printf '\20\0\3\0\2\0\12\0'"$1"'\1\0\0\0\0\0\0\0'; }
lines() { printf '\22\0\3\0\2\0'"$1"'\xff\xff\1\0\0\0\0\0\0\0'; }
{ cat examples/base.bin; field '\2\0\xff\xff'; } > "$work/script"
try "14, the gate line" 1 "refused 14 0" "booth: refused 14: the gate line is line 2, the second gate line 65535 \(65535 for none\), of a field of 2 lines, and the second pattern is 65535 \(65535 for none\); .*" "$booth" "$work/script"
{ cat examples/base.bin; field '\1\0\3\0'; } > "$work/script"
try "14, the second pattern" 1 "refused 14 0" "booth: refused 14: the gate line is line 1, the second gate line 65535 \(65535 for none\), of a field of 2 lines, and the second pattern is 3 \(.*" "$booth" "$work/script"
{ cat examples/base.bin; lines '\12\0\1\0\1\0'; } > "$work/script"
try "14, equal gate lines" 1 "refused 14 0" "booth: refused 14: the gate line is line 1, the second gate line 1 \(65535 for none\), of a field of 2 lines, .*" "$booth" "$work/script"
{ cat examples/base.bin; printf '\12\0\4\0\1\0\1\0\0\0\10\0\5\0'; } > "$work/script"
try "15, the toggles" 1 "refused 15 1" "booth: refused 15: gate 1 \(0 is VSG1\) is on, its toggles are 8 and 5, and the shortest gate line has 10 pixels; .*" "$booth" "$work/script"
{ cat examples/base.bin; lines '\7\0\0\0\1\0'; printf '\12\0\4\0\1\0\1\0\0\0\5\0\10\0'; } > "$work/script"
try "15, the shorter gate line" 1 "refused 15 1" "booth: refused 15: gate 1 \(0 is VSG1\) is on, its toggles are 5 and 8, and the shortest gate line has 7 pixels; .*" "$booth" "$work/script"
{ cat examples/base.bin; printf '\12\0\5\0\1\0\2\0\5\0\0\0\1\0'; } > "$work/script"
try "16, the suppressed lines" 1 "refused 16 0" "booth: refused 16: the toggles of SUBCK are 2 and 5, and the suppressed lines 0; .*" "$booth" "$work/script"

# ---- the other questions
try "check" 0 "accepted" "" "$booth" check examples/base.bin
try "check, standard input" 0 "accepted" "" "$booth" check - < examples/base.bin
try "check, refused" 1 "refused 13 0" "$too_far" "$booth" check examples/refused.bin
try "level, refused" 1 "refused 13 0" "$too_far" "$booth" level examples/refused.bin 0 0
try "edge, standard input" 0 "line 0 pixel 3" "" "$booth" edge - 0 0 < examples/base.bin
try "edge, refused" 1 "refused 13 0" "$too_far" "$booth" edge examples/refused.bin 0 0
for question in level edge; do
  try "$question, no such pixel" 1 "refused 19 0" "booth: refused 19: the field has no such line or pixel; .*" "$booth" "$question" examples/base.bin 1 10
  try "$question, no such line" 1 "refused 19 0" "booth: refused 19: .*" "$booth" "$question" examples/base.bin 2 0
done
long=$(printf '9%.0s' {1..200})
for n in 65536 4294967296 18446744073709551616 18446744073709551617 "$long"; do
  for question in level edge; do
    try "$question, line ${n:0:30}" 1 "refused 19 0" "booth: refused 19: .*" "$booth" "$question" examples/base.bin "$n" 0
    try "$question, pixel ${n:0:30}" 1 "refused 19 0" "booth: refused 19: .*" "$booth" "$question" examples/base.bin 0 "$n"
  done
  try "field pixel ${n:0:30}" 1 "refused 19 0" "booth: refused 19: .*" "$booth" locate examples/base.bin "$n"
done
try "numbers with zeros in front" 0 "word 0FC0" "" "$booth" level examples/base.bin 0000000000000000000000000000000000000000000000000000000000000000000 03
try "past the last field pixel" 1 "refused 19 0" "booth: refused 19: .*" "$booth" locate examples/base.bin 20
# an edge on the same line, on the next one, and none
try "edge, the same line" 0 "line 0 pixel 3" "" "$booth" edge examples/base.bin 0 0
try "edge, a later line" 0 "line 1 pixel 3" "" "$booth" edge examples/base.bin 0 5
try "edge, none" 0 "none" "" "$booth" edge examples/base.bin 1 9
# every pixel: its place, its word as the list plays it, and its next edge, where the next step of the list begins
n=0
while read -r count word; do
  next="line $(((n + count) / 10)) pixel $(((n + count) % 10))"
  [ $((n + count)) -lt 20 ] || next=none
  for ((i = 0; i < count; i++, n++)); do
    try "locate $n" 0 "line $((n / 10)) pixel $((n % 10))" "" "$booth" locate examples/base.bin "$n"
    try "level $n" 0 "word $word" "" "$booth" level examples/base.bin $((n / 10)) $((n % 10))
    try "edge $n" 0 "$next" "" "$booth" edge examples/base.bin $((n / 10)) $((n % 10))
  done
done < <("$booth" examples/base.bin | tail -n +2)
[ "$n" -eq 20 ] || { bad=$((bad + 1)); echo "command: $n pixels of 20 were asked for"; }
# what is written reads as the same profile, and is written as it is
for name in base sweep interlaced; do
  "$booth" write "examples/$name.bin" > "$work/written" 2> "$work/err"; status=$?
  : > "$work/out"
  saw "$status" "write $name" 0 "" ""
  "$booth" "examples/$name.bin" > "$work/expected"
  try "the list of what was written of $name" 0 "$(cat "$work/expected")" "" "$booth" "$work/written"
  "$booth" write "$work/written" > "$work/again" && cmp -s "$work/written" "$work/again" || { bad=$((bad + 1)); echo "command: $name is not written as it is"; }
done
"$booth" write examples/base.bin > "$work/written"
[ "$(wc -c < "$work/written")" -eq 998 ] || { bad=$((bad + 1)); echo "command: base.bin is written in $(wc -c < "$work/written") bytes"; }
try "write, refused" 1 "refused 13 0" "$too_far" "$booth" write examples/refused.bin

# ---- help and usage
try "--help" 0 "$("$booth" -h)" "" "$booth" --help
"$booth" --help | grep -q '^usage: booth \[FILE\]' || { bad=$((bad + 1)); echo "command: --help says no usage"; }
"$booth" --version > "$work/out" 2> "$work/err"; status=$?
[ "$(sed -n 2p "$work/out")" == "$(rt version)" ] && grep -q '^booth ' "$work/out" || { bad=$((bad + 1)); echo "command: --version says '$(cat "$work/out")'"; }
sed -i 's/.*/version/' "$work/out"; saw "$status" "--version" 0 $'version\nversion' ""
try "--version inside another repository's hook" 0 "$("$booth" --version)" "" env GIT_DIR=/nowhere GIT_INDEX_FILE=/nowhere GIT_OBJECT_DIRECTORY=/nowhere "$booth" --version
try "an option that is none" 2 "" "booth: --list: no such option; booth --help lists them" "$booth" --list
try "two files" 2 "" "booth: usage: booth \[FILE\]" "$booth" a b
try "check without a file" 2 "" "booth: usage: booth check FILE" "$booth" check
try "write without a file" 2 "" "booth: usage: booth write FILE" "$booth" write
try "level without a pixel" 2 "" "booth: usage: booth level FILE LINE PIXEL" "$booth" level examples/base.bin 1
try "edge without a pixel" 2 "" "booth: usage: booth edge FILE LINE PIXEL" "$booth" edge examples/base.bin 1
try "edge with a number too many" 2 "" "booth: usage: booth edge FILE LINE PIXEL" "$booth" edge examples/base.bin 1 2 3
try "locate without a pixel" 2 "" "booth: usage: booth locate FILE PIXEL" "$booth" locate examples/base.bin
for n in "" x -1 1.5 0x1 " 1"; do
  try "line '$n'" 2 "" "booth: $n: not a line or a pixel; usage: booth level FILE LINE PIXEL" "$booth" level examples/base.bin "$n" 0
  try "pixel '$n' of a line" 2 "" "booth: $n: not a line or a pixel; usage: booth edge FILE LINE PIXEL" "$booth" edge examples/base.bin 0 "$n"
  try "pixel '$n'" 2 "" "booth: $n: not a line or a pixel; usage: booth locate FILE PIXEL" "$booth" locate examples/base.bin "$n"
done

# ---- input that cannot be read
try "a missing file" 2 "" "booth: no/such/file: No such file or directory" "$booth" no/such/file
try "a directory" 2 "" "booth: examples: Is a directory" "$booth" examples
try "a missing file of two lines" 2 "" "booth: no.such: No such file or directory" "$booth" $'no\nsuch'
try "a file for a folder" 2 "" "booth: README.md/x: Not a directory" "$booth" README.md/x
ln -s loop "$work/loop"
try "a link to itself" 2 "" "booth: $work/loop: Too many levels of symbolic links" "$booth" "$work/loop"
mkfifo "$work/fifo"; cat examples/base.bin > "$work/fifo" &
try "a named pipe" 0 "$w1" "" "$booth" "$work/fifo"
try "options of another shell" 2 "" "booth: no/such/file: No such file or directory" env SHELLOPTS=errexit:noclobber:xtrace POSIXLY_CORRECT=1 LC_ALL=de_DE BASH_ENV=/dev/stdin "$booth" no/such/file
for name in exit echo read printf set head find; do
  try "the caller's own $name" 1 "refused 13 0" "$too_far" env "BASH_FUNC_$name%%=() { command echo mine; return 7; }" "$booth" examples/refused.bin
done
for n in 1 2; do try "functions $n deep" 1 "refused 13 0" "$too_far" env FUNCNEST=$n BASH_COMPAT=99 "$booth" examples/refused.bin; done
if unshare -m sh -c 'mount -t tmpfs none /proc' 2> /dev/null; then
  try "no /dev/fd" 1 "refused 13 0" "$too_far" unshare -m sh -c 'mount -t tmpfs none /proc && exec "$@"' sh "$booth" examples/refused.bin
else
  echo "command: skipped: a machine without /dev/fd (nothing can be mounted here)"
fi
try "a directory, check" 2 "" "booth: examples: Is a directory" "$booth" check examples
try "a directory on standard input" 2 "" "booth: standard input: cannot be read" "$booth" < examples
try "a file whose read fails" 2 "" "booth: /proc/self/mem: cannot be read" "$booth" /proc/self/mem
cp examples/base.bin "$work/secret"; chmod 000 "$work/secret"
nobody=; [ "$(id -u)" -ne 0 ] || nobody="setpriv --reuid=65534 --regid=65534 --clear-groups"
reach() { $nobody sh -c '[ -x "$1" ] && [ -r "$2" ]' sh "$booth" "$PWD/docs/RULES.md"; }
if reach 2> /dev/null; then
  try "a file that may not be read" 2 "" "booth: $work/secret: Permission denied" $nobody "$booth" "$work/secret"
  mkdir "$work/shut"; cp examples/base.bin "$work/shut/"; chmod 000 "$work/shut"
  try "a folder that may not be entered" 2 "" "booth: $work/shut/base.bin: Permission denied" $nobody "$booth" "$work/shut/base.bin"
  chmod 700 "$work/shut"
  try "--version for another user" 0 "$("$booth" --version)" "" $nobody "$booth" --version
else
  echo "command: skipped: a file that may not be read (another user cannot reach this folder)"
fi
try_closed() { timeout 60 "$booth" "$@" <&- > "$work/out" 2> "$work/err"; }
try_closed; saw $? "a closed input" 2 "" "booth: standard input is closed"
try_closed -; saw $? "a closed input, -" 2 "" "booth: standard input is closed"
try_closed /dev/stdin; saw $? "a closed input by name" 2 "" "booth: standard input is closed"
try_closed check -; saw $? "a closed input, check" 2 "" "booth: standard input is closed"
try_closed examples/base.bin; saw $? "a closed input and a file" 0 "$w1" ""
try_closed level examples/base.bin 0 0; saw $? "a closed input, a file, level" 0 "word 0FC1" ""
printf '\004' | timeout 60 script -qec "'$booth'" /dev/null > "$work/out" 2>&1; status=$?
grep -q "booth: reading the script from the terminal" "$work/out" && grep -q "refused 6 0" "$work/out" && [ "$status" -eq 1 ] && passed=$((passed + 1)) \
  || { bad=$((bad + 1)); echo "command: a terminal: status $status, '$(head -c 200 "$work/out")'"; }

# ---- output that cannot be written
: > "$work/out"
for words in "examples/base.bin" "check examples/base.bin" "level examples/base.bin 0 0" "write examples/base.bin" "examples/refused.bin" "--help" "--version"; do
  timeout 60 "$booth" $words > /dev/full 2> "$work/err"; saw $? "a full output: $words" 2 "" "booth: cannot write standard output: No space left on device"
  timeout 60 "$booth" $words >&- 2> "$work/err"; saw $? "a closed output: $words" 2 "" "booth: standard output is closed"
done
: > "$work/err"
timeout 60 "$booth" examples/base.bin 2>&- > "$work/out"; saw $? "nowhere to say anything" 0 "$w1" ""
timeout 60 "$booth" examples/refused.bin 2>&- > "$work/out"; saw $? "nowhere to say why" 1 "refused 13 0" ""
timeout 60 "$booth" <&- 2>&- > "$work/out"; saw $? "neither input nor anywhere to say so" 2 "" ""
timeout 60 "$booth" <&- >&- 2>&-; saw $? "everything closed" 2 "" ""
{ sleep 0.3; timeout 60 "$booth" examples/refused.bin 2>&1 > "$work/out"; } | true; saw "${PIPESTATUS[0]}" "nobody listens why it is refused" 1 "refused 13 0" ""
: > "$work/out"
{ sleep 0.3; timeout 60 "$booth" no/such/file 2>&1 > "$work/out"; } | true; saw "${PIPESTATUS[0]}" "nobody listens to trouble" 2 "" ""
{ sleep 0.3; timeout 60 "$booth" examples/sweep.bin 2> "$work/err"; } | true; saw "${PIPESTATUS[0]}" "an output that closes early" 141 "" ""
(trap "" PIPE; sleep 0.3; timeout 60 "$booth" examples/sweep.bin 2> "$work/err") | true; saw "${PIPESTATUS[0]}" "an output that closes early, no signal" 141 "" ""
(ulimit -f 0; timeout 60 "$booth" examples/base.bin > "$work/limited") 2>&1 | cat > "$work/err"
saw "${PIPESTATUS[0]}" "a limit on a file's size" 2 "" "booth: cannot write standard output: signal XFSZ"
mkdir "$work/small"
if mount -t tmpfs -o size=4k none "$work/small" 2> /dev/null; then
  # a list of more bytes than the disk has: 700 lines, each a step low and a step high
  bash -c '. examples/make.sh '"$work"'; pattern 0 2 1 0 1; sequence 0 0 2 0 1 1 0; field 700 2 0 $none 0 0 $plain' > "$work/many" 2> /dev/null
  timeout 60 "$booth" "$work/many" > "$work/small/list" 2> "$work/err"; status=$?
  : > "$work/out"; saw "$status" "a full disk" 2 "" "booth: cannot write standard output: No space left on device"
  [ -s "$work/small/list" ] || { bad=$((bad + 1)); echo "command: the full disk took nothing"; }
  umount "$work/small"
else
  echo "command: skipped: a full disk (a small one cannot be mounted here; /dev/full stands in for it)"
fi

# ---- short of memory: the right list or none, and never a refusal. The script is base.bin after 2,033 records of register 119, so that it has 16,382 bytes
{ python3 -c 'import sys; sys.stdout.buffer.write(bytes([4, 0, 1, 0, 119, 0, 0, 0]) * 2033)'; cat examples/base.bin; } > "$work/large"
try "a large script" 0 "$w1" "" "$booth" "$work/large"
: > "$work/err"
for ((n = 3000; n <= 6000; n += 100)); do
  (ulimit -v "$n"; timeout 60 "$booth" "$work/large") > "$work/out" 2> /dev/null; status=$?
  expected=; [ "$status" -ne 0 ] || expected=$w1
  saw "$status" "with $n KiB of memory" "$status" "$expected" ""
done

# ---- programs that misbehave: a copy of the command with stubs for its programs
copy=$work/copy
fresh() {
  rm -rf "$copy"
  mkdir -p "$copy/docs" "$copy/tools" "$copy/target/bin" "$copy/target/stamp"
  cp booth crates.txt "$copy/"; cp docs/RULES.md "$copy/docs/"; cp tools/prove "$copy/tools/"
  for name in $(sed 's/#.*//; s/:.*//' crates.txt); do mkdir -p "$copy/crates/$name/src"; done
  for name in booth ask; do cp "crates/$name/stdout" "$copy/crates/$name/"; : > "$copy/crates/$name/src/main.rt"; done
  find "$copy" -exec touch -d '1 hour ago' {} +
}
stub() { printf '#!/usr/bin/env bash\n%s\n' "$2" > "$copy/target/bin/$1"; chmod +x "$copy/target/bin/$1"; : > "$copy/target/stamp/$1"; }
fresh
stub ask 'cat > /dev/null; echo 1 2 3 4'
stub booth 'cat > /dev/null; echo "steps 7 pixels 20"; echo "3 0FC1"; kill -KILL $$'
try "a program that is killed halfway" 2 "" "booth: the program booth crashed: signal KILL" "$copy/booth" examples/base.bin
stub booth 'kill -SEGV $$'
try "a program that crashes at once" 2 "" "booth: the program booth crashed: signal SEGV" "$copy/booth" examples/base.bin
stub booth 'cat > /dev/null; exit 3'
try "a program that fails" 2 "" "booth: the program booth failed: status 3" "$copy/booth" examples/base.bin
stub booth 'cat > /dev/null'
try "a program that says nothing" 2 "" "booth: the program booth gave no answer" "$copy/booth" examples/base.bin
printf '\177ELF\0' > "$copy/target/bin/booth"
try "a program that is none" 2 "" "booth: the program booth failed: status 12[67]" "$copy/booth" examples/base.bin
stub booth 'cat > /dev/null; echo "refused 13 0"'
try "a refusal with figures" 1 "refused 13 0" "booth: refused 13: in region 0 the run ends at pixel 1 of 2; .*" "$copy/booth" examples/base.bin
stub booth 'cat > /dev/null; echo "refused 10 4 5 6"'
try "a refusal with all its numbers" 1 "refused 10 4 5 6" "booth: refused 10: region 4 uses pattern 3, in which V5, toggle 6, is 2 and the one before it 1; .*" "$copy/booth" examples/base.bin
stub booth 'cat > /dev/null; echo "refused 14 0"'
try "a refusal with all its figures" 1 "refused 14 0" "booth: refused 14: the gate line is line 1, the second gate line 2 \(65535 for none\), of a field of 3 lines, and the second pattern is 4 \(.*" "$copy/booth" examples/base.bin
stub booth 'cat > /dev/null; echo "refused 13 0"'
stub ask 'kill -SEGV $$'
try "figures that crash" 2 "refused 13 0" "booth: the program ask crashed: signal SEGV" "$copy/booth" examples/base.bin
try "a question that crashes" 2 "" "booth: the program ask crashed: signal SEGV" "$copy/booth" check examples/base.bin
# what holds the answer as text fails
mkdir "$work/lossy"
cat > "$work/lossy/od" << END
#!/usr/bin/env bash
echo >> $work/calls
[ "\$(wc -l < $work/calls)" -lt 2 ] || { cat > /dev/null; exit 1; }
exec $(command -v od) "\$@"
END
chmod +x "$work/lossy/od"; stub booth 'cat > /dev/null; echo "steps 0 pixels 0"'
PATH=$work/lossy:$PATH try "an answer that is lost" 2 "" "booth: the program booth was not given the whole script, or its answer was lost" "$copy/booth" examples/base.bin
stub booth 'cat > /dev/null; echo "refused 13 0"'
rm "$copy/docs/RULES.md"
try "no rule book" 1 "refused 13 0" "booth: refused 13: see docs/RULES.md, place 0" "$copy/booth" examples/base.bin

# ---- the first use, with a stub for the prover, which takes some time, makes the program in its crate's out/ and prints what it has to print
mkdir "$work/tools"
cat > "$work/tools/rt" << END
#!/usr/bin/env bash
[ "\$1" != version ] || { echo stub; exit 0; }
name=\${PWD##*/}
echo "\$name" >> $work/proved
sleep "\${RT_SLEEP:-0.1}"
[ "\$name" != "\${RT_FAILS:-}" ] || { echo 'not proved'; exit 1; }
[ "\$1" == run ] || exit 0
mkdir -p out
[ -n "\${RT_EMPTY:-}" ] || cp $PWD/target/bin/\$name out/
[ "\$name" != "\${RT_RUN_FAILS:-}" ] || { echo 'something else'; exit 0; }
cat stdout
END
chmod +x "$work/tools/rt"
with() { PATH=$work/tools:$PATH "$@"; }
order="profile level holdlist standard_input ask booth"
steps='booth: proving and building 6 crates, which takes some minutes the first time'
n=0; for name in $order; do n=$((n + 1)); steps+=$'\n'"booth: $n of 6: $name proved \([0-9]+ s\)"; done
proved() { [ "$(tr '\n' ' ' < "$work/proved" 2> /dev/null)" == "$1" ] || { bad=$((bad + 1)); echo "command: $2: proved '$(tr '\n' ' ' < "$work/proved")'"; }; }

fresh; rm -f "$work/proved"
with try "the first use" 0 "$w1" "$steps" "$copy/booth" examples/base.bin; proved "$order " "the first use"
with try "the second use" 0 "$w1" "" "$copy/booth" examples/base.bin; proved "$order " "the second use"
touch "$copy/crates/cases/src"
with try "a source that matters to no program is newer" 0 "$w1" "" "$copy/booth" examples/base.bin; proved "$order " "a source that does not matter"
touch "$copy/crates/level/src"
with try "a newer source" 0 "$w1" "$steps" "$copy/booth" examples/base.bin; proved "$order $order " "a newer source"

rm -r "$copy/crates/level"
with try "a source that is gone" 2 "" "booth: the sources of its programs, $copy/crates, cannot be looked through" "$copy/booth" examples/base.bin
mkdir "$copy/crates/level"

# a program that is gone is made anew; one whose check went wrong after it was linked is not used
rm "$copy/target/bin/ask"
with try "a program that is gone" 0 "$w1" "$steps" "$copy/booth" examples/base.bin
fresh
for _ in 1 2; do
  RT_RUN_FAILS=booth with try "a program that prints something else" 2 "" ".*booth: not built: booth is not proved: $copy/target/booth.log says why" "$copy/booth" examples/base.bin
done

# two first uses at once, and one that is killed while it proves: one proof at a time, and both get their list
fresh; rm -f "$work/proved"
RT_SLEEP=0.5 with timeout 60 "$copy/booth" examples/base.bin > "$work/out1" 2> "$work/err1" & first=$!
for _ in {1..100}; do [ -s "$work/proved" ] && break; sleep 0.05; done
with try "a first use while another proves" 0 "$w1" "booth: another first use is proving the programs: waiting for it" "$copy/booth" examples/base.bin
wait "$first"; status=$?
mv "$work/out1" "$work/out"; mv "$work/err1" "$work/err"; saw "$status" "a first use that another waits for" 0 "$w1" "$steps"
proved "$order " "two first uses"
fresh; rm -f "$work/proved"
PATH=$work/tools:$PATH RT_SLEEP=1 "$copy/booth" examples/base.bin > "$work/out1" 2> "$work/err1" & first=$!
for _ in {1..100}; do [ -s "$work/proved" ] && break; sleep 0.05; done
{ kill -KILL "$first"; wait "$first"; } 2> /dev/null
with try "a first use after one that was killed" 0 "$w1" "(booth: another first use is proving the programs: waiting for it"$'\n'")?$steps" "$copy/booth" examples/base.bin

fresh
RT_FAILS=level with try "a crate that is not proved" 2 "" "${steps%%$'\n'*}"$'\n'"booth: 1 of 6: profile proved .*"$'\n'"booth: not built: level is not proved: $copy/target/booth.log says why" "$copy/booth" examples/base.bin
RT_EMPTY=1 with try "a program that was not built" 2 "" ".*booth: not built: no target/bin/booth: $copy/target/booth.log says why" "$copy/booth" examples/base.bin
mkdir "$work/bare"
for name in bash env timeout readlink awk find sed head od tr git flock cmp cp mkdir mv rm touch cat wc; do ln -s "$(command -v "$name")" "$work/bare/"; done
PATH=$work/bare try "no prover" 2 "" "booth: not built: rt, Rattle's command, is not on PATH" "$copy/booth" examples/base.bin
for name in awk cat find head od readlink sed tr; do
  mv "$work/bare/$name" "$work/away"
  for words in "examples/base.bin" "--help" "--version"; do
    PATH=$work/bare try "no $name: $words" 2 "" "booth: $name is not on PATH" "$booth" $words
  done
  mv "$work/away" "$work/bare/$name"
done
mv "$work/bare/flock" "$work/away"; cp "$work/tools/rt" "$work/bare/rt"
PATH=$work/bare try "no flock" 2 "" "booth: flock is not on PATH" "$copy/booth" examples/base.bin
fresh; rm -r "$copy/target"; chmod a-w "$copy"
chmod -R a+rX "$work/tools" "$copy"
if [ -z "$nobody" ] || $nobody true 2> /dev/null; then
  PATH=$work/tools:$PATH try "a checkout that cannot be written" 2 "" "booth: not built: $copy/target cannot be written" $nobody "$copy/booth" - < examples/base.bin
else
  echo "command: skipped: a checkout that cannot be written (no other user to be)"
fi
chmod u+w "$copy"; : > "$copy/target"
with try "a checkout without room for a folder" 2 "" "booth: not built: $copy/target cannot be written" "$copy/booth" examples/base.bin

echo "command: $passed passed, $bad failed"
[ "$passed" -gt 0 ] && [ "$bad" -eq 0 ]
