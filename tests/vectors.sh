#!/usr/bin/env bash
# Runs each script of tests/vectors.tsv through the program and compares all that it prints, byte by byte. The table is from an implementation in
# another language, by another hand. Then asks `ask` of each: it is accepted where the table has a list (or one that is too long), else refused alike; and what
# is written of an accepted one prints the same. PROGRAM names another program than booth to be run, which is then alone.
set -u
cd "$(dirname "$0")/.." || exit 1
program=${PROGRAM:-target/bin/booth} ask=${PROGRAM:+none}
ask=${ask:-target/bin/ask}
for name in "$program" "$ask"; do [ "$name" == none ] || [ -x "$name" ] || { echo "vectors: no $name"; exit 1; }; done
work=$(mktemp -d) || exit 1
trap 'rm -rf "$work"' EXIT

if command -v xxd >/dev/null 2>&1; then
  bytes() { xxd -r -p; }
else
  bytes() { python3 -c 'import sys; sys.stdout.buffer.write(bytes.fromhex(sys.stdin.read()))'; }
fi

# what `ask` answers to a question about the script
asks() { { printf '%s\n' "$1"; cat "$work/script"; } | "$ask" > "$work/$2" 2>> "$work/error"; }

agreed=0 bad=0 asked=0
while IFS=$'\t' read -r name script printed; do
  [[ $name == \#* ]] && continue
  # an empty field is lost by read, so a row of two is one of no script
  [ -n "$printed" ] || { printed=$script; script=; }
  printf '%s' "$script" | bytes > "$work/script"
  printf '%s' "$printed" | tr '|' '\n' > "$work/expected"
  "$program" < "$work/script" > "$work/printed" 2> "$work/error"
  if cmp -s "$work/expected" "$work/printed" && [ ! -s "$work/error" ]; then
    agreed=$((agreed + 1))
  else
    bad=$((bad + 1)); echo "vectors: $name differs: $(head -n 1 "$work/printed" "$work/error" | tr '\n' ' ')"
  fi
  [ "$ask" != none ] || continue
  case $printed in steps* | "refused 18 "*) echo accepted > "$work/verdict" ;; *) cp "$work/expected" "$work/verdict" ;; esac
  asks C checked
  asks W written
  # of a script that is refused the refusal is written, too, and nothing else
  if [ "$(cat "$work/verdict")" == accepted ]; then "$program" < "$work/written" > "$work/again" 2>> "$work/error"; else cp "$work/written" "$work/again"; fi
  if cmp -s "$work/verdict" "$work/checked" && cmp -s "$work/expected" "$work/again" && [ ! -s "$work/error" ]; then
    asked=$((asked + 1))
  else
    bad=$((bad + 1)); echo "vectors: $name is answered otherwise: $(head -c 100 "$work/checked" | tr '\n' ' ')"
  fi
done < tests/vectors.tsv

echo "vectors: $agreed agreed, $asked answered alike, $bad differed"
[ "$agreed" -gt 0 ] && [ "$bad" -eq 0 ]
