#!/bin/bash
# Runs the program over outside test vectors and compares byte by byte.
# usage: reference/test.sh vectors.tsv
# A row: name, script in hex, what the program prints with | for LF.
set -euo pipefail

vectors=$(realpath "${1:?usage: reference/test.sh vectors.tsv}")
cd "$(dirname "$0")"
cargo build --release --offline --quiet
program=target/release/program

work=$(mktemp -d)
trap 'rm -r "$work"' EXIT

rows=0
wrong=0
while IFS= read -r row; do
    [[ $row == \#* ]] && continue
    name=${row%%$'\t'*}
    rest=${row#*$'\t'}
    script=${rest%%$'\t'*}
    printed=${rest#*$'\t'}
    printf '%s' "$printed" | tr '|' '\n' > "$work/expected"
    printf '%s' "$script" | xxd -r -p | "$program" > "$work/got"
    rows=$((rows + 1))
    if ! cmp -s "$work/expected" "$work/got"; then
        wrong=$((wrong + 1))
        echo "differs: $name"
    fi
done < "$vectors"

echo "$rows rows, $wrong differ"
[[ $rows -gt 0 && $wrong -eq 0 ]]
