#!/usr/bin/env bash
# Every place that docs/PROMISES.md and docs/RULES.md cite, `crates/..: name, name`, is a file of the repository that declares those names; every public
# function is cited in PROMISES; and every must-fail edit has its row there, and every row its edit.
set -u
cd "$(dirname "$0")/.." || exit 1
cited=0; bad=0

# whether a file declares a name: `name : type`, a record, a data type, a constructor or a field; in code a function or a type. A keyword is none.
declares() {
  local name=${2//./\\.}
  case $1 in
    *.rt) grep -qE "^ *(pub |pub\(crate\) )?(fn|struct|enum) $name([<({ ]|\$)" "$1" ;;
    *) grep -qE "^ *((unfoldable|abbrev|pub) )*((record|data) $name( |\$)|$name :)" "$1" ;;
  esac
}
for keyword in record data pub fn struct abbrev unfoldable module use; do
  for file in crates/profile/specs/Obeys.antt crates/profile/src/lib.rt; do
    declares "$file" "$keyword" && { echo "promises: the test takes '$keyword' for a name of $file"; exit 1; }
  done
done

while read -r file names; do
  [ -e "$file" ] || { echo "promises: no file $file"; bad=1; continue; }
  for name in $names; do
    cited=$((cited + 1))
    declares "$file" "$name" || { echo "promises: $file declares no $name"; bad=1; }
  done
done < <(grep -ohE '`crates/[^`*]*`' docs/PROMISES.md docs/RULES.md | tr -d '`' | sed 's/:/ /; s/,/ /g')
for file in crates/*/src/*.rt; do
  for name in $(grep -oE '^ *pub fn [a-z_0-9]+' "$file" | sed 's/.* //'); do
    grep -qF "\`$file: $name\`" docs/PROMISES.md || { echo "promises: $file: $name has no promise"; bad=1; }
  done
done
for edit in crates/*/must-fail/*.edit; do
  name=$(basename "$edit" .edit); crate=${edit#crates/}; crate=${crate%%/*}
  grep -qF "| $crate/$name:" docs/PROMISES.md || { echo "promises: the edit $crate/$name has no row"; bad=1; }
done
while read -r crate name; do
  [ -f "crates/$crate/must-fail/$name.edit" ] || { echo "promises: there is no edit $crate/$name"; bad=1; }
done < <(grep -oE '^\| [a-z_]+/[a-z_0-9]+:' docs/PROMISES.md | sed 's/^| //; s/:$//; s,/, ,')
[ "$cited" -gt 0 ] || { echo "promises: nothing is cited"; exit 1; }
[ "$bad" -eq 0 ] && echo "promises: $cited names found where they are cited"
exit "$bad"
