#!/usr/bin/env bash
# Once a profile is checked, its field pixels are located without a loop over lines, and so are levels: asked at the end of a field of 4095 lines, each takes
# at most five times what its check takes. A loop over the lines takes twenty to thirty times that. User times, the least of five runs of 100,000 answers.
set -u
cd "$(dirname "$0")/.." || exit 1
program=target/bin/bench
[ -x "$program" ] || { echo "speed: no $program"; exit 1; }
work=$(mktemp -d) || exit 1
trap 'rm -rf "$work"' EXIT
TIMEFORMAT=%3U
bad=0

# the writers of records, numbers and patterns, and of the two fields
. examples/make.sh "$work"
. bench/fields.sh

# least JOB FIELD: the least time of the job, in milliseconds; what it wrote goes to a file
least() {
  { printf %s "$1"; "$2"; } > "$work/input"
  for _ in {1..5}; do { time timeout 60 "$program" < "$work/input" > "$work/$1"; } 2>&1; done | sort -n | head -n 1 | awk '{ print int(1000 * $1) }'
}

for regions in one_region seven_regions; do
  check=$(least C $regions) locate=$(least N $regions) level=$(least L $regions)
  # the last two pixels, in turns: line 4094, pixels 4092 and 4093
  [ "$(cat "$work/N")" == $((100000 * 4094 + 50000 * (4092 + 4093))) ] || { echo "speed: $regions: the pixels were not located"; bad=1; }
  [ "$(cat "$work/C")" == 0 ] || { echo "speed: $regions: the profile is refused"; bad=1; }
  [ "$check" -gt 0 ] || { echo "speed: $regions: the checks took no time"; bad=1; }
  for answer in locate level; do
    [ "${!answer}" -le $((5 * check)) ] || { echo "speed: $regions: 100,000 times $answer took ${!answer} ms, and the check alone $check ms"; bad=1; }
  done
  echo "speed: $regions: 100,000 times check $check, locate $locate, level $level ms"
done
exit "$bad"
