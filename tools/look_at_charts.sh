#!/usr/bin/env bash
# Draws six examples in each form, makes pictures of them with a headless Chromium, in light and in dark, drives the
# scrubber of each page by keys and clicks, holds what each page shows in each row to what lockrun prints, and checks
# each trace.
#
#   tools/look_at_charts.sh [FOLDER]
#
# It takes the proved programs, which `rt run` makes in crates/lockchart and crates/lockrun; LOCKCHART and LOCKRUN may
# name others, CHROMIUM the browser (Debian's package chromium), and NAMES the examples. It needs bash and Python 3.10 or
# later. FOLDER gets all files; without it they are in a folder below /tmp. The last line says how many charts there were
# and how many had a complaint; where any had one, the status is 1.
set -eu
tools=$(cd "$(dirname "$0")" && pwd)
top=$(dirname "$tools")
lockchart=${LOCKCHART:-$top/crates/lockchart/out/lockchart}
lockrun=${LOCKRUN:-$top/crates/lockrun/out/lockrun}
chromium=$(command -v "${CHROMIUM:-chromium}") || { echo 'no chromium: apt-get install chromium' >&2; exit 1; }
names=${NAMES:-lending priority_inversion inversion_without_loans lost_signal three_philosophers writer_behind_readers}
folder=${1:-$(mktemp -d /tmp/charts.XXXXXX)}
mkdir -p "$folder"
for program in "$lockchart" "$lockrun"; do
  [ -x "$program" ] || { echo "no $program: rt run makes it, in its crate" >&2; exit 1; }
done
for name in $names; do
  cp "$top/crates/example_rows/data/$name.script" "$folder/$name.script"
  for form in svg html trace; do
    "$lockchart" --form "$form" < "$folder/$name.script" > "$folder/$name.${form/trace/json}"
  done
done
# shellcheck disable=SC2086 # the names are words
exec python3 "$tools/look_at_charts.py" "$chromium" "$lockrun" "$folder" $names
