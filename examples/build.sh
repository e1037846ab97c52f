#!/usr/bin/env bash
# Proves and builds the program, and keeps it as crates/spvdbg/out/spvdbg, which run.sh and try.sh take from then on. It says how far
# it is as each crate is done. What was proved before and hasn't changed isn't proved again.
set -eu
. "$(dirname "$0")/program.sh"

if test $# -ne 0; then say "usage: examples/build.sh"; exit 2; fi
need_kit
if is_built; then say "nothing has changed: the program is $program"; exit 0; fi

so_far() { echo "$((SECONDS / 60)) min $((SECONDS % 60)) s"; }

# As many crates at a time as there are processors, but each may want 4 GB of memory.
at_once=$(nproc)
most=$(awk '/^MemAvailable:/ { print int($2 / 4000000) }' /proc/meminfo)
if test "$most" -lt "$at_once"; then at_once=$((most > 1 ? most : 1)); fi

count=$(crates | wc -l)
log=$(mktemp)
trap 'rm -f "$log"' EXIT
say "proves $count crates, $at_once at a time where they don't wait for each other. From nothing that takes about"
say "an hour on four processors; after an edit only what changed is proved again, and what stands above it."
cd "$top/crates/spvdbg"

# Tells of each crate that is done: rt prints a line '== NAME' and what the crate's check said.
tell() {
  local line place=0
  while IFS= read -r line; do
    case "$line" in
      "== summary") ;;
      "== "*)
        place=$((place + 1))
        say "$place of $count: ${line#== } ($(so_far) so far)"
        ;;
    esac
  done
}
if ! rt all check --jobs "$at_once" < /dev/null 2>&1 | tee "$log" | tell || ! grep -q "^$count of $count crates ok$" "$log"; then
  tail -n 60 "$log" >&2
  say "this was not proved, so no program is built."
  exit 1
fi

say "compiles and links what was proved ($(so_far) so far)"
rm -f "$program"
if ! rt run -- check "$top/examples/first/module.spv" < /dev/null > "$log" 2>&1; then
  tail -n 60 "$log" >&2
  rm -f "$program"
  exit 1
fi
touch "$program"
say "built in $(so_far). The program is $program"
