#!/usr/bin/env bash
# Runs an example: examples/run.sh NAME debugs examples/NAME/module.spv under examples/NAME/setup, and answers the lines of
# examples/NAME/commands. It takes the program that examples/build.sh keeps, or where there is none an unproved one. Without a name
# it lists the examples. What it says of its own goes to standard error.
set -eu
. "$(dirname "$0")/program.sh"

is_example() { test -f "$1/module.spv" && test -f "$1/setup" && test -f "$1/commands"; }

# A line for each example: its name, and what its README.md begins with.
list() {
  local folder
  for folder in "$top"/examples/*/; do
    if is_example "$folder"; then sed -n '1s/^# /  /p' "$folder/README.md" >&2; fi
  done
}

if test $# -ne 1 || ! is_example "$top/examples/$1"; then
  if test $# -eq 1; then say "there is no example $1."; fi
  say "usage: examples/run.sh NAME. The examples:"
  list
  exit 2
fi
example=$top/examples/$1
debug "$example/module.spv" "$example/setup" < "$example/commands"
