#!/usr/bin/env bash
# Debugs a module of one's own: examples/try.sh MODULE SETUP < COMMANDS. It takes the program that examples/build.sh keeps, or where
# there is none an unproved one. What it says of its own goes to standard error.
set -eu
. "$(dirname "$0")/program.sh"

if test $# -ne 2; then
  say "usage: examples/try.sh MODULE SETUP < COMMANDS"
  exit 2
fi
for file in "$1" "$2"; do
  if ! test -f "$file" || ! test -r "$file"; then say "there is no file $file that can be read."; exit 2; fi
done
debug "$1" "$2"
