# shellcheck shell=bash
# What run.sh, try.sh and build.sh share; it is read by them, and does nothing alone.
top=$(cd "$(dirname "$0")/.." && pwd)
program=$top/crates/spvdbg/out/spvdbg

say() { echo "$(basename "$0"): $*" >&2; }

# The crates that the program stands on, lowest first, and then its own.
crates() {
  awk -F: '
    /^#/ || !NF { next }
    { split($1, name, " "); below[name[1]] = $2 }
    function visit(crate, list, count, i) {
      if (!(crate in below) || seen[crate]++) return
      count = split(below[crate], list, " ")
      for (i = 1; i <= count; i++) visit(list[i])
      print crate
    }
    END { visit("spvdbg") }' "$top/crates.txt"
}

# Whether a program is kept and no source is newer.
is_built() {
  test -x "$program" || return 1
  local crate newer
  for crate in $(crates); do
    newer=$(find "$top/crates.txt" "$top/crates/$crate/src" "$top/crates/$crate/specs" "$top/crates/$crate/proofs" \
      -newer "$program" -type f -print -quit 2>/dev/null || true)
    test -z "$newer" || return 1
  done
}

need_kit() {
  command -v rt > /dev/null || { say "the command rt of the kit isn't on the PATH; README.md says what to install."; exit 2; }
}

# Debugs a module under a setup, by the program that is kept, or where none is by 'rt try', which proves nothing.
debug() {
  if is_built; then
    "$program" debug "$1" "$2"
    return
  fi
  need_kit
  if test -t 0; then
    say "without a program that is built, commands are read from a file or a pipe, as by '< COMMANDS'."
    exit 2
  fi
  say "no program is built of these sources, so this one runs unproved, by 'rt try', in a minute or two of one processor;"
  say "the replies come at its end. 'examples/build.sh' proves and builds the program that is proved, and keeps it."
  local module setup
  module=$(realpath "$1")
  setup=$(realpath "$2")
  cd "$top/crates/spvdbg" || exit
  rt try --seconds 600 --data "module=$module" --data "setup=$setup" -- debug module setup
}
