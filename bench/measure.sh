#!/usr/bin/env bash
# Measures one part of spvdbg outside the gate: bench/measure.sh NAME builds the program text bench/NAME.program over the
# crates that its first line names, in a scratch folder, runs it, and prints its lines and the most memory that it used.
# bench/NAME.proofs, where there is one, has the files of its proofs, each behind a line '-- File PATH'.
set -eu
top=$(cd "$(dirname "$0")/.." && pwd)
program=$top/bench/${1:?a name of bench/, as words, records, setup, start or memory}.program
scratch=$(mktemp -d)
trap 'rm -rf "$scratch"' EXIT
mkdir -p "$scratch/crates/measure/src"
cp "$top/HANDLES" "$scratch/"
crates=$(sed -n '1s/^\/\/! Crates: //p' "$program")
for crate in $crates; do
  mkdir "$scratch/crates/$crate"
  cp -r "$top/crates/$crate/src" "$top/crates/$crate/specs" "$top/crates/$crate/proofs" "$scratch/crates/$crate/"
  grep -E "^$crate:" "$top/crates.txt" >> "$scratch/crates.txt"
done
echo "measure: $crates" >> "$scratch/crates.txt"
cp "$program" "$scratch/crates/measure/src/main.rt"
cd "$scratch/crates/measure"
proofs=${program%.program}.proofs
if [ -e "$proofs" ]; then
  sed -n 's/^-- File //p' "$proofs" | xargs dirname | xargs mkdir -p
  awk '/^-- File /{file = $3; next} file{print > file}' "$proofs"
fi
rt run > "$scratch/log" 2>&1 || { tail -20 "$scratch/log"; exit 1; }
/usr/bin/time -f 'at most %M KiB in use' out/measure
