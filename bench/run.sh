#!/bin/sh
# Proves, builds and runs a benchmark of this folder over the libraries of the repository. The program is made in a copy
# of the repository, so that the gate doesn't pay for it.
#
# usage: bench/run.sh NAME   (of bench/NAME.rattle, whose first line names its libraries)
cd "$(dirname "$0")/.." || exit 1
source=bench/$1.rattle
[ -f "$source" ] || { echo "usage: bench/run.sh NAME, of bench/NAME.rattle" >&2; exit 1; }
libraries=$(sed -n '1s|^// libraries: ||p' "$source")
[ -n "$libraries" ] || { echo "$source names no libraries in its first line" >&2; exit 1; }
copy=$(mktemp -d) || exit 1
trap 'rm -rf "$copy"' EXIT
git ls-files crates crates.txt HANDLES | tar -cf - -T - | tar -xf - -C "$copy" || exit 1
mkdir -p "$copy/crates/bench_$1/src"
cp "$source" "$copy/crates/bench_$1/src/main.rt"
echo "bench_$1: $libraries" >> "$copy/crates.txt"
git init -q "$copy" && cd "$copy/crates/bench_$1" && rt run
