#!/bin/sh
# Times calls of `serve` of the built program over accounts of two sizes, tenfold apart: files of one directory,
# opens of one file, locks of one file, snapshots of one share. For each it prints the microseconds of a call, sent
# in one stream over one connection, and the processor time of the service for it; a time that doesn't depend on the
# size is about the same in both columns. It stands outside the gate.
#
# usage: bench/office.sh [PROGRAM]   (the program that `rt run sharebox` leaves, if none is given)
cd "$(dirname "$0")/.." || exit 1
program=${1:-crates/sharebox/out/sharebox}
[ -x "$program" ] || { echo "no program at $program: build it with rt run sharebox" >&2; exit 1; }
command -v python3 > /dev/null || { echo "python3 is missing: it signs the requests" >&2; exit 1; }
exec python3 bench/office.py "$program"
