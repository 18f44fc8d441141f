#!/bin/sh
# Drives `serve` of the built program over the loopback, with one connection and with eight: small Get Files, one by
# one and sixteen at a time, Get Files and Put Ranges of 4 MiB, by wrk; and the lines of sessions. Beside it, in the
# same run, nginx gives the same bytes as static files, and the ratio of the two is printed. Each measurement has a
# service of its own, since a history keeps what was written. What a missing tool would measure is named and passed
# over. It stands outside the gate.
#
# usage: bench/serve.sh [PROGRAM] [SECONDS]   (what `rt run sharebox` leaves, and 2 seconds, if none are given)
cd "$(dirname "$0")/.." || exit 1
program=${1:-crates/sharebox/out/sharebox}
[ -x "$program" ] || { echo "no program at $program: build it with rt run sharebox" >&2; exit 1; }
command -v python3 > /dev/null || { echo "python3 is missing: it signs the requests" >&2; exit 1; }
exec python3 bench/serve.py "$program" "${2:-2}"
