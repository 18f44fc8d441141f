#!/bin/sh
# Feeds 10,000, 20,000 and 40,000 generated lines, writes and reads of one file of 64 KiB in turn, to the built program,
# and prints the seconds and the lines a second of each. It stands outside the gate.
#
# usage: bench/session.sh [PROGRAM]   (the program that `rt run sharebox` leaves, if none is given)
cd "$(dirname "$0")/.." || exit 1
program=${1:-crates/sharebox/out/sharebox}
[ -x "$program" ] || { echo "no program at $program: build it with rt run sharebox" >&2; exit 1; }
folder=$(mktemp -d) || exit 1
trap 'rm -rf "$folder"' EXIT

# One write of 64 bytes, then one read of 64 bytes, at places that go round the 64 KiB.
lines() {
    awk -v count="$1" 'BEGIN {
        for (i = 0; i < 64; i++) bytes = bytes sprintf("%02x", i)
        print "open data bench.bin rw rwd create file"
        print "write 1 65535 00"
        for (i = 2; i < count; i++) {
            at = (int(i / 2) * 4099) % 65472
            if (i % 2 == 0) print "write 1 " at " " bytes
            else print "read 1 " at " 64"
        }
    }'
}

for count in 10000 20000 40000; do
    lines "$count" > "$folder/in"
    begin=$(date +%s%N)
    "$program" session data < "$folder/in" > "$folder/out" || { echo "status $? at $count lines" >&2; exit 1; }
    end=$(date +%s%N)
    answered=$(grep -c '^OK ' "$folder/out")
    [ "$answered" -eq "$count" ] || { echo "$answered of $count lines were answered" >&2; exit 1; }
    awk -v n="$count" -v t="$((end - begin))" 'BEGIN { s = t / 1e9; printf "%d lines  %.2f s  %.0f lines/s\n", n, s, n / s }'
done
