#!/bin/sh
# Feeds streams of signed requests, one behind another, to `conn` of the built program: small ones (by turns Put
# Range and Get File of 64 bytes), Create Files of one directory, and big ones (by turns Put Range and Get File of 4
# MiB), each at two sizes. It prints the requests and the MiB of bodies for each second of processor time and of the
# clock; the two sizes should have about the same. It stands outside the gate. Bodies stand in memory: 1 GiB at the
# default sizes.
#
# usage: bench/conn.sh [PROGRAM]   (the program that `rt run sharebox` leaves, if none is given)
cd "$(dirname "$0")/.." || exit 1
program=${1:-crates/sharebox/out/sharebox}
[ -x "$program" ] || { echo "no program at $program: build it with rt run sharebox" >&2; exit 1; }
command -v python3 > /dev/null || { echo "python3 is missing: it signs the requests" >&2; exit 1; }
folder=$(mktemp -d) || exit 1
trap 'rm -rf "$folder"' EXIT

# Feeds so many requests of a kind, whose bodies have so many bytes.
feed() {
    kind=$1 count=$2 size=$3
    python3 bench/requests.py "$kind" "$count" > "$folder/in" || exit 1
    python3 - "$program" "$folder" "$kind" "$count" "$size" <<'PYTHON' || exit 1
import os, re, subprocess, sys, time

program, folder, kind, count, size = sys.argv[1], sys.argv[2], sys.argv[3], int(sys.argv[4]), int(sys.argv[5])
with open(f"{folder}/in", "rb") as source, open(f"{folder}/out", "wb") as sink:
    begin, before = time.monotonic(), os.times()
    status = subprocess.run([program, "conn", "acct", "a2V5"], stdin=source, stdout=sink).returncode
    clock, after = time.monotonic() - begin, os.times()
if status:
    sys.exit(f"status {status} at {count} requests of {kind}")
with open(f"{folder}/out", "rb") as answers:
    answered = len(re.findall(rb"HTTP/1\.1 20[01] ", answers.read()))
if answered < count:
    sys.exit(f"{answered} of {count} requests of {kind} were answered")
spent = after.children_user + after.children_system - before.children_user - before.children_system
for name, seconds in (("processor", spent), ("clock", clock)):
    rate = f"{answered / seconds:9.0f} requests/s"
    body = f"{count * size / seconds / (1 << 20):7.0f} MiB/s" if size else ""
    print(f"{kind:8} {count:7} requests  {seconds:6.2f} s {name:9}  {rate}  {body}".rstrip())
PYTHON
}

for count in 10000 40000; do feed small "$count" 0; done
for count in 10000 40000; do feed creates "$count" 0; done
for count in 64 256; do feed bulk "$count" 4194304; done
