#!/usr/bin/env python3
"""What bench/office.sh runs: calls over small and large accounts, by both doors of one service."""

import contextlib
import os
import socket
import subprocess
import sys
import time

import requests
from serve import ended, read_answers, received

BATCH = 1_000


class Office:
    """A service with one connection to each of its doors."""

    def __init__(self, process, dated):
        self.process = process
        self.dated = dated
        ports = [int(process.stdout.readline().split()[1]) for _ in range(2)]
        self.rest, self.session = [socket.create_connection(("127.0.0.1", port)) for port in ports]
        self.ask([requests.create_share("data", dated)])

    def ask(self, asked):
        """Sends requests in one stream, and waits for their answers."""
        with sent(self.rest, b"".join(asked)):
            if read_answers(self.rest, len(asked)):
                sys.exit("a request was refused")

    def say(self, lines):
        """Sends lines in one stream, and waits for their answers."""
        with sent(self.session, "".join(f"{line}\n" for line in lines).encode()):
            answers = b""
            while answers.count(b"\n") < len(lines):
                answers += received(self.session)
        if b"ERR " in answers:
            sys.exit(f"a line was refused: {answers[answers.index(b'ERR '):][:80]}")

    def spent(self):
        """The processor time of the service's threads, in seconds."""
        folder, spent = f"/proc/{self.process.pid}/task", 0
        for thread in os.listdir(folder):
            with open(f"{folder}/{thread}/schedstat", encoding="ascii") as it:
                spent += int(it.read().split()[0])
        return spent / 1e9

    def timed(self, send, texts):
        """The microseconds of the clock and of the processors for each of the texts."""
        begin, before = time.monotonic(), self.spent()
        send(texts)
        clock, spent = time.monotonic() - begin, self.spent() - before
        return 1e6 * clock / len(texts), 1e6 * spent / len(texts)


@contextlib.contextmanager
def sent(connection, text):
    """Sends bytes beside what reads the answers."""
    child = os.fork()
    if not child:
        connection.sendall(text)
        os._exit(0)
    yield
    os.waitpid(child, 0)


def path(number):
    return f"/data/f{number}"


def spread(size):
    """So many numbers of all below a size, in a mixed order."""
    return [number * 7_919 % size for number in range(BATCH)]


def files(office, size):
    """A directory of so many files."""
    create = [requests.create_file(path(number), 64, office.dated) for number in range(size + BATCH)]
    office.ask(create[:size])
    yield "Create File", office.ask, create[size:]
    yield "Get File", office.ask, [requests.get_file(path(n), office.dated) for n in spread(size)]
    listing = "/data?restype=directory&comp=list&maxresults=5000"
    markers = [f"{listing}&marker=f{n}" for n in spread(size)[:20]]
    yield "List of 5,000", office.ask, [requests.head("GET", it, office.dated) for it in markers]
    yield "open", office.say, [f"open data f{n} rw rwd existing file" for n in spread(size)]
    yield "close", office.say, [f"close {number + 1}" for number in range(BATCH)]


def opened(office, opens):
    """One file with so many opens."""
    office.ask([requests.create_file(path(0), 64, office.dated)])
    office.say(["open data f0 rw rwd existing file"] * opens)


def opens(office, size):
    """So many opens of one file, of at most 2,000."""
    opened(office, size - 100)
    yield "open", office.say, ["open data f0 rw rwd existing file"] * 100
    yield "read", office.say, ["read 1 0 64"] * BATCH
    yield "write", office.say, ["write 1 0 5a5a5a5a"] * BATCH
    yield "Get File", office.ask, [requests.get_file(path(0), office.dated)] * BATCH
    yield "close", office.say, [f"close {number + 2}" for number in range(100)]


def locks(office, size):
    """So many locks of one file."""
    opened(office, 1)
    taken = [f"lock 1 {1_000 + 10 * number} 5 exclusive" for number in range(size)]
    office.say(taken[:-BATCH // 2])
    yield "lock", office.say, taken[-BATCH // 2 :]
    yield "read", office.say, ["read 1 0 64"] * BATCH
    yield "write", office.say, ["write 1 0 5a5a5a5a"] * BATCH
    yield "unlock", office.say, [f"un{line}" for line in taken[: BATCH // 2]]


def snapshots(office, size):
    """So many snapshots of a share of 1,000 files."""
    office.ask([requests.create_file(path(number), 64, office.dated) for number in range(1_000)])
    asked = requests.head("PUT", "/data?restype=share&comp=snapshot", office.dated, [("Content-Length", "0")])
    office.ask([asked] * (size - 10))
    yield "Snapshot Share", office.ask, [asked] * 10
    yield "Get File", office.ask, [requests.get_file(path(n), office.dated) for n in spread(1_000)]
    body = requests.body_of(64)
    yield "Put Range", office.ask, [requests.put_range(path(n), body, office.dated) for n in spread(1_000)]


def measured(program, kind, size):
    """The times of a kind's calls at one size."""
    words = ["serve", "0", "0", "1", "1", "0", "1000000", requests.ACCOUNT, "a2V5"]
    with ended(subprocess.Popen([program, *words], stdout=subprocess.PIPE)) as process:
        office = Office(process, requests.http_date())
        return [(what, *office.timed(send, texts)) for what, send, texts in kind(office, size)]


def main():
    program = os.path.abspath(sys.argv[1])
    print(f"load {os.getloadavg()[0]:.1f}, {os.cpu_count()} processors")
    print("microseconds of the clock (of processors) a call, at either size")
    kinds = [
        (files, "files of one directory", 10_000, 100_000),
        (opens, "opens of one file", 200, 2_000),
        (locks, "locks of one file", 1_000, 10_000),
        (snapshots, "snapshots of 1,000 files", 20, 200),
    ]
    for kind, of_what, small, large in kinds:
        print(f"{small:,} and {large:,} {of_what}", flush=True)
        for first, second in zip(measured(program, kind, small), measured(program, kind, large)):
            columns = [f"{clock:9.1f} ({spent:8.1f})" for _, clock, spent in (first, second)]
            print(f"    {first[0]:16} {'  '.join(columns)}", flush=True)


if __name__ == "__main__":
    main()
