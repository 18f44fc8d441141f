#!/usr/bin/env python3
"""Refuses memory to the served program, one allocation after another, and looks for an answer that contradicts.

usage: tools/fail_alloc.py [PROGRAM] [ROW..]   (the program that `rt run sharebox` leaves, if none is given)

A row is a list of requests and lines, asked one after another of one program. Each step is asked with its first
allocation refused, then with its second, and so on, each alone and then with all behind it, until no allocation is
left to refuse. A refused call changes nothing, so each such answer must be out of memory or the one that the row has
with ample memory, and the step itself is then answered as in the row. Dates, moments and drawn ids are not compared.
Where a session ends for want of memory, or a step is answered all the same, the row is asked anew up to the step.
A program that finds no memory to begin with must end with status 1 or 5. It wants a compiler of C for the few lines
that refuse memory, and stands outside the gate.
"""

import datetime
import mmap
import os
import re
import socket
import struct
import subprocess
import sys
import tempfile
import time
from pathlib import Path

sys.dont_write_bytecode = True
sys.path.insert(0, str(Path(__file__).resolve().parent))
from inputs import ACCOUNT, KEY, signature

ROOT = Path(__file__).resolve().parent.parent
LEASE, OTHER = "11111111-2222-3333-4444-555555555555", "66666666-7777-8888-9999-aaaaaaaaaaaa"
NOT_SERVED = (1, 5)  # its words can't be had, memory was refused
NO_MOMENT = "2022-01-01T00:00:00.0000000Z"

ALONE, ALL_BEHIND = 1, 2
SECONDS, WORKERS = 20, 3

# The refused allocations are told through three numbers in a shared file: how many pass until one is refused, whether
# that one is refused alone (1) or with all behind it (2), and how many were refused.
REFUSER = r"""
#define _GNU_SOURCE
#include <dlfcn.h>
#include <errno.h>
#include <fcntl.h>
#include <stdlib.h>
#include <sys/mman.h>
static long *told;
__attribute__((constructor)) static void begin(void) {
    int file = open(getenv("REFUSER"), O_RDWR);
    void *place = mmap(0, 24, PROT_READ | PROT_WRITE, MAP_SHARED, file, 0);
    if (file < 0 || place == MAP_FAILED) abort();
    told = place;
}
static int refused(void) {
    long how = told ? __atomic_load_n(&told[1], __ATOMIC_SEQ_CST) : 0;
    if (!how) return 0;
    long left = __atomic_fetch_sub(&told[0], 1, __ATOMIC_SEQ_CST);
    if (left > 1 || (how == 1 && left < 1)) return 0;
    __atomic_fetch_add(&told[2], 1, __ATOMIC_SEQ_CST);
    errno = ENOMEM;
    return 1;
}
void *malloc(size_t size) {
    static void *(*real)(size_t);
    if (!real) real = (void *(*)(size_t))dlsym(RTLD_NEXT, "malloc");
    return refused() ? 0 : real(size);
}
void *realloc(void *old, size_t size) {
    static void *(*real)(void *, size_t);
    if (!real) real = (void *(*)(void *, size_t))dlsym(RTLD_NEXT, "realloc");
    return refused() ? 0 : real(old, size);
}
"""


def rest(method, target, *headers, body=b""):
    """A step at the first door; MOMENT in its target is the moment of the last snapshot."""
    return ("rest", method, target, headers, body)


def line(text, session=1):
    """A step at the second door, by one of the sessions."""
    return (f"session {session}", text)


def made(path, length, *more):
    """The step that creates a file."""
    return rest("PUT", path, "x-ms-type: file", f"x-ms-content-length: {length}", *more)


def put(path, first, body, *more):
    """The step that writes a range."""
    return rest("PUT", f"{path}?comp=range", "x-ms-write: update", f"x-ms-range: bytes={first}-{first + len(body) - 1}",
                *more, body=body)


SHARE = rest("PUT", "/data?restype=share", "x-ms-share-quota: 10", "x-ms-meta-a: 1")
LOOK = [rest("GET", "/?comp=list&include=snapshots"), rest("GET", "/data?restype=directory&comp=list"),
        rest("GET", "/data?comp=listhandles", "x-ms-recursive: true"), rest("GET", "/data/a.txt"),
        rest("GET", "/data/a.txt?comp=rangelist"), rest("GET", "/data?restype=share")]
ROWS = {
    "reading": [
        SHARE, rest("PUT", "/data/d?restype=directory", "x-ms-meta-b: 2"),
        made("/data/a.txt", 6000, "x-ms-content-type: text/plain", "x-ms-meta-kind: text"),
        put("/data/a.txt", 10, b"hello" * 200), rest("GET", "/data/a.txt"),
        rest("GET", "/data/a.txt", "x-ms-range: bytes=8-20"), rest("HEAD", "/data/a.txt"),
        rest("PUT", "/data/a.txt?comp=range", "x-ms-write: clear", "x-ms-range: bytes=512-1023"),
        rest("PUT", "/data/a.txt?comp=metadata", "x-ms-meta-kind: more", "x-ms-meta-n: 3"),
        rest("GET", "/data/a.txt?comp=metadata"),
        rest("PUT", "/data/a.txt?comp=properties", "x-ms-content-length: 3000"),
        made("/data/d/b", 4), rest("GET", "/data/d?restype=directory&comp=list&prefix=B"), *LOOK,
        rest("DELETE", "/data/d/b"), rest("DELETE", "/data/d?restype=directory"), *LOOK],
    "lines": [
        SHARE, line("open data d rwd rwd create dir"), line("open data a.txt rwd rwd create file"),
        line("write 2 0 68690a"), line("write 2 5000 " + "ab" * 600), line("read 2 0 8"), line("read 2 4990 2000"),
        line("resize 2 5100"), line("read 2 5090 100"), line("stat 2"), line("list 1 * 10"),
        line("open data a.txt r rwd existing file"), line("open data d/b w rw either file"), line("close 3"), *LOOK,
        line("write 4 100000 00"), line("quit"), *LOOK],
    "locks": [
        SHARE, line("open data a.txt rw rwd create file"), line("write 1 0 " + "00" * 32),
        line("lock 1 10 10 exclusive"), rest("GET", "/data/a.txt", "x-ms-range: bytes=0-9"),
        rest("GET", "/data/a.txt", "x-ms-range: bytes=9-10"), put("/data/a.txt", 20, b"x"),
        line("lock 1 0 4 shared"), line("write 1 3 41"), line("open data a.txt rw rwd existing file", 2),
        line("lock 1 2 2 shared", 2), line("lock 1 2 1 exclusive", 2), line("read 1 12 2", 2),
        line("unlock 1 0 4 exclusive"), line("unlock 1 10 10 exclusive"), line("read 1 12 2", 2), *LOOK,
        line("quit"), line("write 1 3 41", 2), *LOOK],
    "leases": [
        SHARE, made("/data/a.txt", 512),
        rest("PUT", "/data/a.txt?comp=lease", "x-ms-lease-action: acquire", f"x-ms-proposed-lease-id: {LEASE}"),
        put("/data/a.txt", 0, b"x"), put("/data/a.txt", 0, b"x", f"x-ms-lease-id: {OTHER}"),
        put("/data/a.txt", 0, b"y", f"x-ms-lease-id: {LEASE}"), line("open data a.txt w rwd existing file"),
        rest("PUT", "/data/a.txt?comp=lease", "x-ms-lease-action: break"),
        line("open data a.txt w rwd existing file"),
        rest("PUT", "/data/a.txt?comp=lease", "x-ms-lease-action: acquire"), line("close 1"),
        rest("PUT", "/data/a.txt?comp=lease", "x-ms-lease-action: acquire"),
        rest("PUT", "/data?restype=share&comp=lease", "x-ms-lease-action: acquire", f"x-ms-proposed-lease-id: {LEASE}"),
        rest("PUT", "/data?restype=share&comp=metadata", "x-ms-meta-a: 2"),
        rest("PUT", "/data?restype=share&comp=lease", "x-ms-lease-action: change", f"x-ms-lease-id: {LEASE}",
             f"x-ms-proposed-lease-id: {OTHER}"), *LOOK,
        rest("PUT", "/data?restype=share&comp=lease", "x-ms-lease-action: release", f"x-ms-lease-id: {OTHER}"),
        rest("PUT", "/data?restype=share&comp=metadata", "x-ms-meta-a: 3"), *LOOK],
    "snapshots": [
        SHARE, rest("PUT", "/data/d?restype=directory"), made("/data/a.txt", 4), put("/data/a.txt", 0, b"old!"),
        made("/data/d/b", 2000), put("/data/d/b", 600, b"deep"), rest("PUT", "/data?restype=share&comp=snapshot"),
        put("/data/a.txt", 0, b"new!"), rest("DELETE", "/data/d/b"),
        rest("GET", "/data/a.txt?sharesnapshot=MOMENT"), rest("GET", "/data/d/b?sharesnapshot=MOMENT"),
        rest("GET", "/data?restype=directory&comp=list&sharesnapshot=MOMENT"),
        rest("GET", "/data?restype=share&sharesnapshot=MOMENT"), *LOOK, rest("DELETE", "/data?restype=share"),
        rest("DELETE", "/data?restype=share&sharesnapshot=MOMENT"),
        rest("GET", "/data/a.txt?sharesnapshot=MOMENT"), *LOOK, rest("DELETE", "/data?restype=share"), *LOOK],
    "pending": [
        SHARE, line("open data a.txt rd rwd create file doc"), line("open data a.txt r rwd existing file", 2),
        line("open data d rd rwd create dir doc"), made("/data/d/f", 4), line("close 1"), rest("GET", "/data/a.txt"),
        line("dispose 2 on"), line("close 2"), *LOOK,
        rest("PUT", "/data/d/f?comp=forceclosehandles", "x-ms-handle-id: *"),
        rest("PUT", "/data/a.txt?comp=forceclosehandles", "x-ms-handle-id: *"), line("read 1 0 1", 2), *LOOK,
        made("/data/a.txt", 8), *LOOK],
}


class Refuser:
    """What refuses memory to one program."""

    def __init__(self, folder):
        source, self.library = Path(folder) / "refuser.c", str(Path(folder) / "refuser.so")
        source.write_text(REFUSER)
        subprocess.run(["cc", "-shared", "-fPIC", "-O1", "-o", self.library, str(source), "-ldl"], check=True)
        self.path = Path(folder) / "told"
        self.path.write_bytes(bytes(24))
        with self.path.open("r+b") as file:
            self.told = mmap.mmap(file.fileno(), 24)

    def refuse(self, number, how):
        """From now on the allocation of that number is refused, alone or with all behind it."""
        self.told[8:16] = struct.pack("q", 0)
        self.told[0:8], self.told[16:24] = struct.pack("q", number), struct.pack("q", 0)
        self.told[8:16] = struct.pack("q", how)

    def end(self):
        """Refuses none any more; gives whether any was refused."""
        self.told[8:16] = struct.pack("q", 0)
        return struct.unpack("q", self.told[16:24])[0] > 0

    def variables(self):
        """The variables of a program to which memory is refused."""
        return {**os.environ, "LD_PRELOAD": self.library, "REFUSER": str(self.path)}


class Served:
    """The served program, with its connections."""

    def __init__(self, program, refuser):
        words = [program, "serve", "0", "0", "1", str(WORKERS - 1), "0", "10000", ACCOUNT, KEY]
        self.process = subprocess.Popen(words, stdout=subprocess.PIPE, env=refuser.variables())
        ports = [self.process.stdout.readline().split() for _ in range(2)]
        self.ports = [int(words[1]) for words in ports if len(words) == 2]
        self.links, self.moment = {}, NO_MOMENT

    def begun(self):
        """The program with its workers at work: what refuses memory to a thread that begins, refuses a worker."""
        self.ask(rest("GET", "/?comp=list"))
        while len(os.listdir(f"/proc/{self.process.pid}/task")) < WORKERS:
            time.sleep(0.01)
        return self

    def link(self, door):
        """The connection of a door, made when it is first used."""
        if door not in self.links:
            port = self.ports[0 if door == "rest" else 1]
            link = socket.create_connection(("127.0.0.1", port), timeout=SECONDS)
            self.links[door] = (link, link.makefile("rb"))
        return self.links[door]

    def ask(self, step):
        """The answer to a step, with what is drawn or timed left out; None where it hung up."""
        link, answers = self.link(step[0])
        try:
            link.sendall(signed(step, self.moment) if step[0] == "rest" else step[1].encode() + b"\n")
            answer = read_reply(answers) if step[0] == "rest" else answers.readline()
        except (BrokenPipeError, ConnectionResetError):
            answer = b""
        except TimeoutError:
            answer = b"no answer in time"
        if not answer:
            for held in self.links.pop(step[0]):
                held.close()
            return None
        if found := re.search(rb"x-ms-snapshot: (\S+)", answer):
            self.moment = found[1].decode()
        return compared(answer, self.moment)

    def stop(self):
        """Ends the program; gives its status where it was not served, or had ended by itself."""
        for link, answers in self.links.values():
            answers.close()
            link.close()
        try:
            return self.process.wait(timeout=0 if self.ports else 60)
        except subprocess.TimeoutExpired:
            self.process.kill()
            self.process.wait()
            return None
        finally:
            self.process.stdout.close()

    def __del__(self):
        self.process.kill()


def signed(step, moment):
    """The bytes of a signed request."""
    _, method, target, headers, body = step
    now = datetime.datetime.now(datetime.timezone.utc).strftime("%a, %d %b %Y %H:%M:%S GMT")
    pairs = [tuple(header.encode().split(b": ", 1)) for header in headers]
    pairs += [(b"x-ms-date", now.encode()), (b"x-ms-version", b"2020-10-02"), (b"Content-Length", b"%d" % len(body))]
    place = target.replace("MOMENT", moment).encode()
    pairs.append((b"Authorization", signature(method.encode(), place, pairs)))
    head = b"%s %s HTTP/1.1\r\n" % (method.encode(), place) + b"".join(b"%s: %s\r\n" % pair for pair in pairs)
    return head + b"\r\n" + body


def read_reply(answers):
    """One answer of the first door, or less where it hung up."""
    head = b""
    while not head.endswith(b"\r\n\r\n"):
        more = answers.readline()
        if not more:
            return head
        head += more
    length = int(re.search(rb"Content-Length: (\d+)", head)[1])
    facts = b"x-ms-type: File" in head and b"Accept-Ranges" not in head
    return head if facts else head + answers.read(length)


def compared(answer, moment):
    """The answer without dates, moments, ticks and drawn ids."""
    answer = answer.replace(moment.encode(), b"MOMENT")
    for form in [rb"[A-Z][a-z]{2}, \d\d [A-Z][a-z]{2} \d{4} \d\d:\d\d:\d\d GMT",
                 rb"\d{4}-\d\d-\d\dT\d\d:\d\d:\d\d\.\d{7}Z",
                 rb"\b\d{17,19}\b", rb"(?<=x-ms-lease-id: )[0-9a-f-]{36}"]:
        answer = re.sub(form, b"~", answer)
    return answer


def is_refused(answer):
    """Whether an answer tells that memory was refused."""
    return answer == b"ERR NO_MEMORY\n" or (answer.startswith(b"HTTP/1.1 503 ")
                                            and b"\r\nx-ms-error-code: OutOfMemory\r\n" in answer)


class Row:
    """A row that is asked of one program, step by step."""

    def __init__(self, program, refuser, name):
        self.program, self.refuser, self.name, self.steps = program, refuser, name, ROWS[name]
        self.faults, self.tried, self.refused, self.ended, self.anew = [], 0, 0, 0, 0
        self.served = Served(program, refuser).begun()
        self.wanted = [self.served.ask(step) for step in self.steps]
        self.again(0)

    def again(self, number):
        """Begins anew, and asks what stands before a step."""
        if status := self.served.stop():
            self.faults.append(("ended", status))
            print(f"{self.name}: the program ended with status {status}")
        self.served = Served(self.program, self.refuser).begun()
        for step in self.steps[:number]:
            self.served.ask(step)

    def ask_refused(self, number, allocation, how):
        """Asks a step with an allocation refused; gives whether there was one to refuse."""
        self.refuser.refuse(allocation, how)
        answer = self.served.ask(self.steps[number])
        if not self.refuser.end():
            if answer != self.wanted[number]:
                self.fault(number, allocation, answer)
            return False
        self.tried += 1
        if answer is not None and is_refused(answer):
            self.refused += 1
            return True
        if answer is None and self.steps[number][0] == "rest":
            self.ended += 1  # a connection holds nothing, so the next one goes on
            return True
        if answer is not None and answer != self.wanted[number]:
            self.fault(number, allocation, answer)
        self.anew += 1
        self.again(number)
        return True

    def fault(self, number, allocation, answer):
        """Keeps an answer that contradicts the row."""
        self.faults.append((number, allocation))
        print(f"{self.name}: step {number} {self.steps[number][:3]}, with allocation {allocation} refused:"
              f" {answer!r}, and not {self.wanted[number]!r}", flush=True)

    def go(self):
        """Asks all steps; the run that has no allocation left to refuse is the step's own."""
        for number in range(len(self.steps)):
            allocation, faults = 1, len(self.faults)
            while len(self.faults) - faults < 3:
                if not self.ask_refused(number, allocation, ALL_BEHIND):
                    break
                if not self.ask_refused(number, allocation, ALONE):
                    break
                allocation += 1
        if status := self.served.stop():
            self.faults.append(("ended", status))
            print(f"{self.name}: the program ended with status {status}")
        print(f"{self.name}: {len(self.steps)} steps, {self.tried} times memory was refused: {self.refused} refused"
              f" steps, {self.ended} ended connections, {self.anew} times the row was asked anew;"
              f" {len(self.faults)} contradictions", flush=True)
        return len(self.faults)


def beginnings(program, refuser):
    """How many beginnings of the program with an allocation refused end otherwise than they may."""
    wrong, number, reached = 0, 0, True
    while reached:
        number += 1
        refuser.refuse(number, ALONE)
        served = Served(program, refuser)
        reached, status = refuser.end(), served.stop()
        if not served.ports and status not in NOT_SERVED:
            print(f"the beginning: with allocation {number} refused the status is {status}")
            wrong += 1
    print(f"the beginning: {number - 1} allocations, {wrong} of another status", flush=True)
    return wrong


def main():
    """Asks the rows, and prints what contradicts, and counts."""
    program = sys.argv[1] if len(sys.argv) > 1 else str(ROOT / "crates/sharebox/out/sharebox")
    with tempfile.TemporaryDirectory() as folder:
        refuser = Refuser(folder)
        wrong = beginnings(program, refuser)
        for name in sys.argv[2:] or ROWS:
            wrong += Row(program, refuser, name).go()
    return 1 if wrong else 0


if __name__ == "__main__":
    sys.exit(main())
