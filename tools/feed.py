#!/usr/bin/env python3
"""Feeds random lines and requests to the built program, and looks for a crash, a hang or an answer of no grammar.

usage: tools/feed.py SEED COUNT [PROGRAM]   (the program that `rt run sharebox` leaves, if none is given)

In each of COUNT rounds one input is made from SEED and the round's number: lines or signed requests of the grammar with
faults in their words, the same with bytes changed, or random bytes. It is fed in pieces of random length to `session`,
to `conn`, or over several connections at once to `serve`. What is answered is judged by tools/answers.py. What is wrong
is printed, with the file of the input that shows it. It stands outside the gate.
"""

import signal
import socket
import subprocess
import sys
import tempfile
import threading
from pathlib import Path

sys.dont_write_bytecode = True
sys.path.insert(0, str(Path(__file__).resolve().parent))
from answers import connection_faults, session_faults
from inputs import ACCOUNT, KEY, Requests

ROOT = Path(__file__).resolve().parent.parent
SECONDS = 300
LINKS = 4


class Input:
    """An input for one of the doors, with how many requests it has where that is known."""

    def __init__(self, making, door):
        self.door, self.wanted = door, None
        kind = making.of(["grammar", "grammar", "grammar", "changed", "changed", "noise"])
        if kind == "noise":
            self.text = making.noise()
        elif door == "session":
            self.text = making.lines()
        else:
            self.text, self.wanted = making.requests()
        if kind == "changed":
            self.text, self.wanted = making.changed(self.text), None
        self.pieces = list(making.pieces(self.text))

    def faults(self, answers, status, alone):
        """What is wrong with the answers, and with the status where one is known."""
        if self.door == "session":
            faults, whole = session_faults(self.text, answers, 3 if alone else 1, alone)
            wanted = {0 if whole else 2} if whole is not None else {0, 2}
        else:
            faults, count, closes = connection_faults(answers, alone)
            wanted = {0, 2}
            if self.wanted is not None and not closes:
                wanted = {0}
                if count != self.wanted:
                    faults.append(f"{count} answers to {self.wanted} requests")
        if status is not None and status not in wanted:
            faults.append(f"status {status}")
        return faults


def piped(program, given):
    """Runs a command over its streams, and gives its answers and status; None where it doesn't end in time."""
    words = ["session", "data"] if given.door == "session" else ["conn", ACCOUNT, KEY]
    process = subprocess.Popen([program] + words, stdin=subprocess.PIPE, stdout=subprocess.PIPE, stderr=subprocess.PIPE)

    def feed():
        try:
            for piece in given.pieces:
                process.stdin.write(piece)
                process.stdin.flush()
            process.stdin.close()
        except BrokenPipeError:  # it ended before it was fed all
            pass

    feeder, late = threading.Thread(target=feed), threading.Timer(SECONDS, process.kill)
    feeder.start()
    late.start()
    answers, said = process.stdout.read(), process.stderr.read()
    status = process.wait()
    late.cancel()
    feeder.join()
    return answers, f"{status}, {said[-2000:]!r}" if said or status < 0 else status


class Service:
    """The served program, which is begun once."""

    def __init__(self, program):
        words = [program, "serve", "0", "0", str(LINKS), str(LINKS), "0", "4000000", ACCOUNT, KEY]
        self.process = subprocess.Popen(words, stdout=subprocess.PIPE)
        ports = [int(self.process.stdout.readline().split()[1]) for _ in range(2)]
        self.ports = {"conn": ports[0], "session": ports[1]}

    def linked(self, given, found):
        """Feeds an input over a connection, and adds the answers to what was found."""
        with socket.create_connection(("127.0.0.1", self.ports[given.door]), timeout=SECONDS) as link:

            def feed():
                try:
                    for piece in given.pieces:
                        link.sendall(piece)
                    link.shutdown(socket.SHUT_WR)
                except OSError:  # it hung up before it was fed all
                    pass

            feeder, answers = threading.Thread(target=feed), []
            feeder.start()
            try:
                while piece := link.recv(1 << 16):
                    answers.append(piece)
                found.append((given, b"".join(answers), None))
            except OSError as error:
                found.append((given, b"".join(answers), f"{type(error).__name__} of the connection"))
            feeder.join()

    def round(self, making):
        """Several connections at once, each with an input of its own."""
        found, threads, making.large = [], [], False  # one may ask for the whole of what another wrote
        for _ in range(LINKS):
            given = Input(making, making.of(["session", "conn"]))
            threads.append(threading.Thread(target=self.linked, args=(given, found)))
        for thread in threads:
            thread.start()
        for thread in threads:
            thread.join()
        if self.process.poll() is not None:
            found.append((given, b"", f"the service ended: {self.process.returncode}"))
        return found


def show(faults, given, seed, number):
    """Prints what is wrong, and keeps the input."""
    path = Path(tempfile.gettempdir()) / f"feed-{seed}-{number}-{given.door}.bin"
    path.write_bytes(given.text)
    for fault in faults[:5]:
        print(f"round {number}: {given.door}: {fault}")
    print(f"round {number}: {len(faults)} faults; the input is {path}", flush=True)


class Feeding:
    """The rounds so far."""

    def __init__(self, seed, program):
        self.seed, self.program, self.service = seed, program, None
        self.rounds, self.fed, self.answered, self.wrong = 0, 0, 0, 0

    def round(self):
        """One round."""
        making = Requests(f"{self.seed}-{self.rounds}")
        door = making.of(["session", "conn", "serve"])
        if door == "serve":
            self.service = self.service or Service(self.program)
            found = self.service.round(making)
        else:
            given = Input(making, door)
            found = [(given, *piped(self.program, given))]
        for given, answers, status in found:
            told = status if isinstance(status, int) else None
            faults = given.faults(answers, told, door != "serve") + ([status] if isinstance(status, str) else [])
            self.fed, self.answered = self.fed + len(given.text), self.answered + len(answers)
            if faults:
                self.wrong += 1
                show(faults, given, self.seed, self.rounds)
        self.rounds += 1

    def end(self):
        """Ends the service, and prints the counts."""
        if self.service:
            self.service.process.kill()
        print(f"seed {self.seed}: {self.rounds} rounds, {self.fed} bytes fed, {self.answered} bytes answered,"
              f" {self.wrong} inputs with faults", flush=True)


def main():
    """Does all rounds, or those before it is ended, and prints the counts."""
    program = sys.argv[3] if len(sys.argv) > 3 else str(ROOT / "crates/sharebox/out/sharebox")
    feeding = Feeding(sys.argv[1], program)
    signal.signal(signal.SIGTERM, lambda *_: sys.exit(2))
    try:
        for _ in range(int(sys.argv[2])):
            feeding.round()
    finally:
        feeding.end()
    return 1 if feeding.wrong else 0


if __name__ == "__main__":
    sys.exit(main())
