#!/usr/bin/env python3
"""What bench/serve.sh runs: a service and nginx over the loopback, and their rates side by side."""

import contextlib
import multiprocessing
import os
import re
import shutil
import socket
import subprocess
import sys
import tempfile
import time

import requests

MEBIBYTE = 1 << 20
BIG = 4 * MEBIBYTE
LINES = 40_000
WORKERS = 8

# Gives the bytes of a file as each request.
SCRIPT = """
local file = io.open("{path}", "rb")
local text = string.rep(file:read("*a"), {depth})
request = function() return text end
"""

NGINX = """
daemon off;
worker_processes auto;
pid {folder}/pid;
error_log {folder}/errors;
events {{ worker_connections 256; }}
http {{
    access_log off;
    sendfile on;
    keepalive_requests 1000000000;
    client_body_temp_path {folder}/bodies;
    proxy_temp_path {folder}/proxy;
    fastcgi_temp_path {folder}/fastcgi;
    uwsgi_temp_path {folder}/uwsgi;
    scgi_temp_path {folder}/scgi;
    server {{ listen 127.0.0.1:{port}; root {folder}/files; }}
}}
"""


def free_port():
    with socket.socket() as it:
        it.bind(("127.0.0.1", 0))
        return it.getsockname()[1]


@contextlib.contextmanager
def ended(process):
    """Ends a process at the end, if it hasn't ended."""
    try:
        yield process
    finally:
        process.terminate()
        process.wait()


def read_answers(connection, count):
    """Reads so many answers of a connection, and gives how many are no success."""
    bytes_, faults = b"", 0
    for _ in range(count):
        while b"\r\n\r\n" not in bytes_:
            bytes_ += received(connection)
        head, _, bytes_ = bytes_.partition(b"\r\n\r\n")
        faults += head.split(b" ", 2)[1][:1] != b"2"
        length = int(re.search(rb"(?i)content-length: (\d+)", head)[1])
        while len(bytes_) < length:
            bytes_ += received(connection)
        bytes_ = bytes_[length:]
    return faults


def received(connection):
    more = connection.recv(MEBIBYTE)
    if not more:
        sys.exit("the service closed a connection")
    return more


@contextlib.contextmanager
def service(program, dated):
    """A service with a share, a file of 64 bytes and one of 4 MiB, and its two ports."""
    words = ["serve", "0", "0", str(WORKERS), str(WORKERS), "0", "1000000", requests.ACCOUNT, "a2V5"]
    with ended(subprocess.Popen([program, *words], stdout=subprocess.PIPE)) as process:
        ports = [int(process.stdout.readline().split()[1]) for _ in range(2)]
        first = [requests.create_share("data", dated)]
        for path, size in (("/data/small", 64), ("/data/big", BIG)):
            first.append(requests.create_file(path, size, dated))
            first.append(requests.put_range(path, requests.body_of(size), dated))
        with socket.create_connection(("127.0.0.1", ports[0])) as connection:
            for request in first:
                connection.sendall(request)
                if read_answers(connection, 1):
                    sys.exit("the service refused what was to be measured")
        yield ports


@contextlib.contextmanager
def static_files(folder, port):
    """Nginx with the same two files."""
    os.chmod(folder, 0o755)
    os.makedirs(f"{folder}/files/data")
    for name, size in (("small", 64), ("big", BIG)):
        with open(f"{folder}/files/data/{name}", "wb") as it:
            it.write(requests.body_of(size))
    with open(f"{folder}/nginx.conf", "w", encoding="ascii") as it:
        it.write(NGINX.format(folder=folder, port=port))
    with ended(subprocess.Popen(["nginx", "-c", f"{folder}/nginx.conf", "-e", f"{folder}/errors"])):
        for _ in range(100):
            with contextlib.suppress(OSError), socket.create_connection(("127.0.0.1", port)):
                break
            time.sleep(0.05)
        yield


def wrk(folder, port, request, depth, connections, seconds):
    """The requests a second that wrk had answered."""
    with open(f"{folder}/request", "wb") as it:
        it.write(request)
    with open(f"{folder}/script.lua", "w", encoding="ascii") as it:
        it.write(SCRIPT.format(path=f"{folder}/request", depth=depth))
    threads = min(connections, 2)
    words = ["wrk", f"-t{threads}", f"-c{connections}", f"-d{seconds}s", "-s", f"{folder}/script.lua"]
    ran = subprocess.run([*words, f"http://127.0.0.1:{port}/"], capture_output=True, text=True)
    if ran.returncode or "Non-2xx" in ran.stdout or "Socket errors" in ran.stdout:
        sys.exit(f"wrk over port {port}:\n{ran.stdout}{ran.stderr}")
    return float(re.search(r"Requests/sec: *([\d.]+)", ran.stdout)[1])


def one_session(port, name, count, begin):
    """Sends the lines of a session in one stream, and reads as many answers."""
    lines = [f"open data {name} rw rwd create file"]
    for number in range(1, count):
        at = number * 4_099 % 65_472
        lines.append(f"write 1 {at} {'5a' * 64}" if number % 2 else f"read 1 {at} 64")
    text = "".join(f"{line}\n" for line in lines).encode()
    with socket.create_connection(("127.0.0.1", port)) as connection:
        begin.wait()
        if not os.fork():
            connection.sendall(text)
            os._exit(0)
        answered = refused = 0
        while answered < count:
            more = received(connection)
            answered += more.count(b"\n")
            refused += more.count(b"ERR ")
        os.wait()
    if refused:
        sys.exit(f"{refused} lines were refused")


def sessions(port, connections):
    """The lines a second of so many sessions at once."""
    begin = multiprocessing.Barrier(connections + 1)
    count = LINES // connections
    made = [
        multiprocessing.Process(target=one_session, args=(port, f"s{number}", count, begin))
        for number in range(connections)
    ]
    for it in made:
        it.start()
    begin.wait()
    since = time.monotonic()
    for it in made:
        it.join()
    if any(it.exitcode for it in made):
        sys.exit("a session failed")
    return count * connections / (time.monotonic() - since)


def row(what, connections, rate, size, other=None):
    """Prints a line of the table."""
    text = f"{what:28} {connections:2}  {rate:9.0f}/s"
    text += f" {rate * size / MEBIBYTE:8.0f} MiB/s" if size >= MEBIBYTE else " " * 15
    if other:
        text += f"   nginx {other:9.0f}/s   ratio {rate / other:5.2f}"
    print(text.rstrip(), flush=True)


def measure(program, seconds, folder, static):
    dated = requests.http_date()
    body = requests.body_of(BIG)
    kinds = [
        ("Get File of 64 B", "small", requests.get_file("/data/small", dated), 1, 64),
        ("Get File of 64 B, 16 at once", "small", requests.get_file("/data/small", dated), 16, 64),
        ("Get File of 4 MiB", "big", requests.get_file("/data/big", dated), 1, BIG),
        ("Put Range of 4 MiB", None, requests.put_range("/data/big", body, dated), 1, BIG),
    ]
    for what, file, request, depth, size in kinds if shutil.which("wrk") else []:
        for connections in (1, 8):
            with service(program, dated) as ports:
                rate = wrk(folder, ports[0], request, depth, connections, seconds if file else 1)
            other = None
            if static and file:
                plain = f"GET /data/{file} HTTP/1.1\r\nHost: a\r\n\r\n".encode()
                other = wrk(folder, static, plain, depth, connections, seconds)
            row(what, connections, rate, size, other)
    for connections in (1, 8):
        with service(program, dated) as ports:
            row("session lines", connections, sessions(ports[1], connections), 0)


def main():
    program, seconds = os.path.abspath(sys.argv[1]), int(sys.argv[2])
    if not shutil.which("wrk"):
        print("wrk is missing: no rates of requests are measured")
    print(f"load {os.getloadavg()[0]:.1f}, {os.cpu_count()} processors; what, connections, rate")
    with tempfile.TemporaryDirectory() as folder, contextlib.ExitStack() as stack:
        static = None
        if shutil.which("nginx"):
            static = free_port()
            stack.enter_context(static_files(folder, static))
        else:
            print("nginx is missing: nothing stands beside the service")
        measure(program, seconds, folder, static)


if __name__ == "__main__":
    main()
