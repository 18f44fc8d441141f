#!/usr/bin/env python3
"""Writes a stream of signed requests to standard output: it makes a share and its files, then asks COUNT times.

usage: bench/requests.py KIND COUNT [OFFSET]

KIND is
  gets    Get File of a file of 64 bytes
  small   by turns Put Range of 64 bytes and Get File of 64 bytes, over 16 files
  puts    Put Range of 4 MiB, each over the same range of one file
  bulk    by turns Put Range of 4 MiB and Get File of 4 MiB, of 4 files
  creates Create File, each of a new one in one directory

The account is `acct` and its key `a2V5`. All requests are dated OFFSET seconds from now (0 if none is
given); they pass for 15 minutes. Nothing but Python's own library is used.
"""

import base64
import datetime
import hashlib
import hmac
import sys

ACCOUNT = "acct"
KEY = base64.b64decode("a2V5")
VERSION = "2020-10-02"
STANDARD = [
    "content-encoding",
    "content-language",
    "content-length",
    "content-md5",
    "content-type",
    "date",
    "if-modified-since",
    "if-match",
    "if-none-match",
    "if-unmodified-since",
    "range",
]
MEBIBYTE = 1 << 20


def http_date(offset=0):
    """The date of now in the form of HTTP."""
    moment = datetime.datetime.now(datetime.timezone.utc) + datetime.timedelta(seconds=offset)
    days = ["Mon", "Tue", "Wed", "Thu", "Fri", "Sat", "Sun"]
    months = ["Jan", "Feb", "Mar", "Apr", "May", "Jun", "Jul", "Aug", "Sep", "Oct", "Nov", "Dec"]
    day = days[moment.weekday()]
    month = months[moment.month - 1]
    return f"{day}, {moment.day:02} {month} {moment.year} {moment:%H:%M:%S} GMT"


def string_to_sign(verb, target, headers):
    """The text that Shared Key signs."""
    named = {name.lower(): value for name, value in headers}
    path, _, query = target.partition("?")
    lines = [verb]
    for name in STANDARD:
        value = named.get(name, "")
        lines.append("" if name == "content-length" and value == "0" else value)
    lines += [f"{name}:{named[name]}" for name in sorted(named) if name.startswith("x-ms-")]
    resource = f"/{ACCOUNT}{path}"
    for parameter in sorted(query.split("&")) if query else []:
        name, _, value = parameter.partition("=")
        resource += f"\n{name.lower()}:{value}"
    return "\n".join(lines + [resource])


def head(verb, target, dated, headers=()):
    """The bytes of a signed head."""
    headers = [("x-ms-date", dated), ("x-ms-version", VERSION), *headers]
    text = string_to_sign(verb, target, headers)
    digest = hmac.new(KEY, text.encode(), hashlib.sha256).digest()
    signature = base64.b64encode(digest).decode()
    headers.append(("Authorization", f"SharedKey {ACCOUNT}:{signature}"))
    lines = [f"{verb} {target} HTTP/1.1", *(f"{name}: {value}" for name, value in headers)]
    return ("\r\n".join(lines) + "\r\n\r\n").encode()


def create_share(share, dated):
    return head("PUT", f"/{share}?restype=share", dated, [("Content-Length", "0")])


def create_file(path, length, dated):
    headers = [("Content-Length", "0"), ("x-ms-type", "file"), ("x-ms-content-length", str(length))]
    headers += [("x-ms-file-permission", "inherit"), ("x-ms-file-attributes", "none")]
    headers += [("x-ms-file-creation-time", "now"), ("x-ms-file-last-write-time", "now")]
    return head("PUT", path, dated, headers)


def get_file(path, dated):
    return head("GET", path, dated)


def put_range(path, body, dated):
    headers = [("Content-Length", str(len(body))), ("x-ms-range", f"bytes=0-{len(body) - 1}")]
    headers.append(("x-ms-write", "update"))
    return head("PUT", f"{path}?comp=range", dated, headers) + body


def body_of(size):
    """Bytes that are not all alike."""
    block = bytes((7 * i + i // 251) % 256 for i in range(65_536))
    return (block * (size // len(block) + 1))[:size]


def requests(kind, count, dated):
    """The requests of a stream, each as bytes."""
    yield create_share("data", dated)
    if kind == "creates":
        for number in range(count):
            yield create_file(f"/data/f{number}", 64, dated)
        return
    files, size = {"gets": (1, 64), "small": (16, 64), "puts": (1, 4 * MEBIBYTE), "bulk": (4, 4 * MEBIBYTE)}[kind]
    paths = [f"/data/f{number}" for number in range(files)]
    for path in paths:
        yield create_file(path, size, dated)
    writes = [put_range(path, body_of(size), dated) for path in paths]
    reads = [get_file(path, dated) for path in paths]
    for number in range(count):
        file = number // 2 % files
        if kind == "gets":
            yield reads[0]
        elif kind == "puts":
            yield writes[0]
        else:
            yield (writes if number % 2 == 0 else reads)[file]


def main():
    if len(sys.argv) not in (3, 4) or sys.argv[1] not in ("gets", "small", "puts", "bulk", "creates"):
        sys.exit("usage: bench/requests.py gets|small|puts|bulk|creates COUNT [OFFSET]")
    dated = http_date(int(sys.argv[3]) if len(sys.argv) == 4 else 0)
    for request in requests(sys.argv[1], int(sys.argv[2]), dated):
        sys.stdout.buffer.write(request)


if __name__ == "__main__":
    main()
