"""Makes random inputs for the program from a seed: lines of a session, signed requests, and bytes that are neither.

Most are of the grammar, with names, numbers and words at and beside their limits; some have faults in their words.
"""

import base64
import collections
import datetime
import hashlib
import hmac
import random
from urllib.parse import unquote_to_bytes

ACCOUNT, KEY = "acct", "a2V5"

NUMBERS = [0, 1, 2, 3, 4, 9, 10, 511, 512, 513, 1023, 1024, 65_535, 65_536, 1_048_575, 1_048_576, 1_048_577, 4_194_303,
           4_194_304, 2**31, 2**32 - 1, 2**32, 2**42 - 513, 2**42 - 1, 2**42, 2**42 + 1, 2**63 - 1, 2**63,
           2**64 - 1, 2**64, 10**19, 10**20, 10**25]
# Without those that make a file so long that an answer with all of it would not end in time.
MODEST = [number for number in NUMBERS if number < 2**21 or number > 2**42]
SMALL = [0, 1, 2, 3, 4, 5, 8, 100, 511, 512, 513, 1000, 1024, 4096]
NAMES = ["a", "A", "b.txt", "B.TXT", "d", "d/a", "D/A", "d/e", "d/e/f", "x/y", "Stra%C3%9Fe", "STRASSE", "%61", "a%20b",
         "%E2%84%AA", "k", "%C3%A4", "a%CC%88", "n" * 255, "n" * 256, "%F0%9F%98%80", "%F0%9F%98%80" * 255]
BAD_NAMES = ["", ".", "..", "a.", "a%20", "a%2Fb", "%", "%4", "%zz", "%FF", "%C3", "a%00", "a*", "a:b", "a//b", "/a",
             "a/", "d/" * 251 + "a", "%5C", "%7F", "%22", "\u00e4", "a|b", "%ED%A0%80", "%C0%80"]
# Paths that stand in the tree that each input begins with, or can be made there.
PLACES = ["a", "A", "b.txt", "d/a", "D/B.txt", "d/e/f", "d/e/Stra%C3%9Fe", "d/e/STRASSE", "%E2%84%AA", "k",
          "d/n" + "n" * 200]
FOLDERS = ["d", "d/e", "D/E", "g", "d/g"]
SHARES = ["data", "data", "data", "data", "data", "other", "a-b", "a--b", "ab", "Data", "-ab", "x" * 63, "x" * 64, ""]
LEASES = ["11111111-2222-3333-4444-555555555555", "{11111111-2222-3333-4444-555555555555}",
          "11111111222233334444555555555555", "urn:uuid:11111111-2222-3333-4444-555555555555",
          "66666666-7777-8888-9999-AAAAAAAAAAAA", "1111", ""]
JUNK = [b"", b" ", b"\t", b"\0", b"\x7f", b"\xff", b"\xc3\x28", b"-", b"+1", b"00", b"1e3", b"0x1", b",",
        b"\xf0\x9f\x98\x80"]


class Making:
    """Makes inputs from one seed."""

    def __init__(self, seed):
        self.random = random.Random(seed)
        self.opened, self.large = 0, self.chance(0.3)

    def chance(self, part):
        """True in that part of all cases."""
        return self.random.random() < part

    def of(self, values):
        """One of the values."""
        return self.random.choice(values)

    def number(self):
        """A number as a text: mostly a small one."""
        if self.chance(0.02):
            return self.of(["00", "01", "-1", "+1", "", "1x", "0x10", "\u0661"])
        return str(self.of(SMALL if self.chance(0.8) else NUMBERS if self.large else MODEST))

    def path(self, folder=False):
        """A path as it stands in a line or a target: mostly one that can be reached."""
        if self.chance(0.03):
            return self.of(BAD_NAMES)
        if self.chance(0.05):
            return self.of(NAMES)
        return self.of(FOLDERS if folder != self.chance(0.05) else PLACES)

    def digits(self):
        """Hexadecimal digits, mostly few."""
        count = self.of([1, 2, 3, 8, 64]) if self.chance(0.97) else self.of([513, 5000, 70_000])
        text = self.random.randbytes(count).hex()
        return text.upper() if self.chance(0.1) else text[1:] if self.chance(0.02) else text

    def line(self):
        """One line of a session, in most cases of the grammar."""
        key = str(max(1, self.opened - self.random.randint(0, 8))) if self.chance(0.97) else self.number()
        rights = ["rwd"] * 40 + ["rw"] * 6 + ["r", "w", "d", "wd", "-"]
        verb = self.of(["open", "open", "close", "read", "read", "write", "write", "resize", "lock", "unlock", "stat",
                        "list", "dispose"])
        share = "data" if self.chance(0.98) else self.of(SHARES)
        folder = self.chance(0.3)
        if verb == "open":
            self.opened += self.chance(0.5)
        words = {
            "open": lambda: [share, self.path(folder), self.of(rights), self.of(rights),
                             self.of(["existing", "create", "either", "either", "either"]), "dir" if folder else "file"]
            + (["doc"] if self.chance(0.1) else []),
            "close": lambda: [key], "stat": lambda: [key],
            "read": lambda: [key, self.number(), self.number()],
            "write": lambda: [key, self.number(), self.digits()],
            "resize": lambda: [key, self.number()],
            "lock": lambda: [key, self.number(), self.number(), self.of(["shared", "exclusive"])],
            "unlock": lambda: [key, self.number(), self.number(), self.of(["shared", "exclusive"])],
            "list": lambda: [key, self.of(["*", "*", self.path()]), self.of(["1", "2", "5", "5000", self.number()])],
            "dispose": lambda: [key, self.of(["on", "off"])],
        }[verb]()
        words = [verb] + words
        if self.chance(0.03):
            self.spoil_words(words)
        return self.of([" "] * 40 + ["  ", "\t"]).join(words).encode() + (b"\r" if self.chance(0.1) else b"") + b"\n"

    def spoil_words(self, words):
        """Drops, doubles or changes a word."""
        at = self.random.randrange(len(words))
        kind = self.random.randrange(3)
        if kind == 0:
            del words[at]
        elif kind == 1:
            words.insert(at, words[at])
        else:
            words[at] = self.of(["", "x", "\u00e4", words[at].upper(), words[at] + "x", words[at][:-1]])

    def lines(self):
        """The lines of a session; one in twelve ends by `quit`, one in twelve is cut."""
        text = b"open data d rwd rwd either dir\nopen data d/e rwd rwd either dir\nopen data a rwd rwd either file\n"
        self.opened = 3
        text += b"".join(self.line() for _ in range(self.random.randint(1, 1500)))
        if self.chance(0.02):
            text += b"write 1 0 " + b"ab" * self.of([1_048_576, 1_048_577, 1_048_700]) + b"\n" + self.line()
        if self.chance(0.08):
            text += b"quit\n" + self.line()
        elif self.chance(0.08):
            text = text[:-self.random.randint(1, 20)]
        return text

    def changed(self, text):
        """The text with some of its bytes changed, dropped, doubled or moved."""
        text = bytearray(text)
        for _ in range(self.random.randint(1, 1 + len(text) // 400)):
            at = self.random.randrange(len(text) + 1)
            size = self.of([1, 1, 1, 2, 5, 40])
            kind = self.random.randrange(4)
            if kind == 0:
                text[at:at + size] = self.random.randbytes(size)
            elif kind == 1:
                del text[at:at + size]
            elif kind == 2:
                text[at:at] = text[at:at + size]
            else:
                text[at:at] = self.of([b"\n", b"\r\n", b"\r\n\r\n", b" ", b":", b"\0", b"\xff", b"%", b"&", b"/"])
        return bytes(text)

    def noise(self):
        """Random bytes, some of them with line ends and words among them."""
        ends = JUNK + [b"\n", b"\r\n\r\n", b"GET / HTTP/1.1\r\n"]
        return b"".join(self.random.randbytes(self.random.randint(0, 300)) + self.of(ends)
                        for _ in range(self.random.randint(1, 300)))

    def pieces(self, text):
        """The text in pieces of random lengths."""
        size, at = self.of([1, 7, 100, 4096, 100_000, 10**7]), 0
        if len(text) > 20_000 * size:
            size = len(text) // 2000
        while at < len(text):
            step = self.random.randint(1, 2 * size)
            yield text[at:at + step]
            at += step


META, FACTS, CONTENT = ["x-ms-meta-a?", "x-ms-meta-b_1?"], [
    "x-ms-file-attributes?", "x-ms-file-creation-time?", "x-ms-file-last-write-time?"], [
    "x-ms-content-type?", "x-ms-content-encoding?", "x-ms-content-md5?", "x-ms-cache-control?"]
LEASE = ["x-ms-lease-action", "x-ms-lease-id?", "x-ms-proposed-lease-id?", "x-ms-lease-duration?"]
HELD = ["x-ms-lease-id??"]
# Method, what the target names, comp, and headers (`?`: sometimes, `??`: seldom).
ROWS = [
    ("GET", "account", "list", []), ("PUT", "share", "", ["x-ms-share-quota?"] + META), ("GET", "share", "", HELD),
    ("PUT", "share", "properties", ["x-ms-share-quota"] + HELD), ("GET", "share", "metadata", HELD),
    ("PUT", "share", "metadata", META + HELD), ("PUT", "share", "snapshot", META), ("PUT", "share", "lease", LEASE),
    ("PUT", "directory", "", FACTS + META), ("PUT", "directory", "", FACTS), ("GET", "directory", "", []),
    ("GET", "directory", "metadata", []), ("PUT", "directory", "metadata", META), ("DELETE", "directory", "", []),
    ("GET", "directory", "list", []), ("GET", "directory", "list", []),
    ("PUT", "file", "", ["x-ms-type", "x-ms-content-length"] + CONTENT + FACTS + META + HELD),
    ("PUT", "file", "", ["x-ms-type", "x-ms-content-length"]), ("GET", "file", "", ["x-ms-range?"] + HELD),
    ("GET", "file", "", ["Range?"]), ("HEAD", "file", "", HELD),
    ("PUT", "file", "properties", ["x-ms-content-length?"] + CONTENT + FACTS + HELD), ("GET", "file", "metadata", HELD),
    ("PUT", "file", "metadata", META + HELD), ("PUT", "file", "range", ["x-ms-write", "x-ms-range"]),
    ("PUT", "file", "range", ["x-ms-write", "x-ms-range", "Content-MD5?"] + HELD),
    ("PUT", "file", "range", ["x-ms-write", "x-ms-range"]),
    ("GET", "file", "rangelist", ["x-ms-range?"] + HELD), ("DELETE", "file", "", HELD), ("PUT", "file", "lease", LEASE),
    ("GET", "node", "listhandles", ["x-ms-recursive?"]),
    ("PUT", "node", "forceclosehandles", ["x-ms-handle-id", "x-ms-recursive?"]),
    ("DELETE", "share", "", ["x-ms-delete-snapshots?"] + HELD),
]
# For each header its good values and its bad ones.
VALUES = {
    "x-ms-type": (["file", "FILE"], ["dir"]), "x-ms-share-quota": (["1", "5120", "007"], ["5121", "0", "x"]),
    "x-ms-lease-action": (["acquire", "change", "release", "Break"], ["renew"]),
    "x-ms-lease-duration": (["-1"], ["15", "x"]), "x-ms-lease-id": (LEASES[:5], LEASES[5:]),
    "x-ms-proposed-lease-id": (LEASES[:5], LEASES[5:]), "x-ms-delete-snapshots": (["include"], ["only"]),
    "x-ms-handle-id": (["*", "1.1", "2.1"], ["0.1", "x", "4294967296.1"]), "x-ms-recursive": (["true", "False"], ["x"]),
    "x-ms-file-attributes": (
        ["None", "None", "Hidden | System", "Archive"], ["ReadOnly", "Directory", "preserve", "a|b", ""]),
    "x-ms-file-creation-time": (["now", "2022-01-01T00:00:00.0000001Z"], ["preserve", "2022-02-30T00:00:00.0000001Z"]),
    "x-ms-file-last-write-time": (["now", "2022-01-01T00:00:00.0000001Z"], ["preserve", "x"]),
    "x-ms-content-type": (["text/plain", "\u00e4", ""], []), "x-ms-content-encoding": (["gzip"], []),
    "x-ms-content-md5": (["AAECAwQFBgcICQoLDA0ODw=="], ["x", "AAECAwQFBgcICQoLDA0ODx=="]),
    "x-ms-cache-control": (["no  cache"], []), "x-ms-meta-a": (["1", "a, b", "\u00fc"], ["v" * 9000]),
    "x-ms-meta-b_1": (["", "v" * 4000], ["v" * 8193]), "x-ms-write": (["update"], ["x"]),
}


class Requests(Making):
    """Makes requests, signed as the documents say."""

    def call(self):
        """One row's method, target, headers and body; in some a name, a word or a value is faulty."""
        method, kind, comp, names = self.of(ROWS)
        if (method, kind) == ("DELETE", "share") and self.chance(0.8):
            method, kind, comp, names = ROWS[-3]
        if method == "GET" and self.chance(0.1):
            method = "HEAD"
        share = "data" if self.chance(0.97) else self.of(SHARES)
        folder = kind == "directory" or kind == "node" and self.chance(0.5)
        place = {"account": "/", "share": f"/{share}"}.get(kind, f"/{share}/{self.path(folder)}")
        if folder and self.chance(0.2):
            place = f"/{share}"
        query = [("restype", kind)] if kind in ("share", "directory") else []
        query += [("comp", comp)] if comp else []
        if method in ("GET", "HEAD") and self.chance(0.03):
            query.append(("sharesnapshot", "2022-01-01T00:00:00.0000000Z"))
        self.more_query(query, comp in ("list", "listhandles"))
        body, headers = b"", []
        names = ["x-ms-range"] if (method, kind, comp, self.large) == ("GET", "file", "", True) else names
        for name in names:
            if not name.endswith("?") or self.chance(0.03 if name.endswith("??") else 0.3):
                body = self.header(name.rstrip("?"), headers, body)
        text = place + ("?" + "&".join(f"{name}={value}" for name, value in query) if query else "")
        return method, text.encode(), headers, body

    def more_query(self, query, paged):
        """Adds parameters: those of a page, or some that no call reads; sometimes twice."""
        for name, values in [("prefix", ["a", "%C3%9F", "d"]), ("marker", ["a", "1.1", "data", "%2561", "x@y", ""]),
                             ("maxresults", ["1", "2", "3", "0", "5001", "99999999999999999999", "x"]),
                             ("include", ["snapshots", "metadata,snapshots", ""]), ("other", ["1"])]:
            if self.chance(0.3 if paged else 0.01):
                query.append((name, self.of(values)))
        if query and self.chance(0.01):
            query.append(self.of(query))
        self.random.shuffle(query)

    def header(self, name, headers, body):
        """Adds a header of that name, and gives the request's body, which an update has."""
        if name == "x-ms-write" and self.chance(0.2):
            headers.append((b"x-ms-write", b"clear"))
        elif name in VALUES:
            good, bad = VALUES[name]
            headers.append((name.encode(), self.of(bad if bad and self.chance(0.05) else good).encode()))
            if name == "x-ms-write":
                sizes = [1, 2, 4, 512, 513, 2000] if self.chance(0.99) else [70_000, 4_194_304]
                return self.random.randbytes(self.of(sizes))
        elif name == "Content-MD5":
            told = base64.b64encode(hashlib.md5(body).digest()) if self.chance(0.7) else b"AAECAwQFBgcICQoLDA0ODw=="
            headers.append((b"Content-MD5", told))
        elif name == "x-ms-content-length":
            headers.append((b"x-ms-content-length", self.number().encode()))
        else:
            first = self.of(SMALL)
            last = first + (len(body) - 1 if body and self.chance(0.98) else self.of(SMALL))
            wide = self.chance(0.05) and (body or not self.large)
            span = f"bytes={self.number()}-{self.number()}" if wide else f"bytes={first}-{last}"
            span = f"bytes={first}-" if self.chance(0.05) and not self.large else span
            headers.append((name.encode(), span.encode()))
        return body

    def request(self):
        """One signed request; in one of fifty the signature is spoilt."""
        method, target, headers, body = self.call()
        if headers and self.chance(0.01):
            headers.append(self.of(headers))
        if headers and self.chance(0.01):
            headers.append((self.of(headers)[0], self.of(JUNK[6:])))
        if self.chance(0.01):
            method = self.of(["POST", "put", "GET", "PUT", "DELETE"])
        now = datetime.datetime.now(datetime.timezone.utc) + datetime.timedelta(
            seconds=0 if self.chance(0.99) else self.of([-901, -800, 800, 1200, 10**6]))
        headers.append((b"x-ms-date", now.strftime("%a, %d %b %Y %H:%M:%S GMT").encode()))
        if self.chance(0.9):
            headers.append((b"x-ms-version", b"2020-10-02" if self.chance(0.99) else b"2021-04-10"))
        headers += [(b"User-Agent", b"feed"), (b"Content-Length", b"%d" % len(body))]
        self.random.shuffle(headers)
        seal = signature(method.encode(), target, headers)
        if self.chance(0.02):
            seal = self.of([seal[:-2], seal.lower(), b"SharedKey other" + seal[14:], b"SharedKeyLite" + seal[9:], b""])
        headers.append((b"Authorization", seal))
        text = b"%s %s HTTP/1.1\r\n" % (method.encode(), target)
        return text + b"".join(b"%s: %s\r\n" % header for header in headers) + b"\r\n" + body

    def begun(self):
        """Requests that make a share with a small tree."""
        for target, more in [("/data?restype=share", []), ("/data/d?restype=directory", []),
                             ("/data/d/e?restype=directory", []), ("/data/g?restype=directory", [])] + [
                                 (f"/data/{place}", [(b"x-ms-type", b"file"), (b"x-ms-content-length", b"4096")])
                                 for place in ["a", "b.txt", "d/a", "k"]]:
            now = datetime.datetime.now(datetime.timezone.utc).strftime("%a, %d %b %Y %H:%M:%S GMT").encode()
            headers = more + [(b"x-ms-date", now), (b"Content-Length", b"0")]
            headers.append((b"Authorization", signature(b"PUT", target.encode(), headers)))
            yield b"PUT %s HTTP/1.1\r\n" % target.encode() + b"".join(
                b"%s: %s\r\n" % header for header in headers) + b"\r\n"

    def requests(self):
        """The requests of a connection, and how many."""
        made = list(self.begun()) + [self.request() for _ in range(self.random.randint(1, 250))]
        return b"".join(made), len(made)


def signature(method, target, headers):
    """The value of Authorization: HMAC-SHA256 over the text that the documents describe."""
    values = collections.defaultdict(list)
    for name, value in headers:
        values[name.lower()].append(b" ".join(value.replace(b"\t", b" ").split(b" ")).strip(b" "))
    values = {name: [b" ".join(part for part in value.split(b" ") if part) for value in found]
              for name, found in values.items()}
    standard = [b"content-encoding", b"content-language", b"content-length", b"content-md5", b"content-type", b"date",
                b"if-modified-since", b"if-match", b"if-none-match", b"if-unmodified-since", b"range"]
    text = method + b"\n"
    for name in standard:
        value = b",".join(values.get(name, []))
        text += (b"" if name == b"content-length" and value == b"0" or name == b"date" and b"x-ms-date" in values
                 else value) + b"\n"
    for name in sorted(values):
        if name.startswith(b"x-ms-"):
            text += name + b":" + b",".join(values[name]) + b"\n"
    path, _, query = target.partition(b"?")
    text += b"/" + ACCOUNT.encode() + path
    parameters = collections.defaultdict(list)
    for part in query.split(b"&") if query else []:
        name, _, value = part.partition(b"=")
        parameters[unquote_to_bytes(name).lower()].append(unquote_to_bytes(value))
    for name in sorted(parameters):
        text += b"\n" + name + b":" + b",".join(sorted(parameters[name]))
    text = text.decode(errors="replace").encode()
    return f"SharedKey {ACCOUNT}:".encode() + base64.b64encode(
        hmac.new(base64.b64decode(KEY), text, hashlib.sha256).digest())
