"""The grammar of what the program answers, for the tools that feed it: written from the documents, not from its code.

`session_faults` judges the answers to lines, `connection_faults` those to requests. Both give what is wrong, in words.
"""

import re

DAY = r"(?:Mon|Tue|Wed|Thu|Fri|Sat|Sun)"
MONTH = r"(?:Jan|Feb|Mar|Apr|May|Jun|Jul|Aug|Sep|Oct|Nov|Dec)"
DATE = rf"{DAY}, \d\d {MONTH} \d{{4}} \d\d:\d\d:\d\d GMT"
MOMENT = r"\d{4}-\d\d-\d\dT\d\d:\d\d:\d\d\.\d{7}Z"
NUMBER = r"(?:0|[1-9][0-9]*)"
UUID = r"[0-9a-f]{8}(?:-[0-9a-f]{4}){3}-[0-9a-f]{12}"
HANDLE = rf"{NUMBER}\.{NUMBER}"
WORDS = r"(?:ReadOnly|Hidden|System|Archive|Temporary|Offline|NotContentIndexed|NoScrubData|Directory)"
ENCODED = r"(?:[A-Za-z0-9._~-]|%[0-9A-F]{2})"
ETAG = r'"0x[0-9A-F]{16}"'

# What each refusal is: its REST status and code, its message, and its words in a session (none: it never comes there).
HELD = rf"lock handle {HANDLE} from {NUMBER} to {NUMBER}"
CORE = [
    (404, "ShareNotFound", "no share", "BAD_NETWORK_NAME"),
    (409, "ShareAlreadyExists", "share there", None),
    (404, "ShareSnapshotNotFound", "no snapshot", None),
    (404, "ParentNotFound", rf"no parent {NUMBER}", "OBJECT_PATH_NOT_FOUND"),
    (404, "ResourceNotFound", "no name", "OBJECT_NAME_NOT_FOUND"),
    (409, "ResourceAlreadyExists", rf"there id {NUMBER}", "OBJECT_NAME_COLLISION"),
    (409, "ResourceTypeMismatch", rf"directory id {NUMBER}", "FILE_IS_A_DIRECTORY"),
    (409, "ResourceTypeMismatch", rf"file id {NUMBER}", "NOT_A_DIRECTORY"),
    (409, "SMBDeletePending", rf"pending id {NUMBER}", "DELETE_PENDING"),
    (409, "DirectoryNotEmpty", rf"not empty id {NUMBER}", None),
    (409, "ReadOnlyAttribute", rf"read-only id {NUMBER}", "ACCESS_DENIED"),
    (412, "LeaseIdMissing", "lease held", "SHARING_VIOLATION"),
    (412, "LeaseIdMismatchWith(?:File|Share)Operation", "lease differs", None),
    (412, "LeaseNotPresentWith(?:File|Share)Operation", "no lease", None),
    (409, "LeaseAlreadyPresent", "lease taken", None),
    (409, "LeaseIdMismatchWithLeaseOperation", "lease id differs", None),
    (409, "LeaseNotPresentWithLeaseOperation", "lease not there", None),
    (409, "SharingViolation", rf"sharing handle {HANDLE}", "SHARING_VIOLATION"),
    (409, "FileLockConflict", HELD, "(?:FILE_LOCK_CONFLICT|LOCK_NOT_GRANTED)"),
    (None, None, "not locked", "RANGE_NOT_LOCKED"),
    (416, "InvalidRange", rf"range length {NUMBER}", None),
    (409, "ShareQuotaExceeded", rf"quota used {NUMBER} more {NUMBER} limit {NUMBER}", "DISK_FULL"),
    (409, "ShareSnapshotCountExceeded", rf"snapshots {NUMBER}", None),
    (409, "ShareHasSnapshots", rf"snapshots {NUMBER}", None),
    (None, None, rf"opens {NUMBER}", "TOO_MANY_OPENED_FILES"),
    (None, None, rf"handle {HANDLE}", "INVALID_HANDLE"),
    (None, None, rf"access {HANDLE}", "ACCESS_DENIED"),
]
RULE = "(?:empty|short|long|char|dot|tail|hyphens|edge|edges|utf8|deep|pathlong|[a-z]+)"
READING = [
    (405, "UnsupportedHttpVerb", "verb"),
    (400, "InvalidHeaderValue", r"header [a-z0-9_-]+"),
    (400, "InvalidUri", rf"uri {RULE} part {NUMBER} at {NUMBER}"),
    (400, "InvalidQueryParameterValue", "query (?:restype|comp|sharesnapshot|prefix|marker|maxresults|include)"),
    (400, "InvalidQueryParameterValue", "no call"),
    (400, "MissingRequiredHeader", r"missing [a-z0-9_-]+"),
    (400, "OutOfRangeInput", r"out of range [a-z0-9_-]+"),
    (400, "Md5Mismatch", "md5"),
    (403, "AuthenticationFailed", rf"auth (?:no-header|bad-header|other-account|no-date|bad-date|differs"
     rf"|too-(?:old|new) {NUMBER} {NUMBER})"),
    (400, "InvalidHeaderValue", rf"head at {NUMBER}"),
    (411, "MissingContentLengthHeader", "length"),
    (413, "RequestBodyTooLarge", rf"body {NUMBER}"),
    (400, "InvalidHeaderValue", "head too long"),
    (503, "HistoryFull", rf"history {NUMBER} {NUMBER} {NUMBER}"),
    (503, "OutOfMemory", "memory"),
]
PHRASES = {200: "OK", 201: "Created", 202: "Accepted", 206: "Partial Content", 400: "Bad Request", 403: "Forbidden",
           404: "Not Found", 405: "Method Not Allowed", 409: "Conflict", 411: "Length Required",
           412: "Precondition Failed", 413: "Payload Too Large", 416: "Range Not Satisfiable",
           503: "Service Unavailable"}

# The lines of a session: the answer behind `OK PLACE `.
ATTRIBUTES = rf"(?:None|{WORDS}(?:\|{WORDS})*)"
LISTED = rf"(?: file:{NUMBER}:{ENCODED}+| dir:0:{ENCODED}+)"
LINES = {
    "open": rf"open {NUMBER} (?:created|opened) {NUMBER} {NUMBER}",
    "close": "close (?:kept|pending|gone)",
    "read": rf"read (?:0 -|{NUMBER} (?:[0-9a-f]{{2}})+)",
    "write": rf"write {NUMBER} {NUMBER}",
    "resize": rf"resize {NUMBER}",
    "lock": "lock",
    "unlock": "unlock",
    "stat": rf"stat {NUMBER} (?:file|dir) {NUMBER} {ATTRIBUTES} {NUMBER} {NUMBER} {NUMBER}",
    "list": rf"list ({NUMBER}) (?:\*|{ENCODED}+)({LISTED}*)",
    "dispose": "dispose",
    "quit": rf"end {NUMBER}",
}
ANSWERED = {verb: re.compile(rf"OK ({NUMBER}) {form}\Z") for verb, form in LINES.items()}
REFUSED = [re.compile(rf"ERR {words} ({NUMBER}) {message}\Z") for _, _, message, words in CORE if words]
SYNTAX = re.compile(rf"ERR SYNTAX ({NUMBER})\Z")
LINE_LIMIT = 2_097_408
STOPS = re.compile(rf"ERR (?:LINE {LINE_LIMIT}|HISTORY_FULL {NUMBER} {NUMBER} {NUMBER}|NO_MEMORY)\Z")


def line_fault(line, answer):
    """The place that an answer tells (None where it tells none), and what is wrong with it as that to the line."""
    text = answer.decode("latin-1")
    verb = line.split(b" ")[0].decode("latin-1").rstrip("\r")
    if verb in ANSWERED and (found := ANSWERED[verb].match(text)):
        if verb == "list" and len(re.findall(LISTED, found[3])) != int(found[2]):
            return int(found[1]), "a list that miscounts"
        if verb == "read" and (shown := text.split(" "))[3] != "0" and len(shown[4]) != 2 * int(shown[3]):
            return int(found[1]), "a read that miscounts"
        return int(found[1]), None
    for form in REFUSED:
        if found := form.match(text):
            return int(found[1]), None
    if found := SYNTAX.match(text):
        return None, None if int(found[1]) <= len(line) else "a place behind the line"
    if STOPS.match(text):
        return None, None
    return None, "no answer of the grammar"


def session_faults(fed, answers, first, alone):
    """What is wrong with the answers of a session to the bytes fed; `first` is the least place it may tell, and alone
    says that nobody else asks, so that no place is missed. The second value is whether it ended between lines."""
    lines, rest = fed.split(b"\n")[:-1], fed.split(b"\n")[-1]
    shown = answers.split(b"\n")
    if shown.pop() != b"":
        return ["an answer without its line feed"], None
    faults, place, whole = [], first, rest == b""
    for number, line in enumerate(lines + [rest]):
        over = len(line) > LINE_LIMIT
        if number >= len(lines) and not over:
            break
        if number >= len(shown):
            return faults + [f"no answer to line {number}: {line[:80]!r}"], None
        told, fault = line_fault(line, shown[number])
        if over != (shown[number] == b"ERR LINE %d" % LINE_LIMIT):
            fault = "a limit of lines that is not kept"
        if fault is None and told is not None:
            if told < place or (alone and told != place):
                fault = f"place {told}, after {place - 1}"
            place = told + 1
        if fault:
            faults.append(f"{fault}: line {number} {line[:80]!r}: {shown[number][:120]!r}")
        if over or shown[number].startswith(b"OK ") and line.rstrip(b"\r") == b"quit":
            whole, lines = not over, lines[: number + 1]
            break
    if len(shown) > len(lines) + (1 if len(rest) > LINE_LIMIT else 0):
        faults.append(f"{len(shown)} answers to {len(lines)} lines: {shown[len(lines)][:80]!r}")
    return faults, whole


# The headers of each reply, between Date and Content-Length, and its body.
VALUE = r"[^\r\n\x00-\x08\x0a-\x1f\x7f]*"
STAMP = rf"Last-Modified: {DATE}\r\nETag: {ETAG}\r\n"
NODE = (rf"x-ms-file-attributes: (?:None|{WORDS}(?: \| {WORDS})*)\r\nx-ms-file-creation-time: {MOMENT}\r\n"
        rf"x-ms-file-last-write-time: {MOMENT}\r\nx-ms-file-change-time: {MOMENT}\r\nx-ms-file-id: {NUMBER}\r\n"
        rf"x-ms-file-parent-id: {NUMBER}\r\n")
LEASED = ("(?:x-ms-lease-status: locked\r\nx-ms-lease-state: leased\r\nx-ms-lease-duration: infinite\r\n"
          "|x-ms-lease-status: unlocked\r\nx-ms-lease-state: (?:available|broken)\r\n)")
METAS = rf"(?:x-ms-meta-[a-z_][a-z0-9_]*: {VALUE}\r\n)*"
TYPES = (rf"Content-Type: {VALUE}\r\n(?:Content-Encoding: {VALUE}\r\n)?(?:Content-Language: {VALUE}\r\n)?"
         rf"(?:Cache-Control: {VALUE}\r\n)?(?:Content-Disposition: {VALUE}\r\n)?"
         r"(?:(?:Content-MD5|x-ms-content-md5): [A-Za-z0-9+/]{22}==\r\n)?")
XML = r'<\?xml version="1\.0" encoding="utf-8"\?>'
TEXT = r"(?:[^<>&]|&amp;|&lt;|&gt;)*"
HEADED = rf"<Prefix>{TEXT}</Prefix><Marker>{TEXT}</Marker><MaxResults>{NUMBER}</MaxResults>"
SHARE = (rf"<Share><Name>[a-z0-9-]+</Name>(?:<Snapshot>{MOMENT}</Snapshot>)?<Properties><Last-Modified>{DATE}"
         rf"</Last-Modified><Etag>{ETAG}</Etag><Quota>{NUMBER}</Quota></Properties></Share>")
FILE = (rf"<File><Name>{TEXT}</Name><FileId>{NUMBER}</FileId><Properties><Content-Length>{NUMBER}</Content-Length>"
        r"</Properties></File>")
FOLDER = rf"<Directory><Name>{TEXT}</Name><FileId>{NUMBER}</FileId><Properties></Properties></Directory>"
OPENED = (rf"<Handle><HandleId>{HANDLE}</HandleId><Path>{TEXT}</Path><FileId>{NUMBER}</FileId><ParentId>{NUMBER}"
          rf"</ParentId><SessionId>{NUMBER}</SessionId><ClientIp>127\.0\.0\.1</ClientIp><OpenTime>{MOMENT}</OpenTime>"
          r"</Handle>")
PAGES = [
    rf"<EnumerationResults>{HEADED}<Shares>(?:{SHARE})*</Shares><NextMarker>{TEXT}</NextMarker></EnumerationResults>",
    rf"<EnumerationResults>{HEADED}<Entries>(?:{FILE}|{FOLDER})*</Entries><NextMarker>{ENCODED}*</NextMarker>"
    r"</EnumerationResults>",
    rf"<EnumerationResults><Entries>(?:{OPENED})*</Entries><NextMarker>(?:{HANDLE})?</NextMarker>"
    r"</EnumerationResults>",
]
SPANS = rf"<Ranges>(?:<Range><Start>{NUMBER}</Start><End>{NUMBER}</End></Range>)*</Ranges>"
KINDS = [
    ({200, 201}, STAMP, ""),
    ({200, 201}, STAMP + NODE, ""),
    ({202}, "", ""),
    ({201}, rf"x-ms-snapshot: {MOMENT}\r\n{STAMP}", ""),
    ({200}, rf"{STAMP}x-ms-share-quota: {NUMBER}\r\n{LEASED}{METAS}", ""),
    ({200}, STAMP + METAS, ""),
    ({200}, STAMP + NODE + METAS, ""),
    ({200}, rf"Content-Type: application/xml\r\n", XML + "(?:" + "|".join(PAGES) + ")"),
    ({200}, rf"{STAMP}x-ms-content-length: {NUMBER}\r\nContent-Type: application/xml\r\n", XML + SPANS),
    ({200, 201}, rf"{STAMP}x-ms-lease-id: {UUID}\r\n", ""),
    ({200}, STAMP, ""),
    ({202}, rf"{STAMP}x-ms-lease-time: 0\r\n", ""),
    ({200}, rf"x-ms-number-of-handles-closed: {NUMBER}\r\nx-ms-number-of-handles-failed: 0\r\n", ""),
]
KINDS = [(statuses, re.compile(headers + r"\Z"), re.compile(body + r"\Z")) for statuses, headers, body in KINDS]
FACTS = re.compile(rf"{STAMP}{TYPES}x-ms-type: File\r\n{NODE}{LEASED}{METAS}\Z")
BYTES = re.compile(rf"{STAMP}{TYPES}Accept-Ranges: bytes\r\n"
                   rf"(?:Content-Range: bytes ({NUMBER})-({NUMBER})/({NUMBER})\r\n)?"
                   rf"x-ms-type: File\r\n{NODE}{LEASED}{METAS}\Z")
ERROR = re.compile(r"x-ms-error-code: ([A-Za-z0-9]+)\r\nContent-Type: application/xml\r\n\Z")
TOLD = re.compile(XML + r"<Error><Code>([A-Za-z0-9]+)</Code><Message>([^<>]*)</Message></Error>\Z")
HEAD = re.compile(rf"HTTP/1\.1 (\d{{3}}) ([A-Za-z ]+)\r\n"
                  rf"x-ms-request-id: 00000000-0000-0000-([0-9a-f]{{4}})-([0-9a-f]{{12}})\r\n"
                  rf"x-ms-version: 2020-10-02\r\nDate: {DATE}\r\n((?:[A-Za-z0-9_-]+: {VALUE}\r\n)*?)"
                  rf"Content-Length: ({NUMBER})\r\n(Connection: close\r\n)?\r\n")


def error_fault(status, code, body):
    """What is wrong with a refusal; its body may be left out for a HEAD."""
    rows = [row for row in CORE if row[0]] + READING
    if not any(row[0] == status and re.fullmatch(row[1], code) for row in rows):
        return f"no such refusal: {status} {code}"
    if body == "":
        return None
    told = TOLD.match(body)
    if not told or told[1] != code:
        return f"no body of {code}: {body[:200]!r}"
    if not any(row[0] == status and re.fullmatch(row[1], code) and re.fullmatch(row[2], told[2]) for row in rows):
        return f"no message of {status} {code}: {told[2]!r}"
    return None


def reply_fault(status, headers, body):
    """What is wrong with an answer's headers and body."""
    if found := ERROR.match(headers):
        return error_fault(status, found[1], body)
    if status == 200 and FACTS.match(headers):
        return None
    if status in (200, 206) and (found := BYTES.match(headers)):
        if (status == 206) != (found[1] is not None):
            return "a range that is not told"
        if found[1] and int(found[2]) - int(found[1]) + 1 != len(body):
            return "a range of another length"
        return None
    for statuses, form, text in KINDS:
        if status in statuses and form.match(headers) and (body == "" or text.match(body)):
            return None
    return f"no reply of the grammar: {status} {headers[:200]!r} {body[:200]!r}"


def connection_faults(answers, alone):
    """What is wrong with the answers of a connection, how many there are, and whether the last one closes it."""
    text, at, count, place, closes, faults = answers.decode("latin-1"), 0, 0, 0, False, []
    while at < len(text):
        found = HEAD.match(text, at)
        if not found:
            return faults + [f"no head of the grammar: {text[at:at + 200]!r}"], count, closes
        if closes:
            faults.append("an answer behind one that closes")
        status, length = int(found[1]), int(found[6])
        facts = status == 200 and FACTS.match(found[5]) is not None
        body = "" if facts else text[found.end():found.end() + length]
        if not facts and len(body) != length:
            return faults + [f"a cut body: {text[at:at + 200]!r}"], count, closes
        if PHRASES.get(status) != found[2]:
            faults.append(f"no phrase of {status}: {found[2]}")
        if fault := reply_fault(status, found[5], body):
            faults.append(fault)
        told = int(found[3] + found[4], 16)
        if told and (told <= place or alone and told != place + 1):
            faults.append(f"place {told}, after {place}")
        place, closes, at, count = max(place, told), found[7] is not None, found.end() + len(body), count + 1
    return faults, count, closes
