#!/usr/bin/python3
"""Walks a user's day with Microsoft's own client library against the built program, and prints what differs.

usage: tools/clients.py [PROGRAM]   (the program that `rt run sharebox` leaves, if none is given)

It wants the library azure.storage.fileshare (Debian's python3-azure-storage). The program is served at two free ports
of 127.0.0.1 and stopped at the end. Each step asks one call and compares what came back; the last line counts them.
It stands outside the gate.
"""

import datetime
import logging
import socket
import subprocess
import sys
from pathlib import Path

from azure.core.exceptions import DeserializationError, HttpResponseError
from azure.storage.fileshare import (ContentSettings, NTFSAttributes, ShareClient, ShareFileClient, ShareLeaseClient,
                                     ShareServiceClient)

ROOT = Path(__file__).resolve().parent.parent
ACCOUNT, KEY, VERSION = "acct", "a2V5", "2020-10-02"
CREDENTIAL = {"account_name": ACCOUNT, "account_key": KEY}
LEASE, OTHER_LEASE = "11111111-2222-3333-4444-555555555555", "66666666-7777-8888-9999-aaaaaaaaaaaa"
# The library writes a moment as it should stand only without a zone and with a part of a second.
MOMENT = datetime.datetime(2024, 2, 29, 12, 30, 15, 250000)


def slashes(request):
    """The library escapes the slashes within a directory's path; a path's names are parted by plain ones."""
    request.http_request.url = request.http_request.url.replace("%2F", "/")


class Service:
    """The served program, with its two ports."""

    def __init__(self, program):
        words = [program, "serve", "0", "0", "8", "4", "0", "100000", ACCOUNT, KEY]
        self.process = subprocess.Popen(words, stdout=subprocess.PIPE)
        self.rest = int(self.process.stdout.readline().split()[1])
        self.smb = int(self.process.stdout.readline().split()[1])

    def options(self):
        """What every client is made with."""
        return {"account_url": f"http://127.0.0.1:{self.rest}", "credential": CREDENTIAL, "api_version": VERSION,
                "retry_total": 0, "read_timeout": 60, "raw_request_hook": slashes}

    def session(self):
        """A session of lines at the other port."""
        return Session(self.smb)

    def stop(self):
        """Ends the program."""
        self.process.kill()
        self.process.wait()


class Session:
    """A session: a line is asked, its answer is told without its place."""

    def __init__(self, port):
        self.link = socket.create_connection(("127.0.0.1", port), timeout=60)
        self.answers = self.link.makefile("r", encoding="utf-8", newline="\n")

    def ask(self, line):
        """The answer to a line, without the place where there is one."""
        self.link.sendall(line.encode() + b"\n")
        words = self.answers.readline().rstrip("\n").split(" ")
        place = 1 if words[0] == "OK" else 2
        return " ".join(words[:place] + words[place + 1:])

    def close(self):
        """Hangs up."""
        self.answers.close()
        self.link.close()


class Walk:
    """The steps so far, and how many differed."""

    def __init__(self, service):
        self.service, self.steps, self.differed = service, 0, 0
        self.account = ShareServiceClient(**service.options())
        self.share = self.account.get_share_client("data")

    def same(self, name, found, wanted):
        """A step whose answer is known."""
        self.steps += 1
        if found != wanted:
            self.differed += 1
            print(f"differs: {name}: found {found!r}, wanted {wanted!r}")

    def answers(self, name, action, wanted=None, of=lambda answer: None):
        """A step that is answered; `of` is what is compared of its answer."""
        try:
            self.same(name, of(action()), wanted)
        except Exception as error:  # whatever the library raises differs
            self.steps += 1
            self.differed += 1
            print(f"differs: {name}: {type(error).__name__}: {str(error).splitlines()[0]}")

    def refused(self, name, action, status, code):
        """A step that is refused with a status and a code."""
        try:
            found = f"answered {action()!r}"
        except HttpResponseError as error:
            headers = error.response.headers if error.response is not None else {}
            found = (error.status_code, headers.get("x-ms-error-code"))
        except Exception as error:  # whatever else the library raises differs
            found = f"{type(error).__name__}: {error}"
        self.same(name, found, (status, code))

    def fails(self, name, action, kind):
        """A step whose answer the library can't read."""
        try:
            found = f"answered {action()!r}"
        except Exception as error:  # the kind is what is compared
            found = type(error).__name__
        self.same(name, found, kind.__name__)


def shares(walk):
    """Shares: made, listed by pages, told, changed and removed."""
    account, share = walk.account, walk.share
    walk.answers("create a share", lambda: account.create_share("data", metadata={"team": "blue"}, quota=10),
                 "data", lambda made: made.share_name)
    walk.refused("create it again", lambda: account.create_share("data"), 409, "ShareAlreadyExists")
    walk.answers("create two more", lambda: [account.create_share("data-2"), account.create_share("other")])
    walk.answers("list all", lambda: list(account.list_shares()), [("data", 10), ("data-2", 5120), ("other", 5120)],
                 lambda found: [(item.name, item.quota) for item in found])
    walk.answers("list a prefix by pages", lambda: [[item.name for item in page] for page in account.list_shares(
        name_starts_with="data", results_per_page=1).by_page()], [["data"], ["data-2"]], lambda pages: pages)
    walk.answers("a share's properties", share.get_share_properties, (10, {"team": "blue"}, "available"),
                 lambda told: (told.quota, told.metadata, told.lease.state))
    walk.answers("set the quota", lambda: share.set_share_quota(20))
    walk.answers("set properties", lambda: share.set_share_properties(quota=30))
    walk.answers("set metadata", lambda: share.set_share_metadata({"Team": "red", "room": "4"}))
    walk.answers("told again", share.get_share_properties, (30, {"team": "red", "room": "4"}),
                 lambda told: (told.quota, told.metadata))
    walk.answers("remove one", lambda: account.delete_share("other"))
    walk.refused("removed again", lambda: account.delete_share("other"), 404, "ShareNotFound")
    walk.answers("remove by its client", lambda: account.get_share_client("data-2").delete_share())


def directories(walk):
    """Directories: made, told, given metadata, listed and removed."""
    share = walk.share
    walk.answers("create a directory", lambda: share.create_directory("d", metadata={"a": "1"}))
    walk.answers("create one below it", lambda: share.get_directory_client("d").create_subdirectory("Straße"))
    walk.refused("without a parent", lambda: share.create_directory("x/y"), 404, "ParentNotFound")
    inner = share.get_directory_client("d/STRASSE")
    walk.answers("its properties by another spelling", inner.get_directory_properties, "Directory",
                 lambda told: told.file_attributes)
    walk.answers("it is there", lambda: [inner.exists(), share.get_directory_client("no").exists()], [True, False],
                 lambda found: found)
    walk.answers("set a directory's metadata", lambda: inner.set_directory_metadata({"b": "2"}))
    walk.answers("its metadata", inner.get_directory_properties, {"b": "2"}, lambda told: told.metadata)
    walk.answers("with facts", lambda: share.get_directory_client("facts").create_directory(
        file_attributes=NTFSAttributes(directory=True, hidden=True), file_creation_time=MOMENT,
        file_last_write_time="now"))
    walk.answers("the facts", share.get_directory_client("facts").get_directory_properties,
                 ("Hidden | Directory", MOMENT), lambda told: (told.file_attributes, told.creation_time))
    walk.answers("upload into it", lambda: share.get_directory_client("d").upload_file("a & b.txt", b"hello"),
                 "a & b.txt", lambda made: made.file_name)
    walk.answers("list the root", lambda: list(share.list_directories_and_files()), [("d", True), ("facts", True)],
                 lambda found: [(item.name, item.is_directory) for item in found])
    walk.answers("list a directory", lambda: list(share.list_directories_and_files("d")),
                 [("Straße", None), ("a & b.txt", 5)], lambda found: [(item.name, item.get("size")) for item in found])
    walk.answers("list it by pages and a prefix", lambda: [[item.name for item in page] for page in
                 share.get_directory_client("d").list_directories_and_files("S", results_per_page=1).by_page()],
                 [["Straße"]], lambda pages: pages)
    walk.refused("remove one that is not empty", lambda: share.delete_directory("d"), 409, "DirectoryNotEmpty")
    walk.answers("remove a file by its directory",
                 lambda: share.get_directory_client("d").delete_file("a & b.txt"))
    walk.answers("remove an empty one", lambda: [share.delete_directory("d/Straße"), share.delete_directory("facts")])


def files(walk):
    """Files: made with facts, uploaded in pieces, downloaded, told and changed."""
    share = walk.share
    content = bytes(range(256)) * 40_000
    file = share.get_file_client("d/big.bin")
    settings = ContentSettings(content_type="text/plain", content_language="de", cache_control="no-cache",
                               content_disposition="inline", content_encoding="identity",
                               content_md5=bytearray(range(16)))
    walk.answers("upload three pieces", lambda: file.upload_file(
        content, metadata={"kind": "big"}, content_settings=settings, validate_content=True))
    walk.answers("upload two at a time", lambda: share.get_file_client("d/two.bin").upload_file(
        content, max_concurrency=2))
    walk.answers("download", lambda: file.download_file().readall() == content, True, lambda same: same)
    walk.answers("download two at a time", lambda: file.download_file(max_concurrency=2).readall() == content, True,
                 lambda same: same)
    walk.answers("download a range", lambda: file.download_file(offset=255, length=3).readall(), b"\xff\x00\x01",
                 lambda found: found)
    walk.answers("download a range from the end", lambda: file.download_file(offset=len(content) - 2).readall(),
                 b"\xfe\xff", lambda found: found)
    walk.refused("past the end", lambda: file.download_file(offset=len(content), length=4).readall(), 416,
                 "InvalidRange")
    walk.answers("a file's properties", file.get_file_properties,
                 (len(content), {"kind": "big"}, "text/plain", "de", "no-cache", "inline", "identity"),
                 lambda told: (told.size, told.metadata, told.content_settings.content_type,
                               told.content_settings.content_language, told.content_settings.cache_control,
                               told.content_settings.content_disposition, told.content_settings.content_encoding))
    walk.answers("its MD5", file.get_file_properties, bytearray(range(16)),
                 lambda told: told.content_settings.content_md5)
    walk.answers("set metadata", lambda: file.set_file_metadata({"kind": "huge"}))
    walk.answers("its metadata", file.get_file_properties, {"kind": "huge"}, lambda told: told.metadata)
    walk.answers("set headers and facts", lambda: file.set_http_headers(
        ContentSettings(content_type="text/html"), file_attributes="ReadOnly|Archive", file_creation_time=MOMENT,
        file_last_write_time=MOMENT))
    walk.answers("its facts", file.get_file_properties, ("text/html", "ReadOnly | Archive", MOMENT, MOMENT),
                 lambda told: (told.content_settings.content_type, told.file_attributes, told.creation_time,
                               told.last_write_time))
    walk.refused("write a read-only file", lambda: file.upload_range(b"x", 0, 1), 409, "ReadOnlyAttribute")
    walk.answers("writable again", lambda: file.set_http_headers(ContentSettings(), file_attributes="None"))
    walk.answers("resize", lambda: file.resize_file(1000))
    walk.answers("its size", file.get_file_properties, 1000, lambda told: told.size)
    walk.answers("remove a file", file.delete_file)
    walk.refused("removed again", file.delete_file, 404, "ResourceNotFound")
    walk.refused("a name that is none", lambda: share.get_file_client("d/a*b").create_file(1), 400, "InvalidUri")


def ranges(walk):
    """Sparse files: ranges written, cleared and listed, with a digest of each piece."""
    file = walk.share.get_file_client("d/sparse.bin")
    walk.answers("a file of 4 TiB", lambda: file.create_file(4 * 2**40))
    walk.answers("write its last byte", lambda: file.upload_range(b"z", 4 * 2**40 - 1, 1))
    walk.answers("write with a digest", lambda: file.upload_range(b"hey!" * 300, 512, 1200, validate_content=True))
    walk.answers("ranges", file.get_ranges, [{"start": 512, "end": 2047}, {"start": 4 * 2**40 - 512,
                 "end": 4 * 2**40 - 1}], lambda found: found)
    walk.answers("clear", lambda: file.clear_range(1024, 512))
    walk.answers("ranges of a part", lambda: file.get_ranges(0, 4096), [{"start": 512, "end": 1023},
                 {"start": 1536, "end": 2047}], lambda found: found)
    walk.answers("cleared bytes", lambda: file.download_file(offset=1022, length=4).readall(), b"y!\0\0",
                 lambda found: found)
    walk.refused("write past the end", lambda: file.upload_range(b"z", 4 * 2**40, 1), 416, "InvalidRange")
    walk.answers("over an existing file", lambda: file.create_file(4))
    walk.answers("no ranges", file.get_ranges, [], lambda found: found)


def leases(walk):
    """Leases of a file and of a share."""
    share, file = walk.share, walk.share.get_file_client("d/sparse.bin")
    walk.answers("lease a file", lambda: file.acquire_lease(LEASE), LEASE, lambda lease: lease.id)
    walk.refused("write without the id", lambda: file.upload_range(b"z", 0, 1), 412, "LeaseIdMissing")
    walk.refused("write with another", lambda: file.upload_range(b"z", 0, 1, lease=OTHER_LEASE), 412,
                 "LeaseIdMismatchWithFileOperation")
    walk.answers("write with it", lambda: file.upload_range(b"z", 0, 1, lease=LEASE))
    walk.answers("told as leased", file.get_file_properties, ("locked", "leased", "infinite"),
                 lambda told: (told.lease.status, told.lease.state, told.lease.duration))
    walk.refused("lease it again", lambda: file.acquire_lease(OTHER_LEASE), 409, "LeaseAlreadyPresent")
    lease = ShareLeaseClient(file, LEASE)
    walk.answers("change the lease", lambda: lease.change(OTHER_LEASE))
    walk.same("the id that is held", lease.id, OTHER_LEASE)
    walk.answers("release it", lease.release)
    walk.answers("lease without an id", file.acquire_lease, 36, lambda lease: len(lease.id))
    walk.answers("break it", lambda: ShareLeaseClient(file).break_lease())
    walk.answers("told as broken", file.get_file_properties, ("unlocked", "broken"),
                 lambda told: (told.lease.status, told.lease.state))
    walk.answers("lease the share", lambda: share.acquire_lease(lease_id=LEASE), LEASE, lambda lease: lease.id)
    walk.refused("metadata without the id", lambda: share.set_share_metadata({}), 412, "LeaseIdMissing")
    walk.refused("metadata with another", lambda: share.set_share_metadata({}, lease=OTHER_LEASE), 412,
                 "LeaseIdMismatchWithShareOperation")
    walk.answers("metadata with it", lambda: share.set_share_metadata({"n": "1"}, lease=LEASE))
    walk.answers("properties with it", lambda: share.get_share_properties(lease=LEASE), "leased",
                 lambda told: told.lease.state)
    held = ShareLeaseClient(share, LEASE)
    walk.answers("change it", lambda: held.change(OTHER_LEASE))
    walk.refused("release by the old id", lambda: ShareLeaseClient(share, LEASE).release(), 409,
                 "LeaseIdMismatchWithLeaseOperation")
    walk.answers("break the share's", lambda: held.break_lease(), 0, lambda left: left)


def snapshots(walk):
    """Snapshots of a share: made, listed, read and removed."""
    account, share = walk.account, walk.share
    file = share.get_file_client("old.txt")
    walk.answers("a file to keep", lambda: file.upload_file(b"old!"))
    made = share.create_snapshot(metadata={"when": "then"})
    moment = made["snapshot"]
    walk.answers("a second snapshot", share.create_snapshot)
    walk.answers("overwrite and remove", lambda: [file.upload_range(b"new!", 0, 4), file.delete_file()])
    old = ShareClient(share_name="data", snapshot=moment, **walk.service.options())
    walk.answers("list with snapshots", lambda: list(account.list_shares(include_snapshots=True)),
                 ["snapshot", "snapshot", None], lambda found: sorted(
                     ["snapshot" if item.snapshot else None for item in found], key=lambda kind: kind is None))
    walk.answers("the snapshot's properties", old.get_share_properties, {"when": "then"}, lambda told: told.metadata)
    walk.answers("its names", lambda: list(old.list_directories_and_files()), ["d", "old.txt"],
                 lambda found: [item.name for item in found])
    kept = ShareFileClient(share_name="data", file_path="old.txt", snapshot=moment, **walk.service.options())
    walk.answers("its file", lambda: kept.download_file().readall(), b"old!", lambda found: found)
    walk.answers("its file's properties", kept.get_file_properties, (4, moment),
                 lambda told: (told.size, told.snapshot))
    walk.answers("its file's ranges", kept.get_ranges, [{"start": 0, "end": 3}], lambda found: found)
    walk.answers("its directory", old.get_directory_client("d").get_directory_properties, True,
                 lambda told: told.is_directory)
    walk.refused("the live file", lambda: file.download_file().readall(), 404, "ResourceNotFound")
    walk.refused("remove the share alone", share.delete_share, 409, "ShareHasSnapshots")
    walk.answers("remove a snapshot", old.delete_share)
    walk.refused("a removed snapshot", old.get_share_properties, 404, "ShareSnapshotNotFound")


def handles(walk):
    """Handles of a session beside the client: listed, in its way, and closed by force."""
    share, session = walk.share, walk.service.session()
    file = share.get_file_client("d/open.txt")
    walk.same("a session opens", session.ask("open data d/open.txt rw r create file").split(" ")[:4],
              ["OK", "open", "1", "created"])
    walk.same("it writes", session.ask("write 1 0 68656c6c6f"), "OK write 5 5")
    walk.answers("read beside it", lambda: file.download_file().readall(), b"hello", lambda found: found)
    walk.refused("write beside it", lambda: file.upload_range(b"J", 0, 1), 409, "SharingViolation")
    walk.refused("remove beside it", file.delete_file, 409, "SharingViolation")
    walk.same("it locks", session.ask("lock 1 0 2 exclusive"), "OK lock")
    walk.refused("read what is locked", lambda: file.download_file(offset=0, length=1).readall(), 409,
                 "FileLockConflict")
    walk.answers("read beyond it", lambda: file.download_file(offset=2, length=3).readall(), b"llo",
                 lambda found: found)
    walk.fails("the moment of opening", lambda: list(file.list_handles()), DeserializationError)
    walk.answers("handles of another file", lambda: list(share.get_file_client("d/two.bin").list_handles()), 0, len)
    walk.answers("close one", lambda: file.close_handle("1.1"), 1, lambda told: told["closed_handles_count"])
    walk.same("the session's handle is gone", session.ask("read 1 0 1").split(" ")[:2], ["ERR", "INVALID_HANDLE"])
    walk.same("it opens again", session.ask("open data d/open.txt r rwd existing file").split(" ")[:3],
              ["OK", "open", "2"])
    walk.answers("close all of a file", file.close_all_handles, 1, lambda told: told["closed_handles_count"])
    walk.answers("close all below", lambda: share.get_directory_client("").close_all_handles(recursive=True), 0,
                 lambda told: told["closed_handles_count"])
    walk.same("it ends", session.ask("quit"), "OK end 0")
    session.close()
    walk.answers("remove at the end", lambda: share.delete_share(delete_snapshots=True))


def lacking(walk):
    """Calls of the library that the service doesn't have, with the answer that each gets."""
    account, share = walk.account, walk.share
    account.create_share("data")
    share.create_directory("d")
    file, directory = share.get_file_client("f"), share.get_directory_client("d")
    file.create_file(4)
    address = file.url
    no_call, no_header = (400, "InvalidQueryParameterValue"), (400, "InvalidHeaderValue")
    calls = [
        ("service properties", account.get_service_properties, no_call),
        ("set service properties", lambda: account.set_service_properties(cors=[]), no_call),
        ("undelete a share", lambda: account.undelete_share("data", "1"), no_call),
        ("access policy", share.get_share_access_policy, no_call),
        ("set an access policy", lambda: share.set_share_access_policy({}), no_call),
        ("statistics", share.get_share_stats, no_call),
        ("create a permission", lambda: share.create_permission_for_share("O:SYG:SY"), no_call),
        ("a permission", lambda: share.get_permission_for_share("1*1"), no_call),
        ("a directory's facts", lambda: directory.set_http_headers(), no_call),
        ("rename a directory", lambda: directory.rename_directory("e"), no_call),
        ("rename a file", lambda: file.rename_file("g"), no_call),
        ("copy", lambda: share.get_file_client("g").start_copy_from_url(address),
         (400, "MissingRequiredHeader")),
        ("stop a copy", lambda: file.abort_copy("1"), no_call),
        ("write from a URL", lambda: file.upload_range_from_url(address, 0, 4, 0), no_header),
        ("a lease of 30 seconds", lambda: share.acquire_lease(lease_duration=30), no_header),
        ("renew a lease", lambda: ShareLeaseClient(share, LEASE).renew(), no_header),
    ]
    for name, action, (status, code) in calls:
        walk.refused(name, action, status, code)
    plain = ShareClient(share_name="data", **{**walk.service.options(), "raw_request_hook": None})
    walk.refused("an escaped slash", lambda: plain.create_directory("d/e"), 400, "InvalidUri")
    later = ShareClient(share_name="data", **{**walk.service.options(), "api_version": "2021-04-10"})
    walk.refused("a later version", later.get_share_properties, 400, "InvalidHeaderValue")
    stranger = {"account_name": ACCOUNT, "account_key": "b3RoZXI="}
    walk.refused("another key", ShareClient(share_name="data", **{**walk.service.options(), "credential": stranger})
                 .get_share_properties, 403, "AuthenticationFailed")
    walk.answers("more of each share is passed over", lambda: list(account.list_shares(include_metadata=True)),
                 [("data", None)], lambda found: [(item.name, item.metadata) for item in found])
    walk.answers("more of each name is passed over", lambda: list(share.list_directories_and_files(
        include=["timestamps", "Etag"], include_extended_info=True)), [("d", None), ("f", None)],
                 lambda found: [(item.name, item.last_modified) for item in found])
    file.upload_range(b"old!", 0, 4)
    moment = share.create_snapshot()["snapshot"]
    walk.answers("a snapshot to compare with is passed over: all ranges are told", lambda: file.get_ranges_diff(moment),
                 ([{"start": 0, "end": 3}], []), lambda found: found)
    walk.answers("a condition is passed over", lambda: file.get_file_properties(headers={"If-Match": '"0x1"'}))
    walk.answers("a protocol, a change time and a time limit are passed over", lambda: [account.create_share(
        "data-3", protocols="SMB", timeout=5), share.get_file_client("h").create_file(1, file_change_time=MOMENT)])
    zoned = datetime.datetime(2024, 2, 29, 12, 30, 15, 250000, tzinfo=datetime.timezone.utc)
    whole = datetime.datetime(2024, 2, 29, 12, 30, 15)
    for moment in [zoned, whole]:
        walk.refused(f"the moment {moment}", lambda: share.get_file_client("i").create_file(
            1, file_creation_time=moment), *no_header)
    walk.answers("a tier is passed over", lambda: share.set_share_properties(access_tier="Hot", quota=7))
    walk.refused("a tier alone", lambda: share.set_share_properties(access_tier="Hot"), 400, "MissingRequiredHeader")


def main():
    """Serves the program, walks, and prints the counts."""
    program = sys.argv[1] if len(sys.argv) > 1 else str(ROOT / "crates/sharebox/out/sharebox")
    logging.getLogger("azure").setLevel(logging.ERROR)
    service = Service(program)
    try:
        walk = Walk(service)
        for part in [shares, directories, files, ranges, leases, snapshots, handles, lacking]:
            part(walk)
    finally:
        service.stop()
    print(f"{walk.steps} steps, {walk.differed} differ")
    return 1 if walk.differed else 0


if __name__ == "__main__":
    sys.exit(main())
