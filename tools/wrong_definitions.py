#!/usr/bin/env python3
"""Plants wrong definitions in sx_spec one at a time, and tells which laws and worked examples are refused then.

Run at the top of the repository, outside the gate: `python3 tools/wrong_definitions.py [--all] [NAME..]`. It works in a
copy of the repository. For each wrong definition it checks the one law or example that is to refuse it, or with `--all`
every function, and prints what is refused, with the other examples that it met on the way; it ends with 1 where nothing
was refused.
"""
import re
import shutil
import subprocess
import sys
import tempfile
from pathlib import Path

WRONG = [
    # (name, what is to refuse it, file in specs/, what stands there, what is planted)
    ("no_tick_after_last", "examples::two_snapshots_at_one_moment", "Shares.antt", "max at (given + 1)", "max at given"),
    ("close_counts_itself", "examples::a_file_is_deleted_on_close", "Changes.antt",
     "(is_opened (take_open o.handle s) o.node)", "(is_opened s o.node)"),
    ("snapshot_keeps_pending", "laws::steps_keep_wholeness", "Facts.antt",
     "record f { lease = Available; pending = false }", "record f { lease = Available }"),
    ("quota_before_lengthening", "examples::a_write_passes_the_quota", "Needs.antt",
     "if nat_le end most_bytes then fresh f from end else 0",
     "if nat_le end (length f.bytes) then fresh f from end else 0"),
    ("closed_handle_keeps_locks", "examples::a_byte_is_locked", "Changes.antt",
     "locks = filter (λ l. not (same_handle handle l.held.handle)) s.locks;", "locks = s.locks;"),
    ("handle_given_twice", "examples::a_session_writes_and_reads", "SessionCalls.antt",
     "index = granted_to s session + 1", "index = granted_to s session"),
    ("full_directory_deleted", "examples::a_directory_is_not_empty", "FileCalls.antt",
     "refuse_if (not (is_empty p.volume.tree p.node.id)) p.node.id", "None"),
    ("name_in_pending_directory", "examples::a_parent_is_pending", "Places.antt",
     "if is_pending t parent then Err (Pending parent) else Ok (Free parent name)", "Ok (Free parent name)"),
    ("open_share_deleted", "examples::handles_are_closed_by_scope", "ShareCalls.antt",
     "{ opens = NoneIn p.0 }", "{ opens = asks_nothing.opens }"),
    ("lock_over_lock", "examples::a_holder_meets_its_own_shared_lock", "SessionCalls.antt",
     "{ locks = NewLock p.node.id from end exclusive }", "{ locks = asks_nothing.locks }"),
    ("end_leaves_handles", "examples::handles_are_closed_by_scope", "SessionCalls.antt",
     "take_session session (close_all opens s)", "take_session session s"),
    ("no_place_for_end", "laws::histories_grow", "History.antt",
     "places_wanted live Starts = live + 2", "places_wanted live Starts = live + 1"),
    ("lease_unheeded", "examples::a_lease_meets_an_open", "Checks.antt",
     "lease_refusal (Passes share state given writes) = refusal_of_check share",
     "lease_refusal (Passes share state given writes) = refusal_of_check (not share)"),
    ("sharing_before_lease", "examples::the_first_check_is_told", "Checks.antt",
     "first_of (lease_refusal asks.lease ∷ open_refusal s asks.opens ∷",
     "first_of (open_refusal s asks.opens ∷ lease_refusal asks.lease ∷"),
    ("range_before_conflicts", "examples::the_first_check_is_told", "Checks.antt",
     "∷ asks_refusal s c.asks\n    ∷ option_map refusal.OutOfFile c.range",
     "∷ option_map refusal.OutOfFile c.range\n    ∷ asks_refusal s c.asks"),
    ("lease_refuses_readers", "examples::the_first_check_is_told", "Checks.antt",
     "refuse_if (is_leased state && may_change access) refusal.LeaseHeld",
     "refuse_if (is_leased state) refusal.LeaseHeld"),
    ("snapshot_meets_opens", "examples::a_snapshot_asks_nothing_of_others", "Checks.antt",
     "unless_snapshot (Some moment) asks = asks_nothing", "unless_snapshot (Some moment) asks = asks"),
    ("reading_needs_no_right", "examples::an_open_shares_no_reading", "Needs.antt",
     "access_needed (GetFile c) = to_read", "access_needed (GetFile c) = no_access"),
    ("properties_need_a_right", "examples::an_open_shares_no_reading", "Needs.antt",
     "access_needed (ListRanges c) = to_read",
     "access_needed (ListRanges c) = to_read\naccess_needed (GetFileProperties c) = to_read"),
    ("delete_on_close_unheeded", "examples::a_file_is_deleted_on_close", "Changes.antt",
     "x.node.facts.pending || (on_close && (not (is_directory x.node.kind) || length x.below == 0))",
     "x.node.facts.pending"),
    ("given_metadata_dropped", "laws::snapshots_read_as_the_share_stood", "Shares.antt",
     "meta = meta_or meta s.meta;", "meta = s.meta;"),
    ("another_snapshot_deleted", "laws::snapshots_read_as_the_share_stood", "Shares.antt",
     "filter (λ x. not (is_of_moment moment x)) s.snapshots", "filter (λ x. is_of_moment moment x) s.snapshots"),
    ("snapshot_not_at_rest", "laws::snapshots_read_as_the_share_stood", "Shares.antt",
     "  tree = tree_at_rest s.tree;", "  tree = s.tree;"),
    ("scope_always_recursive", "examples::handles_are_closed_by_scope", "Pages.antt",
     "o.node == id || (recursive && is_under t id o.node)", "o.node == id || is_under t id o.node"),
]


def plant(copy, file, old, new):
    """Turns the one place of a definition's file, and gives the text that stood there."""
    path = copy / "crates/sx_spec/specs" / file
    text = path.read_text()
    if text.count(old) != 1:
        sys.exit(f"{file}: {old!r} stands {text.count(old)} times")
    path.write_text(text.replace(old, new))
    return path, text


def refused(copy, function):
    """What a check of one function, or of all, refuses, and the lines of the check."""
    only = ["--only", function] if function else []
    command = ["rt", "check", "--allow-holes"] + only
    done = subprocess.run(command, cwd=copy / "crates/sx_spec", capture_output=True, text=True)
    told = done.stdout + done.stderr
    if re.search(r"specs/\w+\.antt:\d+:\d+: error", told):
        sys.exit(f"the planted text is no definition:\n{told}")
    functions = re.findall(r"fn sx_spec::(\w+::\w+): not proved", told)
    examples = re.findall(r"ExampleReplies\.antt:\d+:\d+: error: `(\w+)`", told)
    return functions + [name for name in dict.fromkeys(examples) if f"examples::{name}" not in functions], told


def main(words):
    names = [word for word in words if word != "--all"]
    unrefused = 0
    with tempfile.TemporaryDirectory() as folder:
        copy = Path(folder) / "sharebox"
        shutil.copytree(".", copy, ignore=shutil.ignore_patterns(".git"))
        for name, function, file, old, new in WRONG:
            if names and name not in names:
                continue
            path, text = plant(copy, file, old, new)
            functions, told = refused(copy, None if "--all" in words else function)
            path.write_text(text)
            unrefused += not functions
            print(f"{name}: {', '.join(functions) if functions else 'REFUSED BY NONE'}", flush=True)
            if not functions:
                print(told, file=sys.stderr)
    return 1 if unrefused else 0


if __name__ == "__main__":
    sys.exit(main(sys.argv[1:]))
