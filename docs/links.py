#!/usr/bin/env python3
"""Checks what a reader of this repository leans on, with the standard library alone.

Every relative link of every .md file resolves, its anchor is a heading there, and a name that is
a link's text stands in the linked file, as do the clauses that are named behind it. Besides, the
shape of code, definitions and pages (shape.py). Prints one line for each fault, then how many
links were looked at, and ends with status 1 where there was a fault.
"""

import re
import sys

sys.dont_write_bytecode = True
from shape import ROOT, citation_faults, crate_faults, crates, files, lines_of, shown

LINK = re.compile(r"\[([^\[\]]+)\]\(([^()\s]+)\)")
LABELS = re.compile(r"((?:,?\s*`[a-z_]+`)+)")
NAME = re.compile(r"[A-Za-z_]\w*(?:(?:::|\.)[A-Za-z_]\w*)*(?:\.[a-z]+)?")
DECLARED = r"^\s*(?:(?:pub|abbrev|unfoldable|record|data) )*{}(?!\w)(?: |$)"
FENCE = re.compile(r"\s*(```|~~~)")
HEADING = re.compile(r"#+\s+(.*?)\s*#*$")
ANCHOR = re.compile(r"<a (?:id|name)=\"([^\"]+)\"")
ASIDE = re.compile(r"\s*(//|--|(pub )?(ghost )?use )")


def prose(page):
    """The numbered lines of a page that are not in a block of code."""
    fenced = False
    for number, line in enumerate(lines_of(page), 1):
        if FENCE.match(line):
            fenced = not fenced
        elif not fenced:
            yield number, line


def slug(heading):
    """The anchor that a heading gets where the page is shown."""
    text = LINK.sub(r"\1", heading).replace("`", "").lower()
    return re.sub(r"[^\w\- ]", "", text).replace(" ", "-")


def anchors(page):
    """Every anchor of a page: its headings, numbered where they repeat, and those set by hand."""
    found = set()
    for _, line in prose(page):
        found.update(ANCHOR.findall(line))
        heading = HEADING.match(line)
        if heading:
            base = slug(heading.group(1))
            repeats = sum(1 for known in found if re.fullmatch(re.escape(base) + r"(-\d+)?", known))
            found.add(f"{base}-{repeats}" if repeats else base)
    return found


def statements(path):
    """The lines of a source file that are neither a comment nor an import; of another file, all."""
    lines = lines_of(path)
    return [line for line in lines if not ASIDE.match(line)] if path.suffix in {".rt", ".antt"} else lines


def last_part(name):
    """The last part of a name such as `Type::method`."""
    return re.split(r"::|\.", name)[-1]


def stands_in(name, target):
    """Whether a name stands in a file, or is that file's own or that of a folder above it. A definition is declared there."""
    if name == target.stem or name in target.relative_to(ROOT).parts:
        return True
    if target.suffix == ".edit":
        return False
    word = re.escape(last_part(name))
    found = re.compile(DECLARED.format(word) if target.suffix == ".antt" else rf"(?<!\w){word}(?!\w)")
    return any(found.search(line) for line in statements(target))


def has_clause(name, label, target):
    """Whether a function of a file, or else the file, has a clause of this label."""
    text = "\n".join(statements(target))
    starts = [found.start() for found in re.finditer(rf"\bfn {re.escape(last_part(name))}\b", text)]
    parts = [re.split(r"\bfn ", text[start + 3:])[0] for start in starts] or [text]
    clause = re.compile(rf"\b(ensures|requires|pub)\s+{label}\b")
    return any(clause.search(part) for part in parts)


def target_faults(text, path, anchor, rest):
    """What is wrong with a link to a file that is there: its anchor, its name, the clauses named behind it."""
    if anchor and (path.suffix != ".md" or anchor not in anchors(path)):
        yield f"{shown(path)} has no anchor {anchor}"
    name = text.removesuffix("()")
    if not NAME.fullmatch(name):
        return
    if not stands_in(name, path):
        yield f"{name} does not stand in {shown(path)}"
    labels = LABELS.match(rest)
    if path.suffix == ".rt" and labels:
        for label in re.findall(r"`(\w+)`", labels.group(1)):
            if not has_clause(name, label, path):
                yield f"{name} has no clause {label} in {shown(path)}"


def link_faults(page, line):
    """What is wrong with the links of one line of a page."""
    for link in LINK.finditer(line):
        text, target = link.group(1), link.group(2)
        if re.match(r"[a-z]+:", target):
            continue
        where, _, anchor = target.partition("#")
        path = (page.parent / where).resolve() if where else page
        if ROOT not in path.parents and path != ROOT:
            yield f"{target} leaves the repository"
        elif not path.exists():
            yield f"{target} is not there"
        elif path.is_file():
            yield from target_faults(text.strip("`"), path, anchor, line[link.end():])


def all_links():
    """The faults of all links, and how many links there are."""
    faults, count = [], 0
    for page in files(".md"):
        for number, line in prose(page):
            count += len(LINK.findall(line))
            faults += [f"{shown(page)}:{number}: {fault}" for fault in link_faults(page, line)]
    return faults, count


def main():
    """Prints all faults; the status is 1 where there is one."""
    faults, count = all_links()
    faults += citation_faults()
    for crate in crates():
        faults += crate_faults(crate)
    for fault in faults:
        print(fault)
    print(f"documents: {count} links, {len(faults)} faults")
    return 1 if faults else 0


if __name__ == "__main__":
    sys.exit(main())
