"""The shape of code, definitions and pages, as far as a script sees it.

Lengths of files, lines and functions; a word above each definition and public item; a page for each
crate whose rows all have a wrong body; and that no document is cited by number.
"""

import os
import re
from pathlib import Path

ROOT = Path(__file__).resolve().parent.parent

LONGEST_FILE = 500
LONGEST_LINE = 120
LONGEST_BODY = 40
MOST_EDITS = 10

FUNCTION = re.compile(r"(\s*)(?:pub(?:\([a-z]+\))? )?(?:const )?fn (\w+)")
PUBLIC_ITEM = re.compile(r"\s*pub (?:const |unsafe )*(fn|struct|enum|trait|type|const|static) (\w+)")
PUBLIC_FIELD = re.compile(r"\s+pub (\w+): ")
DEFINITION = re.compile(r"(?:\s*(?:(?:abbrev|unfoldable)(?: pub)?|pub (?:record|data))|(?:record|data)) (\S+)|pub (\S+) :")
TACTIC = re.compile(r"\s*#!?\[tactic\(")
NUMBERED = re.compile(r"\b(?:[DTWR]\d{1,2}[a-h]?|H(?:[1-9]|1[0-3]))\b|[Dd]ocument 0[1-4]\b|worked row \d")
NOT_NUMBERED = re.compile(r"0x|<[A-Z]")


def files(*endings):
    """The repository's files with these endings, without what is built."""
    for folder, below, names in os.walk(ROOT):
        below[:] = sorted(set(below) - {".git", "out"})
        for name in sorted(names):
            if name.endswith(endings):
                yield Path(folder) / name


def shown(path):
    """A path as it is printed: from the top of the repository."""
    return path.relative_to(ROOT).as_posix()


def lines_of(path):
    """The lines of a file."""
    return path.read_text(encoding="utf-8").splitlines()


def crates():
    """The folders of all crates."""
    return sorted({path.parent.parent for name in ("lib", "main") for path in ROOT.glob(f"crates/*/src/{name}.rt")})


def is_of_tests(crate):
    """Whether a crate holds tests alone."""
    return crate.name.endswith("_tests") or crate.name == "sx_rows"


def length_faults(path):
    """Too long a file, and too long lines; `rt fmt` lays out a tactic attribute in one line."""
    lines = lines_of(path)
    if len(lines) > LONGEST_FILE:
        yield f"{shown(path)}: {len(lines)} lines, over {LONGEST_FILE}"
    for number, line in enumerate(lines, 1):
        if len(line) > LONGEST_LINE and not TACTIC.match(line):
            yield f"{shown(path)}:{number}: {len(line)} columns, over {LONGEST_LINE}"


def body_faults(path):
    """Functions whose bodies are too long; contracts aren't counted."""
    name, indent, begin = None, "", 0
    for number, line in enumerate(lines_of(path), 1):
        function = FUNCTION.match(line)
        if function:
            indent, name, begin = function.group(1), function.group(2), number
        if name and line == indent + "{":
            begin = number
        if name and line == indent + "}":
            if number - begin - 1 > LONGEST_BODY:
                yield f"{shown(path)}:{begin}: {name} has a body of {number - begin - 1} lines, over {LONGEST_BODY}"
            name = None


def has_comment(lines, at, mark):
    """Whether the item of a line has a comment above it, its attributes passed over."""
    while at > 0 and re.match(r"\s*(#\[|infix)", lines[at - 1]):
        at -= 1
    return at > 0 and lines[at - 1].lstrip().startswith(mark)


def comment_faults(path):
    """A module without a word at its head, and public items and fields without one above them."""
    lines = lines_of(path)
    if not any(line.startswith("//!") for line in lines):
        yield f"{shown(path)}: no //! line"
    for at, line in enumerate(lines):
        item = PUBLIC_ITEM.match(line) or PUBLIC_FIELD.match(line)
        if item and not has_comment(lines, at, "///"):
            yield f"{shown(path)}:{at + 1}: {item.groups()[-1]} has no docstring"


def definition_faults(path):
    """Definitions without a comment above them."""
    lines = lines_of(path)
    for at, line in enumerate(lines):
        found = DEFINITION.match(line)
        if found and not has_comment(lines, at, "--"):
            yield f"{shown(path)}:{at + 1}: {found.group(1) or found.group(2)} has no comment"


def page_faults(crate):
    """A crate without a page, a rule without a wrong body, and an edit that no row names."""
    page = crate / "README.md"
    if not page.is_file():
        yield f"{shown(crate)}: no README.md"
        return
    text = page.read_text(encoding="utf-8")
    for number, line in enumerate(text.splitlines(), 1):
        if line.count("|") == 6 and re.search(r"\|\s*\|$", line):
            yield f"{shown(page)}:{number}: the rule has no wrong body"
    edits = sorted(crate.glob("must-fail/*.edit"))
    if len(edits) > MOST_EDITS:
        yield f"{shown(crate)}: {len(edits)} edits, over {MOST_EDITS}"
    for edit in edits:
        if f"must-fail/{edit.name})" not in text:
            yield f"{shown(page)}: names no edit {edit.stem}"


def crate_faults(crate):
    """All that is wrong with the shape of a crate."""
    for path in sorted(crate.glob("src/**/*.rt")):
        yield from length_faults(path)
        yield from body_faults(path)
        if not is_of_tests(crate):
            yield from comment_faults(path)
    for path in sorted(crate.glob("specs/**/*.antt")):
        yield from length_faults(path)
        yield from definition_faults(path)
    if not is_of_tests(crate):
        yield from page_faults(crate)


def citation_faults():
    """The lines that cite a document by number instead of saying the rule."""
    for path in files(".rt", ".antt", ".md", ".edit", ".sh", ".py"):
        for number, line in enumerate(lines_of(path), 1):
            if NUMBERED.search(line) and not NOT_NUMBERED.search(line):
                yield f"{shown(path)}:{number}: cites by number: {line.strip()[:80]}"
