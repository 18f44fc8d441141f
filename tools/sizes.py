#!/usr/bin/env python3
"""Prints the sizes of all crates, as rows of the table in docs/PROVING.md, or puts them there with `--write`.

Lines without blanks and comments in src/, specs/ and proofs/, functions with a body in src/, and wrong bodies in
must-fail/. Crates of tests alone stand in one line behind the table, by the lines of their src/.
"""

import re
import sys
from pathlib import Path

sys.dont_write_bytecode = True
sys.path.insert(0, str(Path(__file__).resolve().parent.parent / "docs"))
from shape import ROOT, is_of_tests, lines_of

FUNCTION = re.compile(r"\s*(?:pub(?:\([a-z]+\))? )?(?:const )?fn \w+")
COMMENT = {".rt": "//", ".antt": "--"}


def code_lines(path):
    """The lines of a file that are neither blank nor a comment."""
    mark = COMMENT[path.suffix]
    return [line for line in lines_of(path) if line.strip() and not line.lstrip().startswith(mark)]


def count(crate, folder, ending):
    """How many such lines the files of a folder have."""
    return sum(len(code_lines(path)) for path in sorted((crate / folder).rglob(f"*{ending}")))


def functions(crate):
    """How many functions stand in src/."""
    paths = sorted((crate / "src").rglob("*.rt"))
    return sum(1 for path in paths for line in code_lines(path) if FUNCTION.match(line))


def listed():
    """The folders of the crates of crates.txt, in its order: none stands below one that it uses."""
    lines = [line for line in lines_of(ROOT / "crates.txt") if ":" in line and not line.startswith("#")]
    return [ROOT / "crates" / line.split(":")[0].split()[0] for line in lines]


def sizes(crate):
    """Lines of src, specs and proofs, functions, and wrong bodies of a crate."""
    edits = len(list(crate.glob("must-fail/*.edit")))
    return [count(crate, "src", ".rt"), count(crate, "specs", ".antt"), count(crate, "proofs", ".antt"),
            functions(crate), edits]


def table():
    """The rows of the table by the name of their crate, with the sum last."""
    crates = [crate for crate in listed() if not is_of_tests(crate)]
    rows = {crate.name: sizes(crate) for crate in crates}
    rows["all"] = [sum(column) for column in zip(*rows.values())]
    return {name: f"| {name} | " + " | ".join(f"{size:,}" for size in row) + " |" for name, row in rows.items()}


def of_tests():
    """The crates of tests, with their lines."""
    tests = [f"{crate.name} {count(crate, 'src', '.rt'):,}" for crate in listed() if is_of_tests(crate)]
    return "Crates of tests alone, by their lines: " + ", ".join(tests)


def times(line):
    """The two last columns of a row, which are measured and not counted."""
    return " | ".join(column.strip() for column in line.split("|")[-3:-1]).strip()


def written(page):
    """The page with its table and its line on crates of tests anew."""
    begin = page.index("| crate | src | specs ")
    end = page.index("\n\n", begin)
    head, rule, *old = page[begin:end].splitlines()
    known = {line.split("|")[1].strip(): times(line) for line in old}
    rows = [f"{row} {known.get(name, '|')} |".replace("| |", "| |") for name, row in table().items()]
    page = page[:begin] + "\n".join([head, rule, *rows]) + page[end:]
    return re.sub(r"Crates of tests alone, by their lines: [^;.]*", lambda _: of_tests(), page)


def main():
    """Prints the rows and the crates of tests, or with `--write` puts them into docs/PROVING.md."""
    if sys.argv[1:] == ["--write"]:
        page = ROOT / "docs" / "PROVING.md"
        page.write_text(written(page.read_text(encoding="utf-8")), encoding="utf-8")
        return
    print("\n".join(table().values()))
    print("\n" + of_tests() + ".")


if __name__ == "__main__":
    main()
