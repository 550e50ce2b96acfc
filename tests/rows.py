#!/usr/bin/env python3
"""Sees that each row of tests/rows.txt stands where that says, and that each test stands there.

Up to an empty line it has the rows of the program `replay`, in order: how many lines each has, and its name. A line that begins
with `#` in crates/replay/stdin names the row below it, whose lines end at the next name; the names stand in stdout at the same
places. No line of stdin stands twice, and none that is swept meets no fault.

Behind it stand the other rows: where each is seen, and what is seen. `CRATE::MODULE::TEST` is a test of that name, `CRATE::MODULE`
or `CRATE` are all tests in there, and `shell::FUNCTION` is a function of tests/shell.sh.
"""
import collections
import pathlib
import re
import sys

top = pathlib.Path(__file__).resolve().parent.parent


def rows_of(lines):
    """Each row's name with how many lines it has, in order."""
    found = []
    for line in lines:
        if line.startswith("# "):
            found.append([line[2:], 0])
        elif found:
            found[-1][1] += 1
        else:
            found.append(["a line that has no name", 1])
    return [(name, count) for name, count in found]


def lines_of(path):
    return (top / path).read_text(encoding="utf-8").split("\n")[:-1]


def tests():
    """Each test, and each function of the shell's that plays a program."""
    for source in sorted(top.glob("crates/tests_*/src/*.rt")):
        for name in re.findall(r"#\[test\]\s*fn (\w+)", source.read_text(encoding="utf-8")):
            yield f"{source.parent.parent.name}::{source.stem}::{name}"
    for name in re.findall(r"(?m)^(run_\w+)\(\)", (top / "tests/shell.sh").read_text(encoding="utf-8")):
        yield f"shell::{name}"


def wrong_places(places):
    """What is wrong with the places of the rows that no line of `replay` has."""
    stand = list(tests())
    covers = {place: [it for it in stand if it == place or it.startswith(f"{place}::")] for place in places}
    wrong = [f"rows.txt: nothing stands at {place}" for place, found in covers.items() if not found]
    named = {it for found in covers.values() for it in found}
    return wrong + [f"rows.txt doesn't say what is seen by {it}" for it in stand if it not in named]


def main():
    asked, answered = rows_of(lines_of("crates/replay/stdin")), rows_of(lines_of("crates/replay/stdout"))
    said = lines_of("tests/rows.txt")
    end = said.index("")
    demanded = [(name, int(count)) for count, _, name in (line.partition(" ") for line in said[:end])]
    wrong = []
    for what, rows in ("stdin", asked), ("stdout", answered):
        wrong += [f"{what}: no row of {count} lines: {name}" for name, count in demanded if (name, count) not in rows]
        wrong += [f"{what}: rows.txt doesn't want {count} lines: {name}" for name, count in rows if (name, count) not in demanded]
        names = [name for name, _ in rows]
        wrong += [f"{what}: twice: {name}" for name in sorted(set(names)) if names.count(name) > 1]
    played = [line for line in lines_of("crates/replay/stdin") if not line.startswith("# ")]
    wrong += [f"stdin: a line that stands twice: {line}" for line, count in collections.Counter(played).items() if count > 1]
    wrong += ["stdout: a line that is swept meets no fault" for line in lines_of("crates/replay/stdout") if line == "kept 0"]
    if not wrong and not asked == answered == demanded:
        wrong.append("the rows of stdin, stdout and rows.txt come in another order")
    places = [line.partition(" ")[0] for line in said[end + 1 :]]
    wrong += wrong_places(places)
    lines = sum(count for _, count in asked)
    print(
        "\n".join(wrong)
        or f"{len(asked)} rows of {lines} lines stand in the data of replay, each with its answers, and {len(places)} elsewhere"
    )
    return 1 if wrong else 0


sys.exit(main())
