#!/usr/bin/env python3
"""Sees that a wrong edit names the first clause of each public call of a library, which refuses it alone.

The first clause is a fact that a caller comes for. One that refuses no body says nothing, whatever stands behind it. So for each
there is an edit of that call which names it, or which has no other clause to name. tests/firsts.txt has the calls without one,
below the call's file, as `call, call: (why)`:

- `(types)`: types leave no other value, as of what `get_ref` lends;
- `(ghost)`: contracts alone see the value, so no body makes another;
- `(std)`: the clause is one of std's, about what nobody knows here.

What is no library, a program or an example, is left out, and so are texts (`fmt`).
"""
import collections
import re
import sys

from causes import TOP, contracts_of, rows_of
from edits import read

TABLE = TOP / "tests" / "firsts.txt"
REASONS = ("(types)", "(ghost)", "(std)")
# The groups of crates.txt that are libraries, by the first words of their headings.
LIBRARIES = ("# The port", "# Layers")


def libraries():
    """The crates of the groups of libraries."""
    for group in (TOP / "crates.txt").read_text(encoding="utf-8").split("\n\n"):
        if group.startswith(LIBRARIES):
            yield from re.findall(r"(?m)^(\w+):", group)


def edited(crate):
    """Of each file of a crate the clauses that its edits name, by function; of an edit that names none, the empty one."""
    found = collections.defaultdict(set)
    for path in [*TOP.glob(f"tests/edits/{crate}/**/*.edits"), *TOP.glob(f"crates/{crate}/must-fail/*.edit")]:
        for edit in read(path):
            for file, _, _ in edit.pairs:
                found[f"crates/{crate}/{file}", edit.fn.split("::")[-1]].add(edit.clause)
    return found


def first_clauses():
    """Each public call with a contract, with its first clause, and whether an edit shows that."""
    for crate in libraries():
        shown = edited(crate)
        for path in sorted(TOP.glob(f"crates/{crate}/src/**/*.rt")):
            file = str(path.relative_to(TOP))
            for name, _, clauses in contracts_of(path.read_text(encoding="utf-8")):
                if clauses and name != "fmt":
                    named = shown.get((file, name), set())
                    yield file, name, clauses[0], clauses[0] in named or (len(clauses) == 1 and bool(named))


def main():
    rows = list(rows_of(TABLE.read_text(encoding="utf-8")))
    left_out = {(file, call): why for _, file, call, why in rows}
    firsts = list(first_clauses())
    calls = {(file, call) for file, call, *_ in firsts}
    wrong = [f"{number}: {file} has no public call `{call}` with a contract" for number, file, call, _ in rows if (file, call) not in calls]
    wrong += [f"{number}: `{why}` is no reason" for number, _, _, why in rows if why not in REASONS]
    for file, call, clause, is_shown in firsts:
        why = left_out.get((file, call))
        if not is_shown and not why:
            wrong.append(f"no edit names `{clause}`, the first clause of `{call}` of {file}")
        if is_shown and why:
            wrong.append(f"an edit shows the first clause of `{call}` of {file}")
    shown = sum(is_shown for *_, is_shown in firsts)
    said = f"an edit shows {shown} of {len(firsts)} first clauses, and tests/{TABLE.name} says why none shows the others"
    print("\n".join(f"tests/{TABLE.name}: {it}" for it in wrong) or said)
    return 1 if wrong else 0


if __name__ == "__main__":
    sys.exit(main())
