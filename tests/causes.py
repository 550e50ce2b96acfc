#!/usr/bin/env python3
"""Sees that tests/causes.txt names, for each public call of a library that returns a `Result`, what refuses an `Err` at once.

A body that does nothing and answers `Err(Other)` at once must not meet a contract. So each such call is tied by a clause to what
was done: the table has it, below the call's file, as `call, call: clause, clause`, each clause on each call. `ensures` is a lone
one, which has no name. Where there is none, a reason stands in brackets:

- `(memory)`: the error says that a buffer, a list or a record could not be made or grow; no contract says that memory is left,
  and no clause of the call that it does without, or how much it wanted;
- `(rules)`: the type answers for the call itself, as a policy, a decoder or a filter does, by its trait's clauses, and what these
  cite;
- `(only tested)`: what fails is a stream of std, or memory, and std says no more of it.

A public call is a `pub fn`, or one of a trait's that a type has; texts (`fmt`) are left out. Who adds a row with a clause tries
such a body. `--table` prints the table, a line for each call.
"""
import pathlib
import re
import sys

TOP = pathlib.Path(__file__).resolve().parent.parent
TABLE = TOP / "tests" / "causes.txt"
# No libraries: tests, and what is measured or played.
LEFT_OUT = ("bench", "bufcopy", "replay")
NO_CLAUSE = ("(memory)", "(rules)", "(only tested)")
REFUSALS = ("AllocError", "GrowError", "MakeError")
# Where a call does without memory, or how much it wanted.
NEEDS = ("succeeds", "kept", "wanted", "full", "stopped")
TOKEN = re.compile(r"""//[^\n]*|"(?:\\.|[^"\\])*"|'(?:\\.|[^'\\])'|[(){}]""", re.S)


def end_of(text, start):
    """Behind the bracket that closes the one at `start`."""
    depth = 0
    for at in TOKEN.finditer(text, start):
        if at.group() in "({":
            depth += 1
        elif at.group() in ")}":
            depth -= 1
            if depth == 0:
                return at.end()
    raise ValueError(text[start : start + 60])


def contracts_of(text):
    """The name of each public call, its return type and its clauses."""
    owned = [(at.start(), end_of(text, text.index("{", at.start()))) for at in re.finditer(r"^impl\b[^{;]* for [^{;]*\{", text, re.M)]
    # A bound between the name and the arguments may be `FnMut(u64)`.
    for at in re.finditer(r"^ *(pub )?(?:const )?fn (\w+)(?:<[^{;]*?>)?\(", text, re.M):
        if not at.group(1) and not any(begin < at.start() < end for begin, end in owned):
            continue
        rest = text[end_of(text, at.end() - 1) :]
        returned = re.match(r"(?:\s*->\s*(.*?))?\s*(?=\b(?:where|requires|ensures|ghost)\b|\{|;)", rest, re.S)
        if not returned:
            continue
        clauses, place = [], returned.end()
        part = re.compile(r"(?:\s|//[^\n]*\n)*(?:where[^{]*?)?\b(requires|ensures|ghost)\*? *(\w*)[^{]*")
        while (clause := part.match(rest, place)) and rest[clause.end()] == "{":
            if clause.group(1) == "ensures":
                clauses.append(clause.group(2) or "ensures")
            place = end_of(rest, clause.end())
        yield at.group(2), returned.group(1) or "", clauses


def public_calls():
    """Of each file of the libraries the calls that return a `Result`, of each name all."""
    found = {}
    for path in sorted(TOP.glob("crates/*/src/**/*.rt")):
        crate = path.relative_to(TOP).parts[1]
        if crate in LEFT_OUT or crate.startswith("tests_"):
            continue
        for name, returned, clauses in contracts_of(path.read_text(encoding="utf-8")):
            if "Result<" in returned:
                found.setdefault((str(path.relative_to(TOP)), name), []).append((returned, clauses))
    return found


def rows_of(table):
    """Each call of the table, with the number of its line, its file, and the clauses or the reason."""
    file = ""
    for number, line in enumerate(table.splitlines(), 1):
        if not line.startswith(" "):
            file = line
            continue
        calls, _, why = line.strip().partition(": ")
        for call in calls.split(", "):
            yield number, file, call, why


def wrong_in(rows, found):
    """What the table leaves out, or names that isn't there, a line each."""
    wrong = []
    for number, file, call, why in rows:
        if (file, call) not in found:
            wrong.append(f"{number}: no public call `{call}` of {file} returns a `Result`")
        for returned, clauses in found.get((file, call), ()):
            if why not in NO_CLAUSE:
                wrong += [f"{number}: `{call}` has no clause `{it}`" for it in why.split(", ") if it not in clauses]
            elif why == "(memory)":
                wrong += [f"{number}: `{call}` has the clause `{it}`" for it in clauses if it in NEEDS]
                if not any(it in returned for it in REFUSALS):
                    wrong.append(f"{number}: `{call}` fails for more than memory")
    told = {(file, call) for _, file, call, _ in rows}
    wrong += [f"`{call}` of {file} is not in the table" for file, call in found if (file, call) not in told]
    return [f"tests/{TABLE.name}: {it}" for it in wrong]


def main():
    rows = list(rows_of(TABLE.read_text(encoding="utf-8")))
    if sys.argv[1:] == ["--table"]:
        for _, file, call, why in rows:
            print(f"{call:24}{why:24}{file}")
        return 0
    found = public_calls()
    wrong = wrong_in(rows, found)
    said = f"tests/{TABLE.name} says of all {len(found)} calls what refuses an `Err` at once, or that nothing does"
    print("\n".join(wrong) or said)
    return 1 if wrong else 0


if __name__ == "__main__":
    sys.exit(main())
