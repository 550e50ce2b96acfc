#!/usr/bin/env python3
"""Sees that each clause, word and file that docs/CONTRACTS.md and docs/DESIGN.md name stands in the sources.

A line of a list that begins with calls and, in brackets, clauses, names clauses that each of these calls has: functions of the
files that the nearest line 'In `FILE`' above it names. A word in code letters with a capital or an underscore is one of the
sources, or the name of a crate. So is each lemma that a table of docs/PROOFS.md names, which begins with 'To say' or 'Of'.

And no two crates define one word, a `record`, `data` or `abbrev` of specs/: tests/homonyms.txt has those that mean the same of
each crate's own things, with the crates and the reason. Crates of tests don't count.
"""
import collections
import pathlib
import re
import sys

top = pathlib.Path(__file__).resolve().parent.parent
pages = [top / "docs" / it for it in ("CONTRACTS.md", "DESIGN.md")]
NAMES = r"`\w+`(?:, `\w+`)*"
CALLS = re.compile(rf"- ({NAMES}) \(({NAMES})\):")
# A line that begins with `record s {` makes a value.
WORD = re.compile(r"(?m)^ *(?:abbrev pub|(?:pub )?(?:abbrev|record|data)) ([A-Za-z_][\w'-]*)(?! *\{(?: *$|.* = ))")
crates = {it.name for it in top.glob("crates/*")}
sources = {it: it.read_text(encoding="utf-8") for part in ("src", "specs") for it in top.glob(f"crates/*/{part}/**/*.*")}


def clauses_of(files, call):
    """The clauses of every function of that name in those files."""
    found = set()
    for file in files:
        text = sources[file]
        for at in re.finditer(rf"\bfn {call}\b", text):
            rest = text[at.end() :]
            end = re.search(r"\n *(?:pub(?:\(crate\))? )?(?:const )?fn |\n *impl\b", rest)
            found.update(re.findall(r"\bensures\*? (\w+) *\{", rest[: end.start()] if end else rest))
    return found


def wrong_in(page, words):
    """What a page names that isn't there, a line each."""
    wrong, files = [], []
    for number, line in enumerate(page.read_text(encoding="utf-8").splitlines(), 1):
        named = re.findall(r"`(crates/[^`{*]*)`", line)
        paths = [f"crates/*/{it}" for it in re.findall(r"`((?:src|specs|proofs)/[^`{*]*)`", line)]
        wrong += [f"{number}: no file {it}" for it in named + paths if not any(top.glob(it))]
        if line.startswith("In `"):
            files = [top / it for it in named if top / it in sources]
        if item := CALLS.match(line):
            calls, clauses = (re.findall(r"\w+", it) for it in item.groups())
            for call in calls:
                there = clauses_of(files, call)
                wrong += [f"{number}: `{call}` has no clause `{it}`" for it in clauses if it not in there]
        for word in re.findall(r"`([A-Za-z_]\w*)`", line):
            is_name = word not in crates and (word != word.lower() or "_" in word)
            if is_name and word not in words:
                wrong.append(f"{number}: `{word}` stands nowhere in the sources")
    return [f"docs/{page.name}:{it}" for it in wrong]


def lost_lemmas(page, names):
    """The lemmas that the tables of a page name and that aren't there, a line each."""
    wrong, header = [], ""
    for number, line in enumerate(page.read_text(encoding="utf-8").splitlines(), 1):
        header = "" if not line.startswith("|") else header or line
        if header.startswith(("| To say", "| Of ")):
            for name in re.findall(r"`([A-Z]\w*-\w+)`", line):
                if name not in names:
                    wrong.append(f"docs/{page.name}:{number}: `{name}` stands nowhere in the sources")
    return wrong


def shared_words():
    """The words that several crates define, or that tests/homonyms.txt names wrongly, a line each."""
    crates_of = collections.defaultdict(set)
    for path, text in sources.items():
        crate = path.relative_to(top / "crates").parts[0]
        if path.suffix == ".antt" and not crate.startswith("tests_"):
            for word in WORD.findall(text):
                crates_of[word].add(crate)
    lines = (top / "tests" / "homonyms.txt").read_text(encoding="utf-8").splitlines()
    may = {it.split(":")[0] for it in lines if it.partition(": ")[2]}
    do = {" ".join([word, *sorted(those)]) for word, those in crates_of.items() if len(those) > 1}
    wrong = [f"several crates define one word: {it}" for it in sorted(do - may)]
    return wrong + [f"tests/homonyms.txt: no such crates define that word: {it}" for it in sorted(may - do)]


def main():
    every = "\n".join(sources.values())
    words, names = (set(re.findall(it, every)) for it in (r"\w+", r"[\w-]+"))
    wrong = [it for page in pages for it in wrong_in(page, words)]
    wrong += lost_lemmas(top / "docs" / "PROOFS.md", names)
    wrong += shared_words()
    named = "each clause, word, file and lemma that CONTRACTS, DESIGN and PROOFS name stands in the sources"
    print("\n".join(wrong) or f"{named}, and a word means one thing")
    return 1 if wrong else 0


sys.exit(main())
