#!/usr/bin/env python3
"""Prints each public item of the libraries with the first sentence of its documentation, or sees that each has one.

    python3 tests/index.py --table [CRATE ..]     the index, of all libraries or of these
    python3 tests/index.py                        each public item has a sentence

An item is a public function, type, trait or constant, or a call that a public trait asks for. A line names it by its type, as
`BufReader::peek`. What only the crate sees, tests, and calls of a trait where a type has them, are left out.
"""
import pathlib
import re
import sys

TOP = pathlib.Path(__file__).resolve().parent.parent
# Tests, what is measured or played, and programs.
LEFT_OUT = re.compile(r"tests_|bench$|replay$")
ITEM = re.compile(r"( *)(pub )?(?:const )?(?:unsafe )?(fn|struct|enum|trait|type|const|static) (\w+)")
OWNER = re.compile(r"(?:pub )?(?:impl(?:<.*?>)? (?:.* for )?([A-Za-z_]\w*)|trait ([A-Za-z_]\w*))")


def items_of(text):
    """Each public item of a source: its name, and its documentation."""
    owner, is_trait, docs = "", False, []
    for line in text.splitlines():
        if line.startswith(("impl", "pub trait")):
            found = OWNER.match(line)
            is_trait = line.startswith("pub trait") or " for " in line.split("{")[0]
            owner = (found[1] or found[2]) if found else ""
            is_own = line.startswith("pub trait")
        elif line == "}":
            owner, is_trait = "", False
        comment = re.match(r"\s*///\s?(.*)", line)
        if comment:
            docs.append(comment[1])
            continue
        item = ITEM.match(line)
        if item:
            asked = item[1] and is_trait and is_own and item[3] == "fn" and len(item[1]) == 4
            public = item[2] and (not item[1] or (owner and not is_trait and len(item[1]) == 4))
            if public or asked:
                name = f"{owner}::{item[4]}" if item[1] else item[4]
                yield name, " ".join(docs)
        if line.strip() and not line.strip().startswith(("#[", "//")):
            docs = []


def is_reached(folder, path, name, every):
    """Whether an item is reached from outside: its modules are public, or a `pub use` of the crate names it."""
    modules = path.relative_to(folder / "src").with_suffix("").parts
    above = [folder / "src" / "lib.rt"] + [(folder / "src").joinpath(*modules[:n]).with_suffix(".rt") for n in range(1, len(modules))]
    opened = all(re.search(rf"(?m)^pub mod {module};", every[file]) for file, module in zip(above, modules)) or modules == ("lib",)
    return opened or any(re.search(rf"(?m)^pub use [^;]*\b{name}\b[^;]*;", text) for text in every.values())


def sentence_of(documentation):
    """The first sentence, without its mark."""
    found = re.match(r"(.*?[.:!?])(?:\s|$)", documentation)
    return (found[1] if found else documentation).strip()


def libraries():
    for folder in sorted((TOP / "crates").iterdir()):
        if (folder / "src" / "lib.rt").exists() and not LEFT_OUT.match(folder.name):
            yield folder


def main(words):
    wrong, count = [], 0
    for folder in libraries():
        if words[1:] and folder.name not in words[1:]:
            continue
        lines, every = {}, {it: it.read_text(encoding="utf-8") for it in sorted(folder.glob("src/**/*.rt"))}
        for path, text in every.items():
            for name, documentation in items_of(text):
                if not is_reached(folder, path, name.split("::")[0], every):
                    continue
                count += 1
                said = sentence_of(documentation)
                if not said:
                    wrong.append(f"{path.relative_to(TOP)}: `{name}` has no documentation")
                lines[name] = said
        if words[:1] == ["--table"]:
            print(f"\n{folder.name}")
            for name in lines:
                print(f"    {name:40}{lines[name]}")
    if words[:1] != ["--table"]:
        print("\n".join(wrong) or f"each of {count} public items has a sentence")
    return 1 if wrong else 0


if __name__ == "__main__":
    sys.exit(main(sys.argv[1:]))
