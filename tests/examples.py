#!/usr/bin/env python3
"""Sees that each example stands in a test, line for line: those in the documentation of the sources, and those of the pages.

A page's example is cut at its blank lines. Each piece of Rust stands in a source of crates/tests_* or crates/uses, where a
`pub` in front is not looked at, and each piece of antt in a proof or a spec of these or of redux_buffer. What a piece imports
by name one of these files imports too. Shell, text and what has `..` in it, or a name in capitals to be put in, is no example.
Behind an example's `if let` a test may fail in an `else`, which isn't looked at: an example that isn't gone into fails there.
"""
import pathlib
import re
import sys

top = pathlib.Path(__file__).resolve().parent.parent
PAGES = ("*.md", "docs/*.md", "crates/*/README.md")
ELSE = re.compile(r"\n\} else \{\nreturn Ok\(assert!\(rt; false\)\);\n\}\n")
IMPORTS = re.compile(r"(?:pub )?(?:ghost )?use (.*?);?")


def lines_of(text):
    """The lines that say something, without their indentation and the `pub` in front."""
    return [re.sub(r"^pub ", "", it.strip()) for it in text.splitlines() if it.strip()]


def examples_of(source):
    """The examples of a source, each with the number of its first line."""
    found, block, begin = [], None, 0
    for number, line in enumerate(source.read_text(encoding="utf-8").splitlines(), 1):
        comment = re.match(r"\s*//[/!] ?(.*)", line)
        if comment is None:
            block = None
        elif comment[1].startswith("```"):
            if block is None:
                block, begin = [], number
            else:
                found.append((begin, lines_of("\n".join(block))))
                block = None
        elif block is not None:
            block.append(comment[1])
    return found


def pieces_of(page):
    """The pieces of a page's examples, each with the number of its first line, and whether it is Rust."""
    found, language, begin, piece = [], None, 0, []
    for number, line in enumerate(page.read_text(encoding="utf-8").splitlines() + [""], 1):
        if line.startswith("```"):
            found.append((begin, language, piece))
            language, piece = (line[3:] or "antt" if language is None else None), []
        elif language is not None and line.strip():
            begin, piece = (number if not piece else begin), piece + [line]
        elif piece:
            found.append((begin, language, piece))
            piece = []
    return [(begin, language == "rust", piece) for begin, language, piece in found if piece and is_example(language, piece)]


def is_example(language, piece):
    text = "\n".join(piece)
    is_antt = language == "antt" and re.search(r"(?m)^(use |--|abbrev |pub |\w+ : )", text)
    return (language == "rust" or is_antt) and not re.search(r"\.\. |\bREST\b", text)


def imported(lines):
    """What these lines import by name, each with its module."""
    # An import that goes over several lines is one.
    text = re.sub(r"\{[^{}]*\}", lambda it: it[0].replace("\n", " "), "\n".join(lines))
    found = set()
    for it in text.splitlines():
        whole = IMPORTS.fullmatch(it)
        path, _, names = whole[1].partition("{") if whole and " as " not in it else ("", "", "")
        module = path.rstrip(".:")
        if names:
            found |= {(module, name.strip()) for name in names.rstrip("} ").split(",") if name.strip()}
        elif module:
            found.add(tuple(re.split(r"::(?=\w+$)", module)) if "::" in module else ("", module))
    return found


def stands(piece, tests):
    """Whether a piece of a page stands in one of these texts, by whole lines, and so do its imports."""
    lines = lines_of("\n".join(piece))
    said = [it for it in lines if not IMPORTS.fullmatch(it) and not it.startswith("#![")]
    wanted = imported(lines)
    text = "\n" + "\n".join(said) + "\n"
    return not (said or wanted) or any(
        (not said or text in "\n" + "\n".join(test) + "\n") and wanted <= imported(test) for test in tests
    )


def main():
    def texts(*patterns):
        return [lines_of(it.read_text(encoding="utf-8")) for at in patterns for it in sorted(top.glob(at))]

    tests = [ELSE.sub("\n}\n", "\n".join(it)) for it in texts("crates/tests_*/src/**/*.rt")]
    sources = sorted(it for it in top.glob("crates/*/src/**/*.rt") if not it.is_relative_to(top / "crates/tests_examples"))
    examples = [(it, begin, "\n".join(example)) for it in sources for begin, example in examples_of(it)]
    wrong = [
        f"{source.relative_to(top)}:{begin}: this example stands in no test"
        for source, begin, example in examples
        if not any(f"\n{example}\n" in f"\n{test}\n" for test in tests)
    ]
    rust = texts("crates/tests_*/src/**/*.rt", "crates/uses/src/**/*.rt")
    antt = texts(*(f"crates/{it}/{part}/**/*.antt" for it in ("tests_*", "uses", "redux_buffer") for part in ("proofs", "specs")))
    pages = sorted(it for pattern in PAGES for it in top.glob(pattern))
    pieces = [(page.relative_to(top), *it) for page in pages for it in pieces_of(page)]
    wrong += [
        f"{page}:{at}: this stands in no test"
        for page, at, is_rust, piece in pieces
        if not stands(piece, rust if is_rust else antt)
    ]
    print("\n".join(wrong) or f"each of {len(examples)} examples and {len(pieces)} pieces of pages stands in a test")
    return 1 if wrong else 0


sys.exit(main())
