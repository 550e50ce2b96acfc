"""Measures anew what docs/SPEED.md says beside Rust's std, writes it into that page, and draws its picture: python3 bench/speed.py

It proves and builds crates/bench, builds bench/std.rs, and goes over the tables of the page whose head stands in TABLES below: it
counts their rows as bench/table.sh does, times them as bench/time.py does, and puts each number where the old one stood. A row that is
added to the page by its name is measured too. It wants valgrind and rustc, and for the times a quiet machine; `--counts` leaves
those as they are. Beside other work root keeps a core free for it: chrt -f 50 python3 bench/speed.py.
"""

import concurrent.futures
import datetime
import importlib.util
import os
import pathlib
import re
import subprocess
import sys
import tempfile

HERE = pathlib.Path(__file__).resolve().parent
PAGE = HERE.parent / "docs/SPEED.md"


def beside(name):
    """The module of a file that stands beside this one; `import time` would be Python's own."""
    spec = importlib.util.spec_from_file_location(f"bench_{name}", HERE / f"{name}.py")
    module = importlib.util.module_from_spec(spec)
    spec.loader.exec_module(module)
    return module


timing, drawing = beside("time"), beside("draw")
LISTS = timing.tables()
NAMED = {}
for line in LISTS["cases"]:
    label, words = line.split("|")
    NAMED[label] = words.split()
for line in LISTS["calls"]:
    label, words = line.split("|")
    shape, *numbers = words.split()
    NAMED[label] = [shape, "8192", *numbers]


def named(label, _column):
    return NAMED[label]


def of_lines(label, shape):
    return [shape, *label.split(", "), "8388608"]


def of_length(label, shape):
    return [shape, "8192", label, "8388608"]


def of_packets(label, shape):
    return [shape, *label.split(", "), "8388608"]


def of_texts(label, shape):
    length, capacity = label.split(", ")
    return [shape, capacity, length, "8388608"]


def of_heads(label, shape):
    return [shape, *label.split(", "), "262144"]


# By the beginning of a table's head: what a cell is of, and of each column the kind or `rust` or `time` with the shape. In the first
# of these the shape comes from the row's name. A `call` counts instructions a call, and not a byte.
TABLES = {
    "| Instructions a byte |": (named, ["plain", "std", "rust", "time"]),
    "| Instructions for a byte, or a turn |": (named, ["plain", "std", "rust", "time"]),
    "| Bytes a call |": (
        of_length,
        ["call plain write", "call plain write_all", "call rust write", "call rust write_all", "time write", "time write_all"],
    ),
    "| Lines of, bytes a read |": (
        of_lines,
        ["plain next", "plain next_trimmed", "rust next", "rust next_trimmed", "time next", "time next_trimmed"],
    ),
    "| Payloads of |": (
        of_length,
        ["plain frames", "rust frames", "plain write_frames", "rust write_frames", "time frames", "time write_frames"],
    ),
    "| Chunks of | read_payload |": (of_length, ["plain bodies", "rust bodies", "time bodies"]),
    "| Texts of, through |": (
        of_texts,
        ["plain read_parts", "rust read_parts", "plain fill_parts", "rust fill_parts", "time read_parts", "time fill_parts"],
    ),
    "| Heads of, bytes a read |": (of_heads, ["plain heads"]),
    "| Chunks of | write_all |": (of_length, ["plain write_bodies", "rust write_bodies", "time write_bodies"]),
    "| Capacity, bytes a read |": (of_packets, ["plain packets", "ring packets"]),
}


def program(kind, words, rust):
    shape, capacity, piece, *_ = words
    return [rust, shape, capacity, piece] if kind == "rust" else [timing.BENCH, shape, kind, capacity, piece]


def counted(kind, words, rust, a_call):
    """The instructions of one program for a byte that goes over, or for a call."""
    flags = ["--tool=callgrind", "--callgrind-out-file=/dev/null", "--toggle-collect=*measured*"]
    run = subprocess.run(
        ["valgrind", *flags, *program(kind, words, rust), words[3], "1"], capture_output=True, text=True, check=True
    )
    over = int(run.stdout)
    if over == 0:
        return "–"
    found = int(re.search(r"Collected : (\d+)", run.stderr).group(1)) / over
    return f"{found * int(words[2]):.1f}" if a_call else f"{found:.3f}"


def timed(words, rust):
    """Ours beside Rust's, in turns, as time.py says."""
    shape, piece = words[0], int(words[2] if words[0] not in ("next", "next_trimmed") else words[1])
    sides = []
    for kind in "plain", "rust":
        start = program(kind, words, rust)
        if timing.spent([*start, str(timing.TOTAL), "1"])[1] == 0:
            return "–"
        sides.append(timing.Timed(start, piece, shape))
    for _ in range(timing.RUNS):
        for one in sides:
            one.run()
    return timing.ratio(*sides)


def rows_of(page):
    """Of each row that is measured: its line, its cells, and what each cell but the first is."""
    table, found = None, []
    for at, line in enumerate(page):
        if not line.startswith("|"):
            table = None
        elif table is None:
            table = next((it for head, it in TABLES.items() if line.startswith(head)), ())
        elif table and not line.startswith("|-"):
            of, columns = table
            label, *cells = drawing.cells_of(line)
            wanted = []
            for column in columns:
                *how, last = column.split()
                kind, shape = (how[-1], last) if how else (last, "")
                wanted.append((kind, of(label, shape), how[:1] == ["call"]))
            found.append((at, label, cells, wanted))
    return found


def main():
    only_counts = "--counts" in sys.argv[1:]
    page = PAGE.read_text(encoding="utf-8").split("\n")
    subprocess.run(["rt", "run"], cwd=HERE.parent / "crates/bench", check=True, stdout=subprocess.DEVNULL)
    with tempfile.TemporaryDirectory() as folder:
        rust = os.path.join(folder, "std")
        flags = ["-C", "opt-level=3", "-C", "target-cpu=x86-64-v2"]
        subprocess.run(["rustc", *flags, "-o", rust, HERE / "std.rs"], check=True)
        rows = rows_of(page)
        with concurrent.futures.ThreadPoolExecutor(os.cpu_count()) as pool:
            counts = [
                [None if kind == "time" else pool.submit(counted, kind, words, rust, call) for kind, words, call in wanted]
                for _, _, _, wanted in rows
            ]
            counts = [[one and one.result() for one in row] for row in counts]
        os.sched_setaffinity(0, {max(os.sched_getaffinity(0))})
        for (at, label, cells, wanted), found in zip(rows, counts):
            for place, (kind, words, _) in enumerate(wanted):
                if kind != "time":
                    cells[place] = found[place]
                elif not only_counts:
                    cells[place] = timed(words, rust)
            page[at] = f"| {label} | {' | '.join(cells)} |"
            print(page[at], flush=True)
    today = datetime.date.today()
    text = "\n".join(page)
    text = re.sub(r"printed them on \d+ \w+ \d+", f"printed them on {today.day} {today:%B} {today.year}", text)
    PAGE.write_text(text, encoding="utf-8")
    drawing.main()


if __name__ == "__main__":
    main()
