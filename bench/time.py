"""Prints how long calls take, ours beside those of the kit's std and of Rust's: python3 bench/time.py [WORD ..]

The cases are those of bench/table.sh, or those in whose names a WORD stands. Each goes over the same MiB again and again, which
stays in the cache, so that making the stream doesn't count. The programs take turns, on one core of their own, and of all
runs of one the least stands in the table; what the median is above it is noise of the machine. A ratio whose two sides differ
by less than that is in brackets. crates/bench has to be built: (cd crates/bench && rt run). Beside other work root keeps the
core free of it: chrt -f 50 python3 bench/time.py.
"""

import os
import pathlib
import re
import statistics
import subprocess
import sys
import tempfile

HERE = pathlib.Path(__file__).resolve().parent
BENCH = str(HERE.parent / "crates/bench/out/bench")
TOTAL, RUNS, SECONDS = 1 << 20, 15, 0.1
# Of these the programs count turns, and not bytes.
TURNS = {"onward", "positions", "peek"}


def tables():
    """The lists of bench/table.sh, each by its name, as lines."""
    page = (HERE / "table.sh").read_text(encoding="utf-8")
    return {name: lines.split("\n") for name, lines in re.findall(r"^(\w+)='([^']*)'", page, re.M)}


def cases():
    """A name, how many bytes a call is of, and the words: of ours behind the kind, of Rust's behind the shape."""
    lists = tables()
    for line in lists["cases"]:
        name, words = line.split("|")
        shape, capacity, piece, _ = words.split()
        yield name, int(piece), shape, [capacity, piece]
    for length in lists["writes"]:
        for shape in ("write", "write_all"):
            yield f"{shape} of {length}", int(length), shape, ["8192", length]
    for line in lists["texts"]:
        length, most, _ = line.split()
        for shape in ("next", "next_trimmed"):
            yield f"{shape}, lines of {length}, {most} bytes a read", int(length), shape, [length, most]
    for length in lists["payloads"]:
        for shape in ("frames", "write_frames"):
            yield f"{shape} of {length}", int(length), shape, ["8192", length]
    for length in lists["chunks"]:
        for shape in ("bodies", "write_bodies"):
            yield f"{shape}, chunks of {length}", int(length), shape, ["8192", length]
    for line in lists["forms"]:
        length, capacity = line.split()
        for shape in ("read_parts", "fill_parts"):
            yield f"{shape}, texts of {length} through {capacity}", int(length), shape, [capacity, length]
    for line in lists["calls"]:
        name, words = line.split("|")
        shape, piece, _ = words.split()
        yield name, int(piece), shape, ["8192", piece]


def spent(words):
    """The seconds that a program took, and what it printed."""
    process = subprocess.Popen(words, stdout=subprocess.PIPE, text=True)
    said = process.stdout.read()
    _, status, used = os.wait4(process.pid, 0)
    process.returncode = os.waitstatus_to_exitcode(status)
    if process.returncode != 0:
        raise SystemExit(f"time: {words} ended with {process.returncode}")
    return used.ru_utime + used.ru_stime, int(said)


class Timed:
    """One program with its words: the nanoseconds of a call, run by run."""

    def __init__(self, words, piece, shape):
        self.words = [*words, str(TOTAL)]
        self.idle, _ = spent([*self.words, "0"])
        once, over = spent([*self.words, "8"])
        self.turns = max(8, int(SECONDS / max((once - self.idle) / 8, 1e-5)))
        self.calls = over if shape in TURNS else over / piece
        self.took = []

    def run(self):
        seconds, _ = spent([*self.words, str(self.turns)])
        self.took.append((seconds - self.idle) * 1e9 / self.turns / self.calls)

    def least(self):
        return min(self.took)

    def noise(self):
        return statistics.median(self.took) - self.least()


def ratio(ours, other):
    found = f"{ours.least() / other.least():.2f}"
    close = abs(ours.least() - other.least()) < ours.noise() + other.noise()
    return f"({found})" if close else found


def row(name, piece, shape, numbers, rust):
    columns = {
        "plain": [BENCH, shape, "plain", *numbers],
        "the kit's std": [BENCH, shape, "std", *numbers],
        "Rust's std": [rust, shape, *numbers],
    }
    timed = {}
    for column, words in columns.items():
        if spent([*words, str(TOTAL), "1"])[1] > 0:
            timed[column] = Timed(words, piece, shape)
    for _ in range(RUNS):
        for one in timed.values():
            one.run()
    cells = [f"{timed[column].least():.1f}" if column in timed else "–" for column in columns]
    beside = ratio(timed["plain"], timed["Rust's std"]) if "Rust's std" in timed else "–"
    print(f"| {name} | {' | '.join(cells)} | {beside} |", flush=True)


def main():
    os.sched_setaffinity(0, {max(os.sched_getaffinity(0))})
    with tempfile.TemporaryDirectory() as folder:
        rust = os.path.join(folder, "std")
        flags = ["-C", "opt-level=3", "-C", "target-cpu=x86-64-v2"]
        subprocess.run(["rustc", *flags, "-o", rust, HERE / "std.rs"], check=True)
        print("| Nanoseconds a call | plain | the kit's std | Rust's std | plain beside Rust's |")
        print("|---|---|---|---|---|")
        for name, piece, shape, numbers in cases():
            if not sys.argv[1:] or any(word in name for word in sys.argv[1:]):
                row(name, piece, shape, numbers, rust)


if __name__ == "__main__":
    main()
