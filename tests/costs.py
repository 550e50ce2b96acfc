#!/usr/bin/env python3
"""Says where the time of a crate's proof goes, function by function.

usage, at the top of the repository: python3 tests/costs.py CRATE [--test] [--only FN ..] [--most N]

The crate is checked from nothing, over the libraries below as they are built, which `rt check` in its folder does. With --test its
tests are proved too, with --only just these functions and what they call in the crate, by their paths below it. The prover writes
each module that it is done with, so the time between two of them is that of the second. A function has several: most of its time
goes to `Lts`, all steps that it may take, with what is alive at each; its own search is in `Proof`.

Each line has seconds of a processor, how many of these are of `Lts` and of `Proof`, and the function, or the type that a module is
of; the last has those for all. On a machine that does other things too they are more, by a half where each core has several.
"""
import argparse
import bisect
import collections
import os
import pathlib
import re
import subprocess
import tempfile
import threading
import time

from edits import LIBRARY, TOP

# The modules of a function beside the one that has its name.
PARTS = r"\.(Lts|Tie|Proof|Code|Statement|Goals|Answers|Invariants|Met|Key|Layout|Reads|Named|Given|Kinds[-\d]*|Carried[-\d]*)\b.*$"


class Clock(threading.Thread):
    """The seconds of a processor that a process and its copies had used at a time."""

    def __init__(self, process):
        super().__init__()
        self.process, self.times, self.used = process, [time.time()], [0.0]

    def run(self):
        while self.process.returncode is None:
            try:
                used = self.ticks_of(self.process.pid)
            except OSError:
                continue
            self.times.append(time.time())
            self.used.append(used / os.sysconf("SC_CLK_TCK"))
            time.sleep(0.02)

    def ticks_of(self, pid):
        """Those of a process, of the copies that it waited for, and of those that go on."""
        fields = pathlib.Path(f"/proc/{pid}/stat").read_text().rpartition(")")[2].split()
        copies = pathlib.Path(f"/proc/{pid}/task/{pid}/children").read_text().split()
        return sum(map(int, fields[11:15])) + sum(map(self.ticks_of, copies))

    def at(self, moment):
        return self.used[min(bisect.bisect_left(self.times, moment), len(self.used) - 1)]


def modules(folder, clock):
    """The modules that a check wrote, in order, each with how long it took."""
    written = sorted((it.stat().st_mtime, it.name.removesuffix(".oantt")) for it in pathlib.Path(folder).rglob("*.oantt"))
    begun = 0.0
    for moment, name in written:
        yield name, clock.at(moment) - begun
        begun = clock.at(moment)


def main():
    parser = argparse.ArgumentParser(description=__doc__, formatter_class=argparse.RawDescriptionHelpFormatter)
    parser.add_argument("crate")
    parser.add_argument("--test", action="store_true")
    parser.add_argument("--only", nargs="*", default=[])
    parser.add_argument("--most", type=int, default=30)
    given = parser.parse_args()
    crate = {it.name: it for it in LIBRARY.crates_below(str(TOP))}[given.crate]
    flags = ["--jobs", "1"] + ["--test"] * given.test
    with tempfile.TemporaryDirectory(prefix="costs-") as kept:
        words = [LIBRARY.RATTLE, "check", *crate.words(flags, keeps=False), "--incremental", kept]
        for fn in given.only:
            words += ["--only", fn]
        ran = subprocess.Popen(words, cwd=crate.folder, stdin=subprocess.DEVNULL, stdout=subprocess.PIPE, stderr=subprocess.STDOUT)
        clock = Clock(ran)
        clock.start()
        said = ran.stdout.read().decode(errors="replace")
        _, status, used = os.wait4(ran.pid, 0)
        ran.returncode = os.waitstatus_to_exitcode(status)
        clock.join()
        costs = collections.defaultdict(collections.Counter)
        for at, (name, seconds) in enumerate(modules(kept, clock)):
            path = name.removeprefix(f"Rattle-{crate.name}").removeprefix("-proofs.").removeprefix("-specs.")
            part = re.search(PARTS, path)
            fn = re.sub(PARTS, "", path) if at else "all that comes before the first"
            costs[fn]["all"] += seconds
            costs[fn][part[1] if part else ""] += seconds
    for fn, cost in sorted(costs.items(), key=lambda it: -it[1]["all"])[: given.most]:
        print(f"{cost['all']:7.1f} {cost['Lts']:7.1f} {cost['Proof']:7.1f}  {fn}")
    print(f"{used.ru_utime + used.ru_stime:.0f} seconds of a processor; {said.rstrip().splitlines()[-1]}")
    return ran.returncode


if __name__ == "__main__":
    raise SystemExit(main())
