"""Prints how much processor time copying takes: python3 bench/copies.py

A file of 256 MiB goes from file to file and from pipe to pipe, through `cat`, through Rust's `io::copy` (bench/copy.rs) with
and without the help of the kernel, and through `bufcopy` of two capacities, all by turns, so that what else the machine does
meets each alike. Beside each stands the least of its seconds for a GiB, of the copying process alone. crates/bufcopy has to be
built: (cd crates/bufcopy && rt run < stdin).
"""

import os
import pathlib
import subprocess
import tempfile

SIZE = 256 << 20
RUNS = 7
HERE = pathlib.Path(__file__).resolve().parent
BUFCOPY = str(HERE.parent / "crates/bufcopy/out/bufcopy")


def commands(rust):
    """Each program by its name; rust is bench/copy.rs."""
    return {
        "`cat`": ["cat"],
        "Rust's `io::copy`": [rust],
        "the same by reads and writes of 8192": [rust, "hidden"],
        "`bufcopy`, 8192": [BUFCOPY],
        "`bufcopy`, 65536": [BUFCOPY, "std", "65536"],
    }


def seconds(process):
    """The processor time of a process, once it has ended well."""
    _, status, used = os.wait4(process.pid, 0)
    process.returncode = os.waitstatus_to_exitcode(status)
    if process.returncode != 0:
        raise SystemExit(f"copies: {process.args} ended with {process.returncode}")
    return used.ru_utime + used.ru_stime


def between_files(command, source, target):
    with open(source, "rb") as given, open(target, "wb") as received:
        return seconds(subprocess.Popen(command, stdin=given, stdout=received))


def between_pipes(command, source, _target):
    feeder = subprocess.Popen(["cat", source], stdout=subprocess.PIPE)
    copier = subprocess.Popen(command, stdin=feeder.stdout, stdout=subprocess.PIPE)
    drain = subprocess.Popen(["cat"], stdin=copier.stdout, stdout=subprocess.DEVNULL)
    feeder.stdout.close()
    copier.stdout.close()
    used = seconds(copier)
    feeder.wait()
    drain.wait()
    return used


def main():
    ways = {"from file to file": between_files, "from pipe to pipe": between_pipes}
    with tempfile.TemporaryDirectory() as folder:
        source, target = os.path.join(folder, "source"), os.path.join(folder, "target")
        with open(source, "wb") as made:
            for _ in range(SIZE >> 20):
                made.write(os.urandom(1 << 20))
        rust = os.path.join(folder, "copy")
        subprocess.run(["rustc", "-O", "-o", rust, HERE / "copy.rs"], check=True)
        copiers = commands(rust)
        used = {}
        for _ in range(RUNS):
            for way, copy in ways.items():
                for name, command in copiers.items():
                    used.setdefault((name, way), []).append(copy(command, source, target))
    print("| Processor seconds for a GiB | " + " | ".join(ways) + " |")
    print("|---" * (len(ways) + 1) + "|")
    for name in copiers:
        least = [min(used[name, way]) * (1 << 30) / SIZE for way in ways]
        print(f"| {name} | " + " | ".join(f"{seconds:.2f}" for seconds in least) + " |")


if __name__ == "__main__":
    main()
