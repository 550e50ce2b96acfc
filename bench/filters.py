"""Prints how much processor time the programs `frames` and `bodies` take: python3 bench/filters.py

Each goes over a file of 100 MB, by turns, so that what else the machine does meets each alike; the least of its seconds stands in
the table. What it writes is thrown away. The programs have to be built: (cd crates/frames && rt run < stdin), and the same in
crates/bodies.
"""

import os
import pathlib
import subprocess
import tempfile

HERE = pathlib.Path(__file__).resolve().parent
FRAMES, BODIES = (str(HERE.parent / f"crates/{name}/out/{name}") for name in ("frames", "bodies"))
SIZE, RUNS = 100_000_000, 7


def repeated(piece):
    return piece * (SIZE // len(piece))


def cases():
    """A name, the words, and what the program reads."""
    for length in 8, 80:
        line = b"x" * (length - 1) + b"\n"
        yield f"pack, lines of {length}", [FRAMES, "pack"], repeated(line)
    for length in 7, 79:
        yield f"unpack, payloads of {length}", [FRAMES, "unpack"], repeated(length.to_bytes(2, "big") + b"x" * length)
    yield "encode", [BODIES, "encode"], repeated(b"x" * 1000)
    for length in 64, 1000:
        chunk = b"%x\r\n" % length + b"x" * length + b"\r\n"
        yield f"decode, chunks of {length}", [BODIES, "decode"], repeated(chunk) + b"0\r\n\r\n"


def seconds(words, source):
    with open(source, "rb") as given:
        process = subprocess.Popen(words, stdin=given, stdout=subprocess.DEVNULL)
        _, status, used = os.wait4(process.pid, 0)
        process.returncode = os.waitstatus_to_exitcode(status)
    if process.returncode != 0:
        raise SystemExit(f"filters: {words} ended with {process.returncode}")
    return used.ru_utime + used.ru_stime


def main():
    with tempfile.TemporaryDirectory() as folder:
        found = []
        for at, (name, words, bytes_in) in enumerate(cases()):
            source = os.path.join(folder, str(at))
            pathlib.Path(source).write_bytes(bytes_in)
            found.append((name, words, source, []))
        for _ in range(RUNS):
            for _name, words, source, took in found:
                took.append(seconds(words, source))
    print("| Processor seconds for 100 MB | |")
    print("|---|---|")
    for name, _words, _source, took in found:
        print(f"| {name} | {min(took):.2f} |")


if __name__ == "__main__":
    main()
