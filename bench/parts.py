"""Prints what a part of a multipart body takes of processor time and memory, whatever its length: python3 bench/parts.py

A part of 2 MB and one of 200 MB go from a file to nowhere, through `parts get` and through what bench/parts.rs does by hand over
Rust's std, by turns. Beside each stands the least of its seconds. The memory is the most that the process held by the end of the
text, as the kernel tells. crates/parts has to be built: (cd crates/parts && rt run < stdin).
"""

import os
import pathlib
import re
import subprocess
import tempfile

SIZES = 2_000_000, 200_000_000
RUNS = 7
HERE = pathlib.Path(__file__).resolve().parent
PARTS = str(HERE.parent / "crates/parts/out/parts")
BOUNDARY = "------------------------7e8e528b8b54de33"
FRONT = f'--{BOUNDARY}\r\nContent-Disposition: form-data; name="file"\r\n\r\n'.encode()
END = f"\r\n--{BOUNDARY}--".encode()


def seconds(command, source):
    """The processor time of a process over a file, once it has ended well."""
    with open(source, "rb") as given:
        process = subprocess.Popen(command, stdin=given, stdout=subprocess.DEVNULL)
        _, status, used = os.wait4(process.pid, 0)
    process.returncode = os.waitstatus_to_exitcode(status)
    if process.returncode != 0:
        raise SystemExit(f"parts: {command} ended with {process.returncode}")
    return used.ru_utime + used.ru_stime


def memory(command, text):
    """The most KiB that a process held before the end of this text came."""
    process = subprocess.Popen(command, stdin=subprocess.PIPE, stdout=subprocess.DEVNULL)
    process.stdin.write(FRONT)
    process.stdin.write(text)
    process.stdin.flush()
    status = pathlib.Path(f"/proc/{process.pid}/status").read_text(encoding="ascii")
    process.communicate(END)
    return int(re.search(r"VmHWM:\s*(\d+) kB", status).group(1))


def main():
    print("| Of a part of | Processor seconds | KiB held |")
    print("|---|---|---|")
    with tempfile.TemporaryDirectory() as folder:
        rust = os.path.join(folder, "std")
        flags = ["-C", "opt-level=3", "-C", "target-cpu=x86-64-v2"]
        subprocess.run(["rustc", *flags, "-o", rust, HERE / "std.rs"], check=True)
        commands = {"`parts get`": [PARTS, "get", BOUNDARY, "file"], "by hand in Rust": [rust, "get"]}
        source = os.path.join(folder, "source")
        for size in SIZES:
            text = os.urandom(size)
            pathlib.Path(source).write_bytes(FRONT + text + END)
            used = {name: [] for name in commands}
            for _ in range(RUNS):
                for name, command in commands.items():
                    used[name].append(seconds(command, source))
            for name, command in commands.items():
                print(f"| {size:,} bytes, {name} | {min(used[name]):.3f} | {memory(command, text):,} |", flush=True)


if __name__ == "__main__":
    main()
