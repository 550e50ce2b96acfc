#!/usr/bin/env python3
"""Runs the program `parts`, which must be built, over multipart bodies: those of curl's and of Python's encoders, random ones with
beginnings of the boundary in them, and each beginning of some. What it prints must be what a search over the whole body finds.

usage, at the top of the repository: python3 tests/parts.py [BODIES [SEED]]

Each body comes through a pipe, in writes of random lengths. The last line says how many runs there were; the status is 0 only if
each was right.
"""
import email.mime.multipart
import email.mime.text
import email.policy
import pathlib
import random
import re
import subprocess
import sys

TOP = pathlib.Path(__file__).resolve().parent.parent
PROGRAM = TOP / "crates/parts/out/parts"


def whole_parts(boundary, body):
    """The parts that stand whole in the body, whether it ends, and whether a boundary isn't alone in its line, or in a head."""
    mark = b"\r\n--" + boundary
    # A boundary is one at the beginning of a line, also of the first one and of the first behind a head.
    text = b"\r\n" + body
    at = text.find(mark)
    parts = []
    while at >= 0:
        at += len(mark)
        if text.startswith(b"--", at):
            return parts, True, False
        end = text.find(b"\r\n\r\n", at)
        if end < 0:
            # The two hyphens may begin there, or the end of the boundary's line.
            return parts, False, mark in text[at:] or not re.match(rb"-\Z|[ \t]*(\r\n|\r?\Z)", text[at:])
        head = text[at:end]
        if mark in head or not re.match(rb"[ \t]*(\r\n|\Z)", head):
            return parts, False, True
        # The end of the empty line may begin a boundary.
        begin = end + 2
        at = text.find(mark, begin)
        if at >= 0:
            parts.append((head, text[begin + 2 : at]))
    return parts, False, False


def said(head):
    """The name, the file's name and the type that a head says."""
    name = re.search(rb'[; ]name="([^"]*)"', head)
    filename = re.search(rb'[; ]filename="([^"]*)"', head)
    kind = re.search(rb"(?i)\r\nContent-Type:[ \t]*(.*?)[ \t]*(\r\n(?![ \t])|\Z)", head, re.S)
    return [found.group(1) if found else b"-" for found in (name, filename, kind)]


def printed(text):
    """A text as it is printed, which ends neither a column nor a line."""
    return re.sub(rb"[\x00-\x1f\x7f]", b"?", text)


def run(words, body, chance):
    """What the program writes, and its status."""
    going = subprocess.Popen([PROGRAM, *words], stdin=subprocess.PIPE, stdout=subprocess.PIPE, stderr=subprocess.PIPE)
    at = 0
    try:
        while at < len(body):
            count = chance.choice([1, 3, 64, len(body)])
            going.stdin.write(body[at : at + count])
            going.stdin.flush()
            at += count
        going.stdin.close()
    except BrokenPipeError:
        # It reads no further than it has to.
        pass
    out = going.stdout.read()
    going.stdout.close()
    going.stderr.close()
    return out, going.wait()


def is_right(boundary, body, chance):
    """Whether the parts of this body are listed, or as many as there are, and each name's first is written."""
    parts, ended, wrong = whole_parts(boundary, body)
    want = b"".join(b"\t".join(map(printed, said(head))) + b"\t%d\n" % len(text) for head, text in parts)
    out, status = run(["list", boundary], body, chance)
    if out != want or status != (0 if ended else 4 if wrong else 5):
        return False
    for head, text in parts[:1]:
        name = said(head)[0]
        if name != b"-":
            out, status = run(["get", boundary, name], body, chance)
            if out != text or status != 0:
                return False
    return True


def random_body(chance):
    """A boundary, and a body of parts in which its beginnings stand."""
    boundary = chance.choice([b"b", b"ab-", b"----WebKitFormBoundary7MA4YWxk"])
    pieces = [b"\r\n", b"\r", b"\n", b"-", b"--", b"\r\n-", b"\r\n--" + boundary[:-1], b"x", b"--" + boundary, b"\x00" * 9]
    body = chance.choice([b"", b"preamble\r\n", b"\r\n"])
    for number in range(chance.randrange(4)):
        name = chance.choice([b"n%d" % number, b"a\n\tb\x7f"])
        head = chance.choice([b"", b'Content-Disposition: form-data; name="%s"\r\n' % name, b"A: b\r\n"])
        text = b"".join(chance.choice(pieces) for _ in range(chance.randrange(9)))
        body += b"--" + boundary + chance.choice([b"", b" "]) + b"\r\n" + head + b"\r\n" + text + b"\r\n"
    return boundary, body + b"--" + boundary + chance.choice([b"--", b"--\r\nepilogue", b"-", b""])


def encoded():
    """Bodies of encoders."""
    message = email.mime.multipart.MIMEMultipart("mixed", boundary="=====7330==")
    message.attach(email.mime.text.MIMEText("hello\n"))
    message.attach(email.mime.text.MIMEText("<b>x</b>", "html"))
    message.preamble = "This is a multi-part message in MIME format."
    yield b"=====7330==", message.as_bytes(policy=email.policy.HTTP).split(b"\r\n\r\n", 1)[1]
    for path in sorted((TOP / "tests/multipart").glob("*.body")):
        body = path.read_bytes()
        yield re.match(rb"--(.*)\r\n", body).group(1), body


def main():
    count, seed = (sys.argv[1:] + ["300", "1"][len(sys.argv) - 1 :])[:2]
    chance = random.Random(int(seed))
    bodies = list(encoded())
    bodies += [(boundary, body[:cut]) for boundary, body in bodies for cut in range(0, len(body), 7)]
    bodies += [random_body(chance) for _ in range(int(count))]
    wrong = [(boundary, body) for boundary, body in bodies if not is_right(boundary, body, chance)]
    for boundary, body in wrong[:5]:
        print(f"parts: {boundary} in {body}", file=sys.stderr)
    print(f"parts: {len(bodies)} bodies, {len(wrong)} of them wrong")
    sys.exit(1 if wrong else 0)


main()
