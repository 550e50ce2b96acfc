#!/usr/bin/env python3
"""Tries wrong edits, many in one check: the prover must refuse each.

usage, at the top of the repository: python3 tests/edits.py [--after-ci SECONDS] [--anew] [--lanes N] [CRATE | CRATE/NAME ..]

The edits of crates/CRATE/src/reader.rt stand in tests/edits/CRATE/src/reader.edits, and so do those of a file of specs/, which
change a definition, and no body: they break a law that this has to keep. Each begins with a line `edit: NAME`, and an empty line
is between two. `fn: PATH` names the function whose proof it breaks, as `rt check` does below the crate, and `clause: NAME` the
clause that refuses it, alone: answers for other clauses are left out, and a goal of this has to be left. `old: TEXT` and
`new: TEXT` are a part of a line, which stands once in the file, and what stands there instead; a line `file: PATH` before them
names another file. One in crates/CRATE/must-fail/, where `rt ci` tries it too, is a file as that reads it, in which the first
lines are comments.

A function is proved against the contracts of those that it calls. So edits of different functions stand in one check, and
each has its verdict in the line of its own function: one that tells of goals of its own is a refusal. 'It calls X, which is
not proved' says nothing, nor does 'proved' beside others: such an edit is tried alone, and so is one that names no function.

Each crate is proved once at first, over a copy of what its out/ keeps, and each edit is tried over a copy of that. No crate
of the repository is written to, but that libraries below are built where they aren't. What was refused is kept in the crate's
out/, and is not tried again while the edit, the crate, the libraries below it and the kit are the same; --anew tries all.

With --after-ci it begins no check once checks took so many seconds of a processor, where one that goes on counts for two minutes,
leaves out what `rt ci` tries, and takes from `rt ci` that the crates are proved and the libraries below them built: a check
then asks for the edited functions alone, and proves what they call. It leaves out crates above a library that isn't
built, as where `rt ci` kept it from another checkout, and names them. It begins with the edits that have a line `each time`,
however long these take, then come the crates that the last commits touched, and then the others in an order that changes with
each commit.

The last line is 'N passed, M failed'; the status is 0 only if each edit that was tried was refused. A BAD EDIT, which can't be
applied or read, breaks another function than it names, or takes away what a proof file names, fails by hand; with --after-ci it
is told and counts for nothing, as in `rt ci`.
"""
import argparse
import collections
import hashlib
import importlib.machinery
import importlib.util
import json
import os
import pathlib
import random
import re
import shutil
import subprocess
import sys
import tempfile
import threading

TOP = pathlib.Path(__file__).resolve().parent.parent
# What a proof file says where an edit took away what it names.
NAMES = re.compile(r"(\./)?proofs/.*(has no field|is not in scope|has no `|was not admitted)")
# What stands before a reason that an earlier run found, and before one that is no refusal by a contract.
KEPT = "kept: "
UNREAD = "BAD EDIT: only a proof file names what the edit took away: "
# How many edits are drawn in one check at most: one of all that a library has takes minutes.
DRAWN = 6
# What a function's line says where no proof is asked for, whatever its contract.
UNCOVERED = "the borrow checker does not cover this function yet"
# The parts of a function's line that tell of other functions.
OTHERS = re.compile(r"(no proof: )?it (calls|passes|waits|uses) ")

Edit = collections.namedtuple("Edit", "crate name fn pairs each_time clause")


def kit_library():
    """The kit's own library, which knows how a crate is checked."""
    sys.dont_write_bytecode = True
    path = pathlib.Path(shutil.which("rt")).resolve().parent / "rtlib.py"
    loader = importlib.machinery.SourceFileLoader("rtlib", str(path))
    made = importlib.util.module_from_spec(importlib.util.spec_from_loader("rtlib", loader))
    sys.modules["rtlib"] = made
    loader.exec_module(made)
    return made


# ---- edits


def read(path):
    """The edits of a file."""
    text = path.read_text(encoding="utf-8").rstrip("\n")
    if path.suffix == ".edit":
        return [read_one(path.parent.parent.name, "", [f"edit: {path.stem}", *text.split("\n")])]
    crate, part, *_ = path.relative_to(TOP / "tests/edits").parts
    source = path.relative_to(TOP / "tests/edits" / crate).with_suffix(".rt" if part == "src" else ".antt")
    return [read_one(crate, str(source), it.split("\n")) for it in text.split("\n\n")]


def read_one(crate, file, lines):
    """The edit of these lines, which is of that file where they name no other."""
    name, fn, clause, old, pairs = "", "", "", "", []
    for line in lines:
        key, _, value = line.removeprefix("# ").partition(": " if not line.startswith("new:") else ":")
        if key == "edit":
            name = value
        elif key == "fn":
            fn = value
        elif key == "clause":
            clause = value
        elif key == "file":
            file = value
        elif key == "old":
            old = value
        elif key == "new":
            pairs.append((file, old, value.removeprefix(" ")))
    return Edit(crate, name, fn, tuple(pairs), "each time" in lines, clause)


def applied(edits):
    """The texts of the files that the edits change, by path, and the edits that can't be applied beside those before them."""
    texts, left = {}, []
    for edit in edits:
        mine = dict(texts)
        for file, old, new in edit.pairs:
            path = TOP / "crates" / edit.crate / file
            if file not in mine and path.is_file():
                mine[file] = path.read_text(encoding="utf-8")
            if not old or mine.get(file, "").count(old) != 1:
                left.append(edit)
                break
            mine[file] = mine[file].replace(old, new)
        else:
            answers = f"{folder_of(edit)}Answers.antt"
            path = TOP / "crates" / edit.crate / answers
            if edit.clause and answers not in mine and path.is_file():
                mine[answers] = answers_of(edit.clause, path.read_text(encoding="utf-8"))
            if edit.pairs:
                texts = mine
            else:
                left.append(edit)
    return texts, left


def groups_of(edits):
    """As few groups as there are edits of one function, each function once in each; and those that change a definition, alone."""
    by_fn = collections.defaultdict(list)
    for it in edits:
        by_fn[it if not it.fn or any(file.startswith("specs/") for file, _, _ in it.pairs) else it.fn].append(it)
    groups = [[] for _ in range(max((len(them) for fn, them in by_fn.items() if isinstance(fn, str)), default=0))]
    alone = []
    for fn, them in sorted(by_fn.items(), key=lambda it: -len(it[1])):
        if isinstance(fn, str):
            for group, it in zip(sorted(groups, key=len), them):
                group.append(it)
        else:
            alone += [them]
    return groups + alone


# ---- checks


def linked(folder, to):
    """Copies what checks kept, by links where these can be made: a check replaces such a file, and changes none."""

    def copy(one, other):
        try:
            if one.endswith(".oantt"):
                return os.link(one, other)
        except OSError:
            pass
        return shutil.copy2(one, other)

    shutil.copytree(folder, to, symlinks=True, copy_function=copy)


class Copy:
    """A copy of a crate's texts, and of what is proved of it."""

    def __init__(self, crate, room, kept):
        self.crate, self.room, self.kept = crate, pathlib.Path(room), pathlib.Path(room) / "kept"
        for part in ("src", "specs", "proofs"):
            if (pathlib.Path(crate.folder) / part).is_dir():
                shutil.copytree(pathlib.Path(crate.folder) / part, self.room / part)
        if kept and kept.is_dir():
            linked(kept, self.kept)
        else:
            self.kept.mkdir(parents=True)

    def check(self, texts, only=()):
        """What a check with these texts says, and how many seconds of a processor it took."""
        was = {it: (self.room / it).read_text(encoding="utf-8") for it in texts}
        words = [LIBRARY.RATTLE, "check", *self.crate.words(["--jobs", "1"], keeps=False), "--incremental", str(self.kept)]
        for fn in only:
            words += ["--only", fn]
        try:
            for file, text in texts.items():
                (self.room / file).write_text(text, encoding="utf-8")
            with tempfile.TemporaryFile("w+", errors="replace") as out:
                ran = subprocess.Popen(words, cwd=self.room, stdin=subprocess.DEVNULL, stdout=out, stderr=subprocess.STDOUT)
                _, status, used = os.wait4(ran.pid, 0)
                out.seek(0)
                return out.read(), used.ru_utime + used.ru_stime
        finally:
            for file, text in was.items():
                (self.room / file).write_text(text, encoding="utf-8")


def lines_of(said):
    return dict(re.findall(r"(?m)^fn (\S+): (.*)$", said))


def ended(said):
    """How the check ended: 'proved', 'not-proved', or '' where it didn't reach the prover."""
    found = re.findall(r"(?m)^logic=([\w-]+)", said)
    asked = re.findall(r"(?m)^only=(\d+) proved=(\d+)", said)
    if asked:
        return "proved" if asked[-1][0] == asked[-1][1] else "not-proved"
    return found[-1] if found else ""


def folder_of(edit):
    """The folder of the answers of the edit's function."""
    return f"proofs/{edit.fn.replace('::', '/')}/"


def is_of(clause, goal):
    """Whether a goal is one of the clause. That of what is lent names no clause."""
    return "clause-" not in goal if clause == "writes_back" else bool(re.search(rf"clause-{clause}(-|$)", goal))


def answers_of(clause, text):
    """A file of answers without those of other clauses."""
    kept, is_kept = [], True
    for line in text.split("\n"):
        if goal := re.match(r"(?:pub )?(returns[\w-]*)", line):
            is_kept = "clause-" not in goal[1] or is_of(clause, goal[1])
        elif line and line[0] not in " -":
            is_kept = True
        kept += [line] if is_kept else []
    return "\n".join(kept)


def told_of(edit, said):
    """What is said of errors in the proof files of the edit's function: the file, the line, the column, and the whole message."""
    # A message goes on in lines that begin with spaces.
    lines = re.sub(r"\n +", " ", said).split("\n")
    found = [re.match(rf"(?:\./)?({re.escape(folder_of(edit))}\w+\.antt):(\d+):(\d+): error", it) for it in lines]
    return [(at[1], int(at[2]), int(at[3]), line) for at, line in zip(found, lines) if at]


def field_at(text):
    """The field of an answer's own record that the text ends in, if it does: none of a record within it, or of a `let`."""
    records, lets = [], 0
    for it in re.finditer(r"(?<![\w.-])(let|in)(?![\w-])|[{}]|(?m:(?<=[{;])|^)\s*(\w+) = ", text):
        if it[1]:
            lets += 1 if it[1] == "let" else -1
        elif it[0] == "{":
            records.append((lets, ""))
        elif it[0] == "}":
            records = records[:-1]
        elif records:
            records[-1] = (records[-1][0], it[2])
    return records[0][1] if records and records[0][0] == 0 else ""


def goal_at(edit, file, line, column):
    """The goal whose answer stands there, if one does; of an answer with a field for each clause, that of the field."""
    text = (TOP / "crates" / edit.crate / file).read_text(encoding="utf-8")
    lines = (answers_of(edit.clause, text) if edit.clause and file.endswith("Answers.antt") else text).split("\n")[:line]
    begun = next((at for at in range(len(lines) - 1, -1, -1) if lines[at] and lines[at][0] not in " -"), None)
    goal = re.match(r"(?:pub )?(returns[\w-]*)", lines[begun]) if begun is not None else None
    if not goal or "clause-" in goal[1]:
        return goal[1] if goal else ""
    field = field_at("\n".join([*lines[begun:-1], lines[-1][: column - 1]]))
    return f"{goal[1]}-clause-{field}" if field else goal[1]


def left_of(edit, said):
    """The goals of the edit's function that are left: those that nothing proves, and those that an answer doesn't. Not those whose
    answer names what the edit took away."""
    told = [(goal_at(edit, *at), message) for *at, message in told_of(edit, said)]
    unread = [goal for goal, message in told if NAMES.match(message)]
    left = re.findall(r"`(returns[\w-]*)`", lines_of(said).get(f"{edit.crate}::{edit.fn}", "")) + [goal for goal, _ in told]
    return [goal for goal in left if goal not in unread]


def refusal(edit, said):
    """Why the edit's function is refused, or None where its line doesn't say so, or not by the clause that the edit names."""
    line = lines_of(said).get(f"{edit.crate}::{edit.fn}", "")
    own = [it for it in re.split(r"; (?=it |`search`)", line) if not OTHERS.match(it)]
    if not own or own[0].startswith("proved"):
        return None
    if edit.clause:
        return next((f"`{it}` is left" for it in left_of(edit, said) if is_of(edit.clause, it)), None)
    told = [message for *_, message in told_of(edit, said)]
    if told and all(NAMES.match(it) for it in told) and not any("`search` did not prove" in it for it in own):
        return UNREAD + told[0]
    return next((it for it in told if not NAMES.match(it)), line)


def unproved(said):
    """What is said of the first function that isn't proved."""
    return next((f"{fn}: {line}" for fn, line in lines_of(said).items() if not line.startswith("proved")), "")


def unread(said, texts):
    """Whether the edited text didn't reach the prover."""
    uncovered = next((it for it in said.split("\n") if it.startswith("fn ") and UNCOVERED in it), "")
    if uncovered:
        return uncovered
    at = [re.match(r"(?:\./)?(\S+?):\d+:\d+: error: (?:(`[^`]*`): )?(.*)", it) for it in said.split("\n")]
    odd = r"is not in scope|has no field|is no name|operand is missing|expected the end|cannot continue"
    edited = [it for it in texts if not it.endswith("/Answers.antt")]
    wrong = [it[0] for it in at if it and (it[1] in edited or it[1].startswith(("src/", "specs/")))
             and (not it[2] or re.search(odd, re.sub(r"`[^`]*`", "", it[3])))
             and not re.match(r"\d+ declarations? that depend", it[3])]
    return wrong[0] if wrong else "" if ended(said) else said.strip()[:300]


class Budget:
    """The seconds of a processor that checks took, and whether there are some left for another one, if there is a limit."""

    def __init__(self, limit):
        self.limit, self.spent, self.going = limit, [], []

    def spend(self, check):
        self.going.append(check)
        try:
            said, used = check()
        finally:
            self.going.remove(check)
        self.spent.append(used)
        return said

    def is_left(self):
        return not self.limit or sum(self.spent) + 120 * len(self.going) < self.limit


class Refusals:
    """Why edits of a crate were refused by earlier runs, by a sum of all that such a verdict stands on."""

    def __init__(self, crate):
        self.path = pathlib.Path(crate.folder) / "out/refused-edits.json"
        self.stamp = f"{crate.stamp()} {(pathlib.Path(LIBRARY.KIT) / 'KIT-ID').read_text(encoding='utf-8')}"
        try:
            self.found = json.loads(self.path.read_text(encoding="utf-8"))
        except (OSError, ValueError):
            self.found = {}

    def sum(self, edit):
        return hashlib.sha256(repr((self.stamp, edit.fn, edit.clause, edit.pairs)).encode()).hexdigest()

    def of(self, edits):
        return {it: (True, f"{KEPT}{self.found[self.sum(it)]}") for it in edits if self.sum(it) in self.found}

    def keep(self, settled):
        self.found.update({self.sum(it): why for it, (well, why) in settled.items() if well})
        self.path.parent.mkdir(exist_ok=True)
        written = self.path.with_suffix(".new")
        written.write_text(json.dumps(self.found), encoding="utf-8")
        written.replace(self.path)


class Crate:
    """A crate whose edits are tried: what is left to do, and the copies that no lane uses."""

    def __init__(self, crate, edits, room, budget, anew):
        self.crate, self.room, self.budget, self.after_ci = crate, f"{room}/{crate.name}", budget, bool(budget.limit)
        self.refusals, self.keeping = Refusals(crate), threading.Lock()
        self.found = {} if self.after_ci or anew else self.refusals.of(edits)
        self.edits = [it for it in edits if it not in self.found]
        self.groups = groups_of([it for it in self.edits if it.each_time])
        others = groups_of([it for it in self.edits if not it.each_time])
        if self.after_ci:
            others = [it[at : at + DRAWN] for it in others for at in range(0, len(it), DRAWN)]
        self.groups += others
        self.kept = None if self.after_ci else pathlib.Path(crate.folder) / "out/incremental"
        self.begun = self.ready = self.after_ci or not self.edits
        self.idle, self.made, self.busy = [], 0, 0

    def check(self, copy, texts, only=()):
        return self.budget.spend(lambda: copy.check(texts, only))

    def copy(self):
        """A copy that no lane uses, or another one."""
        if self.idle:
            return self.idle.pop()
        self.made += 1
        return Copy(self.crate, f"{self.room}-{self.made}", self.kept)

    def begin(self, copy):
        """Proves the crate as it stands, over which its edits are tried."""
        with BUILDING:
            lacks = any(it.build_rlib(["--jobs", "1"], anew=False) for it in self.crate.below())
        if lacks or ended(self.check(copy, {})) != "proved":
            self.found.update({it: (False, "the crate itself, or a library below it, is not proved") for it in self.edits})
            self.groups = []
        self.kept, self.ready = copy.kept, True

    def together(self, copy, group):
        """The verdicts of a group, by edit: whether it is refused, and what is said. Those that it doesn't settle are lacking."""
        texts, left = applied(group)
        asked = [it for it in group if it.fn and it not in left]
        if len(asked) < 2:
            return {}
        said = self.check(copy, texts, [it.fn for it in asked] if self.after_ci else ())
        if ended(said) != "not-proved" or unread(said, texts):
            return {}
        found = {it: refusal(it, said) for it in asked}
        return {it: (not why.startswith(UNREAD), why) for it, why in found.items() if why}

    def alone(self, copy, edit):
        """The verdict of one edit. Behind `rt ci` its function alone is asked for first, and the whole crate where that is proved."""
        texts, left = applied([edit])
        if left:
            return False, "BAD EDIT: an 'old:' text stands not just once in its file"
        for only in [[edit.fn], []] if self.after_ci and edit.fn else [[]]:
            said = self.check(copy, texts, only)
            if unread(said, texts):
                return False, f"BAD EDIT: it did not reach the prover: {unread(said, texts)}"
            why = refusal(edit, said) if edit.fn else unproved(said)
            if why and ended(said) != "proved":
                return not why.startswith(UNREAD), why
        if ended(said) == "proved":
            return False, "NOT REFUSED: the crate is still proved with this edit"
        return False, f"BAD EDIT: another function than {edit.fn} is refused, or another clause than {edit.clause or 'one of its own'}"

    def try_group(self, copy, group):
        settled = self.together(copy, group)
        for it in group:
            if it not in settled and (it.each_time or self.budget.is_left()):
                settled[it] = self.alone(copy, it)
        with self.keeping:
            self.found.update(settled)
            if not self.after_ci:
                self.refusals.keep(settled)

    def is_of_each_time(self):
        """Whether the next group is one of each time."""
        return bool(self.groups) and self.groups[0][0].each_time

    def takes_a_lane(self):
        """Whether a group can be tried now. Behind `rt ci` a crate has one lane, since each copy proves for itself what is called."""
        return self.ready and self.groups and not (self.after_ci and self.busy)

    def is_done(self):
        return self.ready and not self.groups and not self.busy


class Lanes:
    """Tries the edits of the crates, those of each time and of the first first, and tells of each crate once it is done."""

    def __init__(self, crates, budget, tell):
        self.left, self.budget, self.tell = crates, budget, tell
        self.turn, self.errors = threading.Condition(), []

    def run(self, lanes):
        for it in [it for it in self.left if it.is_done()]:
            self.left.remove(it)
            self.tell(it)
        threads = [threading.Thread(target=self.lane) for _ in range(lanes)]
        for it in threads:
            it.start()
        for it in threads:
            it.join()
        for it in self.errors:
            raise it
        for it in self.left:
            self.tell(it)

    def wanted(self):
        """The crates whose next group there is time for, which there is for those of each time."""
        pressing = [it for it in self.left if it.is_of_each_time()]
        return pressing + [it for it in self.left if it not in pressing] if self.budget.is_left() else pressing

    def task(self):
        """A crate, and a group of its edits or None where it is to be begun; or no crate where nothing is left to do."""
        while (wanted := self.wanted()) and not self.errors:
            for it in wanted:
                if not it.begun:
                    it.begun = True
                    return it, None
                if it.takes_a_lane():
                    return it, it.groups.pop(0)
            self.turn.wait()
        return None, None

    def lane(self):
        while True:
            with self.turn:
                crate, group = self.task()
                if not crate:
                    self.turn.notify_all()
                    return
                crate.busy += 1
                copy = crate.copy()
            try:
                crate.try_group(copy, group) if group else crate.begin(copy)
            except BaseException as error:
                self.errors.append(error)
            with self.turn:
                crate.busy -= 1
                crate.idle.append(copy)
                if crate.is_done():
                    self.left.remove(crate)
                    self.tell(crate)
                    for it in crate.idle:
                        shutil.rmtree(it.room, ignore_errors=True)
                self.turn.notify_all()


def in_turn(edits):
    """The names of the crates, those first that the last commits touched, and the edits of each, in an order that changes with each
    commit."""
    def git(*words):
        return subprocess.run(["git", *words], cwd=TOP, capture_output=True, text=True).stdout.strip()

    head, at = git("rev-parse", "HEAD"), int(git("log", "-1", "--format=%ct") or 0)
    before = git("rev-list", "-1", f"--before={at - 8 * 3600}", "HEAD")
    touched = set(re.findall(r"(?m)^crates/(\w+)/", git("diff", "--name-only", before, "HEAD"))) if before else set()
    chance = random.Random(head)
    mixed = {it: chance.sample(edits[it], len(edits[it])) for it in chance.sample(sorted(edits), len(edits))}
    return sorted(mixed, key=lambda it: it not in touched), mixed


def main():
    parser = argparse.ArgumentParser(description=__doc__, formatter_class=argparse.RawDescriptionHelpFormatter)
    parser.add_argument("--after-ci", type=int, metavar="SECONDS")
    parser.add_argument("--anew", action="store_true")
    parser.add_argument("--lanes", type=int, default=len(os.sched_getaffinity(0)))
    parser.add_argument("wanted", nargs="*")
    given = parser.parse_args()
    files = [*TOP.glob("tests/edits/**/*.edits")] + ([] if given.after_ci else [*TOP.glob("crates/*/must-fail/*.edit")])
    edits = collections.defaultdict(list)
    for edit in (edit for it in sorted(files) for edit in read(it)):
        if not given.wanted or {edit.crate, f"{edit.crate}/{edit.name}"} & {*given.wanted}:
            edits[edit.crate].append(edit)
    every, budget, counts = sum(map(len, edits.values())), Budget(given.after_ci), collections.Counter()
    # Its first call sets a signal's handler, which only the main thread may, and lanes build libraries.
    LIBRARY.guarded()
    crates = {it.name: it for it in LIBRARY.crates_below(str(TOP))}
    names, edits = in_turn(edits) if given.after_ci else ([it for it in crates if it in edits], edits)

    def tell(crate):
        for edit, (well, why) in sorted(crate.found.items(), key=lambda it: it[0].name):
            counts["passed" if well else "told" if given.after_ci and why.startswith("BAD EDIT") else "failed"] += 1
            counts["kept"] += why.startswith(KEPT)
            print(f"{edit.crate}/{edit.name}: {'refused, as it must be' if well else 'FAILED'}: {why[:200]}", flush=True)

    # A library that `rt ci` keeps from another checkout isn't built in this one, so no edit above it can be tried here. One that it
    # builds has no stamp, as those of other commands have.
    unbuilt = [it for it in names if given.after_ci and not all(pathlib.Path(below.rlib).is_dir() for below in crates[it].below())]
    names = [it for it in names if it not in unbuilt]
    with tempfile.TemporaryDirectory(prefix="edits-") as room:
        Lanes([Crate(crates[it], edits[it], room, budget, given.anew) for it in names], budget, tell).run(given.lanes)
    spent = budget.spent
    if unbuilt:
        print(f"not tried, since `rt ci` kept a library below and built none here: the edits of {', '.join(unbuilt)}")
    if counts["kept"]:
        print(f"{counts['kept']} of these were refused by an earlier run, and nothing that they stand on has changed")
    tried = counts["passed"] + counts["failed"] + counts["told"] - counts["kept"]
    print(f"tried {tried} of {every} edits in {len(spent)} checks, {sum(spent):.0f} seconds of a processor")
    print(f"{counts['passed']} passed, {counts['failed']} failed")
    return 1 if counts["failed"] else 0


BUILDING = threading.Lock()
LIBRARY = kit_library()
if __name__ == "__main__":
    sys.exit(main())
