#!/usr/bin/env python3
"""Lists each public call of a library that no test, no row and no caller makes.

A public call is a `pub fn` that another crate can name, or a method that a trait gives to a type that it can name. It is made by
the tests, by `uses`, whose callers are copied, or by a program, which the rows of `replay` and of the scripts in tests/ run.

Whose call `x.read(..)` is depends on the type of `x`, so this follows types: from what a function's arguments are, through what
each call returns as its signature says, into the bindings of `let`, `match`, `if let` and `for`. A call of a function that is
generic counts for the type that it is given, for what that function calls on it, and those that it hands it to. What it can't
follow, as the argument of a closure, or what a call of std returns, counts for no type: so a call may be listed that is made,
and is then made where this can tell, but none that is made of another type alone is left out.

Texts (`fmt`), conversions (`from`) and drops are left out, since no call names them; so is a law of states alone, which is
lent all and returns nothing. A method of a trait of the libraries' own, as of a policy or a decoder, is called by a library: it
counts as made where its type is named. A function that is called without being run, as in a caller that is just proved, counts
too: whether it came to something the tests say.

tests/uncalled.txt names those that a library alone makes, since they rest on what calls before them said, which no test proves;
and beside each the module that calls it. One that stands there alone nothing makes yet.
"""
import collections
import re
import sys

from causes import LEFT_OUT
from typed import TOP, Program, Sources, Tokens, Type, inside, substituted, unify

UNNAMED = ("fmt", "from", "drop")
# Of these of std the value inside is bound by `?`, `Ok(..)` or `Some(..)`.
WRAPPERS = ("Result", "Option")
UNWRAPS = ("unwrap", "expect", "unwrap_or", "unwrap_or_default", "ok", "as_mut", "as_ref", "by_ref", "clone", "into_iter")


class Body:
    """Goes through a function's body, and notes whose calls it makes."""

    def __init__(self, program, fn, made, handed):
        self.program, self.fn, self.made, self.handed = program, fn, made, handed
        self.tokens, self.bound = fn.body, {}
        for pattern, type_ in fn.arguments:
            self.bind(pattern, type_)
        if self.tokens:
            self.block(0)

    def named(self, path):
        found = self.program.sources.resolve(self.fn.file, path)
        return found if isinstance(found, str) else None

    def bind(self, pattern, type_):
        """Notes what the names of a pattern are."""
        pattern = Tokens([it for it in pattern if it not in ("&", "mut", "ref", "move")])
        if not pattern:
            return
        if len(pattern) == 1:
            self.bound[pattern[0]] = type_
            return
        at = 1
        while pattern[at : at + 1] == ["::"]:
            at += 2
        if pattern[0] == "(":
            at, members = 0, dict(enumerate(type_.args if type_ and type_.name == "(" else ()))
        elif pattern[at : at + 1] in (["("], ["{"]):
            path = pattern[0:at:2]
            members = self.members(path, type_)
        else:
            return
        inner, count = at + 1, 0
        while inner < pattern.ends.get(at, 0):
            stop = pattern.until(inner, ",", ")", "}")
            part = pattern[inner:stop]
            if part:
                key = part[0] if pattern[at] == "{" else str(count) if pattern[0] != "(" else count
                self.bind(part[2:] if part[1:2] == [":"] else part, members.get(key))
            inner, count = stop + 1, count + 1

    def members(self, path, type_):
        """The types of what a pattern of this path takes apart."""
        if path[-1] in ("Ok", "Some"):
            return {"0": inside(type_)}
        if path[-1] == "Err":
            return {"0": inside(type_, 1)}
        name = type_.name if type_ and path == ["Self"] else self.named(path)
        of, members = self.program.fields.get(name, (set(), {}))
        by = dict(zip(sorted(f"'{it}" for it in of), type_.args)) if type_ else {}
        if len(of) > 1:
            by = {}
        return {key: substituted(it, by) for key, it in members.items()}

    def block(self, at):
        """Goes through what is in a bracket, and returns the type of what it begins with."""
        end, first, count = self.tokens.ends[at], None, 0
        at += 1
        while at < end:
            it = self.tokens[at]
            if it == "let":
                at = self.let(at)
            elif it == "for" and self.tokens[at + 1] != "<":
                stop = self.tokens.until(at, "in")
                pattern = self.tokens[at + 1 : stop]
                type_, at = self.chain(stop + 1)
                if type_ and (type_.name, "next") in self.program.methods:
                    self.made.add((type_.name, "next"))
                self.bind(pattern, inside(type_) if type_ and type_.name in ("[", "Vec") else None)
            elif it == "match":
                type_, at = self.chain(at + 1)
                while self.tokens[at] != "{":
                    at = self.tokens.ends.get(at, at) + 1
                at = self.arms(at, type_)
            elif it == "|":
                at = self.closure(at)
            elif it == "as":
                at += 2
            else:
                type_, then = self.chain(at)
                first = type_ if count == 0 else first
                at, count = max(then, at + 1), count + 1
        return first, end + 1

    def type_of(self, tokens):
        own = self.fn.owner
        return self.program.type_of(Tokens(tokens), self.fn.file, self.fn.variables, own)[0]

    def let(self, at):
        stop = self.tokens.until(at + 1, "=", ";")
        colon = self.tokens.until(at + 1, ":", "=", ";")
        pattern, declared = self.tokens[at + 1 : min(colon, stop)], None
        if self.tokens[colon] == ":":
            while self.tokens[stop - 1 : stop + 1] == ["<", "="]:
                stop += 1
            declared = self.type_of(self.tokens[colon + 1 : stop])
        type_ = None
        if self.tokens[stop] == "=":
            if self.tokens[stop + 1] in ("if", "match", "loop", "{"):
                if self.tokens[stop + 1] == "if" and declared is None:
                    declared = self.block(self.tokens.until(stop + 1, "{"))[0]
                self.bind(pattern, declared)
                return stop + 1
            type_, stop = self.chain(stop + 1)
        self.bind(pattern, declared or type_)
        return stop

    def arms(self, at, type_):
        """Goes through the arms of a `match`."""
        end = self.tokens.ends[at]
        at += 1
        while at < end:
            stop = self.tokens.until(at, "=>")
            guard = self.tokens.until(at, "if", "=>")
            for part in self.alternatives(self.tokens[at:guard]):
                self.bind(part, type_)
            inner = guard
            while inner < stop:
                inner = max(self.chain(inner)[1], inner + 1)
            at = stop + 1
            if self.tokens[at] == "{":
                at = self.block(at)[1]
            else:
                at = self.until_comma(at, end)
            at += self.tokens[at : at + 1] == [","]
        return end + 1

    def alternatives(self, pattern):
        pattern, begin, found = Tokens(pattern), 0, []
        while begin <= len(pattern):
            stop = pattern.until(begin, "|")
            found.append(pattern[begin:stop])
            begin = stop + 1
        return found

    def until_comma(self, at, end):
        while at < end and self.tokens[at] != ",":
            if self.tokens[at] == "match":
                type_, at = self.chain(at + 1)
                at = self.arms(self.tokens.until(at, "{"), type_)
            elif self.tokens[at] == "let":
                at = self.let(at)
            else:
                at = max(self.chain(at)[1], at + 1)
        return at

    def chain(self, at):
        """The type of a value with the calls on it, and where it ends."""
        while self.tokens[at] in ("&", "&&", "*", "mut", "!", "-", "return", "move", "if", "while", "else", "break"):
            at += 1
            if self.tokens[at] == "let":
                return None, at
        type_, at = self.value(at)
        while at < len(self.tokens):
            if self.tokens[at] == "?":
                type_, at = inside(type_) if type_ and type_.name in WRAPPERS else None, at + 1
            elif self.tokens[at] == "[":
                self.block(at)
                type_, at = None, self.tokens.ends[at] + 1
            elif self.tokens[at] == ".":
                type_, at = self.member(type_, at + 1)
            else:
                return type_, at
        return type_, at

    def value(self, at):
        it = self.tokens[at]
        if it == "(":
            end, parts, inner = self.tokens.ends[at], [], at + 1
            while inner < end:
                type_, then = self.chain(inner)
                whole = self.tokens[then] in (",", ")")
                parts.append(type_ if whole else None)
                inner = self.until_comma(then, end) + 1
            return (parts[0] if len(parts) == 1 else Type("(", tuple(parts))), end + 1
        if it in ("[", "{"):
            type_, end = self.block(at)
            return (Type("[", (type_,)) if it == "[" else None), end
        if not re.match(r"[A-Za-z_]", it) or it in ("let", "match", "for", "in", "as", "loop", "const", "static", "fn"):
            return None, at
        path, at = [it], at + 1
        while self.tokens[at : at + 1] == ["::"]:
            if self.tokens[at + 1] == "<":
                at = self.tokens.angle(at + 1)
            else:
                path.append(self.tokens[at + 1])
                at += 2
        after = self.tokens[at] if at < len(self.tokens) else ""
        if after == "!" and self.tokens[at + 1] in ("(", "["):
            types, end = self.arguments(at + 1)
            if it in ("write", "writeln") and types:
                self.calls_on(types[0], "write_fmt")
            return None, end
        if after == "(":
            return self.call(path, at)
        if after == "{" and self.is_struct(path):
            end = self.block(at)[1]
            return Type(self.named(path) or ""), end
        if len(path) == 1:
            return self.bound.get(it), at
        of_enum = self.named(path[:-1])
        return (Type(of_enum) if of_enum in self.program.types else None), at

    def is_struct(self, path):
        name = self.fn.owner.name if path == ["Self"] and self.fn.owner else self.named(path)
        return name in self.program.fields

    def arguments(self, at):
        """The types of the arguments in a bracket, and where it ends."""
        end, found, inner = self.tokens.ends[at], [], at + 1
        while inner < end:
            if self.tokens[inner] in ("match", "|", "let"):
                found.append(None)
                inner = self.until_comma(self.closure(inner) if self.tokens[inner] == "|" else inner, end) + 1
                continue
            type_, then = self.chain(inner)
            found.append(type_ if self.tokens[then] in (",", ")") else None)
            inner = self.until_comma(then, end) + 1
        return found, end + 1

    def closure(self, at):
        """Binds what a closure is given, and returns where its body begins."""
        stop, at = self.tokens.until(at + 1, "|"), at + 1
        while at < stop:
            then = self.tokens.member(at, stop)
            colon = min(self.tokens.until(at, ":"), then)
            self.bind(self.tokens[at:colon], self.type_of(self.tokens[colon + 1 : then]) if colon < then else None)
            at = then + 1
        return stop + 1

    def goes(self, fn, name, types):
        """Notes a call, with what it calls on what it is given, and returns its type."""
        self.made.add((name, fn.name))
        by = {}
        for (_, wanted), given in zip(fn.arguments, types):
            unify(wanted, given, by)
        for variable, method in self.handed.get(id(fn), ()):
            self.calls_on(by.get(f"'{variable}"), method)
        return substituted(fn.returned, by)

    def calls_on(self, type_, method):
        """Notes a call by its name on a value, and returns the functions that it may be."""
        if type_ is None:
            return []
        if type_.name.startswith("'"):
            self.handed[id(self.fn)].add((type_.name[1:], method))
            return []
        found = [fn for fn, _ in self.program.methods.get((type_.name, method), ())]
        if found:
            self.made.add((type_.name, method))
        return found

    def call(self, path, at):
        types, end = self.arguments(at)
        if path[-1] in ("Ok", "Some") and len(path) == 1:
            return Type("Result" if path[0] == "Ok" else "Option", tuple(types)), end
        if len(path) > 1:
            if len(path) == 2 and path[0] in self.fn.variables:
                self.handed[id(self.fn)].add((path[0], path[1]))
                return None, end
            owner = self.fn.owner.name if path[0] == "Self" and self.fn.owner else self.named(path[:-1])
            owner = self.program.aliases[owner].name if owner in self.program.aliases else owner
            if found := self.program.methods.get((owner, path[-1])):
                fn = found[0][0]
                return self.goes(fn, owner, types), end
        name = self.named(path)
        if name in self.program.fns:
            return self.goes(self.program.fns[name][0], name.rpartition("::")[0], types), end
        if name in self.program.fields:
            of, members = self.program.fields[name]
            by = {}
            for wanted, given in zip(members.values(), types):
                unify(wanted, given, by)
            return Type(name, tuple(by.get(f"'{it}") for it in sorted(of))), end
        return None, end

    def member(self, type_, at):
        name, at = self.tokens[at], at + 1
        if self.tokens[at : at + 1] == ["::"]:
            at = self.tokens.angle(at + 1)
        if at < len(self.tokens) and self.tokens[at] == "(":
            types, end = self.arguments(at)
            found = self.calls_on(type_, name)
            if found:
                return self.goes(found[0], type_.name, [type_, *types]), end
            if type_ and type_.name in WRAPPERS and name in UNWRAPS:
                keeps = name in ("ok", "as_mut", "as_ref", "clone")
                return (type_ if keeps else inside(type_)), end
            return (type_ if name in UNWRAPS else None), end
        of, members = self.program.fields.get(type_.name, (set(), {})) if type_ else (set(), {})
        by = dict(zip(sorted(f"'{it}" for it in of), type_.args)) if type_ and len(of) == 1 else {}
        if type_ and type_.name == "(" and name.isdigit():
            return inside(type_, int(name)), at
        return substituted(members.get(name), by), at


def public_calls(program, libraries):
    """Each call that another crate can name, and the trait of the libraries' own that it is of."""
    for crate in libraries:
        for item in set(program.sources.named(program.sources.crates[crate])):
            if item in program.fns:
                name, _, fn = item.rpartition("::")
                if not program.fns[item][0].is_idle:
                    yield name, fn, ""
            for (owner, method), fns in program.methods.items():
                if owner == item and method not in UNNAMED:
                    for fn, is_public in fns:
                        if is_public:
                            yield owner, method, fn.trait


def crates_listed():
    lines = (TOP / "crates.txt").read_text(encoding="utf-8").splitlines()
    return [it.partition(":")[0].split()[0] for it in lines if ":" in it and not it.startswith("#")]


def made_by(program, every):
    """The calls that these functions make, each by its owner and its name."""
    made, handed, count = set(), collections.defaultdict(set), -1
    while count != (count := len(made) + sum(map(len, handed.values()))):
        for fn in every:
            Body(program, fn, made, handed)
    return made


def main():
    sources = Sources(crates_listed())
    program = Program(sources)
    programs = [it for it in sources.crates if (TOP / "crates" / it / "src/main.rt").is_file()]
    callers = [it for it in sources.crates if it.startswith("tests_") or it in programs or it == "uses"]
    libraries = [it for it in sources.crates if it not in programs and it not in LEFT_OUT and not it.startswith("tests_")]
    every = [fn for fn, _ in program.fns.values()] + [fn for fns in program.methods.values() for fn, _ in fns]
    # The players make the calls that a row of `replay` asks for.
    made = made_by(program, [it for it in every if it.file.crate in callers or it.file.name.startswith("redux_play::play")])
    types = set()
    for module, _ in sources.files:
        if module.crate in callers:
            types |= {it for it in (sources.resolve(module, [name]) for name in module.uses) if isinstance(it, str)}
    calls = {f"{owner}::{name}": (owner, name, trait) for owner, name, trait in public_calls(program, libraries)}
    left = {it for it, (owner, name, trait) in calls.items()
            if (owner, name) not in made and not (trait in program.traits and owner in types)}
    lines = (TOP / "tests/uncalled.txt").read_text(encoding="utf-8").splitlines()
    within = {it: by for it, _, by in (line.partition(" ") for line in lines)}
    wrong = [f"`{it}` is called by no test, no row and no caller" for it in sorted(left - set(within))]
    wrong += [f"tests/uncalled.txt: `{it}` is called, or isn't there" for it in sorted(set(within) - left)]
    wrong += [f"tests/uncalled.txt: `{it}` isn't called within `{by}`" for it, by in within.items()
              if by and it in left and calls[it][:2] not in made_by(program, [fn for fn in every if fn.file.name == by])]
    alone = sum(not by for by in within.values())
    said = f"a test, a row or a caller makes {len(calls) - len(within)} public calls, a library {len(within) - alone} more"
    said += f", and nothing {alone}" if alone else ""
    print("\n".join(wrong) or said)
    return 1 if wrong else 0


if __name__ == "__main__":
    sys.exit(main())
