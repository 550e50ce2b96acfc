"""The sources as tests/called.py reads them: what each module declares, imports and hands on, and the type of each function.

A type is its name and what stands in its brackets; references are left out. It is known as far as signatures say it.
"""
import collections
import pathlib
import re

from causes import end_of

TOP = pathlib.Path(__file__).resolve().parent.parent
TOKEN = re.compile(r"[A-Za-z_]\w*|'[a-z_]\w*(?!')|\d[\w.]*\d|\d\w*|::|->|=>|\.\.=?|&&|\|\||==|!=|<=|>=|[^\s\w]")
SKIPPED = re.compile(r"""//[^\n]*|b?r?"(?:\\.|[^"\\])*"|b?'(?:\\.[^']*|[^'\\])'""", re.S)
CLAUSE = re.compile(r"\b(?:ensures|requires|ghost)\*? *\w*:? *\{")


def code_of(path):
    """The text of a source without comments, what is quoted, and clauses."""
    text = SKIPPED.sub(lambda it: " " if it.group().startswith("/") else '""', path.read_text(encoding="utf-8"))
    text = re.sub(r"\bghost use [^;]*;", "", text)
    while at := CLAUSE.search(text):
        text = text[: at.start()] + text[end_of(text, at.end() - 1) :]
    return text


class Tokens(list):
    """The tokens of a text. A bracket knows where it ends."""

    def __init__(self, text):
        super().__init__(TOKEN.findall(text) if isinstance(text, str) else text)
        self.ends, open_ = {}, []
        for at, it in enumerate(self):
            if it in ("(", "[", "{"):
                open_.append(at)
            elif it in (")", "]", "}"):
                self.ends[open_.pop()] = at

    def member(self, at, end):
        """Where the member of a bracket ends that begins here."""
        while at < end and self[at] not in (",", ";"):
            at = self.angle(at) if self[at] == "<" else self.ends.get(at, at) + 1
        return at

    def until(self, at, *stops):
        """Where one of these comes next, outside of brackets."""
        while at < len(self) and self[at] not in stops:
            at = self.ends.get(at, at) + 1
        return at

    def angle(self, at):
        """Behind the `>` of the `<` that is here."""
        depth = 0
        while at < len(self):
            depth += (self[at] == "<") - (self[at] == ">")
            at = self.ends.get(at, at) + 1
            if depth == 0:
                return at
        return at


# A type: its name, and what stands in its brackets. A name of these crates says where it is declared, a variable begins with `'`,
# and references are left out.
Type = collections.namedtuple("Type", "name args", defaults=[()])
# A function: its type, its variables, its arguments by pattern and type, what it returns, its body, its module, its trait, and
# whether it is lent all and returns nothing, as a law of states alone: then a call of it does nothing.
Fn = collections.namedtuple("Fn", "owner name variables arguments returned body file trait is_idle")


def substituted(type_, by):
    if type_ is None or type_.name.startswith("'"):
        return by.get(type_.name) if type_ else None
    return Type(type_.name, tuple(substituted(it, by) for it in type_.args))


def unify(wanted, given, by):
    """Notes what the variables of a type stand for, where it is that one."""
    if wanted is None or given is None:
        return
    if wanted.name.startswith("'"):
        by.setdefault(wanted.name, given)
    elif wanted.name == given.name:
        for one, other in zip(wanted.args, given.args):
            unify(one, other, by)


def inside(type_, at=0):
    """What is in an `Ok`, in a `Some`, or at an index."""
    return type_.args[at] if type_ and at < len(type_.args) else None


class Module:
    def __init__(self, crate, name):
        self.crate, self.name, self.items, self.uses, self.modules, self.public = crate, name, set(), {}, {}, set()


class Sources:
    """All crates: what each module declares, imports and hands on."""

    def __init__(self, crates):
        self.crates, self.files = {}, []
        for crate in crates:
            root = TOP / "crates" / crate / "src"
            top = root / ("main.rt" if (root / "main.rt").is_file() else "lib.rt")
            self.crates[crate] = self.read(crate, top, root, crate)

    def read(self, crate, path, folder, name):
        module, code = Module(crate, name), code_of(path)
        self.files.append((module, code))
        for public, of, item in re.findall(r"(?m)^(pub )?(?:const )?(fn|struct|enum|trait|type) (\w+)", code):
            module.items.add(item)
            if public:
                module.public.add(item)
        for public, path_ in re.findall(r"(?m)^(pub )?use ([^;]*);", code):
            for item, whole in imported("".join(re.sub(r"\s+as\s+", "=", path_).split())):
                module.uses[item] = whole
                if public:
                    module.public.add(item)
        for public, item in re.findall(r"(?m)^(pub )?mod (\w+);", code):
            below = next(it for it in (folder / f"{item}.rt", folder / item / "mod.rt") if it.is_file())
            module.modules[item] = self.read(crate, below, folder / item, f"{name}::{item}")
            if public:
                module.public.add(item)
        return module

    def resolve(self, module, path):
        """The name of an item by where it is declared, or the module that a path names."""
        here, parts = module, path
        if parts[0] in ("crate", "self", "super"):
            here, parts = self.crates[module.crate], parts[1:]
            if path[0] != "crate":
                for it in module.name.split("::")[1 : None if path[0] == "self" else -1]:
                    here = here.modules[it]
        elif len(parts) > 1 and parts[0] in self.crates and parts[0] not in module.modules:
            here, parts = self.crates[parts[0]], parts[1:]
        for at, part in enumerate(parts):
            if part in here.modules and not (at == len(parts) - 1 and part in {*here.items, *here.uses}):
                here = here.modules[part]
            elif part in here.uses:
                whole = here.uses[part]
                return self.resolve(here, whole + parts[at + 1 :]) if whole != [part] else self.crates.get(part)
            elif part in here.items:
                return "::".join([here.name, *parts[at:]])
            else:
                return None
        return here

    def named(self, module, seen=None):
        """The items that another crate can name, from here on."""
        seen = set() if seen is None else seen
        for item in module.public:
            found = self.resolve(module, [item])
            if isinstance(found, Module) and found.name not in seen:
                seen.add(found.name)
                yield from self.named(found, seen)
            elif isinstance(found, str):
                yield found


def imported(path, before=()):
    """Each name that a `use` brings, and its whole path."""
    head, brace, rest = path.partition("{")
    parts = [*before, *[it for it in head.split("::") if it]]
    if not brace:
        last, _, renamed = parts[-1].partition("=")
        whole = parts[:-1] if last == "self" else [*parts[:-1], last]
        yield renamed or whole[-1], whole
        return
    depth, begin = 0, 0
    inner = rest[: rest.rindex("}")] + ","
    for at, it in enumerate(inner):
        depth += (it == "{") - (it == "}")
        if it == "," and depth == 0:
            if inner[begin:at]:
                yield from imported(inner[begin:at], parts)
            begin = at + 1


class Program:
    """What the sources declare: functions, fields, variants, and other names of types."""

    def __init__(self, sources):
        self.sources, self.fns, self.methods, self.fields, self.aliases = sources, {}, {}, {}, {}
        self.traits, self.types = set(), set()
        for module, code in sources.files:
            self.declare_types(module, code)
        for module, code in sources.files:
            self.declare_functions(module, code)

    def type_of(self, tokens, module, variables, own=None):
        """The type that these tokens are, and how many they are."""
        at = 0
        while at < len(tokens) and (tokens[at] in ("&", "mut", "dyn", "impl", "const", "*") or tokens[at][0] == "'"):
            at += 1
        if at == len(tokens):
            return None, at
        if tokens[at] in ("(", "["):
            end, args, inner = tokens.ends[at], [], at + 1
            while inner < end:
                stop = tokens.member(inner, end)
                args.append(self.type_of(Tokens(tokens[inner:stop]), module, variables, own)[0])
                if tokens[at] == "[":
                    break
                inner = stop + 1
            return Type("[" if tokens[at] == "[" else "(", tuple(args)), end + 1
        path = [tokens[at]]
        at += 1
        while tokens[at : at + 1] == ["::"] and at + 1 < len(tokens) and tokens[at + 1] != "<":
            path.append(tokens[at + 1])
            at += 2
        args = []
        if tokens[at : at + 1] == ["<"]:
            end, inner = tokens.angle(at) - 1, at + 1
            while inner < end:
                stop = tokens.member(inner, end)
                if tokens[inner][0] != "'":
                    args.append(self.type_of(Tokens(tokens[inner:stop]), module, variables, own)[0])
                inner = stop + 1
            at = end + 1
        if path == ["Self"] and own:
            return own, at
        if len(path) == 1 and path[0] in variables:
            return Type(f"'{path[0]}"), at
        name = self.sources.resolve(module, path)
        if name in self.aliases:
            return self.aliases[name], at
        return Type(name if isinstance(name, str) else path[-1], tuple(args)), at

    def declare_types(self, module, code):
        for at in re.finditer(r"(?m)^(?:pub )?type (\w+)(<[^=]*>)? = ((?:\[[^\]]*\]|[^;\[])*);", code):
            type_ = self.type_of(Tokens(at.group(3)), module, names_in(at.group(2)))[0]
            self.aliases[f"{module.name}::{at.group(1)}"] = type_
        for at in re.finditer(r"(?m)^(?:pub )?(struct|enum) (\w+)(<[^{(;]*>)?(?:\s*where[^{]*)?\s*([({])", code):
            name, of = f"{module.name}::{at.group(2)}", names_in(at.group(3))
            self.types.add(name)
            body = Tokens(code[at.end() - 1 : end_of(code, at.end() - 1)])
            if at.group(1) == "struct":
                self.fields[name] = (of, self.members(body, 0, module, of))
                continue
            variant = 1
            while variant < len(body) - 1:
                stop = body.until(variant, ",", "}")
                if stop > variant + 1 and body[variant + 1] in "({":
                    self.fields[f"{name}::{body[variant]}"] = (of, self.members(body, variant + 1, module, of))
                variant = stop + 1

    def members(self, tokens, at, module, variables):
        """The types of the members in a bracket, by name or number."""
        found, end, is_named, at = {}, tokens.ends[at], tokens[at] == "{", at + 1
        while at < end:
            stop = tokens.member(at, end)
            part = [it for it in tokens[at:stop] if it != "pub"]
            if part:
                name = part[0] if is_named else str(len(found))
                found[name] = self.type_of(Tokens(part[2:] if is_named else part), module, variables)[0]
            at = stop + 1
        return found

    def declare_functions(self, module, code):
        owned = []
        for at in re.finditer(r"(?m)^(?:pub )?(?:impl|trait)\b[^{;]*\{", code):
            owned.append((at.start(), end_of(code, at.end() - 1), Tokens(at.group()[:-1])))
        for at in re.finditer(r"(?m)^ *(pub )?(?:const )?fn (\w+)(?:<[^{;]*?>)?\(", code):
            head = next((it for begin, end, it in owned if begin < at.start() < end), None)
            own, trait, of = self.owner(head, module) if head else (None, "", set())
            of = of | names_in(at.group()[at.group().index(at.group(2)) + len(at.group(2)) : -1])
            end = end_of(code, at.end() - 1)
            tokens = Tokens(code[at.end() - 1 : end])
            rest = re.match(r"\s*(?:->((?:\[[^\]]*\]|[^;\[{])*?))?\s*(?:\bwhere\b[^{;]*)?([{;])", code[end:])
            returned = self.type_of(Tokens(rest.group(1) or "()"), module, of, own)[0]
            begin = end + rest.start(2)
            body = Tokens(code[begin : end_of(code, begin)]) if rest.group(2) == "{" else Tokens("")
            arguments, lent, inner = [], [], 1
            while inner < len(tokens) - 1:
                stop = tokens.member(inner, len(tokens) - 1)
                colon = tokens.until(inner, ":", ",")
                if "self" in tokens[inner:stop]:
                    arguments.append((["self"], own))
                    lent.append("mut" not in tokens[inner:stop] and tokens[inner] == "&")
                elif inner < stop:
                    type_ = self.type_of(Tokens(tokens[colon + 1 : stop]), module, of, own)[0]
                    arguments.append((tokens[inner:colon], type_))
                    lent.append(tokens[colon + 1] == "u16" or tokens[colon + 1] == "&" and tokens[colon + 2] != "mut")
                inner = stop + 1
            is_idle = not rest.group(1) and all(lent)
            fn = Fn(own, at.group(2), of, arguments, returned, body, module, trait, is_idle)
            is_public = bool(at.group(1)) or bool(trait)
            if own:
                self.methods.setdefault((own.name, at.group(2)), []).append((fn, is_public))
            else:
                self.fns[f"{module.name}::{at.group(2)}"] = (fn, is_public)

    def owner(self, head, module):
        """The type that an `impl` is of, its trait, and its variables. A trait is itself one."""
        if head[0] == "trait" or head[:2] == ["pub", "trait"]:
            name = head[head.index("trait") + 1]
            self.traits.add(f"{module.name}::{name}")
            return Type(f"{module.name}::{name}"), "", set()
        at, of = 1, set()
        if head[1] == "<":
            at = head.angle(1)
            of = names_in("".join(f" {it}" for it in head[1:at]))
        first, end = self.type_of(Tokens(head[at:]), module, of)
        if head[at + end : at + end + 1] == ["for"]:
            own = self.type_of(Tokens(head[at + end + 1 :]), module, of)[0]
            return own, first.name, of
        return first, "", of


def names_in(generics):
    """The variables of a bracket `<..>`."""
    tokens, found, depth = TOKEN.findall(generics or ""), set(), 0
    for at, it in enumerate(tokens):
        depth += (it == "<") - (it == ">")
        if depth == 1 and tokens[at - 1] in ("<", ",") and re.match(r"[A-Z]\w*$", it):
            found.add(it)
    return found
