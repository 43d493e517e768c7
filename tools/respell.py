"""Bring this repository's own antt names to the spelling of the style page.

Run it at the top of the repository, after the port's own script:

    python3 tools/respell.py

Definitions, fields, constructors, lemmas and bound names are spelled in snake case: `rgbaAt` becomes `rgba_at`. A dash stays where it joins two
names, on each side a definition that the lemma's file has or a library word (`gather-length`), and else becomes `_` (`fill-begin` becomes
`fill_begin`). What begins with a capital stays, and so does what Rattle makes: all after `tie.`, the names that a Proof.antt declares with such a
type, `f-spec`, labels behind a dot, modules, files. So do names from libraries, Rust names and strings.

A name is changed in an .antt file where that file declares it or imports it from a file of specs/ or proofs/; in an .rt file in clauses and `ghost`
items; in comments and pages in backticks (an .antt comment also cites names bare); and in the texts of must-fail edits. Where two names of one scope
would fall together a lemma gets `_lem`. Each such case is printed. A second run changes nothing.
"""

import collections
import glob
import os
import re
import sys

WORDS = set("length append take drop set get_or map sum replicate add mul sub neg le lt div mod round fits pos".split())

TOKEN = re.compile(r'[^\s(){};,.@"«»`]+')
CAMEL = re.compile(r"(?<=[a-z0-9'])[A-Z]")
DASH = re.compile(r"(?<=[\w'′])-(?=[\w'′])")
MODIFIERS = r"(?:(?:pub|abbrev|unfoldable|rec)\s+)*"
NAMES = r'((?:[^\s(){};,.@"«»:]+ )+)'
DECLARED = re.compile(r"(\s*)(" + MODIFIERS + r")" + NAMES + r"(?:\{[^}]*\} )?: (.*)")
IMPORT = re.compile(r"\buse\s+(Rattle\.\S+?|[^\s.;]+(?:\.[^\s.{;]+)*)(?:\.\{([^}]*)\}|\s+as\s+([^\s;]+)|(?=[\s;]))", re.S)


def snake(name):
    """Each dash and each capital inside as `_`: what two spellings of one name have in common."""
    return CAMEL.sub(lambda m: "_" + m[0].lower(), name).replace("-", "_")


def odd(name):
    """The name can have another spelling: it begins small, and has a capital or a dash inside."""
    first = name.lstrip("#")[:1]
    return first.islower() and "◌" not in name and bool(CAMEL.search(name) or DASH.search(name))


def respell(name, known, plain):
    """The new spelling. In a lemma's name (not `plain`) a dash stays between two known names."""
    new = CAMEL.sub(lambda m: "_" + m[0].lower(), name)

    def dash(m):
        joins = snake(new[: m.start()]) in known and snake(new[m.end():]) in known
        return "-" if joins and not plain else "_"

    return DASH.sub(dash, new)


def pieces(text):
    """The text of an .antt or .rt file as (kind, text): code, string or comment."""
    at = 0
    for m in re.finditer(r'"(?:[^"\\\n]|\\.)*"|(?:(?<=\s)|^)--(?=[\s-]|$)[^\n]*|//[^\n]*', text, re.M):
        yield "code", text[at: m.start()]
        yield ("string" if m[0][0] == '"' else "comment"), m[0]
        at = m.end()
    yield "code", text[at:]


class File:
    """An .antt file: what it imports and declares, and the tokens of its code."""

    def __init__(self, path, modules):
        self.path = path
        self.text = open(path).read()
        self.proof = os.path.basename(path) == "Proof.antt"
        self.library, self.imported, self.aliases, self.keep = set(), set(), {}, set()
        self.declared = {}  # name -> kind
        code = "".join(t if k == "code" else " " for k, t in pieces(self.text))
        for path_, names, alias in IMPORT.findall(code):
            own = is_own(path_, modules)
            for item in names.split(","):
                name, _, other = item.strip().partition(" as ")
                (self.imported if own else self.library).add(name)
                if other:
                    self.declared[other] = "alias"
            if alias:
                self.aliases[alias] = own
                self.declared[alias] = "alias"
        if path.endswith(".antt"):
            self.declare(IMPORT.sub("", code))
        self.declared = {n: k for n, k in self.declared.items() if n not in self.keep}
        self.library -= set(self.declared)
        code = re.sub(r"(?<=[{;])(\s*)[^\s(){};,.]+ = ", r"\1", code)  # the fields of a record's literal
        self.tokens = {m[0] for m in TOKEN.finditer(code) if code[m.start() - 1: m.start()] != "."}

    def declare(self, code):
        block = None  # (indentation, record or data) of the block that a line stands in
        for line in code.split("\n"):
            if not line.strip():
                continue
            indent = len(line) - len(line.lstrip())
            if block and indent <= block[0]:
                block = None
            m = DECLARED.match(line)
            word = line.split()[0]
            if m and word not in ("record", "data", "module", "let", "in") and "record " not in m[2] + m[3][:7] and "data " not in m[3][:5]:
                for name in m[3].split():
                    if m[4].startswith("tie.") or self.proof and name.endswith("-spec"):
                        self.keep.add(name)
                    elif block:
                        self.declared[name] = "field" if block[1] == "record" else "constructor"
                    elif "abbrev" in m[2] or "unfoldable" in m[2] or "/specs/" in self.path:
                        self.declared[name] = "definition"
                    else:
                        self.declared.setdefault(name, "lemma")
            b = re.match(r"\s*(?:pub )?(record|data) [^{]", line)
            if b and not block:
                block = (indent, b[1])
        bound = re.findall(r"[({]((?:[^\s(){};,.@\"«»:=]+ )+): ", code) + re.findall(r"\blet ([^\s(){};,.]+) [:=]", code)
        bound += re.findall(r"λ ([^.(){}]+)\.", code)
        bound += [re.sub(r"[(){};,.]", " ", left) for left in re.findall(r"^ *([^\s=:→.]+ [^=:→.]+) =(?=\s)", code, re.M)]  # an equation's left side
        for names in bound:
            for name in names.split():
                if name not in self.library | self.imported:
                    self.declared.setdefault(name, "bound")


def is_own(path, modules):
    parts = path.split(".")
    if parts[0] != "Rattle" or len(parts) < 4:
        return False
    return tuple(parts[1:4]) in modules


def ghosts(text):
    """The spans of an .rt file's code that are clauses or ghost items."""
    for m in re.finditer(r"\bghost\s+use\b[^;]*;|\b(?:requires|ensures|ghost)\b[^{};]*\{", text):
        end = m.end()
        if not m[0].endswith(";"):
            depth = 1
            while depth and end < len(text):
                depth += {"{": 1, "}": -1}.get(text[end], 0)
                end += 1
        yield m.start(), end


def main():
    paths = sorted(glob.glob("crates/*/specs/**/*.antt", recursive=True) + glob.glob("crates/*/proofs/**/*.antt", recursive=True))
    rust = sorted(p for p in glob.glob("**/*.rt", recursive=True) if "/src/" in p)
    modules = set()
    for p in paths:
        parts = p.split("/")
        if len(parts) == 4:
            modules.add((parts[1], parts[2], parts[3][:-5]))
    files = [File(p, modules) for p in paths]
    shared = [f for f in files if not f.proof]

    # ---- the names that a dash can join, and the words that a lemma cannot have
    functions = {n for p in rust for n in re.findall(r"\bfn ([a-z_0-9]+)", open(p).read())}
    kinds = collections.defaultdict(set)
    for f in shared:
        for n, k in f.declared.items():
            kinds[n].add(k)
    definitions = {n for n in kinds if "definition" in kinds[n]}
    stated = {n for f in shared if "/specs/" in f.path for n, k in f.declared.items() if k == "definition"}
    joined = {f.path: WORDS | {snake(n) for n in (f.imported | set(f.declared)) & stated} for f in files}

    # ---- one map for what is shared, by name
    fields = {n for n in kinds if "field" in kinds[n]}
    new = {}
    for n in kinds:
        if odd(n):
            known = set().union(*(joined[f.path] for f in shared if n in f.declared))
            new[n] = respell(n, known, bool(kinds[n] - {"lemma"}))
    told = []
    # a lemma that has the new name of a definition already
    for n in sorted({new[d] for d in definitions & set(new)} - definitions):
        if kinds.get(n) == {"lemma"}:
            new[n] = n + "_lem"
            told.append((n, n, new[n], "lemma", "a definition gets that name"))
    taken = {new.get(n, n) for n in definitions} | functions

    def users(n):
        return [f for f in files if n in f.imported - f.library or not f.proof and n in f.declared]

    # a lemma leaves the plain name to a definition or function; then to what stands in a file already; then of two that change one gives way
    for n in sorted(new, key=lambda n: (kinds[n] != {"lemma"}, n)):
        if new[n] in (n, n + "_lem") or kinds[n] == {"field"}:
            continue
        only = kinds[n] <= {"lemma", "bound"}
        why = None
        if kinds[n] == {"lemma"} and new[n] in taken:
            why = "a definition or function has that name"
        else:
            for f in users(n):
                others = {o for o in f.declared | dict.fromkeys(f.imported - f.library) if o != n and new.get(o, o) == new[n] and f.declared.get(o) != "field"}
                if new[n] in f.tokens and new.get(new[n], new[n]) == new[n] and (f.declared.get(new[n]) != "field" or new[n] in f.imported):
                    others.add(new[n])
                if others:
                    why = "beside " + ", ".join(f"`{o}`" for o in sorted(others)) + " in " + f.path
                    break
        if why:
            before = new[n]
            new[n] = before + "_lem"
            told.append((n, before, new[n], "/".join(sorted(kinds[n])), why))
    new = {n: m for n, m in new.items() if n != m}
    lemmas = {n for n in kinds if kinds[n] == {"lemma"} and n not in functions}

    # ---- each file
    changed, counts = 0, collections.Counter()

    def write(path, text, before):
        nonlocal changed
        if text != before:
            changed += 1
            open(path, "w").write(text)

    def in_backticks(text, table):
        return re.sub(r"`[^`\n]*`", lambda m: TOKEN.sub(lambda t: cited(t[0], table), m[0]), text)

    def cited(token, table):
        """A page or comment may cite the older spelling of a name that another script has turned."""
        if token not in table and odd(token) and token not in kinds and snake(token) in (stated if CAMEL.search(token) else lemmas):
            return snake(token)
        return swap(token, table)

    def swap(token, table):
        if token in table:
            counts[token] += 1
        return table.get(token, token)

    tables = {}
    for f in files:
        table = {n: new[n] for n in (f.imported | set(f.declared)) - f.library - f.keep if n in new and not (f.proof and n in f.declared)}
        if f.proof:
            for n, kind in sorted(f.declared.items()):
                if odd(n):
                    m = respell(n, joined[f.path], kind != "lemma")
                    if kind == "lemma" and m in taken or m in f.tokens - {n} or m in table.values():
                        told.append((n, m, m + "_lem", kind, "in " + f.path))
                        m += "_lem"
                    if m != n:
                        table[n] = m
        tables[f.path] = table
        out = []
        for kind, text in pieces(f.text):
            if kind == "comment":
                names = {**{n: m for n, m in new.items() if n not in f.keep and n not in f.library}, **table}
                text = in_backticks(text, names)
                text = TOKEN.sub(lambda t: swap(t[0], names) if (CAMEL.search(t[0]) or DASH.search(t[0])) else t[0], text)
            elif kind == "code":
                text = code_of(text, table, new, fields, f.aliases, f.keep, swap)
            out.append(text)
        write(f.path, "".join(out), f.text)

    for path in rust:
        f = File(path, modules)
        table = {n: new[n] for n in f.imported - f.library if n in new}
        tables[path] = table
        clean = "".join(t if k == "code" else re.sub(r"[^\n]", " ", t) for k, t in pieces(f.text))
        spans = list(ghosts(clean))
        for n in table:
            if re.search(r"\b" + re.escape(table[n]) + r"\s*:", clean):
                told.append((n, table[n], table[n], "definition", "a Rust parameter or local of that name in " + path))
        out, at = [], 0
        for kind, text in pieces(f.text):
            if kind == "comment":
                text_ = in_backticks(text, new)
            elif kind == "code":
                text_, i = "", 0
                for a, b in spans:
                    a, b = max(a - at, i), min(b - at, len(text))
                    if a < b:
                        text_ += text[i:a] + code_of(text[a:b], table, new, fields, f.aliases, set(), swap)
                        i = b
                text_ += text[i:]
            else:
                text_ = text
            out.append(text_)
            at += len(text)
        write(path, "".join(out), f.text)

    for path in sorted(glob.glob("crates/*/must-fail/*.edit")):
        before = open(path).read()
        target = re.search(r"^file: *(\S+)", before, re.M)
        target = os.path.join(os.path.dirname(os.path.dirname(path)), target[1] if target else "")
        table = tables.get(target, {})
        # the edits still have the older texts: a name that is declared nowhere else than in specs/ or proofs/ is ours there
        head, mark, body = before.partition("\nold:")
        text = head + mark + "".join(t if k != "code" else code_of(t, table, new, fields, {}, set(), swap) for k, t in pieces(body))
        write(path, text, before)

    for path in ["README.md"] + sorted(glob.glob("docs/*.md")):
        before = open(path).read()
        write(path, in_backticks(before, new), before)

    for n, m, last, kind, why in told:
        print(f"collision: {kind} `{n}` would be `{m}`, is `{last}`: {why}")
    locals_ = sum(len([n for n in t if n not in new]) for t in tables.values())
    print(f"names changed: {len(new)} shared, {locals_} in one Proof.antt; files written: {changed}")


def code_of(text, table, new, fields, aliases, keep, swap):
    """The code with its tokens renamed: those of the table, and behind a dot or in a record's literal the fields of our records."""

    def one(m):
        token, start, end = m[0], m.start(), m.end()
        if start and text[start - 1] == ".":
            left = re.search(r'([^\s(){};,.@"«»]+)\.$', text[:start])
            owner = left[1] if left else ""
            if owner == "tie" or token in keep:
                return token
            if aliases.get(owner) or token in fields or CAMEL.search(token):
                return swap(token, new)
            return token
        if token in fields and re.match(r" =\s", text[end:]) and re.search(r"(^|[{;])\s*$", text[:start]):
            return swap(token, new)
        return swap(token, table)

    return TOKEN.sub(one, text)


if __name__ == "__main__":
    sys.exit(main())
