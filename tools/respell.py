#!/usr/bin/env python3
"""Brings the names of definitions, lemmas, constructors and record fields that specs/ and proofs/ declare to snake case.

usage: tools/respell.py [--list] [ROOT]      from the top of the repository; --list prints the renames and writes nothing

A name's capitals inside become underscores. A dash stays where it joins two names of definitions, as in length-file_of, and becomes an underscore
elsewhere. Types, facts and variants keep their capitals, and so does what comes from src/. A file's own text is renamed only where it declares the
name, imports it from the crate that declares it, or has it as a field.
"""
import pathlib
import re
import sys

TOKEN = re.compile(r"[A-Za-z0-9_'₀-₉ᴰ·ℓ-]+")
DECLARED = re.compile(r"^[ ]*(?:unfoldable )?(?:abbrev )?(?:ruleset )?(?:pub )?(?:unfoldable )?((?:[a-z][\w'·₀-₉ᴰ-]*)(?: [a-z][\w'·₀-₉ᴰ-]*)*)(?: \{[^}]*\})? :(?= |$)")
USE = re.compile(r"use Rattle\.(\w+)\.((?:specs|proofs)(?:\.[\w+'-]+)*)\.(?:\{([^}]*)\}|([\w'·-]+)(?![\w'·.-]))(?: as ([\w'-]+))?", re.S)
LIBRARY = set("length take drop map filter append reverse replicate get_or set T cond not insert remove ap sym sum".split())
# Fields that would fall together with a field from src/: a dash joins their two names.
APART = {"door-from": "door-from", "door-to": "door-to"}


def snake(part):
    if part[:1].isupper() or not part:
        return part
    return re.sub(r"(?<=[a-z0-9])([A-Z])", lambda m: "_" + m.group(1).lower(), re.sub(r"([A-Z]+)(?=[A-Z][a-z])", lambda m: m.group(1).lower(), part)).replace("·", "_")


class Names:
    def __init__(self, root):
        self.files = {}
        self.words = set(LIBRARY)
        for p in sorted(root.glob("crates/*/specs/*.antt")) + sorted(root.glob("crates/*/proofs/*.antt")):
            crate, kind, module = p.parts[-3], p.parts[-2], p.stem
            declared, fields = set(), set()
            in_record = None
            for line in p.read_text(encoding="utf-8").split("\n"):
                code = line.split("--")[0] if line.lstrip().startswith("--") else line
                indent = len(code) - len(code.lstrip())
                if re.match(r" *(pub )?(record|data) ", code):
                    in_record = indent
                elif code.strip() and in_record is not None and indent <= in_record:
                    in_record = None
                m = DECLARED.match(code)
                if m and not re.match(r" *(let|in|where|module|use) ", code):
                    for name in m.group(1).split():
                        if name in ("pub", "abbrev", "unfoldable"):
                            continue
                        declared.add(name)
                        if in_record is not None:
                            fields.add(name)
            self.files[(crate, f"{kind}.{module}")] = (declared, fields)
            if kind == "specs":
                self.words |= {n for n in declared if "-" not in n}
        self.fields = set().union(*(f for _, f in self.files.values())) if self.files else set()
        self.apart = dict(APART)
        together = {}
        for n in set().union(*(d for d, _ in self.files.values())):
            together.setdefault(self.new(n), []).append(n)
        # A lemma with its definition's name gets `_lem`, a field keeps its dash.
        for new, olds in together.items():
            for n in sorted(olds, key=lambda n: (n.count("-"), n))[1:]:
                self.apart[n] = n if n in self.fields else new + "_lem"

    def new(self, name):
        if name in self.apart:
            return self.apart[name]
        parts = name.split("-")
        out = snake(parts[0])
        for a, b in zip(parts, parts[1:]):
            out += ("-" if a in self.words and b in self.words else "_") + snake(b)
        return out


def renames_of(path, text, names, crate, module):
    """What is renamed in a file: {old: new}, and the aliases of modules of this repository."""
    old = set(n for n in names.fields)
    if (crate, module) in names.files:
        old |= names.files[(crate, module)][0]
    aliases = {}
    for m in USE.finditer(text):
        of, where, several, one, alias = m.groups()
        for item in (several.split(",") if several is not None else [one]):
            item = item.strip().split(" as ")[0].strip()
            key = (of, where)
            if key in names.files and item in names.files[key][0]:
                old.add(item)
            if several is None and (of, where + "." + item) in names.files and alias:
                aliases[alias] = names.files[(of, where + "." + item)][0]
    return {n: names.new(n) for n in old if names.new(n) != n}, aliases


def respell(text, renames, aliases, names):
    out, at = [], 0
    for m in TOKEN.finditer(text):
        t = m.group(0)
        before = text[max(0, m.start() - 40):m.start()]
        new = renames.get(t, t)
        q = re.search(r"([\w'-]+)\.$", before)
        if q and q.group(1) in aliases and t in aliases[q.group(1)]:
            new = names.new(t)
        out += [text[at:m.start()], new]
        at = m.end()
    return "".join(out) + text[at:]


CLAUSE = re.compile(r"(?:requires|ensures|ghost)\*?(?: \w+)?(?::)? \{|ghost use ")


def clauses(text):
    """The spans of a .rt file's clauses and ghost uses."""
    for m in CLAUSE.finditer(text):
        if text[m.end() - 1] == " ":
            yield m.start(), text.index(";", m.end())
            continue
        depth, i = 1, m.end()
        while depth:
            depth += {"{": 1, "}": -1}.get(text[i], 0)
            i += 1
        yield m.start(), i


def page(text, renames):
    """A page: names with a capital inside wherever they stand, other names between backticks."""
    text = re.sub(r"`[^`\n]*`", lambda m: TOKEN.sub(lambda t: renames.get(t.group(0), t.group(0)), m.group(0)), text)
    capital = {o: n for o, n in renames.items() if re.search(r"[a-z][A-Z]", o)}
    return TOKEN.sub(lambda t: capital.get(t.group(0), t.group(0)), text)


def main():
    words = [w for w in sys.argv[1:] if w != "--list"]
    root = pathlib.Path(words[0] if words else ".").resolve()
    names = Names(root)
    everything, falls = {}, {}
    for p in sorted(root.glob("crates/*/*/**/*")):
        if p.suffix not in (".antt", ".rt") or "out" in p.parts:
            continue
        rel = p.relative_to(root / "crates").parts
        crate, kind = rel[0], rel[1]
        module = f"{kind}.{p.stem}" if len(rel) == 3 else ""
        text = p.read_text(encoding="utf-8")
        renames, aliases = renames_of(p, text, names, crate, module)
        if p.suffix == ".rt":
            done, at = [], 0
            for a, b in clauses(text):
                if a < at:
                    continue
                done += [text[at:a], respell(text[a:b], renames, aliases, names)]
                at = b
            new = "".join(done) + text[at:]
            new = re.sub(r"//.*", lambda m: page(m.group(0), {o: n for o, n in renames.items() if re.search(r"[a-z][A-Z]", o)}), new)
        else:
            new = respell(text, renames, aliases, names)
        there = set(TOKEN.findall(re.sub(r"(?m)--.*$|//.*$", "", text)))
        used = {o: n for o, n in renames.items() if o in there}
        for o, n in used.items():
            others = [x for x in used if x != o and used[x] == n]
            if (n in there and p.suffix == ".antt" and len(rel) == 3) or others:
                falls.setdefault((o, n), []).append(str(p.relative_to(root)))
        everything.update(used)
        if new != text and "--list" not in sys.argv:
            p.write_text(new, encoding="utf-8")
    if "--list" not in sys.argv:
        for p in [*sorted(root.glob("*.md")), *sorted(root.glob("docs/**/*.md"))]:
            text = p.read_text(encoding="utf-8")
            new = page(text, everything)
            if new != text:
                p.write_text(new, encoding="utf-8")
    for o, n in sorted(everything.items()):
        if "--list" in sys.argv:
            print(f"{o} {n}")
    for (o, n), where in sorted(falls.items()):
        print(f"look: {o} and {n} are both in {', '.join(where[:4])}{' ..' if len(where) > 4 else ''}", file=sys.stderr)


main()
