#!/usr/bin/env python3
"""Brings comments and pages to the names that the kit's script has already given definitions and lemmas.

usage: tools/respell_comments.py      from the top of the repository, after tools/respell.py

A word with a dash or a capital inside is turned in a comment of specs/ and proofs/ where that file declares or imports the new name and nothing has the old one, and between
backticks of a page where some file declares the new name and none the old.
"""
import pathlib
import re

TOKEN = re.compile(r"[A-Za-z0-9_'₀-₉ᴰℓ-]+")
DECLARED = re.compile(r"(?m)^ *(?:unfoldable )?(?:abbrev )?(?:pub )?([a-z][\w'-]*)(?: \{[^}]*\})? :(?= |$)")


def snake(word):
    return re.sub(r"(?<=[a-z0-9])([A-Z])", lambda m: "_" + m.group(1).lower(), word).replace("-", "_")


def main():
    files = [*pathlib.Path("crates").glob("*/specs/*.antt"), *pathlib.Path("crates").glob("*/proofs/**/*.antt")]
    texts = {p: p.read_text(encoding="utf-8") for p in files if "out" not in p.parts}
    declared = {n for t in texts.values() for n in DECLARED.findall(t)}
    for p, text in texts.items():
        code = set(TOKEN.findall(re.sub(r"(?m)^ *--.*$", "", text)))

        def turn(m):
            word = m.group(0)
            return snake(word) if snake(word) != word and word not in code and snake(word) in code & declared else word

        new = re.sub(r"(?m)^ *--.*$", lambda m: TOKEN.sub(turn, m.group(0)), text)
        if new != text:
            p.write_text(new, encoding="utf-8")
    for p in [*pathlib.Path(".").glob("*.md"), *pathlib.Path("docs").glob("**/*.md")]:
        text = p.read_text(encoding="utf-8")

        def named(m):
            word = m.group(0)
            return snake(word) if snake(word) != word and word not in declared and snake(word) in declared else word

        new = re.sub(r"`[^`\n]*`", lambda m: TOKEN.sub(named, m.group(0)), text)
        if new != text:
            p.write_text(new, encoding="utf-8")


main()
