#!/usr/bin/env python3
"""Brings this repository's own definitions and lemmas to Rattle's spelling: words in snake case, types and modules in camel case.

usage: snake_names.py [--list] [FOLDER]

FOLDER is the top of the repository, the default '.'. It runs once, right after port.py: it renames in specs/ and proofs/, in the clauses of src/,
in must-fail edits and in the pages of docs/. Functions of src/, exported names, strings, inputs and outputs keep their names.
--list writes nothing and prints each name that changes with its new spelling.
A line 'clash:' names a spelling that a file has already.
"""

import collections
import os
import re
import subprocess
import sys

NAME = r"[^\s(){}.;,@\"«»]+"
DECLARED = re.compile(rf"(?m)^\s*(?:(?:pub|unfoldable|abbrev|opaque|private) )*({NAME})(?: (?:\{{[^{{}}\n]*\}}|\([^()\n]*\)))* :(?= )")
HEADED = re.compile(rf"(?m)^\s*(?:(?:pub|abbrev|unfoldable) )*(?:record|data) ({NAME})")
QUIET = re.compile(r'"(?:[^"\\\n]|\\.)*"|--[^\n]*|//[^\n]*')
SPAN = re.compile(r"`[^`\n]+`")
CAMEL = re.compile(r"[a-z][\w']*[A-Z]")
# Modules of specs/ and proofs/ that stand beside no module of src/, old and new.
MODULES = {"steps": "Steps", "standard": "Standard"}
# Spellings that fall together with another word, and what is written for them: `first_of` is a tactic, `is_nan` and `place_in` have a lemma of that name.
OTHERS = {"first_of": "first_group_of", "secondOf": "second_group_of", "is-nan": "is_nan_lem", "place-in": "place_in_lem"}
# Lemmas that have their function's name, in the crates where both stand.
LEMMAS = {"listing": {"node_lines"}, "rows": {"rows_in"}, "polygon": {"four_bytes"}, "side_order": {"place-in"}}


def texts(root, ends):
    for top in ("crates",):
        for folder, dirs, files in os.walk(os.path.join(root, top)):
            dirs[:] = sorted(d for d in dirs if d != "out")
            for f in sorted(files):
                if f.endswith(ends):
                    yield os.path.join(folder, f)


def read(path):
    with open(path, encoding="utf-8", newline="") as f:
        return f.read()


def snake(name):
    """The name in snake case; a type that begins with a capital keeps it, and loses its dashes."""
    if name in OTHERS:
        return OTHERS[name]
    name = name.replace("-", "_") if "→" not in name else name.replace("-", "_")
    if re.match(r"[A-Z]", name):
        return name
    return re.sub(r"(?<=[a-z0-9'])([A-Z])", lambda m: "_" + m[1].lower(), name)


def lemmas(root):
    """Top-level names with a dash, which are lemmas."""
    found = set()
    for p in texts(root, (".antt",)):
        if not p.endswith("Proof.antt"):
            found.update(re.findall(rf"(?m)^(?:pub )?({NAME}) :(?= )", re.sub(r"--[^\n]*", "", read(p))))
    return {n for n in found if "-" in n}


def own_names(root):
    found = set()
    for p in texts(root, (".antt",)):
        if p.endswith("Proof.antt"):
            continue
        code = re.sub(r"--[^\n]*", "", read(p))
        found.update(DECLARED.findall(code))
        found.update(HEADED.findall(code))
    return {n for n in found if n in OTHERS or "-" in n or CAMEL.match(n)} - {"-", "→"}


class Turner:
    def __init__(self, table):
        self.table, self.declared = table, set()
        self.word = re.compile(NAME)

    def words(self, text):
        return self.word.sub(lambda m: self.table.get(m[0], m[0]), text)

    def prose(self, text):
        """Words in code spans turn, and bare words that are no words of English: those with a capital inside."""
        text = SPAN.sub(lambda m: re.sub(r"[^\s(){}.;,@\"«»`]+", lambda w: self.known(w[0]), m[0]), text)
        return re.sub(r"(?<![\w'-])[a-z][\w']*[A-Z][\w']*(?![\w'-])", lambda w: self.known(w[0]), text)

    def known(self, word):
        """A word of a page that port.py turned in the code turns too."""
        if word in self.table:
            return self.table[word]
        return snake(word) if snake(word) in self.declared else word

    def code(self, text):
        out, at = [], 0
        for m in QUIET.finditer(text):
            out.append(self.words(text[at : m.start()]))
            out.append(m[0] if m[0].startswith('"') else self.prose(m[0]))
            at = m.end()
        return "".join(out + [self.words(text[at:])])


def modules(root, path, text):
    for old, new in MODULES.items():
        text = re.sub(rf"(?<=\.specs\.){old}(?=\.)|(?<=\.proofs\.){old}(?=\.)", new, text)
        if path.endswith("Lib.antt"):
            text = re.sub(rf"(?m)^((?:pub )?mod ){old}$", rf"\g<1>{new}", text)
    return text


def move(root):
    for folder, dirs, files in os.walk(os.path.join(root, "crates")):
        dirs[:] = [d for d in dirs if d != "out"]
        if os.path.basename(folder) not in ("specs", "proofs"):
            continue
        for old, new in MODULES.items():
            for it in (old + ".antt", old):
                if os.path.exists(os.path.join(folder, it)) and os.path.exists(os.path.join(folder, old + ".antt" if it == old + ".antt" else it)):
                    to = it.replace(old, new, 1)
                    subprocess.run(["git", "mv", os.path.join(folder, it), os.path.join(folder, to)], cwd=root, check=True)


def main(argv):
    listing = "--list" in argv
    rest = [a for a in argv if a != "--list"]
    root = os.path.abspath(rest[0] if rest else ".")
    table = {n: snake(n) for n in own_names(root)}
    defined = {b for a, b in table.items() if CAMEL.match(a)}
    for n in lemmas(root) & set(table):
        if table[n] in defined:
            table[n] += "_lem"
    table = {a: b for a, b in table.items() if a != b}
    together = collections.defaultdict(set)
    for a, b in table.items():
        together[b].add(a)
    for b, olds in sorted(together.items()):
        if len(olds) > 1:
            print(f"clash: {b}: {', '.join(sorted(olds))}")
    turner = Turner(table)
    for p in texts(root, (".antt", ".rt")):
        code = re.sub(r'"(?:[^"\\\n]|\\.)*"|--[^\n]*|//[^\n]*', " ", read(p))
        if p.endswith(".rt"):
            code = re.sub(r"\bfn \w+", " ", code)
        here = set(turner.word.findall(code))
        for n in sorted(here & set(table)):
            if table[n] in here:
                print(f"clash: {os.path.relpath(p, root)}: {n} -> {table[n]}")
    if listing:
        for a, b in sorted(table.items()):
            print(f"{a}\t{b}")
        return
    for p in texts(root, (".antt", ".rt", ".edit")):
        old = read(p)
        crate = os.path.relpath(p, os.path.join(root, "crates")).split(os.sep)[0]
        turner.table = table | {n: n.replace("-", "_") + ("" if "-" in n else "_lem") for n in LEMMAS.get(crate, ())}
        new = modules(root, p, turner.code(old))
        if new != old:
            with open(p, "w", encoding="utf-8", newline="") as f:
                f.write(new)
    turner.table = table
    for p in texts(root, (".antt",)):
        if not p.endswith("Proof.antt"):
            code = re.sub(r"--[^\n]*", "", read(p))
            turner.declared.update(DECLARED.findall(code), HEADED.findall(code))
    for page in [os.path.join(root, "README.md"), *sorted(os.path.join(root, "docs", f) for f in os.listdir(os.path.join(root, "docs")) if f.endswith(".md"))]:
        old = read(page)
        new = modules(root, page, turner.prose(old))
        if new != old:
            with open(page, "w", encoding="utf-8", newline="") as f:
                f.write(new)
    move(root)


if __name__ == "__main__":
    main(sys.argv[1:])
