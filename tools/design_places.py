"""Counts, for each point of docs/DESIGN-PASS.md, the places in crates/*/src where an older form may stand, in the repository that it is run in or
lies in. `--list` prints each place.

It finds candidates by their text; the page says which of them are places of the point.
"""

import re
import sys
from collections import defaultdict
from pathlib import Path

ROOT = Path.cwd() if Path("crates.txt").exists() else Path(__file__).resolve().parent.parent
WORD = re.compile(r"[A-Za-z_]\w*|\d[\w]*|\S")
KEYWORDS = set("as break const continue else enum extern false fn for ghost if impl in let loop match mut pub ref return self Self static struct trait true type unsafe use where while".split())


def files():
    return sorted(ROOT.glob("crates/*/src/**/*.rt"))


def name_of(path):
    parts = path.relative_to(ROOT / "crates").parts
    return "/".join((parts[0], *parts[2:]))


def without_comments(text):
    return re.sub(r"//[^\n]*", "", text)


def closing(text, at, pair="{}"):
    """The place behind the bracket that closes the one at `at`."""
    depth = 0
    for k in range(at, len(text)):
        if text[k] == pair[0]:
            depth += 1
        elif text[k] == pair[1]:
            depth -= 1
            if depth == 0:
                return k + 1
    return len(text)


def functions():
    """Yields (file, name, parameters, contract, body) of each function."""
    for path in files():
        text = without_comments(path.read_text())
        for found in re.finditer(r"\bfn (\w+)", text):
            start = text.find("(", found.end())
            end = closing(text, start, "()")
            at = end
            while at < len(text) and text[at] not in "{;":
                clause = re.compile(r"(requires|ensures\*?|ghost)\b[^{;]*\{").match(text, at)
                at = closing(text, clause.end() - 1) if clause else at + 1
            body = text[at : closing(text, at)] if at < len(text) and text[at] == "{" else ""
            yield name_of(path), found.group(1), text[start + 1 : end - 1], text[end:at], body


def enums():
    for path in files():
        text = without_comments(path.read_text())
        for found in re.finditer(r"\benum (\w+)[^{]*\{", text):
            body = text[found.end() : closing(text, found.end() - 1) - 1]
            yield name_of(path), found.group(1), " ".join(body.split())


def outcomes():
    """Enums with a variant that holds a value or that says that all is well, beside one that says why not or that there is none."""
    well = r"\b(Built|Found|Written|Boxed|Linked|Listed|Passed|Walked|Tree|Number|Case|Going|ByMargin|Geometry|Less)\b"
    ill = r"\b(Refused|Fails|Stopped|Unbuilt|NoTree|Nothing|Bad|NonePasses|BufferTooShort|Unordered|Greater)\b"
    return [f"{at}: {name} {{ {body} }}" for at, name, body in enums() if re.search(well, body) and re.search(ill, body)]


def flags():
    found = []
    for path in files():
        text = without_comments(path.read_text())
        for it in re.finditer(r"\bstruct (\w+)[^{;(]*\{([^}]*)\}", text):
            if re.search(r":\s*bool\b", it.group(2)) and it.group(2).count(":") > 1:
                found.append(f"{name_of(path)}: {it.group(1)} {{ {' '.join(it.group(2).split())} }}")
    return found


def codes():
    return [f"{at}: {name}" for at, name, _, contract, body in functions() if re.search(r"\w+::\w+ => \d+", body)]


def loops():
    """`while` loops whose test compares a variable that the body moves by one."""
    found = []
    for path in files():
        text = without_comments(path.read_text())
        for it in re.finditer(r"\bwhile ([^{]*)\{", text):
            body = text[it.end() : closing(text, it.end() - 1)]
            moved = set(re.findall(r"\b(\w+) [+-]= 1;", body))
            if moved & set(re.findall(r"\w+", it.group(1))):
                line = text[: it.start()].count("\n") + 1
                found.append(f"{name_of(path)}:{line}: while {it.group(1).strip()}")
    return found


def shape(parameters, body):
    names = {}
    out = []
    for token in WORD.findall(parameters + " = " + body):
        if re.match(r"\d", token):
            out.append("0")
        elif re.match(r"[A-Za-z_]", token) and token not in KEYWORDS:
            out.append(names.setdefault(token, f"v{len(names)}"))
        else:
            out.append(token)
    return " ".join(out)


def twins():
    """Groups of functions whose texts are the same but for names, types and numbers, of 40 words and more."""
    groups = defaultdict(list)
    for at, name, parameters, _, body in functions():
        key = shape(parameters, body)
        if len(key.split()) >= 40:
            groups[key].append(f"{at}: {name}")
    return [" = ".join(it) for it in groups.values() if len(it) > 1]


def by_hand():
    found = []
    for path in files():
        for it in re.finditer(r"^impl[^\n]*\b(PartialEq|Eq|PartialOrd|Ord|Clone|Copy|Hash|Debug)\b[^\n]* for [^\n]*", path.read_text(), re.M):
            found.append(f"{name_of(path)}: {it.group(0).strip()}")
    conversion = re.compile(r"^(from|to|into|of|as)_\w+$|^(codes?|\w+_code|code_\w+|\w+_of_code)$")
    for at, name, parameters, _, _ in functions():
        if conversion.match(name):
            found.append(f"{at}: {name}")
    return found


def facts():
    """Facts that stand in the `requires` of three functions or more of one crate."""
    seen = defaultdict(set)
    for at, name, _, contract, _ in functions():
        for clause in re.findall(r"requires[^{]*\{((?:[^{}]|\{[^{}]*\})*)\}", contract):
            for fact in re.split(r"×", clause):
                fact = re.sub(r"\.(now|old)\b", "", " ".join(fact.split()).strip("() "))
                if fact:
                    seen[at.split("/")[0], fact].add(f"{at}: {name}")
    return [f"{crate}: {fact} ({len(it)} functions)" for (crate, fact), it in sorted(seen.items()) if len(it) >= 3]


def travelling():
    """Pairs of buffers, or of a buffer and a value, that are parameters of four functions or more of one crate under the same names."""
    seen = defaultdict(set)
    for at, name, parameters, _, _ in functions():
        its = [" ".join(it.split()) for it in parameters.split(",") if ":" in it]
        for k, a in enumerate(its):
            for b in its[k + 1 :]:
                if "[" in a or "[" in b:
                    seen[at.split("/")[0], a, b].add(f"{at}: {name}")
    return [f"{crate}: {a}, {b} ({len(it)} functions)" for (crate, a, b), it in sorted(seen.items()) if len(it) >= 4]


def lengths():
    """Functions that take a slice and, beside it, how many of its elements count."""
    found = []
    for at, name, parameters, contract, _ in functions():
        counts = re.findall(r"(\w+): usize", parameters)
        slices = re.findall(r"(\w+): &(?:mut )?\[", parameters)
        for n in counts:
            for s in slices:
                if re.search(rf"(\d+ \* )?\b{n} ≤ length {s}\.(now|old)", contract):
                    found.append(f"{at}: {name} ({s}, {n})")
    return found


def switches():
    """Parameters that say which of several steps a function takes."""
    found = []
    for at, name, parameters, _, body in functions():
        for it in re.findall(r"\b(\w+): (?:bool|u32|\w*Step|Operation)\b", parameters):
            if re.search(rf"\bif !?{it}\b(?! [-+*/%&|])|\bmatch {it}\b|\b{it} == \d", body):
                found.append(f"{at}: {name} ({it})")
    return found


def repeated():
    """Helpers that stand in two answers or more of one function."""
    found = []
    for path in sorted(ROOT.glob("crates/*/proofs/**/Answers.antt")):
        lines = [it.strip() for it in path.read_text().splitlines()]
        lets = defaultdict(int)
        for line in lines:
            if re.match(r"let \w[\w-]* :", line) and len(line) > 60:
                lets[line] += 1
        found += [f"{path.relative_to(ROOT / 'crates')}: {n} times {it[:70]}" for it, n in lets.items() if n > 1]
    return found


POINTS = [
    ("1a enums of the shape of Option or Result", outcomes),
    ("1b flags with a value beside", flags),
    ("1c refusals as numbers", codes),
    ("2 twins", twins),
    ("3 loops that count an index by hand", loops),
    ("4 equality, order, copying, conversion, printing by hand", by_hand),
    ("5a facts in three contracts or more", facts),
    ("5b parameters that travel together", travelling),
    ("6 buffers with a length beside", lengths),
    ("7 switches on which step to run", switches),
    ("8 helpers repeated in answers", repeated),
]


def main():
    for name, find in POINTS:
        found = find()
        print(f"{name}: {len(found)}")
        if "--list" in sys.argv[1:]:
            for it in found:
                print(f"    {it}")


if __name__ == "__main__":
    main()
