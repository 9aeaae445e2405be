#!/usr/bin/env python3
"""Brings the repository's own definitions, lemmas and fields of records to snake case, as the library's are.

usage: python3 tools/respell.py          at the top of the repository, after the kit's own script; rewrites the files in place
       python3 tools/respell.py --look   rewrites nothing, and prints what would fall together

A name is one that a file of specs/ or proofs/ has, and that begins with a small letter and goes on with a capital one, as
storeSize: it becomes store_size. The parts of a lemma's name are turned one by one, as in leafFault-more. Names with a capital
at their front are types, facts and modules, and stay. What src/ declares has no such name, so it stays too. A lemma that would
have the name of a definition that is in scope with it gets '_lem' behind it.
"""
import os
import re
import sys

TOKEN = re.compile(r"[^\W\d][\w'′μκλ₀-₉]*(?:-[\w'′₀-₉]+)*")
CAMEL = re.compile(r"[a-z][a-z0-9]*(?:[A-Z][a-z0-9_]*)+'*\Z")
STRING = re.compile(r'"(?:[^"\\\n]|\\.)*"')
DECLARED = r"(?m)^\s*(?:(?:pub|unfoldable|abbrev)\s+)*{}\s*:(?!:)"
PAGES = ("README.md", "docs", "include", "tests", "bench", "examples")
# A definition that has its new name already, but for a comment.
TURNED = {"in_range"}
# A module whose name would fall together with a constructor's.
APART = {"crates/promises/specs/Steps.antt": {"oneSplit": "oneSplitCall"}}


def files(endings, *roots):
    for root in roots:
        if os.path.isfile(root):
            yield root
            continue
        for folder, dirs, names in os.walk(root):
            dirs[:] = sorted(d for d in dirs if d not in ("out", ".git", "target"))
            for name in sorted(names):
                if name.endswith(endings):
                    yield os.path.join(folder, name)


def read(path):
    with open(path, encoding="utf-8", newline="") as f:
        return f.read()


def write(path, text):
    with open(path, "w", encoding="utf-8", newline="") as f:
        f.write(text)


def snake(part):
    return re.sub(r"(?<=[a-z0-9])([A-Z])", r"_\1", part).lower()


def own():
    """Each part of a name in specs/ and proofs/ that is in camel case."""
    found = set()
    for path in files(".antt", "crates"):
        for token in TOKEN.findall(STRING.sub("", read(path))):
            found.update(p for p in token.split("-") if CAMEL.match(p))
    return found


def turned(text, names):
    def one(m):
        return "-".join(snake(p) if p in names else p for p in m.group(0).split("-"))

    # strings are inputs and outputs
    kept = STRING.findall(text)
    return "".join(TOKEN.sub(one, part) + (kept[k] if k < len(kept) else "") for k, part in enumerate(STRING.split(text)))


def module(path):
    """The path by which a file of specs/ or proofs/ is imported."""
    return "Rattle." + path[len("crates/"):-len(".antt")].replace("/", ".")


def importers(path, name):
    """The files that import the name from this one."""
    line = re.compile(r"use " + re.escape(module(path)) + r"\.\{[^}]*(?<![\w'-])" + re.escape(name) + r"(?![\w'-])[^}]*\}")
    return [p for p in files((".antt", ".rt"), "crates") if line.search(read(p))]


def lemmas(names):
    """The lemmas that would have the name of a definition which is in scope with them: pairs of a name and the files that it is turned in."""
    to = {}
    for n in names:
        to.setdefault(snake(n), set()).add(n)
    for path in files(".antt", "crates"):
        text = read(path)
        for new in sorted((set(TOKEN.findall(text)) & set(to)) - TURNED):
            if re.search(DECLARED.format(re.escape(new)), text):
                where = [path, *importers(path, new)]
                if any(to[new] & set(TOKEN.findall(read(p))) for p in where):
                    yield new, where


def main(argv):
    for path, apart in APART.items():
        if not argv:
            write(path, TOKEN.sub(lambda m: apart.get(m.group(0), m.group(0)), read(path)))
    names = own()
    for name, where in list(lemmas(names)):
        print(f"{name} becomes {name}_lem in", " ".join(where))
        if not argv:
            for path in where:
                write(path, re.sub(r"(?<![\w'.-])" + re.escape(name) + r"(?![\w'-])", name + "_lem", read(path)))
    if argv:
        return 0
    n = 0
    for path in [*files((".antt", ".rt", ".edit"), "crates"), *files((".md", ".h", ".test", ".awk", "independent"), *PAGES)]:
        old = read(path)
        new = turned(old, names)
        if new != old:
            write(path, new)
            n += 1
    print(f"{len(names)} names, {n} files")
    return 0


if __name__ == "__main__":
    raise SystemExit(main(sys.argv[1:]))
