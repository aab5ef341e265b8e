#!/usr/bin/env python3
"""Respells the repository's own names in antt: words in snake case, a dash only between two names of definitions.

usage: python3 tools/respell.py        at the top of the repository, once, after the toolchain's port.py

A definition in camel case gets snake case. A lemma with dashes keeps them where each of its parts is the name of a definition, and gets
snake case else. Where a lemma would get the name of something else that is declared, it gets `_lem` behind it. Types, modules, names of
functions and everything inside of strings stay. The pages of docs/ and README.md follow, and the must-fail edits.
"""

import collections
import os
import re
import sys

ID = r"[A-Za-zμνκφτ][\w'₀-₉]*(?:-[\w'₀-₉]+)*"
DECLARED = re.compile(r"^(\s*)((?:(?:abbrev|unfoldable|pub|ruleset)\s+)*)(record\s+|data\s+)?(" + ID + r")\s*(?:[(\[{][^:]*:.*)?:(?!=)")
KEYWORDS = ("--", "use ", "let ", "in ", "λ", "elim", "open ", "module ", "unfolding ")
STD = set("length take drop append map filter reverse sum min max set get_or add sub mul div mod le lt eq all any cond not and or nil cons one zero suc".split())

# Names that would fall together with another's, and are told apart by a word and not by `_lem`.
OWN = {"in-text": "in_its_text", "tooLong": "is_too_long", "sameAnswer": "is_same_answer", "withoutEnd": "row_without_end"}


def files(root, ends):
    for folder, dirs, names in os.walk(root):
        dirs[:] = sorted(d for d in dirs if d not in ("out", ".git", "target"))
        for name in sorted(names):
            if name.endswith(ends):
                yield os.path.join(folder, name)


def read(path):
    with open(path, encoding="utf-8") as f:
        return f.read()


def is_function_folder(path, crates):
    parts = os.path.relpath(path, crates).split(os.sep)
    return parts[1] == "proofs" and len(parts) > 3


def declarations(crates):
    """name -> is it declared by a definition of specs/ (True), or by a lemma alone (False)."""
    found = collections.defaultdict(bool)
    for path in files(crates, ".antt"):
        if is_function_folder(path, crates):
            continue
        specs = os.path.relpath(path, crates).split(os.sep)[1] == "specs"
        for line in read(path).splitlines():
            m = DECLARED.match(line)
            if m and not line.strip().startswith(KEYWORDS):
                found[m[4]] |= specs
    return found


def source_names(crates):
    """Names that the sources declare: fields, functions, constants, modules."""
    found = set()
    for path in files(crates, ".rt"):
        text = read(path)
        found |= set(re.findall(r"\b(?:fn|mod)\s+(\w+)", text))
    return found


def snake(name):
    name = re.sub(r"(?<=[a-z0-9'])([A-Z])", lambda m: "_" + m[1].lower(), name)
    return name.replace("-", "_")


def plan(crates):
    declared = declarations(crates)
    words = {n for n in declared if "-" not in n} | STD
    words |= {snake(n) for n in words}
    to = {}
    for name in sorted(declared):
        if not name[0].islower() or snake(name) == name:
            continue
        if name in OWN:
            new = OWN[name]
        elif "-" in name and all(snake(p) in words for p in name.split("-")):
            new = "-".join(snake(p) for p in name.split("-"))
        else:
            new = snake(name)
        if new != name:
            to[name] = new
    # a definition has the plain name, and a lemma that has it already gets out of the way
    for name in sorted(n for n in to if declared[n]):
        if to[name] in declared and not declared[to[name]]:
            to[to[name]] = to[name] + "_lem"
    taken = {n for n in declared if n not in to}
    # definitions of specs/ come first, then camel case, then lemmas
    order = sorted(to, key=lambda n: (not declared[n], "-" in n, n))
    for name in order:
        new = to[name]
        while new in taken:
            new += "_lem"
        to[name] = new
        taken.add(new)
    return to


TOKEN = re.compile(r"(?<![\w'₀-₉-])(" + ID + r")")


def turned(text, to, fields):
    def one(m):
        name = m[1]
        if name not in to:
            return name
        before = text[: m.start()]
        if before.endswith(".") and not before.endswith(".."):
            owner = re.search(r"([\w'₀-₉-]+)\.$", before)
            if not (owner and owner[1][0].isupper()) and name not in fields:
                return name
        return to[name]

    return TOKEN.sub(one, text)


def without_strings(text, turn):
    """Turns the text but for strings and comments of code."""
    return "".join(p if i % 2 else turn(p) for i, p in enumerate(re.split(r'(b?"(?:[^"\\\n]|\\.)*")', text)))


def record_fields(crates):
    found = set()
    for path in files(crates, ".antt"):
        inside = False
        for line in read(path).splitlines():
            if re.match(r"^(?:pub\s+)?(?:abbrev\s+)?(?:pub\s+)?record\b", line.strip()) :
                inside = True
            elif inside and line.strip() and not re.match(r"^\s+", line):
                inside = False
            elif inside:
                m = DECLARED.match(line)
                if m:
                    found.add(m[4])
    return found


def main():
    crates = "crates"
    to = plan(crates)
    fields = record_fields(crates)
    for path in files(crates, (".antt", ".rt", ".edit")):
        text = read(path)
        new = without_strings(text, lambda t: turned(t, to, fields))
        if new != text:
            with open(path, "w", encoding="utf-8") as f:
                f.write(new)
    now = set(declarations(crates))
    for path in [*files("docs", ".md"), "README.md"]:
        text = read(path)

        def camel(m):
            name = m[1]
            if name in to:
                return to[name]
            return snake(name) if re.search(r"[a-z][A-Z]", name) and name[0].islower() and snake(name) in now else name

        def quoted(m):
            return re.sub(r"(?<![\w-])([a-z][\w']*(?:-[\w']+)+)", lambda k: to.get(k[1], snake(k[1]) if snake(k[1]) in now else k[1]), m[0])

        new = re.sub(r"(?<![\w'-])([a-z]\w*[A-Z]\w*)(?![\w'-])", camel, text)
        new = re.sub(r"`[^`\n]*`", quoted, new)
        if new != text:
            with open(path, "w", encoding="utf-8") as f:
                f.write(new)
    for name in sorted(to):
        print(name, to[name])
    return 0


if __name__ == "__main__":
    sys.exit(main())
