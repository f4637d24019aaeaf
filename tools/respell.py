#!/usr/bin/env python3
"""Brings the repository's own names of definitions and lemmas to one spelling.

usage: python3 tools/respell.py      at the top of the repository, once, after the kit's port.py

A name of several words that a file of specs/ or proofs/ declares becomes camel case if it names a fact or a type (it
begins with a capital), and snake case otherwise. Names of functions, strings, inputs and outputs stay. Names that would fall
together with another name stop the script before it writes anything.
"""

import collections
import os
import re
import sys

# Lemmas whose name in snake case is a word of the library: named by what they say.
BY_HAND = {"bit-and": "bit_of_and", "bit-or": "bit_of_or", "bit-xor": "bit_of_xor"}
# Other names under which a file takes a definition or a module.
ALIASES = {
    "Ending-of": "ending_at",
    "arity-of": "arity_of",
    "offset-of": "offset_at",
    "section-fault": "section_fault",
    "sheet-fault": "sheet_fault",
    "is-goal": "is_goal",
}

DECLARES = re.compile(
    r"^\s*(?:abbrev |unfoldable )?(?:pub )?(?:abbrev |unfoldable )?(?:(?:record|data) )?([^\s:(){}.,=]+)\s*(?:[({].*)?:\s"
)
IMPORTS = re.compile(r"^\s*(?:ghost )?(?:pub )?use ([^\s{;]+?)\.\{([^}]*)\};?\s*$")
NAME = re.compile(r"[^\W\d][\w\-']*")
QUOTED = re.compile(r"`[^`]*`")


def crates(root):
    with open(os.path.join(root, "crates.txt"), encoding="utf-8") as f:
        return [line.split(":")[0].strip() for line in f if line.strip()]


def files(root, names):
    for name in names:
        for folder, dirs, found in os.walk(os.path.join(root, "crates", name)):
            dirs[:] = [d for d in dirs if d != "out"]
            for f in found:
                if f.endswith((".antt", ".rt", ".edit")):
                    yield os.path.join(folder, f)


def read(path):
    with open(path, encoding="utf-8") as f:
        return f.read()


def declared(paths):
    found = collections.defaultdict(set)
    for path in paths:
        if not path.endswith(".antt"):
            continue
        for line in read(path).split("\n"):
            m = DECLARES.match(line)
            # an answer to a goal has the goal's name
            if m and not line.lstrip().startswith("--") and ": goal." not in line:
                found[m.group(1)].add(path)
    return found


def imported(paths, names):
    own = re.compile(r"^Rattle\.(?:%s)\.(?:specs|proofs)\." % "|".join(names))
    found = set()
    for path in paths:
        for line in read(path).split("\n"):
            m = IMPORTS.match(line)
            if m and not own.match(m.group(1)):
                found.update(n.strip() for n in m.group(2).split(","))
    return found


def respelled(name):
    if name in BY_HAND:
        return BY_HAND[name]
    if name[0].isupper():
        return "".join(p[:1].upper() + p[1:] for p in re.split("[-_]", name))
    return name.replace("-", "_")


def turn(text, names):
    return NAME.sub(lambda m: names.get(m.group(0), m.group(0)), text)


def turn_quoted(text, names):
    return QUOTED.sub(lambda m: turn(m.group(0), names), text)


def turn_file(path, text, names):
    comment = {".antt": "--", ".rt": "//"}.get(os.path.splitext(path)[1])
    lines = []
    for line in text.split("\n"):
        at = line.find(comment) if comment else -1
        if at < 0:
            lines.append(turn(line, names))
        else:
            lines.append(turn(line[:at], names) + turn_quoted(line[at:], names))
    return "\n".join(lines)


def main():
    root = os.getcwd()
    own = crates(root)
    paths = sorted(files(root, own))
    known = declared(paths)
    names = {n: respelled(n) for n in known if "-" in n or (n[0].isupper() and "_" in n)}
    names.update(ALIASES)
    others = imported(paths, own) | set(known)
    together = [n for n, to in names.items() if to in others or list(names.values()).count(to) > 1]
    if together:
        sys.exit("names that fall together: " + ", ".join(sorted(together)))
    pages = [os.path.join(root, "README.md")]
    docs = os.path.join(root, "docs")
    pages += sorted(os.path.join(docs, f) for f in os.listdir(docs) if f.endswith(".md"))
    changed = 0
    for path in paths + pages:
        text = read(path)
        new = turn_quoted(text, names) if path in pages else turn_file(path, text, names)
        if new != text:
            changed += 1
            with open(path, "w", encoding="utf-8") as f:
                f.write(new)
    print(f"{len(names)} names respelled, in {changed} files")


if __name__ == "__main__":
    main()
