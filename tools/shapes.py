#!/usr/bin/env python3
"""Lists functions of crates/*/src whose bodies are the same but for names, numbers and texts."""
import collections
import glob
import re
import sys


def bodies(path):
    """The functions of a file with their bodies."""
    text = re.sub(r"//[^\n]*", "", open(path, encoding="utf-8").read())
    heads = list(re.finditer(r"\bfn (\w+)", text))
    for head, after in zip(heads, heads[1:] + [None]):
        end = after.start() if after else len(text)
        part = text[head.end():end]
        start = re.search(r"\n\s*\{\n|(?:\)|-> [^{\n;]+) \{\n", part)
        if start is None:
            continue
        at = start.end() - 2
        depth, stop = 0, at
        while stop < len(part):
            depth += {"{": 1, "}": -1}.get(part[stop], 0)
            stop += 1
            if depth == 0:
                break
        yield head.group(1), part[at:stop]


def shape(body):
    """A body without its names, numbers and texts."""
    body = re.sub(r"b?\"[^\"]*\"|b?'[^']*'", "S", body)
    body = re.sub(r"\b\d\w*", "N", body)
    body = re.sub(r"\b[A-Za-z_]\w*\b", "x", body)
    return re.sub(r"\s+", " ", body)


def main():
    groups = collections.defaultdict(list)
    for path in sorted(glob.glob("crates/*/src/**/*.rt", recursive=True)):
        for name, body in bodies(path):
            groups[shape(body)].append(f"{path}:{name}")
    for body, places in groups.items():
        if len(places) > 1 and len(body) >= 24:
            print(len(places), *places)


if __name__ == "__main__":
    sys.exit(main())
