#!/usr/bin/env python3
"""Respells the repository's own definitions and lemmas as today's Rattle spells them.

Words are in snake case: `put-frame` becomes `put_frame`, `sheetOf` becomes `sheet_of`. A dash is kept where a lemma
joins two names, as in `sent-append`. Types keep their upper camel case, and names that Rattle makes (of goals and
loops) are left alone. Run once, at the top, after the kit's port.py:

    python3 tools/respell.py          respells
    python3 tools/respell.py --list   prints old and new names alone
"""
import collections
import glob
import re
import sys

# lemmas whose name is two names joined by a dash: what is called, and what it is called on
JOINED = {
    "all-stored-append": "all_stored-append",
    "carried-append": "carried-append",
    "good-append": "good-append",
    "sent-append": "sent-append",
    "ran_append": "ran-append",
    "length-put-bytes": "length-put_bytes",
}
# a lemma that would fall together with a definition
OTHER = {"at-line": "at_next_line"}
# names that Rattle makes, in the files of one function's proof
MADE = re.compile(r"^(loop|returns|invariant|decreases|overflow(?:_\w+)?|bounds|slice_bounds|prove)-|-requires(-\d+)?$")
START = re.compile(r"^\s*(?:(?:abbrev|unfoldable|pub)\s+)*([A-Za-z][^\s:(){}.;,]*)\s+:\s")
RECORD = re.compile(r"^\s*(?:pub\s+)?(?:record|data|module)\s+([A-Za-z][^\s:(){}.;,]*)")
# part of a name
PART = r"[\w\-'◌·]"


def snake(name):
    words = re.sub(r"(?<=[a-z0-9])(?=[A-Z])", "-", name).replace("-", "_")
    return words.lower()


def respelled(name):
    if name in JOINED:
        return JOINED[name]
    if name in OTHER:
        return OTHER[name]
    if name in JOINED.values():
        return name
    if name[0].isupper() or MADE.search(name):
        return name
    return snake(name)


def own_names():
    names = collections.defaultdict(set)
    for path in sorted(glob.glob("crates/*/specs/**/*.antt", recursive=True) + glob.glob("crates/*/proofs/**/*.antt", recursive=True)):
        for line in open(path, encoding="utf-8"):
            found = START.match(line)
            if found:
                names[found.group(1)].add(path)
    return names


def main():
    names = own_names()
    turned = {old: respelled(old) for old in names if respelled(old) != old}
    together = collections.defaultdict(set)
    for old in names:
        together[respelled(old)].add(old)
    for new, olds in sorted(together.items()):
        if len(olds) > 1:
            print("fall together:", new, "from", ", ".join(f"{old} ({' '.join(sorted(names[old]))})" for old in sorted(olds)))
    if "--list" in sys.argv:
        for old, new in sorted(turned.items()):
            print(old, new)
        return
    if not turned:
        print("nothing to respell")
        return
    pattern = re.compile(rf"(?<!{PART})(" + "|".join(re.escape(old) for old in sorted(turned, key=len, reverse=True)) + rf")(?!{PART})")
    for path in sorted(glob.glob("crates/*/**/*.antt", recursive=True) + glob.glob("crates/*/src/*.rt")):
        text = open(path, encoding="utf-8").read()
        lines = []
        for line in text.split("\n"):
            # comments and texts stay
            mark = "//" if path.endswith(".rt") else "-- "
            head, sep, tail = line.partition(mark)
            pieces = re.split(r'("[^"]*")', head)
            pieces[::2] = [pattern.sub(lambda m: turned[m.group(1)], piece) for piece in pieces[::2]]
            lines.append("".join(pieces) + sep + tail)
        new = "\n".join(lines)
        if new != text:
            open(path, "w", encoding="utf-8").write(new)
    print(f"{len(turned)} names respelled")


if __name__ == "__main__":
    main()
