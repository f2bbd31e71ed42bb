#!/usr/bin/env python3
"""Brings the repository's own antt names to the spelling of today's Rattle: functions, lemmas, fields and variables in snake case, facts in camel case.

usage: python3 tools/respell_names.py [--list]     at the top of the repository, once, after /opt/rattle/port/port.py

Own names are those that a file of specs/ or proofs/ defines or binds. A goal, an invariant and a measure have names that Rattle makes, and keep them, as do the names of std,
the functions of src/, comments and strings. Two names that would fall together stop the script before it writes.
"""

import os
import re
import sys

NAME = r"[A-Za-z_][A-Za-z0-9_']*(?:-[A-Za-z0-9_']+)*"
TOKEN = re.compile(r"(?<![\w'\u00b7-])" + NAME + r"(?![\w'-])")
# Of a name that Rattle makes: a goal, an invariant, a step of the code.
GOAL = re.compile(r":\s*(?:goal|need)\.")
MADE = re.compile(r"^(returns|loop|pairs|invariant|invariant_of|decreases|overflow|overflow_add|bounds|slice_bounds|nonzero|in|in_ok|in_err|if|then|else|index|prove)-")
DEFINED = re.compile(r"^\s*(?:abbrev |unfoldable |pub |record |data )*(" + NAME + r")((?: |\().*)?:\s")


def files(root):
    for folder, dirs, names in os.walk(os.path.join(root, "crates")):
        dirs[:] = sorted(d for d in dirs if d != "out")
        for name in sorted(names):
            if name.endswith((".rt", ".antt")):
                yield os.path.join(folder, name)


def pieces(text, comment):
    """The text cut into (is code, piece): comments and strings are no code."""
    cut = re.compile(r'"(?:\\.|[^"\\])*"|' + re.escape(comment) + r"[^\n]*")
    at = 0
    for m in cut.finditer(text):
        yield True, text[at : m.start()]
        yield False, m.group()
        at = m.end()
    yield True, text[at:]


def code_of(path):
    comment = "--" if path.endswith(".antt") else "//"
    with open(path, encoding="utf-8") as f:
        return list(pieces(f.read(), comment))


def own_names(root):
    """Names with a dash that a file of specs/ or proofs/ defines or binds, but for those that Rattle makes."""
    names = set()

    def add(found):
        names.update(n for n in found if "-" in n and not MADE.match(n))

    for path in files(root):
        code = "".join(p for is_code, p in code_of(path) if is_code)
        if path.endswith(".rt"):
            add(re.findall(r"\bas (" + NAME + r")", code))
            continue
        for line in code.split("\n"):
            defined = DEFINED.match(line)
            answers = path.endswith(("Answers.antt", "Invariants.antt"))
            if defined and "-" in defined[1] and not (answers and (MADE.match(defined[1]) or GOAL.search(line))):
                names.add(defined[1])
            # What a line binds: by let, by λ, by an equation's left side, by a case of an elim, and by a signature.
            add(re.findall(r"\blet (" + NAME + r")", line))
            left = re.match(r"^\s*" + NAME + r"((?: [^=]*)?) =(?: |$)", line)
            bound = [left[1]] if left else []
            bound += re.findall(r"λ ([^.]*)\.", line)
            bound += re.findall(r"[|\[] ([^|\[]*?) \u21a6", line)
            bound += re.findall(r"[({]((?:" + NAME + r" )+):", line)
            for part in bound:
                add(TOKEN.findall(part))
    return names


def respelled(name):
    """A fact has a capital and stays a fact; `None-more` is a variable, whose first part port.py took for a word of std."""
    if name == "None-more":
        return "none_more"
    parts = name.split("-")
    if name[0].isupper():
        return "".join(p[:1].upper() + p[1:] for p in parts)
    return re.sub(r"(?<=[a-z])([A-Z])", lambda m: "_" + m[1].lower(), "_".join(parts))


def main(argv):
    root = os.getcwd()
    to = {n: respelled(n) for n in sorted(own_names(root))}
    there = {}
    for path in files(root):
        for is_code, piece in code_of(path):
            if is_code:
                for word in TOKEN.findall(piece):
                    there.setdefault(word, set()).add(path)
    if "--list" in argv:
        for old, new in to.items():
            places = sorted(os.path.relpath(p, root) for p in there.get(new, ()) if there.get(old, set()) & {p})
            print(f"{old} -> {new}" + (f"   also in {', '.join(places)}" if new in there else "") + ("   BOTH IN ONE FILE" if places else ""))
        return 0
    twice = {n for n in to.values() if list(to.values()).count(n) > 1}
    if twice:
        print(f"these names would fall together: {', '.join(sorted(twice))}", file=sys.stderr)
        return 1
    changed = 0
    for path in files(root):
        old = code_of(path)
        new = [(c, TOKEN.sub(lambda m: to.get(m[0], m[0]), p) if c else p) for c, p in old]
        if new != old:
            changed += 1
            with open(path, "w", encoding="utf-8") as f:
                f.write("".join(p for _, p in new))
    print(f"{len(to)} names respelled in {changed} files")
    return 0


if __name__ == "__main__":
    raise SystemExit(main(sys.argv[1:]))
