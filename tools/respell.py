#!/usr/bin/env python3
"""Brings the names of this repository's own definitions and lemmas to snake case: what port.py leaves of them.

usage: python3 tools/respell.py [FOLDER]     once, at the top of a tree that port.py has turned and nothing else has touched

A definition keeps its plain name: `freeThread` is `free_thread` then, as the function that it describes. Where a lemma would
fall together with a definition, or with a name of the library, the lemma has `_lem` behind it. Types, records, modules, functions of src/, exported names,
and names that a library has too, stay as they are. A constructor or a field that falls together with a definition has `_lem` as a
lemma does. In comments only what stands between backquotes is turned. Edits and pages are turned by hand.
"""

import collections
import os
import re
import sys

NAME = r"[A-Za-z0-9_'\-μ₀-₉⊎?]"
TOKEN = re.compile(r"(?<![\w'\-μ₀-₉⊎?◌])(?:[a-zμ]" + NAME + r"*)(?![\w'\-◌])")
DECLARED = re.compile(
    r"^\s*(?:(?:pub|abbrev|unfoldable|ruleset)\s+)*([^\s(){}\[\].,;:λ|]+)(?=\s*(?:\{[^}]*\}\s*)*(?:\([^)]*\)\s*)*(?::|=))"
)
USE = re.compile(r"^\s*(?:pub )?(?:ghost )?use ([^\s{;]+?)\.\{([^}]*)\};?\s*$")
QUOTED = re.compile(r"`[^`]*`")
# A lemma of ours that has the name of one of the library's.
LIBRARY = {"length-map"}
# Names that are bound within a term or at an import, not declared.
BOUND = set(
    "all-of-them before-it in-choice is-done no-numbers on-state past-ranges past-types past-written six-long true-guards used-there v-same "
    "waitingStatus".split()
)


def snake(name):
    return re.sub(r"([a-z0-9'])([A-Z])", lambda m: m.group(1) + "_" + m.group(2).lower(), name).replace("-", "_")


def files(root, *ends):
    for folder, dirs, names in os.walk(os.path.join(root, "crates")):
        dirs[:] = sorted(d for d in dirs if d != "out")
        for name in sorted(names):
            if name.endswith(ends):
                yield os.path.join(folder, name)


def lines(path):
    with open(path, encoding="utf-8") as f:
        return f.read().split("\n")


def declared(root):
    """The names that the files of specs/ and proofs/ declare or import from one another, in lower case at the front."""
    crates = set(os.listdir(os.path.join(root, "crates")))
    own, library = set(), set()
    for path in files(root, ".antt", ".rt"):
        for line in lines(path):
            use = USE.match(line)
            if use:
                parts = use.group(1).split(".")
                ours = parts[0] == "Rattle" and len(parts) > 1 and parts[1] in crates
                for item in use.group(2).split(","):
                    (own if ours else library).add(item.strip().split(" as ")[0].strip())
            elif path.endswith(".antt") and not line.lstrip().startswith("--"):
                it = DECLARED.match(line)
                if it and (":" in line or "ruleset" in line):
                    own.add(it.group(1))
    return {n for n in own if re.match(r"[a-zμ]", n)} - LIBRARY | BOUND, library


def table(root):
    """Each name that is turned, and what it becomes."""
    own, library = declared(root)
    alike = collections.defaultdict(set)
    for name in own:
        alike[snake(name)].add(name)
    turned = {}
    for new, olds in alike.items():
        # The definition among names that fall together: in camel case, or else the one that is turned already.
        definitions = [n for n in olds if re.search(r"[A-Z]", n)] or [n for n in olds if "-" not in n]
        for old in olds:
            first = len(olds) == 1 or old in definitions
            to = new if first and (old == new or new not in library) else new + "_lem"
            if to != old:
                turned[old] = to
    return turned


def turn(text, names):
    """A name that is in snake case already may be a function's or a field's too: behind a dot it is ours only in a module."""

    def one(m):
        old = m.group(0)
        if "_" in old and text[: m.start()].endswith(".") and not re.search(r"(?<![\w'])[A-Z][\w']*\.$", text[: m.start()]):
            return old
        return names.get(old, old)

    return TOKEN.sub(one, text)


def turn_quoted(text, names):
    return QUOTED.sub(lambda m: turn(m.group(0), names), text)


def turn_line(line, names, mark):
    """Code is turned; behind the mark of a comment only what stands between backquotes."""
    at = line.find(mark)
    if at < 0:
        return turn(line, names)
    return turn(line[:at], names) + turn_quoted(line[at:], names)


def main(root):
    names = table(root)
    # In src/ a name in snake case is a function's.
    in_code = {old: new for old, new in names.items() if "_" not in old}
    for path in files(root, ".antt", ".rt"):
        of_proofs = path.endswith(".antt")
        text = "\n".join(turn_line(line, names if of_proofs else in_code, "--" if of_proofs else "//") for line in lines(path))
        with open(path, "w", encoding="utf-8") as f:
            f.write(text)
    print(f"{len(names)} names turned")


if __name__ == "__main__":
    main(sys.argv[1] if len(sys.argv) > 1 else ".")
