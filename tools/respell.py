#!/usr/bin/env python3
"""Respells the repository's own definitions and lemmas after port.py: words in snake case, a dash only between two names.

usage: tools/respell.py [FOLDER]     FOLDER: the top of a checkout in which port.py ran (default: this one)

Definitions, fields, constructors and local names in camel case become snake case, in specs/, proofs/, clauses, must-fail edits and
documents. A lemma's dash becomes an underscore, but where it joins the names of two functions. The proof of f is f_spec. A new name
that is taken gets _lem. Names of src/, strings, inputs and outputs stay.
"""

import os
import re
import sys

TOP = sys.argv[1] if len(sys.argv) > 1 else os.path.join(os.path.dirname(os.path.realpath(__file__)), "..")
CRATES = os.path.join(TOP, "crates")
WORD = re.compile(r"(?<![\w'-])[A-Za-z_][\w']*(?:-[\w']+)*")
HEAD = re.compile(r"(?m)^(?:abbrev |unfoldable )?(?:pub )?(?:abbrev |unfoldable )?([A-Za-z_][\w'-]*)\s*:")
MADE = re.compile(r"(?m)^(?:abbrev |unfoldable )(?:pub )?([A-Za-z_][\w'-]*)\s*:")
INNER = re.compile(r"(?m)^  (?:pub )?([A-Za-z_][\w'-]*)\s*:")
# Functions of the library that lemmas name.
LIBRARY = set("length take drop map set append get_or slice_get repeat reverse sum concat not codes".split())
# Where the plain rule would give two things one name, or a name that a local has: by hand.
CHOSEN = {"place_is": "place_stands", "step_end": "step_end_lem"}
# Goals that the check names, and so no words of the repository.
GENERATED = {"invariant-loop", "decreases-loop"}


def texts(*ends):
    for folder, dirs, names in os.walk(TOP):
        dirs[:] = sorted(d for d in dirs if d not in ("out", "target", ".git"))
        for n in sorted(names):
            if n.endswith(ends):
                yield os.path.join(folder, n)


def read(path):
    with open(path, encoding="utf-8") as f:
        return f.read()


def snake(name):
    return re.sub(r"([a-z0-9'])([A-Z])", lambda m: m.group(1) + "_" + m.group(2).lower(), name)


def is_camel(name):
    return bool(re.match(r"[a-z]", name) and re.search(r"[a-z0-9][A-Z]", name))


def in_function(path):
    parts = os.path.relpath(path, CRATES).split(os.sep)
    return parts[1] == "proofs" and len(parts) > 3


def names():
    """The words of all proofs and definitions; those declared at the top of a file; the functions; the lemmas."""
    words, heads, made, inner, fields = set(), set(), set(), set(), set()
    for p in texts(".antt"):
        text = re.sub(r"--.*", "", read(p))
        words |= set(WORD.findall(text))
        if not in_function(p):
            heads |= set(HEAD.findall(text))
        else:
            heads |= {h for h in HEAD.findall(text) if not h.endswith("-spec") and re.search(r"\b" + re.escape(h) + r" :", text)}
        made |= set(MADE.findall(text))
        inner |= set(INNER.findall(text))
        for block in re.findall(r"(?m)^(?:pub )?record [^\n]*where\n((?:(?:  [^\n]*)?\n)*)", text):
            fields |= set(INNER.findall(block))
    return words, heads, made, inner, fields


def new_names():
    words, heads, made, inner, fields = names()
    new = dict(CHOSEN)
    for w in sorted(words):
        if is_camel(w) and "-" not in w:
            new.setdefault(w, snake(w))
    functions = {snake(m) for m in made if re.match(r"[a-z]", m) and "-" not in m} | LIBRARY

    def undashed(name):
        parts = [("get_or" if p == "getD" else snake(p)) if is_camel(p) else p for p in name.split("-")]
        out = parts[0]
        for a, b in zip(parts, parts[1:]):
            out += ("-" if a in functions and b in functions else "_") + b
        return out

    dashed = {w for w in (heads | inner) & words if "-" in w} - GENERATED
    taken = words | set(new.values())
    for w in sorted(dashed):
        n = undashed(w)
        if n == w:
            continue
        if n in taken:
            n += "_lem"
        taken.add(n)
        new[w] = n
    for w in words:
        if w.endswith("-spec"):
            new[w] = w.replace("-", "_")
    return new, fields


def turned(text, new, fields, code):
    def one(m):
        w = m.group()
        n = new.get(w)
        if not n or (m.start() and text[m.start() - 1] in ".\u00b7" and "-" in w and w not in fields):
            return w
        return w if code and not is_camel(w) else n

    return WORD.sub(one, text)


def main():
    new, fields = new_names()
    for p in texts(".antt", ".rt", ".edit", ".md"):
        if p.endswith(".md"):
            old = read(p)
            text = re.sub(r"`[^`\n]+`", lambda m: turned(m.group(), new, fields, False), old)
        else:
            old = read(p)
            text = turned(old, new, fields, p.endswith(".rt"))
        if text != old:
            with open(p, "w", encoding="utf-8") as f:
                f.write(text)
    print(len(new), "names")
    if os.environ.get("TELL"):
        for w in sorted(new):
            print(w, new[w])


if __name__ == "__main__":
    main()
