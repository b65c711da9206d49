#!/usr/bin/env python3
"""Turns the names that this repository declares in specs/ and proofs/ from words joined by hyphens to words joined by
underscores, and the two types so written to camel case, everywhere that they stand: definitions, proofs, clauses,
must-fail edits, slips and the documents. Names of the kit and names that the check makes stay. Run once, at the top,
after the kit's own port.py; with --look it only says which names would fall together."""

import collections
import os
import re
import sys

NAME = r"[A-Za-z][A-Za-z0-9_']*(?:-[A-Za-z0-9_']+)+"
DECLARED = re.compile(
    r"^\s*(?:(?:abbrev|unfoldable|pub|data|record)\s+)*(" + NAME + r"(?:\s+" + NAME + r")*)\s*(?:[({].*)?:(?!:)"
)
BOUND = re.compile(r"[({]((?:[A-Za-z][A-Za-z0-9_'-]*\s+)*[A-Za-z][A-Za-z0-9_'-]*)\s+:\s|\blet\s+(" + NAME + r")\b")
TOKEN = re.compile(r"(?<![\w'-])(?<!tie\.)(?<!goal\.)" + NAME + r"(?![\w'-])")
IMPORT = re.compile(r"\buse\s+((?:Rattle\.(?:std|core|io|libc|os|check|std_\w+)\.|mathlib\.|Prim\.)[\w.'-]*)\.\{([^}]*)\}", re.S)
# what the check makes, which no script of the repository may respell
MADE = re.compile(r"^(?:Need|After|At|Goes|In|Else|Start)-")
# names that would fall together with words of the kit
OTHERWISE = {"bit-and": "bit_of_and", "bit-or": "bit_of_or"}


def files():
    for top in ("crates", "slips", "docs", "README.md", "rust/README.md"):
        if os.path.isfile(top):
            yield top
        for folder, dirs, names in os.walk(top):
            dirs[:] = sorted(d for d in dirs if d not in ("out", "target"))
            for name in sorted(names):
                if name.endswith((".antt", ".rt", ".edit", ".md")):
                    yield os.path.join(folder, name)


def read(path):
    with open(path, encoding="utf-8") as f:
        return f.read()


def declared():
    """The names that the repository declares, each with the files that declare it."""
    found = collections.defaultdict(set)
    for path in files():
        if not path.endswith(".antt"):
            continue
        for line in read(path).split("\n"):
            if line.lstrip().startswith("--"):
                continue
            m = DECLARED.match(line)
            if m:
                for name in m.group(1).split():
                    found[name].add(path)
            for m in BOUND.finditer(line):
                for name in (m.group(1) or m.group(2)).split():
                    if "-" in name.strip("-") and re.fullmatch(NAME, name):
                        found[name].add(path)
    return {n: p for n, p in found.items() if not MADE.match(n) and n != "a-z"}


def respelled(name):
    if name in OTHERWISE:
        return OTHERWISE[name]
    if name[0].isupper():
        return "".join(w[0].upper() + w[1:] for w in name.split("-"))
    return name.replace("-", "_")


def kit_names(text):
    """The names that a file takes from the kit, under the names that it gives them."""
    got = set()
    for m in IMPORT.finditer(text):
        for item in m.group(2).split(","):
            words = item.split()
            if words:
                got.add(words[-1])
                if len(words) == 3 and words[1] == "as":
                    got.add(words[0])
    return got


def turn(text, names, keep):
    def one(m):
        name = m.group(0)
        if name not in names or name in keep:
            return name
        return respelled(name)

    return TOKEN.sub(one, text)


def in_ticks(text, names, keep):
    return re.sub(r"`[^`\n]*`", lambda m: turn(m.group(0), names, keep), text)


def turn_antt(text, names, keep):
    out = []
    for line in text.split("\n"):
        m = re.match(r"(.*?)((?:^|\s)--\s.*)$", line)
        code, comment = (m.group(1), m.group(2)) if m else (line, "")
        out.append(turn(code, names, keep) + in_ticks(comment, names, keep))
    return "\n".join(out)


def turn_rt(text, names, keep):
    out = []
    for line in text.split("\n"):
        m = re.match(r"(.*?)(//.*)$", line)
        code, comment = (m.group(1), m.group(2)) if m else (line, "")
        parts = re.split(r'("(?:[^"\\]|\\.)*")', code)
        code = "".join(p if p.startswith('"') else turn(p, names, keep) for p in parts)
        out.append(code + in_ticks(comment, names, keep))
    return "\n".join(out)


def turn_edit(text, names, keep):
    rust = re.search(r"^file:.*\.rt\s*$", text, re.M)
    return (turn_rt if rust else turn_antt)(text, names, keep)


def main():
    names = declared()
    look = "--look" in sys.argv
    made = collections.defaultdict(set)
    for name in names:
        made[respelled(name)].add(name)
    for new, old in sorted(made.items()):
        if len(old) > 1:
            print("together:", new, *sorted(old))
    for path in files():
        text = read(path)
        keep = kit_names(text)
        if path.endswith(".antt"):
            new = turn_antt(text, names, keep)
        elif path.endswith(".rt"):
            new = turn_rt(text, names, keep)
        elif path.endswith(".edit"):
            new = turn_edit(text, names, keep)
        else:
            new = in_ticks(text, names, keep)
        if path.endswith((".antt", ".rt")):
            had = set(re.findall(r"(?<![\w'.-])[A-Za-z]\w*'*(?![\w'-])", re.sub(r"(?m)(?:^\s*--|//).*$", "", text)))
            got = {respelled(t) for t in TOKEN.findall(text) if t in names and t not in keep}
            for name in sorted(had & got):
                print("already there:", path, name)
        if not look and new != text:
            with open(path, "w", encoding="utf-8") as f:
                f.write(new)


main()
