#!/usr/bin/env python3
"""Spells this repository's own definitions and lemmas in snake case, after the kit's port.py has run.

    tools/respell.py          respells, in crates/, README.md and docs/
    tools/respell.py --look   writes nothing, and lists where two names of a file would fall together

Own names are those that specs/ and the lemma files of proofs/ declare. A name that a file takes from another library is left
there as it is, and so is every name that Rattle makes (goals, steps and their parts). A lemma that would take the name of a
definition ends in `_lem`.
"""
import collections
import glob
import os
import re
import sys

TOKEN = re.compile(r"[^\s(){}\[\],;.`\"]+")
HEAD = re.compile(r"^( *)(?:(?:abbrev|unfoldable|pub|record|data|opaque|theorem|private|ruleset) +)*([^\s(){}\[\],;.:=]+)((?: +(?:\([^()]*\)|\{[^{}]*\}))*) *(?::|where)(?: |$)")
KEEP = re.compile(r"^[A-Z]")


def snake(name):
    return re.sub(r"([a-z0-9])([A-Z])", lambda m: m.group(1) + "_" + m.group(2).lower(), name).replace("-", "_")


def own_names():
    """The names that specs/ and the lemma files declare, and which of them are fields of records."""
    specs, lemmas, fields = set(), set(), set()
    for path in sorted(glob.glob("crates/*/specs/*.antt")) + sorted(glob.glob("crates/*/proofs/*.antt")):
        into = specs if "/specs/" in path else lemmas
        record = None
        for line in open(path, encoding="utf-8"):
            if line.lstrip().startswith(("--", "let ", "λ", "∙", "(")):
                continue
            found = HEAD.match(line)
            if record is not None and line.strip() and len(line) - len(line.lstrip()) <= record:
                record = None
            if found:
                into.add(found.group(2))
                if record is not None:
                    fields.add(found.group(2))
            if re.match(r" *(?:pub )?record ", line):
                record = len(line) - len(line.lstrip())
    return specs, lemmas, fields


def new_names():
    """Each own name that changes, with its new spelling: definitions first, then lemmas."""
    specs, lemmas, fields = own_names()
    lemmas -= specs
    rank = lambda name, spec: (0 if spec and snake(name) != name and "-" not in name else 1 if "-" not in name and snake(name) != name else 2 if spec else 3 if snake(name) == name else 4)
    taken, made = set(), {}
    for name in sorted(specs | lemmas, key=lambda n: (rank(n, n in specs), n)):
        if KEEP.match(name):
            continue
        to = snake(name)
        while to in taken:
            to += "_lem"
        taken.add(to)
        if to != name:
            made[name] = to
    return made, fields


FOREIGN = re.compile(r"^\s*use (?!Rattle\.(?:[a-z_]+)\.(?:specs|proofs)\b)[^{]*\{([^}]*)\}", re.M)
STD = re.compile(r"^\s*(?:ghost )?use Rattle\.std\.[^{]*\{([^}]*)\}", re.M)
LOCAL = re.compile(r"^([^\s(){}\[\],;.:=]+)[^:=]* : ", re.M)


def respelled(path, text, made, fields):
    """The text with own names respelled: in code everywhere, in comments and pages between backticks."""
    names = dict(made)
    source = path.endswith(".rt") or (path.endswith(".edit") and text.startswith("file: src/"))
    if source:
        names = {name: to for name, to in made.items() if not to.endswith("_lem")}
    if path.endswith(".antt"):
        for group in FOREIGN.findall(text) + STD.findall(text):
            for name in group.split(","):
                names.pop(name.strip().split(" as ")[-1].strip(), None)
    walk = path.count("/proofs/") and path.endswith("/Proof.antt")
    seen = collections.defaultdict(set)

    def put(match):
        word = match.group(0)
        at = match.start()
        before = match.string[max(0, at - 4):at]
        if walk and before.endswith(".") and word not in fields:
            return word
        to = names.get(word, word)
        seen[to].add(word)
        return to

    def line_of(line):
        if path.endswith(".md"):
            return re.sub(r"`[^`\n]*`", lambda m: TOKEN.sub(put, m.group(0)), line)
        mark = "--" if path.endswith(".antt") else "//"
        at = line.find(mark) if line.lstrip().startswith(mark) else -1
        if at >= 0:
            return re.sub(r"`[^`\n]*`", lambda m: TOKEN.sub(put, m.group(0)), line)
        if re.match(r"\s*(?:pub |ghost )*use ", line):
            return re.sub(r"\{[^}]*\}", lambda m: TOKEN.sub(put, m.group(0)), line)
        return TOKEN.sub(put, line)

    lines = [line_of(line) for line in text.split("\n")]
    text = "\n".join(lines)
    if walk:
        # the proof of a Rattle function f is f_spec
        text = re.sub(r"^(pub )?([a-z0-9_-]+)-spec\b", lambda m: (m.group(1) or "") + m.group(2).replace("-", "_") + "_spec", text, flags=re.M)
    return text, {to: words for to, words in seen.items() if len(words) > 1}


def main():
    look = "--look" in sys.argv
    made, fields = new_names()
    paths = [p for kind in ("antt", "rt", "edit") for p in glob.glob(f"crates/*/**/*.{kind}", recursive=True) if "/out/" not in p]
    paths += ["README.md"] + glob.glob("docs/**/*.md", recursive=True)
    for path in sorted(paths):
        text = open(path, encoding="utf-8").read()
        new, double = respelled(path, text, made, fields)
        for to, words in sorted(double.items()):
            print(f"{path}: {' and '.join(sorted(words))} are both {to} now")
        if new != text and not look:
            open(path, "w", encoding="utf-8").write(new)
    print(f"{len(made)} names respelled" if not look else f"{len(made)} names to respell")


main()
