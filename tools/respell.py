#!/usr/bin/env python3
"""Spells this repository's own definitions, laws, constructors and fields as today's Rattle does: words in snake case.

Run once at the top of the checkout, after the kit's port.py. It reads what the files of specs/ and the lemma files of proofs/ declare and
turns each of these names wherever it stands: in specs/, proofs/, the clauses of src/, the texts of must-fail edits and the pages. Functions
of src/, exported names, types, modules and the names that the prover makes keep their spelling.
"""
import glob
import re

# A name that antt reads as one word.
NAME = re.compile(r"[^\s(){}\[\];,.\"@`]+")
DECLARED = re.compile(r"^\s*(?:(?:abbrev|unfoldable|pub|data|record|ruleset)\s+)*([^\s(){}\[\];,.\"@`]+)\s*(?:\(|\{|:|=)")
WORDS = {"use", "module", "--", "open", "let", "where", "in", "elim", "pub", "data", "record", "ruleset"}

# Names of a law that would fall together with the definition that the law is about: the law says so.
LAW = "_law"
# Pairs of which the kit's port.py already spelled the law as the definition is spelled now.
TURNED = ["all_in", "all_asked", "fit_words", "held_by", "no_value", "read_length"]


def snake(name):
    return re.sub(r"(?<=[a-z0-9])([A-Z])", lambda m: "_" + m.group(1).lower(), name.replace("-", "_"))


def lemma_files():
    return sorted(glob.glob("crates/*/specs/*.antt") + glob.glob("crates/*/proofs/*.antt"))


def declared():
    """The names that the repository declares, and of these the ones that are fields or constructors."""
    names, fields = set(), set()
    for path in lemma_files():
        for line in open(path):
            m = DECLARED.match(line)
            if m and m.group(1) not in WORDS:
                names.add(m.group(1))
                if line[0] == " ":
                    fields.add(m.group(1))
    return names, fields


def spelled(names):
    """Each name that changes, with its new spelling."""
    turned = {}
    defined = {snake(n) for n in names if "-" not in n}
    for n in TURNED:
        turned[n] = n + LAW
    for n in names:
        if n[0].islower() and snake(n) != n:
            turned[n] = snake(n) + (LAW if "-" in n and snake(n) in defined else "")
    return turned


def outside(text, crates):
    """The names that a file takes from libraries that are not the repository's."""
    taken = set()
    for path, names in re.findall(r"^(?:ghost )?use ([^\s{]+)\.\{([^}]*)\}", text, re.M):
        part = path.split(".")
        if part[0] == "Rattle" and len(part) > 1 and part[1] in crates:
            continue
        taken |= {x.strip() for n in names.split(",") for x in n.split(" as ")}
    return taken


def turn(text, names, skip, after_dot):
    """The text with its names turned; behind a dot only those in after_dot, if it is given."""

    def one(m):
        w = m.group(0)
        if w in skip or w not in names:
            return w
        if after_dot is not None and m.start() and text[m.start() - 1] == "." and w not in after_dot:
            return w
        return names[w]

    return NAME.sub(one, text)


def main():
    crates = {l.split(":")[0].split()[0] for l in open("crates.txt") if l.strip() and l[0] != "#"}
    names, fields = declared()
    turned = spelled(names)
    clash = {}
    for n, s in turned.items():
        clash.setdefault(s, []).append(n)
    for s, ns in sorted(clash.items()):
        if len(ns) > 1 or (s in names and s not in turned):
            print("falls together:", s, ns)
    lemmas = set(lemma_files())
    laws = set(TURNED)
    for path in sorted(glob.glob("crates/**/*.antt", recursive=True) + glob.glob("crates/*/src/**/*.rt", recursive=True)):
        text = open(path).read()
        after_dot = None if path in lemmas or path.endswith(".rt") else fields - laws
        # A law of TURNED may be spelled as a function is; code and its clauses name no law.
        code = laws if path.endswith(".rt") else set()
        new = turn(text, turned, outside(text, crates) | code, after_dot)
        if new != text:
            open(path, "w").write(new)
    # Edits and pages, which port.py leaves: there a name may also stand in the spelling that it turned.
    class Both(dict):
        def __contains__(self, w):
            return w in turned or (w[0].islower() and snake(w) != w and snake(w) in names)

        def __getitem__(self, w):
            return turned.get(w, snake(w))

    both = Both()
    for path in sorted(glob.glob("crates/*/must-fail/*.edit")):
        lines = open(path).read().split("\n")
        open(path, "w").write("\n".join(turn(l, both, laws, None) if l.startswith(("old:", "new:")) else l for l in lines))
    for path in sorted(glob.glob("docs/**/*.md", recursive=True) + ["README.md"]):
        text = open(path).read()
        new = re.sub(r"`[^`\n]+`", lambda m: turn(m.group(0), both, laws, None), text)
        if new != text:
            open(path, "w").write(new)


main()
