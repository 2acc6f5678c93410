#!/usr/bin/env python3
"""Brings the names of the repository's own definitions and lemmas to snake case.

usage: python3 tools/respell.py [FOLDER]     once, at the top of a checkout that /opt/rattle/port/port.py has turned

It goes through the files of specs/ and proofs/ for the names that they declare, and rewrites those that have a dash or a capital inside, there,
in the clauses of src/ and in the must-fail edits. Text of comments and of quoted strings stays, and so do the names of functions of src/.
"""
import collections
import glob
import os
import re
import sys

WORD = r"[^\s(){}\[\].,;:λ→⌜⌝∣‖∥\"«»]+"
MADE = ("Answers.antt", "Choices.antt", "Invariants.antt", "AnswersObeys.antt", "Proof.antt")
# names that would fall together with a function of src/, or that quote an older name of the library
OWN = {
    "kindOf": "kind_told",
    "classOf": "class_told",
    "kindIn": "kind_stated",
    "meter-fact": "fact_of_meter",
    "getD-closed": "beyond_is_closed",
    "getD-none": "beyond_is_none",
}


def snake(name):
    if name in OWN:
        return OWN[name]
    name = re.sub(r"(?<=[a-z0-9])([A-Z])", lambda m: "_" + m.group(1).lower(), name) if name[0].islower() else name
    return name.replace("-", "_")


def made(path):
    """Whether the names that a file declares are made by Rattle: it answers goals."""
    return "/proofs/" in path and os.path.basename(path) in MADE


def declared(root):
    """Each name that a definition, a lemma, a field or a case of specs/ or proofs/ has."""
    found = collections.Counter()
    for path in glob.glob(root + "/crates/*/specs/**/*.antt", recursive=True) + glob.glob(root + "/crates/*/proofs/**/*.antt", recursive=True):
        if made(path):
            continue
        for line in open(path, encoding="utf-8"):
            line = line.rstrip("\n")
            if line.lstrip().startswith("--"):
                continue
            m = re.match(rf"^\s*((?:abbrev |unfoldable |pub )*)((?:{WORD} )*{WORD})(?: \([^:]*)? ?:(?= |$)", line)
            n = re.match(rf"^\s*(?:pub )?(?:data|record) ({WORD})", line)
            if line.startswith(("use ", "pub use ")):
                found.update(re.findall(rf"\bas ({WORD})", line))
            for names in (m.group(2) if m else "", n.group(1) if n else ""):
                found.update(names.split(" "))
    return found


def main():
    root = sys.argv[1] if len(sys.argv) > 1 else "."
    names = {n: snake(n) for n in declared(root) if re.match(r"^[A-Za-z]", n) and ("-" in n or (n[0].islower() and len(n) > 2)) and snake(n) != n}
    turned = 0
    for path in sorted(glob.glob(root + "/crates/**/*", recursive=True)):
        if "/out/" in path or not path.endswith((".antt", ".rt", ".edit")):
            continue
        text = open(path, encoding="utf-8").read()
        comment = "--" if path.endswith(".antt") else "//"
        # what follows `c.`, `l.` and `goal.` in a file of answers is made by Rattle
        tokens = re.compile((r"(?<!\bc\.)(?<!\bl\.)(?<!\bgoal\.)" if made(path) else "") + r"(?<![^\s(){}\[\].,;:λ→⌜⌝∣‖∥\"«»])" + WORD)
        out = []
        for line in text.split("\n"):
            if line.lstrip().startswith(comment):
                line = re.sub(r"`[^`]*`", lambda m: tokens.sub(lambda t: names.get(t.group(0), t.group(0)), m.group(0).strip("`")).join("``"), line)
                out.append(line)
                continue
            parts = re.split(r'("(?:[^"\\]|\\.)*")', line)
            out.append("".join(p if i % 2 else tokens.sub(lambda t: names.get(t.group(0), t.group(0)), p) for i, p in enumerate(parts)))
        new = "\n".join(out)
        if new != text:
            turned += 1
            open(path, "w", encoding="utf-8").write(new)
    print(f"respell: {len(names)} names, {turned} files")


if __name__ == "__main__":
    main()
