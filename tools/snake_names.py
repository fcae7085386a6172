#!/usr/bin/env python3
"""Spells the repository's own definitions, fields and lemmas as the library does, once.

usage: python3 tools/snake_names.py        at the top of a checkout, right after the toolchain's own porting script

Functions, lemmas and fields go to snake case, types and facts to upper camel case. Names that the toolchain makes, and
those of src/, keep their spelling: only a name that specs/ or proofs/ defines here is turned, wherever it stands as a
whole word in an .antt file or in a clause. A name that would fall together with another one is listed in APART.
"""
import os
import re

WORD = r"[A-Za-z_][\w'\-ℤℕ]*"
# names whose plain spelling is another name already, and one that the porting script had turned
APART = {
    "at-most": "lots_at_most",
    "uplift-at": "uplift_here",
    "gap_at": "gap_here",
    "run-lots": "run_lots_put",
}
DEFINED = re.compile(
    r"^\s*(?:(?:abbrev|unfoldable|pub|record|data|let) )*(?P<name>" + WORD + r")(?P<rest>\s*[:({].*)$"
)
MADE = re.compile(r":\s*(?:goal|given|need|choice)\.")


def sources():
    for folder, dirs, files in os.walk("crates"):
        dirs[:] = sorted(d for d in dirs if d != "out")
        for name in sorted(files):
            if name.endswith((".antt", ".rt")):
                yield os.path.join(folder, name)


def is_type(line):
    """A definition that answers a type, or a record or data type."""
    head = line.split("--")[0].rstrip()
    return bool(re.search(r"(record|data) ", head)) or bool(re.search(r":.*Type \d+$", head)) and ":" in head


def spelled(name, fact):
    parts = re.split(r"[-_]", name)
    if fact or name[0].isupper():
        return "".join(p[:1].upper() + p[1:] for p in parts)
    words = []
    for part in parts:
        words += re.sub(r"(?<=[a-z0-9])(?=[A-Z])", " ", part).split()
    return "_".join(w[0].lower() + w[1:] if w[0].isupper() else w for w in words)


def own_names():
    found = {}
    for path in sources():
        if not path.endswith(".antt"):
            continue
        with open(path, encoding="utf-8") as f:
            for line in f:
                m = DEFINED.match(line.rstrip("\n"))
                if not m or line.startswith(("use ", "--")) or MADE.search(line):
                    continue
                if " : " not in line:
                    continue
                name = m.group("name")
                if "-" in name or re.search(r"[a-z0-9][A-Z]", name) and name[0].islower():
                    found.setdefault(name, is_type(line))
    return found


def main():
    names = own_names()
    turned = {n: APART.get(n, spelled(n, fact and n[0].isupper())) for n, fact in names.items()}
    turned |= APART
    turned = {n: t for n, t in turned.items() if n != t}
    alternatives = "|".join(re.escape(n) for n in sorted(turned, key=len, reverse=True))
    word = re.compile(r"(?<![\w'\-])(" + alternatives + r")(?![\w'\-])")
    for path in sources():
        with open(path, encoding="utf-8") as f:
            text = f.read()
        if path.endswith(".rt"):
            new = "\n".join(clause(line, word, turned) for line in text.split("\n"))
        else:
            new = "\n".join(antt(line, word, turned) for line in text.split("\n"))
        if new != text:
            with open(path, "w", encoding="utf-8") as f:
                f.write(new)
    for path in ["README.md"] + sorted("docs/" + f for f in os.listdir("docs") if f.endswith(".md")):
        with open(path, encoding="utf-8") as f:
            text = f.read()
        new = re.sub(r"`[^`\n]+`", lambda m: word.sub(lambda n: turned[n.group(1)], m.group(0)), text)
        with open(path, "w", encoding="utf-8") as f:
            f.write(new)
    for name in sorted(turned):
        print(f"{name} {turned[name]}")


def antt(line, word, turned):
    code, dashes, comment = line.partition("--")
    return word.sub(lambda m: turned[m.group(1)], code) + dashes + comment


def clause(line, word, turned):
    if not re.match(r"\s*(ghost |pub ghost |requires|ensures)", line):
        return line
    return word.sub(lambda m: turned[m.group(1)], line)


if __name__ == "__main__":
    main()
