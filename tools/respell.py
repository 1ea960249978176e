#!/usr/bin/env python3
"""Brings the repository's own definitions and lemmas to snake case, after the kit's own script: `tablesOf`, `tables-of` and `tables_of` are one spelling.

usage: tools/respell.py [--dry]      at the top of the repository, once

A name is taken where a file of specs/ or proofs/ declares it with its type. Types, facts and modules keep their capitals, names that a `use` line
takes from the kit stay, and so do functions, exported C names, strings, inputs and outputs. A lemma whose new name is a definition's gets `_lem`.
In Markdown, C and Rust a name is turned only between backquotes. --dry writes nothing. Each new name is printed.
"""

import collections
import glob
import os
import re
import sys

WORD = r"[A-Za-z_][\w'₀-₉-]*"
TOKEN = re.compile(rf"(?<![\w'«₀-₉-]){WORD}")
DECLARED = re.compile(rf"^[ ]*(?:pub |abbrev |unfoldable )*({WORD}(?: {WORD})*)(?: |\n[ ]+):(?= )", re.M)
WORDS = {"pub", "abbrev", "unfoldable", "record", "data", "module", "let", "in", "where", "use", "unfolding"}
USE = re.compile(r"^(?:pub )?(?:ghost )?use ([^\s{;]+)\.\{([^}]*)\}", re.M)
OWN = re.compile(r"Rattle\.(\w+)\.(?:specs|proofs)\.(?!declared|contracts)")
KEPT = {"lQ", "lP", "lR"}


def snake(name):
    name = name.replace("-", "_")
    return re.sub(r"(?<=[a-z0-9₀-₉])([A-Z])", lambda m: "_" + m[1].lower(), name)


def read(path):
    with open(path, encoding="utf-8") as file:
        return file.read()


def names():
    """Maps each old name to its new one."""
    declared, kits = {}, set()
    for path in sorted(glob.glob("crates/*/specs/*.antt") + glob.glob("crates/*/proofs/*.antt")):
        for it in DECLARED.finditer(read(path)):
            if not WORDS & set(it[1].split()):
                for name in it[1].split():
                    declared.setdefault(name, []).append(path)
    for path in glob.glob("crates/**/*.antt", recursive=True) + glob.glob("crates/*/src/*.rt"):
        for it in USE.finditer(read(path)):
            own = OWN.match(it[1])
            if not (own and os.path.isdir(f"crates/{own[1]}")):
                kits |= {x.strip().split(" as ")[0] for x in it[2].split(",")}
    text = " ".join(read(p) for p in glob.glob("crates/**/*.antt", recursive=True))
    loose = {m[0] for m in TOKEN.finditer(text) if re.match(r"[a-z]\w*[A-Z]", m[0]) and "-" not in m[0]} - set(declared)
    lower = [n for n in declared if re.match(r"[a-z_]", n) and n not in kits and n not in KEPT]
    lower += [n for n in loose if n not in kits and n not in KEPT]
    by_new = collections.defaultdict(list)
    for name in sorted(lower):
        by_new[snake(name)].append(name)
    turned = {}
    for new, olds in by_new.items():
        # The definition keeps the plain name: it is the one with capitals, or the one in specs/.
        olds.sort(key=lambda n: ("-" in n, not any("/specs/" in p for p in declared.get(n, [])), n))
        for k, old in enumerate(olds):
            to = new if k == 0 else new + "_lem" * k
            if old != to:
                turned[old] = to
    return turned, set(turned.values()) | (set(declared) - set(turned))


def of_code(text, turned):
    """Turns the words of Rattle and antt, but for strings."""
    parts = re.split(r'("(?:\\.|[^"\\\n])*")', text)
    for k in range(0, len(parts), 2):
        parts[k] = TOKEN.sub(lambda m: turned.get(m[0], m[0]), parts[k])
    return "".join(parts)


def of_prose(text, turned, new):
    """Turns the words between backquotes, each of which stands on one line: also those that the kit's script turned, and the start of several names."""

    def word(it):
        to = turned.get(it[0], snake(it[0]))
        begins = it[0].endswith("-") and any(n.startswith(to) for n in new)
        return to if to in new or begins else it[0]

    return re.sub(r"`[^`\n]*`", lambda m: TOKEN.sub(word, m[0]), text)


def main():
    dry = "--dry" in sys.argv[1:]
    turned, known = names()
    for old, to in sorted(turned.items()):
        print(f"{old}\t{to}")
    code = glob.glob("crates/**/*.antt", recursive=True) + glob.glob("crates/*/src/*.rt") + glob.glob("bench/*.rs")
    prose = ["README.md"] + glob.glob("docs/**/*.md", recursive=True)
    prose += [p for top in ("include", "bindings", "tests", "oracle", "examples") for p in glob.glob(top + "/**/*", recursive=True)]
    for path in sorted(code + prose):
        if not os.path.isfile(path) or path.endswith((".patch.txt", ".svg")):
            continue
        try:
            old = read(path)
        except UnicodeDecodeError:
            continue
        new = of_code(old, turned) if path.endswith((".antt", ".rt")) else of_prose(old, turned, known)
        if new != old and not dry:
            with open(path, "w", encoding="utf-8") as file:
                file.write(new)


if __name__ == "__main__":
    main()
