#!/usr/bin/env python3
"""Brings the names of this repository's own definitions and lemmas to today's spelling.

usage: tools/respell.py [--dry]     at the top of the repository, once, after port.py

Functions, lemmas, fields and constructors go to snake case, types to camel case. A name counts as the repository's own
if a file of specs/ or proofs/ declares it and no library has it by that spelling; names that Rattle makes (of goals,
invariants and steps) keep their dashes. Names in src/ that are Rust's, strings, inputs and outputs have no dash and stay.
With --dry it says which names fall together and writes nothing.
"""

import os
import re
import sys

LETTER = r"[^\s(){}\[\]<>,.;:|«»\"`⌜⌝λ∀∃→≡≤×∷∙◌]"
TOKEN = re.compile(LETTER + "+")
MADE = re.compile(
    r"(returns|invariant|decreases|loop|overflow(_\w+)?|nonzero(_\w+)?|bounds|slice_bounds|offset_bounds|prove|ghosts|if|in|then|else|match|the)-"
    r"|.*-(requires|preserved|init|smaller|result|index|item|iterator|test)(-\d+)?$|.*-clause-.*|invariant_of-.*"
)
DECLARED = re.compile(r"^\s*(?:pub\s+|abbrev\s+|unfoldable\s+|data\s+|record\s+)*(" + LETTER + r"+)(?=[\s:({])(?:[^=]*?):(?!:)")
CLAUSE = re.compile(r"^\s*(?:let\s+)?(" + LETTER + r"+-" + LETTER + r"*)\s*:")


def files(root, *endings):
    for folder, dirs, names in os.walk(os.path.join(root, "crates")):
        dirs[:] = sorted(d for d in dirs if d != "out")
        for name in sorted(names):
            if name.endswith(endings):
                yield os.path.join(folder, name)


def imported(text):
    """The names that a file takes from libraries outside this repository, by the crates that it has."""
    for path, names in re.findall(r"^\s*(?:ghost )?use ([\w.·◌]+)\.\{([^}]*)\}", text, re.M):
        own = re.match(r"Rattle\.(\w+)\.", path)
        if own and os.path.isdir(os.path.join("crates", own.group(1))):
            continue
        for name in names.split(","):
            yield name.split(" as ")[0].strip()


def turned(name):
    parts = name.split("-")
    if name[0].isupper():
        return "".join(p[:1].upper() + p[1:] for p in parts)
    return "_".join(parts)


def main():
    own, foreign, tokens = {}, set(), {}
    for path in files(".", ".antt", ".rt"):
        with open(path, encoding="utf-8") as f:
            text = f.read()
        foreign.update(imported(text))
        for t in TOKEN.findall(text):
            tokens.setdefault(t, set()).add(path)
        if path.endswith(".antt"):
            for line in text.splitlines():
                found = DECLARED.match(line) or CLAUSE.match(line)
                if found and "-" in found.group(1).strip("-") and not found.group(1).startswith("--"):
                    name = found.group(1)
                    if not MADE.match(name) or name in KEPT:
                        own.setdefault(name, path)
    names = {n: turned(n) for n in (own | dict.fromkeys(ALIASES, "an alias")) if n not in foreign}
    for n in sorted(own):
        if n in foreign:
            print(f"a library's name too, left: {n} ({own[n]})")
    targets = {}
    for n, t in sorted(names.items()):
        if t in tokens:
            print(f"falls together: {n} -> {t}, which stands in {sorted(tokens[t])[:3]}")
        if t in targets:
            print(f"falls together: {n} and {targets[t]} -> {t}")
        targets[t] = n
    print(f"{len(names)} names")
    if "--dry" in sys.argv:
        print(" ".join(sorted(names)))
        return
    for path in files(".", ".antt", ".rt", ".edit"):
        with open(path, encoding="utf-8") as f:
            text = f.read()
        new = TOKEN.sub(lambda m: names.get(m.group(0), m.group(0)), text)
        if new != text:
            with open(path, "w", encoding="utf-8") as f:
                f.write(new)


# names that an import gives
ALIASES = ["are-below", "inject-call", "read-call", "sweep-call", "write-call"]

# our own, though they look like names that Rattle makes
KEPT = {
    "in-at", "in-check", "in-last", "in-mask", "in-parity", "in-salt", "in-word",
    "the-check", "the-mask", "the-raw", "the-words",
    "fixed-test", "found-test", "laws-by-test", "log-test", "power-test", "small-test", "swap-test", "xor-test",
}

if __name__ == "__main__":
    main()
