#!/usr/bin/env python3
"""Spells the repository's own definitions and lemmas as today's Rattle does: words in snake case, where they were in camel case or had dashes.

usage: tools/spell_names.py          at the top, once, right after Rattle's port.py
       tools/spell_names.py --list   prints each name and its new spelling, and those that would fall together, and writes nothing

Names of src/, types, modules, strings and what the programs read and print stay. Crate hex, whose name the kit has taken, becomes intelhex.
"""

import os
import re
import sys

WORD = re.compile(r"[^\s(){}\[\];,.:=|·@\"`“”∷∙×→λ≡≤<>+*/&!?#~]+")
DECLARED = re.compile(r"^\s*(?:(?:abbrev|unfoldable|pub|pub abbrev|mod)\s+)*((?:[^\s:(){}]+\s+)*?)([^\s:(){}]+)\s*:(?=\s|$)")
MODIFIERS = {"abbrev", "unfoldable", "pub", "let", "record", "data", "use", "in", "where", "ruleset"}
CAMEL = re.compile(r"(?<![\w'-])[a-z][a-z0-9]*(?:[A-Z][a-z0-9]*)+(?![\w-])")
# Lemmas that would have a definition's name: all of these are lemmas as port.py leaves them.
LEMMAS = {
    "all_asked", "all_digits", "all-taken", "bit-or", "byte-of", "card-in", "chip-refused", "chip-verdict", "data-writes", "first_read", "image-at", "in-form", "length-good",
    "line-feed", "nibble-read", "no_digit", "put-mark", "read_at", "read-lines", "slot-code", "so-far", "two_digits",
}
OLD_CRATE, NEW_CRATE = "hex", "intelhex"


def files(*ends):
    for folder, dirs, names in os.walk("crates"):
        dirs[:] = sorted(d for d in dirs if d != "out")
        for name in sorted(names):
            if name.endswith(ends):
                yield os.path.join(folder, name)


def read(path):
    with open(path, encoding="utf-8") as f:
        return f.read()


def snake(name):
    """A word in snake case; a name that begins as a type does keeps its capitals."""
    if not name or not re.match(r"[a-z]", name):
        return name
    name = re.sub(r"(?<=[a-z0-9])([A-Z])", lambda m: "_" + m.group(1).lower(), name)
    return re.sub(r"(?<=\w)-(?=\w)", "_", name)


def declared():
    """The names that specs/ and proofs/ declare, and the files of each."""
    found = {}
    for path in files(".antt"):
        # What a proof of a function calls its parts is Rattle's, and is not respelled here.
        whole = os.path.basename(path) == "Proof.antt"
        for line in read(path).splitlines():
            if line.lstrip().startswith("--"):
                continue
            m = DECLARED.match(line)
            if not m or (whole and re.search(r":\s*(\{M|tie\.(Need|invariant|decreases)|.*\bstatement M)", line)):
                continue
            for name in m.group(1).split() + [m.group(2)]:
                if name not in MODIFIERS and snake(name) != name:
                    found.setdefault(name, set()).add(path)
    return found


def words(text):
    return set(WORD.findall(text))


def respell(text, names):
    # Behind a point stands a field, and a lemma is none. What is in camel case besides is bound in a clause or a proof, or an operator's name.
    text = WORD.sub(lambda m: m.group(0) if m.group(0) in LEMMAS and text[m.start() - 1 : m.start()] == "." else names.get(m.group(0), m.group(0)), text)
    return CAMEL.sub(lambda m: snake(m.group(0)), text)


def source(text, names):
    """A .rt file: strings stay, and in a comment a dash may be English, so that only names in camel case are turned there."""
    camel = {a: b for a, b in names.items() if "-" not in a}
    out = []
    for part in re.split(r'(//[^\n]*|"(?:[^"\\]|\\.)*")', text):
        out.append(part if part.startswith('"') else respell(part, camel if part.startswith("//") else names))
    return "".join(out)


def renamed_crate(path, text):
    text = re.sub(rf"\bRattle\.{OLD_CRATE}\.", f"Rattle.{NEW_CRATE}.", text)
    if path.endswith(".rt"):
        text = re.sub(rf"\b{OLD_CRATE}::", f"{NEW_CRATE}::", text)
    return text


def main(argv):
    found = declared()
    names = {name: snake(name) for name in found} | {name: snake(name) + "_lem" for name in LEMMAS}
    backward = {}
    for a, b in names.items():
        backward.setdefault(b, set()).add(a)
    # Where the new spelling is a word of the same file already, or two names become one, a reader has to look.
    for b, olds in sorted(backward.items()):
        if len(olds) > 1:
            print(f"fall together: {sorted(olds)} -> {b}: " + "; ".join(f"{a} in {', '.join(sorted(found[a]))}" for a in sorted(olds)))
    for path in files(".antt", ".rt"):
        here = words(read(path))
        for b in sorted(here & backward.keys()):
            if backward[b] & here:
                print(f"taken: {path}: {sorted(backward[b] & here)} -> {b}, which stands there")
    if argv == ["--list"]:
        for a, b in sorted(names.items()):
            print(f"{a} -> {b}")
        return 0
    for path in files(".antt", ".rt"):
        text = read(path)
        new = renamed_crate(path, respell(text, names) if path.endswith(".antt") else source(text, names))
        if new != text:
            with open(path, "w", encoding="utf-8") as f:
                f.write(new)
    lines = read("crates.txt")
    with open("crates.txt", "w", encoding="utf-8") as f:
        f.write(re.sub(rf"\b{OLD_CRATE}\b", NEW_CRATE, lines))
    if os.path.isdir(f"crates/{OLD_CRATE}"):
        os.rename(f"crates/{OLD_CRATE}", f"crates/{NEW_CRATE}")
    return 0


if __name__ == "__main__":
    raise SystemExit(main(sys.argv[1:]))
