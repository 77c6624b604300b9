#!/usr/bin/env python3
"""Spells the repository's own definitions, lemmas and proof labels as the language does: words in snake case, types in
camel case, a prime as an apostrophe, and a name of the source as the source spells it.

usage: python3 tools/respell.py [FOLDER]      at the top of the repository, or of the one in FOLDER

It goes by text, in specs/, proofs/ and the clauses of src/, and writes in place. A second run changes nothing.
Functions of src/, strings, inputs and outputs keep their names.
"""

import os
import re
import sys

TOP = sys.argv[1] if len(sys.argv) > 1 else "."
CRATES = os.path.join(TOP, "crates")
NAME = r"[^\s(){}.;,@\"«»\[\]]+"
DASHED = re.compile(r"[A-Za-zκℓ][\w'′]*(?:[-·+][\w'′]+)+")
USE = re.compile(r"\buse ([^\s;{]+)(\{[^;]*?\}(?=;|[ \t]*$))?(?: as ([^\s;]+))?", re.M)
DECLARED = re.compile(r"^[ \t]*(?:(?:pub|abbrev|unfoldable|data|record|ruleset)[ \t]+)*(" + NAME + r")(?:[ \t]+(?:\{[^{}\n]*\}|\([^\n]*?\)))*[ \t]*:[ \t]", re.M)
# words that the checker makes of several parts
MADE = re.compile(
    r"(?<![\w'-])(overflow-(?:add|sub|mul|shl|shr|cast|step)|nonzero-(?:div|rem)|(?:offset|slice)-bounds|(?:invariant|shape)-of|type-inv"
    r"|well-formed|yielded-by|call-mut)(?![\w'])"
)
INNER = re.compile(r"(?<![\w'])(in|In)-(default|ok|err)(?![\w'])")


def read(path):
    with open(path, encoding="utf-8") as it:
        return it.read()


def below(folder, *ends):
    for at, folders, files in os.walk(folder):
        folders[:] = sorted(it for it in folders if it != "out")
        for it in sorted(files):
            if it.endswith(ends):
                yield os.path.join(at, it)


def names_of(items, path):
    return re.findall(NAME, items) if items else [path.strip(".").split(".")[-1]]


def camel(name):
    return "".join(it[:1].upper() + it[1:] for it in name.replace("·", "-").split("-"))


def snake(name):
    return re.sub(r"[-·]", "_", name).replace("′", "'")


def respelled(name):
    return camel(name) if name[0].isupper() else snake(name)


own_crates = set(os.listdir(CRATES))


def is_own(path):
    steps = path.strip(".").split(".")
    return steps[0] == "Rattle" and len(steps) > 1 and steps[1] in own_crates


def is_made(path):
    return re.search(r"\.(Goals|Given)\.?$", path) is not None


def bare(text):
    """The text without comments."""
    return re.sub(r"(?m)--[^\n]*", "", text)


def imports(text):
    """The module and the names of each use line."""
    return [(where, names_of(items, where)) for where, items, _ in USE.findall(text)]


def answered(text):
    """The names of goals that the text answers: they are the checker's."""
    return set(re.findall(r"(?m)^(?:abbrev )?(?:pub )?(" + NAME + r") : \w+\.\1(?![\w'-])", bare(text)))


declared, library, source = set(), set(), {}
for crate in sorted(own_crates):
    folder = os.path.join(CRATES, crate)
    words = set()
    for path in below(os.path.join(folder, "src"), ".rt"):
        text = re.sub(r"//[^\n]*", "", read(path))
        words |= set(re.findall(r"[A-Za-z]\w*_\w+", text))
        for where, names in imports(text):
            if where.startswith("Rattle") and not is_own(where):
                library |= set(names)
    source[crate] = {it.replace("_", "-"): it for it in words}
    for path in below(folder, ".antt"):
        text = bare(read(path))
        declared |= set(DECLARED.findall(text)) - answered(text)
        for where, names in imports(text):
            if not is_own(where):
                library |= set(names)
declared = {it for it in declared if re.search(r"[-′·]", it) and DASHED.fullmatch(it)} - library


def label(name, crate):
    """A label that the checker makes: its own words and the names of the source with their underscores."""
    words = source[crate]
    name = INNER.sub(lambda m: m[1] + "_" + m[2], MADE.sub(lambda m: m[1].replace("-", "_"), name))
    parts, at, out = name.split("-"), 0, []
    while at < len(parts):
        end = next((it for it in range(len(parts), at + 1, -1) if "-".join(parts[at:it]) in words), at + 1)
        out.append(words.get("-".join(parts[at:end]), parts[at]))
        at = end
    return "-".join(out)


def antt(path, crate):
    text = read(path)
    proofs = "/proofs/" in path
    made, imported = answered(text) if proofs else set(), set()
    for where, names in imports(text):
        if not is_own(where):
            imported |= set(names)
        elif proofs and is_made(where):
            made |= set(names)

    def one(m):
        name = m[0]
        dotted = m.start() > 0 and m.string[m.start() - 1] == "."
        if name in declared and name not in made and name not in imported:
            return respelled(name)
        if name in imported or name in library and not dotted:
            return name
        if name in made or dotted and proofs:
            return label(name, crate)
        if dotted:
            return name
        return snake(name) if name[0].islower() and proofs else name

    # dashes in comments are prose, but for names that are declared
    def in_prose(m):
        return respelled(m[0]) if m[0] in declared and plainly(m[0]) else m[0]

    pieces = re.split(r"(--[^\n]*|\"(?:[^\"\\]|\\.)*\")", text)
    return "".join(DASHED.sub(in_prose if it.startswith(("--", '"')) else one, it) for it in pieces)


def plainly(name):
    """Whether the word in a comment is surely a name: not one that prose has too."""
    return name.count("-") >= 2 or name[0].isupper()


def rt(path):
    def one(m):
        return respelled(m[0]) if m[0] in declared else m[0]

    pieces = re.split(r"(//[^\n]*|\"(?:[^\"\\]|\\.)*\")", read(path))
    return "".join(it if it.startswith(("//", '"')) else DASHED.sub(one, it) for it in pieces)


for crate in sorted(own_crates):
    folder = os.path.join(CRATES, crate)
    for path in below(folder, ".antt", ".rt"):
        old = read(path)
        new = antt(path, crate) if path.endswith(".antt") else rt(path)
        if new != old:
            with open(path, "w", encoding="utf-8") as it:
                it.write(new)
    # the line that lets the check try its tactics, near the head of the root file
    for root in ("lib.rt", "main.rt"):
        path = os.path.join(folder, "src", root)
        if os.path.exists(path) and "#![tactic(auto)]" not in read(path):
            lines = read(path).split("\n")
            at = next(i for i, it in enumerate(lines) if not it.startswith("//"))
            lines.insert(at, "#![tactic(auto)]")
            if at + 1 < len(lines) and lines[at + 1].strip():
                lines.insert(at + 1, "")
            with open(path, "w", encoding="utf-8") as it:
                it.write("\n".join(lines))
