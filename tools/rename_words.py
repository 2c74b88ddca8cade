#!/usr/bin/env python3
"""Spells the definitions and lemmas of this repository as today's Rattle does: words in snake case, facts and types in camel case.

usage: python3 tools/rename_words.py [--say] [FOLDER]

It was run once, behind the toolchain's own port.py, on the repository as it stood for an older Rattle. It goes by text: each name
that a file of specs/ or proofs/ declares and that has a dash, a middle hump or a prime is respelled wherever it stands in antt text,
in the clauses and ghost lines of sources, and nowhere else. Functions, strings, inputs and outputs keep their names. A goal that
a proof file answers is no name of ours, and stays. With --say nothing is written: it prints the names and what they become, and
the files in which two names would fall together.
"""

import os
import re
import sys

WORD = re.compile(r"""[^\s(){}\[\].;,@"«»`]+""")
DECLARED = re.compile(
    r"^\s*(?:(?:pub|abbrev|unfoldable|axiom)\s+)*([^\s:(){}\[\],;.@]+)(?:\s+[({].*?[)}])*\s*:\s(.*)$"
)
TYPE = re.compile(r"^\s*(?:(?:pub|abbrev)\s+)*(?:record|data|ruleset)\s+(?:pub\s+)?([^\s:(){}\[\],;]+)")
STRING = re.compile(r'"(?:\\.|[^"\\])*"|//[^\n]*')

# Names that would fall together with another name in some file, and what they become.
APART = {}


def respelled(name):
    if name in APART:
        return APART[name]
    if not re.fullmatch(r"[A-Za-z][\w'-]*", name.replace("′", "'")):
        return name
    name = name.replace("′", "'")
    if name[0].isupper():
        first, *others = name.split("-")
        return first + "".join(it[:1].upper() + it[1:] for it in others)
    humps = re.sub(r"(?<=[a-z0-9])[A-Z]", lambda m: "_" + m[0].lower(), name)
    return humps.replace("-", "_")


def files_below(root):
    for folder, folders, files in os.walk(os.path.join(root, "crates")):
        folders[:] = sorted(it for it in folders if it != "out")
        for it in sorted(files):
            if it.endswith((".antt", ".rt")):
                yield os.path.join(folder, it)


def declared_in(text):
    for line in text.split("\n"):
        found = TYPE.match(line)
        if found:
            yield found[1]
            continue
        if re.match(r"\s*(use|let|module|open|where|mod|--)\b", line) or line.lstrip().startswith("--"):
            continue
        found = DECLARED.match(line)
        if found and not found[2].startswith(("goal.", "need.", "given.")):
            yield found[1]


def turned(text, table):
    return WORD.sub(lambda m: table.get(m[0], m[0]), text)


def turned_antt(text, table):
    lines = []
    for line in text.split("\n"):
        code, dashes, note = line.partition("--")
        lines.append(turned(code, table) + dashes + note)
    return "\n".join(lines)


def turned_source(text, table):
    """Only outside strings and comments. A word with a dash stands in no code of Rust, but for a difference, which has spaces."""
    out, at = [], 0
    for found in STRING.finditer(text):
        out += [turned(text[at : found.start()], table), found[0]]
        at = found.end()
    return "".join(out + [turned(text[at:], table)])


def main():
    say = "--say" in sys.argv
    root = ([it for it in sys.argv[1:] if it != "--say"] or ["."])[0]
    texts = {}
    for path in files_below(root):
        with open(path, encoding="utf-8") as f:
            texts[path] = f.read()
    names = sorted({it for path in texts if path.endswith(".antt") for it in declared_in(texts[path])})
    table = {it: respelled(it) for it in names if respelled(it) != it}
    for path, text in texts.items():
        turn = turned_antt if path.endswith(".antt") else turned_source
        new = turn(text, table)
        if say:
            words = set(WORD.findall(text))
            for old in sorted(words & set(table)):
                rivals = [it for it in words if it != old and table.get(it, it) == table[old]]
                if rivals:
                    print(f"together: {path}: {old} and {', '.join(rivals)}")
        elif new != text:
            with open(path, "w", encoding="utf-8") as f:
                f.write(new)
    if say:
        for old in sorted(table):
            print(f"name: {old} {table[old]}")


main()
