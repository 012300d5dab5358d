#!/usr/bin/env python3
"""Respells this repository's own definitions and lemmas, after port.py: words in snake case.

usage: python3 tools/respell.py            at the top of the repository, once, right after port.py

tools/respelled.txt has a line `OLD NEW` for a name that is respelled wherever it stands, and `OLD NEW lemma` for a lemma
whose name falls together with the definition that it is about: it is respelled in the files that declare or import it. A line
`OLD NEW port` has a name that port.py respelled: it is brought to the must-fail edits and to the pages, which port.py leaves.
"""

import os
import re

HERE = os.path.dirname(os.path.realpath(__file__))
TOKEN = re.compile(r"[^\s(){}\[\],;:=→λ|\"⌜⌝×]+")
FILES = (".antt", ".rt", ".edit")
GENERATED = re.compile(r"\.(Tie|Statement|Goals|Given)$")


def tables():
    everywhere, lemmas, ported = {}, {}, {}
    with open(os.path.join(HERE, "respelled.txt"), encoding="utf-8") as f:
        for line in f:
            words = line.split()
            {"lemma": lemmas, "port": ported, "": everywhere}["".join(words[2:])][words[0]] = words[1]
    return everywhere, lemmas, ported


def texts(root):
    for folder, dirs, files in os.walk(os.path.join(root, "crates")):
        dirs[:] = sorted(d for d in dirs if d != "out")
        for f in sorted(files):
            if f.endswith(FILES):
                yield os.path.join(folder, f)


def read(path):
    with open(path, encoding="utf-8") as f:
        return f.read()


def pages(root):
    yield os.path.join(root, "README.md")
    for folder, dirs, files in os.walk(os.path.join(root, "docs")):
        for f in sorted(files):
            if f.endswith(".md"):
                yield os.path.join(folder, f)


def write(path, text, new):
    if new != text:
        with open(path, "w", encoding="utf-8") as f:
            f.write(new)
    return new != text


def fields(root):
    """The names of record fields of this repository."""
    found = set()
    for path in texts(root):
        if path.endswith(".antt"):
            inside = None
            for line in read(path).split("\n"):
                indent = len(line) - len(line.lstrip())
                if re.match(r"\s*(?:pub )?record\s", line):
                    inside = indent
                elif line.strip() and inside is not None and indent <= inside:
                    inside = None
                m = re.match(r"\s*pub (\S+(?: \S+)*?) :(?:\s|$)", line)
                if m and inside is not None:
                    found.update(m.group(1).split())
    return found


def imported(text, own):
    names = {}
    for m in re.finditer(r"use (Rattle\.(\w+)\.[\w.]+?)\.\{([^}]*)\}", text):
        if m.group(2) in own:
            for n in re.split(r"[,\s]+", m.group(3)):
                names[n] = m.group(1)
    return names


def aliases(text):
    return {m.group(2) for m in re.finditer(r"use (Rattle\.[\w.]+) as (\w+)", text) if not GENERATED.search(m.group(1))}


def respelled(text, path, everywhere, lemmas, field, own):
    here = dict(everywhere)
    brought = imported(text, own)
    for old, new in lemmas.items():
        d = re.search(r"^\s*(?:(?:pub|abbrev|unfoldable) )*" + re.escape(old) + r" :(?:\s|$)", text, re.M)
        if d and old in field and re.match(r"\s+pub", d.group(0)) and "/specs/" in path:
            d = None
        if (d and "/proofs/" in path) or ".proofs." in brought.get(old, ""):
            here[old] = new
    named = aliases(text)

    def parts(m):
        words = m.group(0).split(".")
        line_start = text.rfind("\n", 0, m.start()) + 1
        use = re.match(r"\s*(?:ghost )?use ", text[line_start:m.start()]) is not None
        for i, w in enumerate(words):
            if w not in here:
                continue
            after_dot = i > 0 or (m.start() > 0 and text[m.start() - 1] in ")]}" and words[0] == "")
            if after_dot and not use and "-" in w and w not in field and words[0] not in named:
                continue
            if after_dot and w in lemmas and not use:
                continue
            words[i] = here[w]
        return ".".join(words)

    mark = {".rt": "//", ".edit": "#"}.get(os.path.splitext(path)[1], "--")
    out = []
    pos = 0
    for m in TOKEN.finditer(text):
        line = text[text.rfind("\n", 0, m.start()) + 1:m.start()].lstrip()
        prose = line.startswith(mark) or m.group(0).startswith(mark)
        out.append(text[pos:m.start()])
        out.append(m.group(0) if prose and "-" in m.group(0) else parts(m))
        pos = m.end()
    out.append(text[pos:])
    return "".join(out)


def main():
    root = os.getcwd()
    own = set(os.listdir(os.path.join(root, "crates")))
    everywhere, lemmas, ported = tables()
    field = fields(root)
    changed = 0
    for path in texts(root):
        text = read(path)
        if path.endswith(".edit"):
            new = respelled(text, path, everywhere | ported, {}, field, own)
            new = re.sub(r"(?<=[\w')]) \.(?=[a-z0-9])", ".", new)
        else:
            new = respelled(text, path, everywhere, lemmas, field, own)
        changed += write(path, text, new)
    named = ported | everywhere
    for path in pages(root):
        text = read(path)
        code = lambda m: re.sub(r"[^\s(){}\[\],;:.→λ|\"/`]+", lambda w: named.get(w.group(0), w.group(0)), m.group(0))
        changed += write(path, text, re.sub(r"`[^`\n]+`", code, text))
    print(f"{changed} files respelled")


main()
