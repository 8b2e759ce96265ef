#!/usr/bin/env python3
"""Brings the repository's own names to today's spelling: run once, at the top, behind the toolchain's port.py.

Definitions, lemmas, constructors and fields that crates/*/specs and crates/*/proofs declare are in snake case; a fact is in upper camel case; a dash stays only between
two names of definitions. Names of src/, strings, inputs and outputs stay. Turned too: clauses and ghost imports of src/, the edits, and code spans of README.md and docs/.
`--list` prints the table and writes nothing.
"""

import os
import re
import sys

DECLARED = re.compile(r"^( *)((?:pub |abbrev |unfoldable |data |record |infix\w* )*)([^\s:.{}()=λ→,;]+)((?: [{(][^{}()]*[})])*) :(?= |$)")
WORD = re.compile(r"[^\s(){}\[\].;,:@\"«»|`]+")
FACTS = {"withinHalf": "WithinHalf"}
# Lemmas that would have their definition's name.
LEMMAS = set(
    "before-close block-of-posts comes-to from_one in-range in-span is_free of-issue of-posts of-stock one-material out-of-turn parts-to post-at posts-taken".split()
)
# Lemmas named by two names of definitions.
KEPT = set("drop-zeros joined-append length-placed length-put length-raised length-settled zeros-append".split())


def snake(name):
    return re.sub(r"(?<=[A-Za-z0-9])[A-Z]", lambda m: "_" + m[0].lower(), name)


def antt(*folders):
    for root, dirs, files in os.walk("crates"):
        dirs[:] = sorted(d for d in dirs if d not in ("out", "data"))
        parts = root.split(os.sep)
        if len(parts) > 2 and parts[2] in folders:
            for f in sorted(files):
                if f.endswith(".antt"):
                    yield os.path.join(root, f)


def read(path):
    with open(path, encoding="utf-8") as f:
        return f.read()


def declared(path):
    """Each name that the file declares, but for a function's goals and its theorem."""
    for line in read(path).split("\n"):
        m = DECLARED.match(line)
        if not m or m[3] in ("where", "use"):
            continue
        rest = line[m.end():].strip()
        if re.match(r"(tie|goal)\.", rest) or rest.endswith("statement M"):
            continue
        yield m[3]


def table():
    names = {name for path in antt("specs", "proofs") for name in declared(path)}
    rows = {}
    for name in names:
        if name in FACTS:
            rows[name] = FACTS[name]
            continue
        if name in LEMMAS:
            rows[name] = name.replace("-", "_") + "_lem"
            continue
        if "◌" in name:
            for part in name.split("◌"):
                if snake(part) != part:
                    rows[part] = snake(part)
                    rows[name] = snake(name)
            continue
        if name in KEPT or not (name[0].islower() or "-" in name):
            continue
        parts = [snake(p) for p in name.split("-")]
        if "" in parts or not all(re.fullmatch(r"[A-Za-z_][\w']*|\d+", p) for p in parts):
            continue
        new = "_".join(parts)
        if new != name:
            rows[name] = new
    return names, rows


def turned(text, rows):
    return WORD.sub(lambda m: one(m[0], rows), text)


def in_antt(text, rows):
    lines = []
    for line in text.split("\n"):
        m = re.search(r"(^|(?<=\s))--(\s|$)", line)
        at = m.start() if m else len(line)
        lines.append(turned(line[:at], rows) + spans(line[at:], rows))
    return "\n".join(lines)


def one(word, rows):
    if word in rows:
        return rows[word]
    # an operator's word, a comment's ending, or a name behind a sign
    m = re.fullmatch(r"([^\w']*)([\w'-]+?)([^\w']*)", word)
    if m and m[2] in rows:
        return m[1] + rows[m[2]] + m[3]
    return word


GHOST = re.compile(r"(ghost use [^;]*;)|((?:requires|ensures)\*?(?: \w+)? \{)|(ghost \w+: \{)")


def in_source(text, rows):
    out, at = [], 0
    while True:
        m = GHOST.search(text, at)
        if not m:
            out.append(text[at:])
            return "".join(out)
        out.append(text[at:m.start()])
        end = m.end()
        if not m[1]:
            depth = 1
            while depth:
                depth += {"{": 1, "}": -1}.get(text[end], 0)
                end += 1
        out.append(turned(text[m.start():end], rows))
        at = end


def spans(text, rows):
    return re.sub(r"`[^`\n]+`", lambda m: turned(m[0], rows), text)


def write(path, text):
    with open(path, "w", encoding="utf-8") as f:
        f.write(text)


def collisions(names, rows):
    """Names that fall together: a new spelling that is declared already, or that two names get."""
    seen = {}
    for name in names:
        seen.setdefault(rows.get(name, name), []).append(name)
    return {new: old for new, old in seen.items() if len(old) > 1}


def sources():
    for root, dirs, files in os.walk("crates"):
        dirs[:] = sorted(d for d in dirs if d != "out")
        for f in sorted(files):
            if f.endswith(".rt") or f.endswith(".edit"):
                yield os.path.join(root, f)


def main():
    names, rows = table()
    for new, old in sorted(collisions(names, rows).items()):
        print("fall together:", new, old)
    if "--list" in sys.argv:
        for old in sorted(names):
            print(old, rows.get(old, "="))
        return
    for path in antt("specs", "proofs"):
        write(path, in_antt(read(path), rows))
    for path in sources():
        text = read(path)
        write(path, in_source(text, rows) if path.endswith(".rt") else turned_edit(text, rows))
    for path in ["README.md"] + [os.path.join("docs", f) for f in sorted(os.listdir("docs")) if f.endswith(".md")]:
        write(path, spans(read(path), rows))


def turned_edit(text, rows):
    """An edit of specs/ or proofs/ is antt; of src/ only its clauses are."""
    antt_file, out = False, []
    for line in text.split("\n"):
        if line.startswith("file: "):
            antt_file = line.endswith(".antt")
        if re.match(r"(old|new): ", line) and (antt_file or re.search(r"(requires|ensures)", line)):
            line = line[:5] + turned(line[5:], rows)
        out.append(line)
    return "\n".join(out)


if __name__ == "__main__":
    main()
