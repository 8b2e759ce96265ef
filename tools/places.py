#!/usr/bin/env python3
"""places.py [FOLDER]: the places of docs/DESIGN-PASS.md in the sources of FOLDER's crates, a line for each point; -v lists them."""
import glob
import re
import sys

args = [a for a in sys.argv[1:] if a != "-v"]
root = args[0] if args else "."
seen = {}


def note(point, path, line, text):
    seen.setdefault(point, []).append((path[len(root) + 1:], line, text.strip()))


def lines_of(text, point, path, pattern):
    for n, line in enumerate(text.split("\n"), 1):
        if re.search(pattern, line):
            note(point, path, n, line)


ENUM = re.compile(r"^(?:pub(?:\(crate\))? )?enum (\w+)[^{]*\{\n(.*?)^\}", re.M | re.S)
STRUCT = re.compile(r"^(?:pub(?:\(crate\))? )?struct (\w+)[^{;]*\{\n(.*?)^\}", re.M | re.S)
WORDS = {"if", "else", "while", "for", "in", "match", "let", "mut", "return", "as", "true", "false", "Ok", "Err", "Some", "None", "usize", "u8", "u16", "u32", "u64"}
shapes = {}


def shape_of(body):
    """The body with its names, numbers and strings numbered by where they first stand."""
    names = {}

    def put(m):
        word = m.group(0)
        return word if word in WORDS else names.setdefault(word, f"#{len(names)}")

    body = re.sub(r"//[^\n]*", "", body)
    return re.sub(r"\s+", " ", re.sub(r"b?\"[^\"]*\"|b'.'|\b\w+\b", put, body)).strip()


def functions(text):
    """Each function's line, name and body."""
    lines = text.split("\n")
    for n, line in enumerate(lines):
        m = re.match(r'( *)(?:pub(?:\(crate\))? )?(?:extern "C" )?fn (\w+)', line)
        if m:
            start = n
            while start < len(lines) and not lines[start].endswith("{"):
                start += 1
            end = start
            while end < len(lines) and lines[end] != m.group(1) + "}":
                end += 1
            yield n + 1, m.group(2), "\n".join(lines[start + 1 : end])


FN = re.compile(r"^(?: {4})?(?:pub(?:\(crate\))? )?(?:extern \"C\" )?fn (\w+)(.*?)(?:^ {0,4}\{$|\{$)", re.M | re.S)

for path in sorted(glob.glob(root + "/crates/*/src/**/*.rt", recursive=True)):
    text = open(path).read()
    tests = "/worked_" in path
    # 1: an enum of which a variant stands for a failure or for nothing beside one with a value
    for m in ENUM.finditer(text):
        variants = re.findall(r"^    (\w+)", m.group(2), re.M)
        if set(variants) & {"Declined", "NotDue", "NoRoom", "Nowhere", "No", "Failed", "Stopped", "Over", "Done"}:
            note("1 own enums of the shape of Option or Result", path, text[: m.start()].count("\n") + 1, m.group(1))
    for m in STRUCT.finditer(text):
        if re.search(r"^    (pub(\(crate\))? )?(verdict|known|failed|is_open|is_read|error): ", m.group(2), re.M):
            note("1 a flag or a verdict beside a value", path, text[: m.start()].count("\n") + 1, m.group(1))
    if not tests:
        lines_of(text, "1 a number for a kind or a refusal", path, r"^(pub(\(crate\))? )?const \w+: (Decline = |usize = \d;|u8 = b'|u64 = \d;|i32 = \d;)")
    # 3: loops with an index or a counter by hand
    lines_of(text, "3 loops by hand", path, r"^\s*('\w+: )?(while .*|loop )\{$")
    # 4: conversions and comparisons written by hand
    lines_of(text, "4 conversions by hand", path, r"^(pub(\(crate\))? )?fn (wide|low|high|lower|magnitude|number_of|place_of|digit_of|counted_or_none|due_or_not|parts_of)\(")
    lines_of(text, "4 tests by a chain of returns", path, r"^        return false;$")
    if tests:
        continue
    # 2: functions whose bodies are of one shape, from four names on
    for line, name, body in functions(text):
        shape = shape_of(body)
        if len(set(re.findall(r"#\d+", shape))) >= 4:
            shapes.setdefault(shape, []).append((path, line, name))
    # 5: facts and parameters that travel together
    for m in FN.finditer(text):
        head = m.group(2)
        line = text[: m.start()].count("\n") + 1
        if re.search(r"requires[^{]*\{[^}]*\bSound", head):
            note("5 soundness of a value asked for", path, line, m.group(1))
        if re.search(r"store: .*sums: ", head, re.S) or re.search(r"\bw: u64, u: u64|w: u64,\s+u: u64", head) or re.search(
            r"filled: usize,\s*(d|block): ", head
        ) or re.search(r"out: &mut \[u8\],\s*at: usize", head):
            note("5 parameters that travel together", path, line, m.group(1))
    # 6: buffers with a length beside, parallel lists, tables searched by hand
    lines_of(text, "6 buffers with a length beside, parallel lists", path, r"^    (pub(\(crate\))? )?\w+: (\[\w+; (8|12|64|96|576)\]|&'a mut \[u8\]),$|^const ROWS: \[")
    # 7: a switch on which step to run
    lines_of(text, "7 switches on a step", path, r"^    match (part|held|h|does|m|stop|start|progress) \{$|^    if tag == ")

for places in shapes.values():
    if len(places) > 1:
        for path, line, name in places:
            note("2 functions of one shape with another", path, line, name)
for point in sorted(seen):
    print(f"{point}: {len(seen[point])}")
    if "-v" in sys.argv:
        for path, line, text in seen[point]:
            print(f"    {path}:{line}: {text}")
answers = sum(len(open(p).read().split("\n")) - 1 for p in glob.glob(root + "/crates/*/proofs/*/**/Answers.antt", recursive=True))
files = len(glob.glob(root + "/crates/*/proofs/**/Answers.antt", recursive=True))
lemmas = sum(
    len(open(p).read().split("\n")) - 1
    for p in glob.glob(root + "/crates/*/proofs/**/*.antt", recursive=True)
    if not p.endswith(("Answers.antt", "Invariants.antt", "Lib.antt"))
)
print(f"8 files of answers: {files}, their lines: {answers}; lines of lemmas: {lemmas}")
