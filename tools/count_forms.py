#!/usr/bin/env python3
"""count_forms.py [FOLDER]: counts, in the crates of a checkout, the places that docs/DESIGN-PASS.md is about, point by point; with -v it lists them."""
import collections
import glob
import os
import re
import sys

args = [a for a in sys.argv[1:] if a != "-v"]
root = args[0] if args else os.path.join(os.path.dirname(os.path.abspath(__file__)), "..")
show = "-v" in sys.argv
sources = {os.path.relpath(f, f"{root}/crates"): open(f).read() for f in sorted(glob.glob(f"{root}/crates/*/src/**/*.rt", recursive=True))}
# in these, small numbers are the format's own, or the table of the numbers itself
FORMAT = {"field_table", "field_rules", "wire", "cmaf_write_saiz", "refusal"}
PROGRAMS = {"inputs", "printing", "accounts", "wire_vectors", "commands", "mfhd_numbers", "slot_vectors", "relay", "codec_vectors", "locmaf_c"}


def tell(point, what, places):
    print(f"{point:>3}  {len(places):4}  {what}")
    if show:
        for place in places:
            print("           ", place)


def functions(text):
    """The functions of a file: name, parameters, and the body without what is said of it."""
    for m in re.finditer(r"(?m)^ *(?:pub )?fn (\w+)(?:<[^>]*>)?\(((?:[^()]|\([^()]*\))*)\)[^\n{]*\n?(?:    (?:requires|ensures)(?:.*\n)+?)?(?=\{|.*\{)", text):
        start = text.find("\n{", m.start())
        end = text.find("\n}", start)
        if start > 0 and end > 0:
            yield m[1], m[2], text[start:end]


# 1: enums of the shape of Option or Result
places = []
for file, text in sources.items():
    for m in re.finditer(r"(?m)^ *(?:pub )?enum (\w+) \{\n((?:    .*\n)*?)\}", text):
        cases = [c.strip().rstrip(",") for c in m[2].split("\n") if c.strip() and not c.strip().startswith("//")]
        full = [c for c in cases if "(" in c]
        if (full and len(full) < len(cases)) or {"Done", "Clean"} & set(cases) or any(c.startswith("Refused(") for c in cases):
            places.append(f"{file}: {m[1]} {{{', '.join(cases)}}}")
tell("1a", "enums of the shape of Option or Result", places)

# 1: a field that says whether the others count
places = []
for file, text in sources.items():
    for m in re.finditer(r"(?m)^ *(?:pub )?struct (\w+)(?:<[^>]*>)? \{\n((?:    .*\n)*?)\}", text):
        for f in re.findall(r"(?:pub )?(ok|fits|told|stands|bad|number|past|answered): (?:bool|u64)", m[2]):
            places.append(f"{file}: {m[1]}.{f}")
tell("1b", "structs with a flag or a number that says whether the rest counts", places)

# 1: numbers for refusals
places = []
for file, text in sources.items():
    if file.split("/")[0] in PROGRAMS | FORMAT:
        continue
    for n, line in enumerate(text.split("\n"), 1):
        code = line.split("//")[0]
        if re.search(r"return (?:1\d|2[01]|[1-9]);|[Rr]efused\(\d+\)|number: \d+|refuse\(s, \d+\)|=> \d+,", code) or re.match(r"^    (?:    )?(?:1[0-9]|2[01]|[1-9])$", code):
            places.append(f"{file}:{n}: {line.strip()}")
tell("1c", "numbers for refusals (crates of the codec)", places)

# 2: twins, by text: bodies that are the same but for names and numbers
groups = collections.defaultdict(list)
for file, text in sources.items():
    for name, _, body in functions(text):
        shape = re.sub(r"\s+", "", re.sub(r"\b(?!let|mut|if|else|for|in|while|match|return|fn|as)[A-Za-z_]\w*(?:::\w+)*", "x", re.sub(r"\b\d[\w_]*", "0", re.sub(r"//.*", "", body))))
        if len(shape) > 40:
            groups[shape].append(f"{file}: {name}")
places = [", ".join(v) for v in groups.values() if len(v) > 1]
tell("2", "groups of functions whose bodies differ in names and numbers alone", places)

# 3
places = [f"{file}:{n}: {line.strip()}" for file, text in sources.items() for n, line in enumerate(text.split("\n"), 1) if re.match(r"^ *while ", line)]
tell("3", "while loops", places)

# 4
places = [f"{file}: {m[1]}" for file, text in sources.items() for m in re.finditer(r"\bfn (same\w*|equal\w*|less\w*|wide|digits?|hex|letter|number_of|as_\w+)\b", text)]
tell("4", "functions that compare, convert or print by hand, by their names", places)

# 5
clauses = collections.defaultdict(list)
for file, text in sources.items():
    for m in re.finditer(r"requires (?:\w+ )?\{((?:[^{}]|\n)*?)\}\n", text):
        for part in m[1].split(" × "):
            p = re.sub(r"\s+", " ", part).strip()
            while p.startswith("(") and p.endswith(")"):
                p = p[1:-1].strip()
            clauses[p].append(file)
places = [f"{len(v)} {k}" for k, v in sorted(clauses.items(), key=lambda x: -len(x[1])) if len(v) >= 3]
tell("5", "facts that stand word for word in the requires of three or more functions", places)

# 6
places = [f"{file}:{n}: {line.strip()}" for file, text in sources.items() for n, line in enumerate(text.split("\n"), 1) if re.search(r"\[0(?:u\d+|usize)?; ", line)]
tell("6", "arrays made with a fixed length", places)

# 7
places = [f"{file}:{n}: {line.strip()}" for file, text in sources.items() for n, line in enumerate(text.split("\n"), 1) if re.search(r"^ *(?:let .* = |return )?match (?!self)\w+(?:\.\w+)* \{", line)]
tell("7", "matches on a value that a caller chose", places)

# 8
copies, found = [], []
for f in sorted(glob.glob(f"{root}/crates/*/proofs/**/Answers.antt", recursive=True)):
    text = open(f).read()
    copies += [f"{os.path.relpath(f, root)}: {m[1]}" for m in re.finditer(r"(?m)^([\w'-]+-\d+) : \(c : goal\.", text)]
    found += [f"{os.path.relpath(f, root)}: {m[1]}" for m in re.finditer(r"(?m)^([\w-]+) c = (?:search rules|refl|omega arith)$", text)]
tell("8a", "copies of a law in a function's answers", copies)
tell("8b", "answers of one tactic without a law", found)
