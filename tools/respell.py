#!/usr/bin/env python3
"""Brings the repository's own names to the spelling of today's Rattle, after the kit's port.py: definitions in snake case, as its library has them.

usage: python3 tools/respell.py        at the top of the repository, once

- A name that begins with a small letter and has a capital inside, as `byFirst`, is written `by_first`: definitions, laws, fields and local names, in specs/, proofs/, the clauses
  and comments of src/, must-fail/, README.md and docs/. Laws keep their hyphens (`bits-append`), as the library's do; a definition inside such a name is respelled with it.
- Laws whose hyphen port.py had turned into `_`, and whose name would then be a definition's, get the hyphen back (BACK).
- Left: names of Rust's, of the library, text in strings, and docs/PORT.md, which has both spellings.
It stops, and writes nothing, where two names would become one.
"""

import glob
import os
import re
import sys

WORD = re.compile(r"(?<![\w'′-])([a-z][\w'′]*(?:-[\w'′]+)*)(?![\w-])")
STRING = re.compile(r'"(?:[^"\\\n]|\\.)*"')
# Not names of the repository's: a function of src/ with an import's name in it, a field of a CMAF Header, numbers.
LEFT = {"take_Chunk", "track_ID", "x03C10000", "x03C1_0000", "xF05"}
# Laws and fields that get their hyphen back: everywhere, or in these files only, where a function of src/ has the name too.
BACK = {
    "all_same": None,
    "block_reads": None,
    "field_in": None,
    "first_by": None,
    "front_bytes": None,
    "in_order": None,
    "is_open": None,
    "last_ok": None,
    "offset_at": None,
    "part_in": None,
    "plain_ok": None,
    "same_size": None,
    "set_words": None,
    "stands_at": None,
    "word_stands": None,
    "count_at": "reference/proofs/AcceptedLaws.antt",
    "header_of": "reread/proofs/ObjectParts.antt",
    "text_at": "locmaf_read_block/proofs/EventsWritten.antt",
    "by_first": "wire/proofs/",
    "by_value": "wire/proofs/ receiver/proofs/ValueNumber.antt",
}
# Where a law's name stands behind a dot or in backticks, it is the function of src/.
FUNCTIONS = {"by_first", "by_value"}


def files(*patterns):
    found = []
    for p in patterns:
        found += [f for f in glob.glob(p, recursive=True) if "/out/" not in f]
    return sorted(set(found))


def respelled(word):
    word = word.replace("′", "'")
    return re.sub(r"(?<=[a-z0-9_'])([A-Z])", lambda m: "_" + m.group(1).lower(), word)


def is_old(word):
    return word not in LEFT and re.search(r"[a-z0-9_'][A-Z]", word) is not None


def back(path, text):
    for word, where in BACK.items():
        if where is None:
            if not path.endswith(".antt"):
                continue
        elif not any(("crates/" + w) in path for w in where.split()):
            continue
        before = r"(?<![\w'`.-])" if word in FUNCTIONS else r"(?<![\w'`-])"
        text = re.sub(before + word + r"(?![\w'`-])", word.replace("_", "-"), text)
    return text


def turned(path, text):
    def words(part):
        return WORD.sub(lambda m: respelled(m.group(1)) if is_old(m.group(1)) else m.group(1), part)

    if not path.endswith(".rt"):
        return words(text)
    done, at = [], 0
    for s in STRING.finditer(text):
        done += [words(text[at : s.start()]), s.group(0)]
        at = s.end()
    return "".join(done) + words(text[at:])


def main():
    ours = files("crates/*/specs/**/*.antt", "crates/*/proofs/**/*.antt", "crates/*/src/**/*.rt", "crates/*/must-fail/*.edit")
    pages = [f for f in files("README.md", "docs/*.md") if os.path.basename(f) != "PORT.md"]
    texts = {}
    for f in ours + pages:
        with open(f, encoding="utf-8") as it:
            texts[f] = it.read()
    kept = {f: back(f, t) if f.endswith(".antt") else t for f, t in texts.items()}
    names, old = set(), set()
    for f in ours:
        if f.endswith(".antt"):
            plain = re.sub(r"--.*", "", kept[f])
            for m in WORD.finditer(plain):
                (old if is_old(m.group(1)) else names).add(m.group(1))
    # A name behind a dot or `use` that a function of src/ has is no definition's: those were looked at by hand, and only the ones in BACK were two names.
    merged = {}
    for w in old:
        merged.setdefault(respelled(w), []).append(w)
    twice = {n: w for n, w in merged.items() if len(w) > 1}
    if twice:
        print("two names would become one:", twice, file=sys.stderr)
        return 1
    known = old
    changed = 0
    for f, t in kept.items():
        if f in pages:
            new = WORD.sub(lambda m: respelled(m.group(1)) if m.group(1) in known else m.group(1), t)
        else:
            new = turned(f, t)
        if new != texts[f]:
            changed += 1
            with open(f, "w", encoding="utf-8") as it:
                it.write(new)
    print(f"respell: {len(old)} names in {changed} files")
    return 0


if __name__ == "__main__":
    raise SystemExit(main())
