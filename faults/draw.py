"""Small faults in the code of the library crates that have contracts, one at a time: the prover has to refuse each.

    python3 faults/draw.py [--seed N] [--count N] [--crates A,B,..]

A fault is an operator turned, a constant changed by one, or a test negated, anywhere in src/ but in contracts. Faults are drawn by a seeded generator, more of
them from longer crates. Each is made in a copy of the crates, and its crate is checked there over what `rt check` has kept of it (so run `rt all check` first).
A line says where the fault is, what was put for what, and 'refused' or 'taken'; the last line counts them. A constant has no contract of its own, so a fault that its own
crate takes is shown to the crates that name it, and the first that refuses it is told. One that is taken is either code that does the same, or a contract that says too
little: look at each. A fault that is no program (a type that doesn't fit) is passed over and another drawn.

It is no part of the gate: every fault costs a check of its crate, some seconds each.
"""
import argparse
import pathlib
import random
import re
import shutil
import subprocess
import sys
import tempfile

ROOT = pathlib.Path(__file__).resolve().parent.parent
TURNED = {
    "+": "-", "-": "+", "*": "+", "/": "%", "%": "/", "<": "<=", "<=": "<", ">": ">=", ">=": ">", "==": "!=", "!=": "==",
    "&&": "||", "||": "&&", "&": "|", "|": "&", "<<": ">>", ">>": "<<", "+=": "-=", "-=": "+=",
}
OPERATOR = re.compile(r" (" + "|".join(re.escape(o) for o in sorted(TURNED, key=len, reverse=True)) + r") ")
NUMBER = re.compile(r"(?<![\w.])(0x[0-9a-fA-F_]+|[0-9][0-9_]*)(?![\w.])")
TEST = re.compile(r"^(\s*(?:\} else )?(?:if|while) )(?!let )(.*)( \{)$")
GHOST = re.compile(r"^\s*(use |pub use |mod |pub mod |//|#!?\[)")
CLAUSE = re.compile(r"^\s*(pub )?(ghost|requires|ensures)\b")
OUTSIDE = re.compile(r"\bprint(ln)?!|\bstd::(io|fs|env)\b")


def listed():
    """The crates of crates.txt with what each depends on, in its order."""
    lines = [line.split("#")[0] for line in (ROOT / "crates.txt").read_text().splitlines()]
    return [(line.split(":")[0].split()[0], line.split(":")[1].split()) for line in lines if ":" in line]


def libraries():
    """The library crates that have code, but for those that read or print: no contract can say what comes in or goes out."""
    return [n for n, _ in listed() if (ROOT / "crates" / n / "src" / "lib.rt").exists() and not OUTSIDE.search(source(n)) and places(n)]


def source(crate):
    """All the code of a crate."""
    return "\n".join(file.read_text() for file in sorted((ROOT / "crates" / crate / "src").glob("*.rt")))


def code_lines(text):
    """The lines that are code, with their numbers: without comments, and without clauses, which end where their braces close."""
    depth = 0
    for number, line in enumerate(text.splitlines()):
        code = line.split("//")[0]
        in_clause = depth > 0 or CLAUSE.match(line)
        if in_clause:
            depth += code.count("{") - code.count("}")
        elif not GHOST.match(line):
            yield number, line, code


def places(crate):
    """Every place for a fault in a crate: file, line number, and the line as it would be."""
    found = []
    for file in sorted((ROOT / "crates" / crate / "src").glob("*.rt")):
        for number, line, code in code_lines(file.read_text()):
            for m in OPERATOR.finditer(code):
                found.append((file.name, number, line[: m.start(1)] + TURNED[m.group(1)] + line[m.end(1) :]))
            for m in NUMBER.finditer(code):
                found.append((file.name, number, line[: m.start(1)] + str(int(m.group(1).replace("_", ""), 0) + 1) + line[m.end(1) :]))
            m = TEST.match(line)
            if m:
                found.append((file.name, number, f"{m.group(1)}!({m.group(2)}){m.group(3)}"))
    return found


def above(crate):
    """The library crates that name a crate, in the order of crates.txt."""
    return [n for n, deps in listed() if crate in deps and (ROOT / "crates" / n / "src" / "lib.rt").exists()]


def refused_above(copy, crate):
    """The first crate above a crate of the copy that refuses it as it is there, if one does."""
    with tempfile.TemporaryDirectory() as folder:
        other = pathlib.Path(folder) / "copy"
        shutil.copytree(copy, other, ignore=shutil.ignore_patterns("out"))
        return next((n for n in above(crate) if check(other, n) != "taken"), None)


def check(copy, crate):
    """What the prover says of a crate of the copy: 'taken', 'refused', or None if it isn't a program."""
    done = subprocess.run(["rt", "check"], cwd=copy / "crates" / crate, capture_output=True, text=True)
    if done.returncode == 0:
        return "taken"
    return "refused" if "logic=not-proved" in done.stdout + done.stderr else None


def main():
    asked = argparse.ArgumentParser(description=__doc__, formatter_class=argparse.RawDescriptionHelpFormatter)
    asked.add_argument("--seed", type=int, default=1)
    asked.add_argument("--count", type=int, default=200)
    asked.add_argument("--crates", default="")
    asked = asked.parse_args()
    crates = asked.crates.split(",") if asked.crates else libraries()
    everywhere = [(crate, *place) for crate in crates for place in places(crate)]
    random.Random(asked.seed).shuffle(everywhere)
    counts = {"refused": 0, "taken": 0}
    with tempfile.TemporaryDirectory() as folder:
        copy = pathlib.Path(folder) / "copy"
        shutil.copytree(ROOT / "crates", copy / "crates", ignore=shutil.ignore_patterns("out", "must-fail", "data"))
        shutil.copy(ROOT / "crates.txt", copy)
        whole = set()
        for crate, name, number, line in everywhere:
            if sum(counts.values()) == asked.count:
                break
            if crate not in whole:
                if check(copy, crate) != "taken":
                    sys.exit(f"{crate} isn't proved as it stands: run 'rt check' first")
                whole.add(crate)
            file = copy / "crates" / crate / "src" / name
            text = file.read_text()
            lines = text.split("\n")
            was, lines[number] = lines[number], line
            file.write_text("\n".join(lines))
            verdict, by = check(copy, crate), ""
            if verdict == "taken":
                above_it = refused_above(copy, crate)
                if above_it:
                    verdict, by = "refused", f" by {above_it}"
            file.write_text(text)
            if verdict:
                counts[verdict] += 1
                print(f"{crate}/src/{name}:{number + 1}: {was.strip()}  ->  {line.strip()}: {verdict}{by}", flush=True)
    print(f"{counts['refused']} refused, {counts['taken']} taken")


if __name__ == "__main__":
    main()
