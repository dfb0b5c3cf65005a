#!/usr/bin/env python3
"""Turns a crate's proofs that walk the code (proofs/F/Proof.antt) into Invariants.antt and Answers.antt.

usage: turn_proofs.py NAMES CRATE [FUNCTION ..]

NAMES is the names.json of `rt check --generated DIR --old-names`, CRATE the crate's folder. A function whose file can't be turned whole keeps a line `-- TURN:` at each place
that is left by hand. Answers that the check finds alone are left out.
"""

import json
import os
import re
import sys

TOK = re.compile(r"--[^\n]*|\"(?:[^\"\\]|\\.)*\"|[^\s(){}\[\];,.@λ]+(?:\.[^\s(){}\[\];,.]+)*|.|\n", re.S)
TRIVIAL = {"search rules", "omega arith", "tt", "search(rules)"}


def norm(s):
    return re.sub(r"[-_]", "_", s)


def flat(s):
    s = re.sub(r"^overflow[-_]", "", s)
    return norm(s)


class Left(Exception):
    pass


class Function:
    def __init__(self, crate, path, names):
        self.crate, self.path, self.n = crate, path, names
        self.places = {}
        for i, (name, parent, step, callee, more) in enumerate(names["places"]):
            self.places[norm(name)] = dict(name=name, parent=norm(parent) if parent else None, old=norm(step[0]), new=step[1], callee=callee, i=i, more=more)
        self.asked = [(norm(a), b) for a, b in names["asked_at"]]
        self.needs = names["needs"]
        self.problems = []
        self.goal = None

    def parent(self, p):
        # an older Rattle had a place more on some ways
        return self.places[p]["parent"] or p

    # a nested pair's position, as fields of a record
    @staticmethod
    def named(fields, rest):
        n = len(fields)
        for k, f in enumerate(fields):
            if k == n - 1:
                want = ["1"] * k
            else:
                want = ["1"] * k + ["0"]
            if rest[: len(want)] == want:
                return [f] + rest[len(want) :]
        return None

    @staticmethod
    def nest(parts):
        return parts[0] if len(parts) == 1 else f"({parts[0]}, {Function.nest(parts[1:])})"

    def whole(self, fields):
        """All of a contract's `requires`, where it has several, as the pairs that they were."""
        pre = self.n.get("pre")
        if fields in (["requires"], ["pre"]) and pre and len(pre["fields"]) > 1:
            return self.nest([f"c.requires.{f}" for f in pre["fields"]])
        return None

    def nearest(self, place, p, step):
        """The place with this step, of those on the way to a place, that is nearest to another."""
        way, q = [], self.goal or place
        while q is not None:
            way.append(q)
            q = self.places[q]["parent"]
        if p not in way:
            return None
        at = way.index(p)
        found = [(abs(k - at), q) for k, q in enumerate(way) if self.places[q]["old"] == step]
        return min(found)[1] if found else None

    def convert(self, place, fields):
        """The new path of the fields behind an old place."""
        fields = list(fields)
        p = place
        while fields and fields[0] == "before":
            p = self.parent(p)
            fields.pop(0)
        if not fields:
            return None
        here = self.places[p]
        f0 = norm(fields[0].strip("«»"))
        if f0 == "pre" and here["parent"] is None:
            f0 = fields[0] = "requires"
        if f0 == "well_formed":
            fields[0] = "well_formed"
        if f0 in ("args", "requires", "lifetimes", "ranges", "well_formed"):
            if f0 == "requires" and self.n.get("pre") and len(self.n["pre"]["fields"]) > 1:
                if len(fields) == 1:
                    return "c.requires"
                names = self.n["pre"]["fields"]
                got = self.named(names, fields[1:])
                if got is None and set(fields[1:]) == {"1"} and len(fields) - 1 < len(names):
                    return self.nest([f"c.requires.{f}" for f in names[len(fields) - 1 :]])
                if got is None:
                    raise Left(f"requires.{'.'.join(fields[1:])}")
                return "c.requires." + ".".join(got)
            return "c." + ".".join(fields)
        # the step of this place, or of one before it
        q = p
        if here["old"] != f0:
            q = self.nearest(place, p, f0) or (self.nearest(place, p, f0[:-4]) if f0.endswith("_lem") else None)
            if q is None:
                raise Left(f"no step {fields[0]} at {p}")
            f0 = self.places[q]["old"]
        s = self.places[q]
        rest = fields[1:]
        if rest and rest[0] == "given" and self.goal:
            for var, step in self.n["typed"][self.places[self.goal]["i"]]:
                if norm(step) == f0:
                    return ".".join(["c.type_inv", var] + rest[1:])
        arm = self.n["arms"][s["i"]] if s["i"] < len(self.n["arms"]) else None
        if arm:
            step, _, mapped = arm
            best = None
            for new, old, pre in mapped:
                if norm(old) == f0 and rest[: len(pre)] == pre and (best is None or len(pre) > len(best[1])):
                    best = (new, pre)
            if best is None:
                raise Left(f"arm {fields[0]}.{'.'.join(rest)}")
            new, pre = best
            return ".".join(["c", step, new] + rest[len(pre) :])
        if rest and rest[0] in ("taken", "left") and f0.startswith("if"):
            rest = [{"taken": "true", "left": "false"}[rest[0]]] + rest[1:]
        if rest and rest[0] in ("auto", "new") and len(rest) > 1 and rest[1] in ("0", "1") and s["callee"]:
            params = self.n["params"].get(s["callee"])
            k, j = 0, 1
            while j < len(rest) and rest[j] == "1":
                k, j = k + 1, j + 1
            if params and j < len(rest) and rest[j] == "0" and k < len(params):
                rest = [rest[0], params[k]] + rest[j + 1 :]
        if rest and rest[0] == "ensures":
            cl = self.n["clauses"][s["i"]] if s["i"] < len(self.n["clauses"]) else None
            if cl and isinstance(cl, list) and len(cl) > 1 and len(rest) > 1:
                got = self.named(cl, rest[1:])
                if got:
                    rest = ["ensures"] + got
        return ".".join(["c", s["new"]] + rest)

    def place_of(self, place, fields):
        p = place
        for f in fields:
            if f != "before":
                return None
            p = self.parent(p)
        return p

    def term(self, text, base, at, helpers, uses):
        """Turns a term: base is a dict of the names of places (name: place), at the new place's name."""
        toks = TOK.findall(text)
        out = []
        env = [dict((k, ("place", v)) for k, v in base.items())]
        i = 0

        def look(name):
            for e in reversed(env):
                if name in e:
                    return e[name]
            return None

        def skip_space(j):
            while j < len(toks) and toks[j].isspace():
                j += 1
            return j

        def new_path(tok):
            """What stands for a token, or None where it isn't a path of ours."""
            parts = tok.split(".")
            v = look(parts[0])
            if v is None or v == ("bound",):
                return None
            kind = v[0]
            if kind == "place":
                p, fields = v[1], parts[1:]
                q = self.place_of(p, fields)
                if q is not None:
                    return ("place", q)
                return ("path", p, fields, self.convert(p, fields))
            # an alias of a path
            _, p, fields, text, keep = v
            whole = fields + parts[1:]
            new = self.convert(p, whole)
            if keep and new is not None and (new == text or new.startswith(text + ".")):
                return ("path", p, whole, parts[0] + new[len(text) :])
            return ("path", p, whole, new)

        while i < len(toks):
            t = toks[i]
            if t in "([{" and len(t) == 1:
                env.append({})
                out.append(t)
                i += 1
                continue
            if t in ")]}" and len(t) == 1:
                if len(env) > 1:
                    env.pop()
                out.append(t)
                i += 1
                continue
            if t == "let":
                j = skip_space(i + 1)
                name = toks[j] if j < len(toks) else ""
                k = skip_space(j + 1)
                if k < len(toks) and toks[k] == "=":
                    m = skip_space(k + 1)
                    e = skip_space(m + 1)
                    if e < len(toks) and toks[e] == "in":
                        got = None
                        root = toks[m].split(".")[0]
                        if look(root) and look(root) != ("bound",):
                            try:
                                got = new_path(toks[m])
                            except Left as why:
                                # a part of an arm: known only with what follows
                                v = look(root)
                                parts = toks[m].split(".")
                                if v[0] == "place":
                                    env[-1][name] = ("alias", v[1], parts[1:], None, False)
                                else:
                                    env[-1][name] = ("alias", v[1], v[2] + parts[1:], None, False)
                                i = skip_space(e + 1)
                                continue
                        if got:
                            if got[0] == "place":
                                env[-1][name] = ("place", got[1])
                                i = skip_space(e + 1)
                                continue
                            full = self.convert(got[1], got[2])
                            env[-1][name] = ("alias", got[1], got[2], full, True)
                            out += ["let ", name, " = ", got[3], " in"]
                            i = e + 1
                            continue
                if re.match(r"[^\s(]+$", name):
                    env[-1][name] = ("bound",)
                out.append(t)
                i += 1
                continue
            if t == "λ":
                j = i + 1
                depth = 0
                while j < len(toks) and not (toks[j] == "." and depth == 0):
                    if toks[j] == "(":
                        depth += 1
                    elif toks[j] == ")":
                        depth -= 1
                    elif re.match(r"[^\s():,]+$", toks[j]) and (j == 0 or True):
                        # a name that is bound (types in parentheses come after a colon, and hide nothing by being listed)
                        nm = toks[j].rstrip(".")
                        if look(nm) and depth == 0:
                            env[-1][nm] = ("bound",)
                        elif look(nm) and depth > 0:
                            env[-1][nm] = ("bound",)
                    j += 1
                    if toks[j - 1].endswith(".") and depth == 0:
                        break
                out.append(t)
                i += 1
                continue
            root = t.split(".")[0]
            if re.match(r"[^\s(){}\[\];,\"λ-][^\s]*$", t) and look(root) and look(root) != ("bound",):
                try:
                    got = new_path(t)
                except Left as why:
                    self.problems.append(f"{t}: {why}")
                    out.append(t)
                    i += 1
                    continue
                if got[0] == "place":
                    # an argument of a helper
                    h = None
                    for o in reversed(out):
                        if o.isspace():
                            continue
                        h = o
                        break
                    if h in helpers:
                        uses.append((h, at))
                        for z in range(len(out) - 1, -1, -1):
                            if out[z] == h:
                                out[z] = "\x00" + h + "\x01" + at + "\x02"
                                break
                        out.append("c")
                    else:
                        self.problems.append(f"{t}: a place by itself")
                        out.append("c")
                else:
                    whole = self.whole([f for f in got[2] if f != "before"])
                    out.append(whole or (got[3] if got[3] else t))
                i += 1
                continue
            out.append(t)
            i += 1
        return "".join(out)


def chunks(text):
    """The declarations of a file: use lines, then paragraphs."""
    head, body = [], []
    for para in re.split(r"\n\s*\n", text.strip("\n")):
        lines = para.split("\n")
        body.append("\n".join(lines))
    return body


def unused_lets(text):
    while True:
        hit = None
        for m in re.finditer(r"let ([^\s(:=]+) = ([^\s()]+) in\s*", text):
            name = re.escape(m.group(1))
            after = text[m.end() :]
            if not re.search(r"(?<![\w.'₀-₉-])" + name + r"(?![\w'₀-₉-])", after):
                hit = m
                break
        if not hit:
            return text
        text = text[: hit.start()] + text[hit.end() :]


def split_pair(text):
    """(X, Y) at the end of a term, after lets: the head and the parts, or None."""
    t = text.rstrip()
    if not t.endswith(")"):
        return None
    depth, i = 0, len(t) - 1
    while i >= 0:
        if t[i] in ")]}":
            depth += 1
        elif t[i] in "([{":
            depth -= 1
            if depth == 0:
                break
        i -= 1
    head, inner = t[:i], t[i + 1 : -1]
    if head.strip() and not re.search(r"(\bin|\.)\s*$", head):
        return None
    if re.search(r"λ[^.]*\.\s*$", head):
        return None
    parts, depth, last = [], 0, 0
    for j, ch in enumerate(inner):
        if ch in "([{":
            depth += 1
        elif ch in ")]}":
            depth -= 1
        elif ch == "," and depth == 0:
            parts.append(inner[last:j])
            last = j + 1
    parts.append(inner[last:])
    parts = [p.strip() for p in parts if p.strip()]
    return (head, parts) if len(parts) > 1 else None


def last_term(text):
    """A term's lets, and what stands behind them."""
    at = 0
    depth = 0
    for m in re.finditer(r"[()\[\]{}]|(?<![\w'-])let(?![\w'-])|(?<![\w'-])in(?![\w'-])", text):
        w = m.group(0)
        if w in "([{":
            depth += 1
        elif w in ")]}":
            depth -= 1
        elif w == "in" and depth == 0:
            at = m.end()
    return text[:at] + " ", [text[at:].strip()]


def as_record(text, fields):
    got = split_pair(text)
    if not got:
        head, parts = last_term(text)
    else:
        head, parts = got
    out = []
    rest = parts
    for k, f in enumerate(fields):
        if k == len(fields) - 1:
            out.append((f, rest[0] if len(rest) == 1 else "(" + ", ".join(rest) + ")"))
        else:
            if len(rest) < 2:
                inner = split_pair(rest[0])
                if not inner or inner[0].strip():
                    whole = rest[0] if re.match(r"[^\s()]+$", rest[0]) else f"({rest[0]})"
                    left = fields[k:]
                    for j, g in enumerate(left):
                        out.append((g, whole + ".1" * j + (".0" if j < len(left) - 1 else "")))
                    return head + "record { " + "; ".join(f"{f} = {x}" for f, x in out) + " }"
                rest = inner[1]
            out.append((f, rest[0]))
            rest = rest[1:]
    return head + "record { " + "; ".join(f"{f} = {x}" for f, x in out) + " }"


def atom_before(text, at):
    """Where the term begins that ends before a place: a name, or what is in parentheses."""
    e = at
    while e > 0 and text[e - 1].isspace():
        e -= 1
    if e > 0 and text[e - 1] in ")]}":
        depth, i = 0, e - 1
        while i >= 0:
            if text[i] in ")]}":
                depth += 1
            elif text[i] in "([{":
                depth -= 1
                if depth == 0:
                    return i, e
            i -= 1
        return None
    i = e
    while i > 0 and not text[i - 1].isspace() and text[i - 1] not in "()[]{},;":
        i -= 1
    return (i, e) if i < e else None


def merged(uses, module, names):
    """The use lines, with these names of a module too."""
    out, done = [], False
    for line in uses:
        m = re.match(rf"use {re.escape(module)}\.\{{(.*)\}}$", line)
        if m:
            has = [x.strip() for x in m.group(1).split(",")]
            line = f"use {module}.{{{', '.join(has + [n for n in names if n not in has])}}}"
            done = True
        out.append(line)
    return out if done else [*out, f"use {module}.{{{', '.join(names)}}}"]


def straight(text):
    """A test `!x` says of x what it came to, where an older Rattle said it of `not x`."""
    path = re.compile(r"(?<![\w.'-])(?:c|w)(?:\.[\w'-]+)*\.(?:if|loop)-not-[\w'-]+\.(?:true|false)(?![\w'.-])")
    at = 0
    while True:
        m = path.search(text, at)
        if not m:
            return text
        arg = atom_before(text, m.start())
        if arg:
            i, e = arg
            head = re.search(r"(?<![\w.'-])(failed|held)\s+$", text[:i])
            if head:
                new = f"sym {text[i:e]} ∙ {m.group(0)}"
                text = text[: head.start()] + new + text[m.end() :]
                at = head.start() + len(new)
                continue
        new = f"(ap not {m.group(0)})"
        text = text[: m.start()] + new + text[m.end() :]
        at = m.start() + len(new)


def uses_of(uses, body):
    """The use lines that a text needs."""
    keep = []
    plain = re.sub(r"--[^\n]*", "", body)
    words = set(re.findall(r"[^\s(){}\[\];,.]+", plain))
    for line in uses:
        m = re.match(r"use (.*)\.\{(.*)\}$", line)
        if not m:
            m2 = re.match(r"use (\S+?)(?: as (\S+))?$", line)
            name = m2.group(2) or m2.group(1).split(".")[-1]
            if re.search(r"(?<![\w'-])" + re.escape(name) + r"\.", plain):
                keep.append(line)
            continue
        names = []
        for n in [x.strip() for x in m.group(2).split(",")]:
            it = n.split(" as ")[-1].strip()
            if "◌" in it:
                ops = [x for x in it.split("◌") if x]
                ok = all(any(o == w or o in w for w in words) for o in ops) if ops else True
            elif it == "[]":
                ok = "[]" in plain
            else:
                ok = it in words
            if ok:
                names.append(n)
        if names:
            keep.append(f"use {m.group(1)}.{{{', '.join(names)}}}")
    return keep


def turn(names, crate, folder, path):
    with open(f"{folder}/proofs/{path}/Proof.antt", encoding="utf-8") as it:
        text = it.read()
    module = path.replace("/", ".")
    key = f"Rattle-{crate}-proofs.{module}.Lts"
    if key not in names:
        return None, None, [f"no names for {module}"]
    fn = Function(crate, module, names[key])
    paras = chunks(text)
    head = []
    uses = []
    first = paras[0].split("\n")
    comments = [l for l in first if l.startswith("--")]
    # use lines of the head, some of which may go over two lines
    rest0 = [l for l in first if not l.startswith("--")]
    joined = re.sub(r"\n\s+", " ", "\n".join(rest0))
    for l in joined.split("\n"):
        if l.startswith("use ") and not re.search(r"\.(Statement|Tie)\b", l):
            uses.append(l.strip())
    comments = [re.sub(r" Assumes nothing\.", "", l) for l in comments]
    # a name for the place where the function starts
    starts = {}
    for p in paras[1:]:
        m = re.search(r"^(?:abbrev )?(\S+) : tie\.(\S+) → tie\.Start\n(\S+) (\S+) = (\S+)$", p, re.M)
        if m and m.group(1) == m.group(3) and m.group(5).startswith(m.group(4) + ".before"):
            starts[m.group(1)] = m.group(5)[len(m.group(4)) :]
    if starts:
        new = []
        for p in paras:
            if any(re.search(rf"^(?:abbrev )?{re.escape(s)} : tie", p, re.M) for s in starts):
                continue
            for s, b in starts.items():
                e = re.escape(s)
                p = re.sub(rf"\({e} ([\w'₀-₉.-]+)\)", lambda m: m.group(1) + b, p)
                p = re.sub(rf"(?<![\w'.-]){e} ([\w'₀-₉.-]+)(?= in\b)", lambda m: m.group(1) + b, p)
            new.append(p)
        paras = new
    decls = []
    for p in paras[1:]:
        lines = p.split("\n")
        note = [l for l in lines if l.startswith("--")]
        code = [l for l in lines if not l.startswith("--")]
        if code and code[0].startswith("use "):
            joined = re.sub(r"\n\s+", " ", "\n".join(code))
            uses += [l for l in joined.split("\n") if l.startswith("use ")]
            continue
        if code:
            decls.append((note, "\n".join(code)))
    spec = None
    for note, code in decls:
        if re.search(r"tie\.(close|spec)\b", code):
            spec = code
    if spec is None:
        return None, None, ["no tie.spec"]
    m = re.search(r"tie\.spec\b(.*)\)\s*$", spec, re.S)
    given = re.findall(r"[^\s()]+", m.group(1)) if m else []
    loops = fn.n["loops"]
    order = {}
    invs = [g for g in given if re.match(r"(invariant|decreases)", g)]
    answers = [g for g in given if g not in invs]
    if len(answers) == len(fn.needs):
        for g, need in zip(answers, fn.needs):
            order[g] = need
    else:
        fn.problems.append(f"{len(answers)} answers for {len(fn.needs)} needs: by their names")
        byname = {}
        for need in fn.needs:
            byname[flat(need[0])] = need
    # helpers: declarations with an argument at a place
    sigs = {}
    for note, code in decls:
        m = re.match(r"(?:abbrev )?([^\s:]+)\s*:\s*(.*)$", code, re.S)
        if not m:
            continue
        name, sig = m.group(1), m.group(2)
        if re.match(r"tie\.(Need|invariant|decreases)", sig) or name == (spec.split()[1] if spec.startswith("pub ") else ""):
            continue
        t = re.match(r"\(([^\s:]+) : tie\.([^\s)]+)(?: invariant\S*| decreases\S*)*\)", sig)
        if t:
            sigs[name] = (t.group(1), norm(t.group(2)))
        else:
            t = re.match(r"tie\.(\S+)(?: invariant\S*| decreases\S*)* →", sig)
            if t:
                sigs[name] = (None, norm(t.group(1)))
    invariants, outs, needed = [], [], []
    place_of_need = {}
    for (need, (old, new)) in zip(fn.needs, fn.asked):
        place_of_need[need[0]] = (old, new)
    done = []
    for note, code in decls:
        m = re.match(r"(abbrev )?(?:pub )?([^\s:]+)\s*:\s*(.*)$", code, re.S)
        if code == spec:
            continue
        if not m:
            fn.problems.append("a declaration that isn't read: " + code.split("\n")[0])
            outs.append(("raw", None, note, code))
            continue
        name, sig = m.group(2), m.group(3)
        t = re.match(r"tie\.(invariant|decreases)-(\S+)", sig)
        if t:
            kind, loop = t.group(1), norm(t.group(2))
            found = None
            for k, (ln, vars_) in enumerate(loops):
                if norm(ln[0]) == loop or norm(ln[0]) == norm("loop" if loop == "loop" else loop):
                    found = k
            if found is None and len(loops) == 1:
                found = 0
            if found is None:
                fn.problems.append(f"no loop {loop}")
                continue
            ln, vars_ = loops[found]
            changed = fn.n["changed"][found]
            lines = code.split("\n", 1)[1]
            eq = re.match(r"(?:unfolding [^\n]*\n)?" + re.escape(name) + r"\s+(.*?)\s*=\s(.*)$", lines, re.S) or re.match(re.escape(name) + r"\s+(.*?)\s*=\n(.*)$", lines, re.S)
            if not eq:
                fn.problems.append(f"{name}: not read")
                continue
            args = eq.group(1).split()
            body = eq.group(2)
            want = [f"initial.{v}" if c else v for v, c in zip(vars_, changed)] + [v for v, c in zip(vars_, changed) if c]
            if len(args) != len(want):
                fn.problems.append(f"{name}: {len(args)} arguments for {len(want)}: {vars_} {changed}")
            live = next(x for x in ("l", "live", "at-hand") if not re.search(rf"(?<![\w.'-]){x}(?![\w'-])", body) or x in args)
            if re.search(r"λ[^.]*(?<![\w'-])l(?![\w'-])", body):
                live = "live"
            mp = dict(zip(args, want))
            toks = TOK.findall(body)
            new = []
            for tk in toks:
                root = tk.split(".")[0]
                if root in mp and not tk.startswith("."):
                    new.append(live + "." + mp[root] + tk[len(root) :])
                else:
                    new.append(tk)
            nn = f"{kind}-{ln[1]}"
            invariants.append((note, f"abbrev pub {nn} : goal.{nn}\n{nn} {live} = {''.join(new).strip()}" if "\n" not in "".join(new).strip() else f"abbrev pub {nn} : goal.{nn}\n{nn} {live} =\n    {''.join(new).strip()}"))
            continue
        t = re.match(r"tie\.Need[-·](\S+)", sig)
        if t:
            need = order.get(name)
            if need is None:
                need = (locals().get("byname") or {}).get(flat(t.group(1))) or next((x for x in fn.needs if flat(x[0]) == flat(t.group(1))), None)
            if need is None:
                fn.problems.append(f"no goal for {name} ({t.group(1)})")
                continue
            outs.append(("goal", need, note, code))
        elif name in sigs:
            outs.append(("helper", name, note, code))
        else:
            outs.append(("raw", None, note, code))
    # goals first, to see where helpers are used
    alluses = []
    made = {}
    for k, (kind, what, note, code) in enumerate(outs):
        if kind == "goal":
            old, new = place_of_need[what[0]]
            lines = code.split("\n")
            # signature up to the clause
            name = re.match(r"([^\s:]+)", code).group(1)
            m = re.search(r"\n((?:unfolding [^\n]*\n)*)" + re.escape(name) + r"((?: [^\s=]+)*) =\s*(.*)$", code, re.S)
            if not m:
                fn.problems.append(f"{name}: clause not read")
                made[k] = "-- TURN: " + code.replace("\n", "\n-- ")
                continue
            unf, args, body = m.group(1).strip(), m.group(2).split(), m.group(3)
            if body.strip() in TRIVIAL and not unf:
                made[k] = ""
                continue
            if not args:
                made[k] = "-- TURN: no argument\n" + code
                fn.problems.append(f"{name}: no argument")
                continue
            base = {args[0]: old}
            extra = [a for a in args[1:] if a not in ("κs", "κ")]
            fn.goal = old
            new_body = fn.term(body, base, new, sigs, alluses)
            if "κs" in new_body:
                fn.problems.append(f"{name}: κs")
            fields = fn.n["asked"].get(what[0]) or fn.n["asked"].get(what[1])
            if fields and len(fields) > 1:
                rec = as_record(new_body, fields)
                if rec:
                    new_body = rec
                else:
                    fn.problems.append(f"{name}: clauses {fields}")
            new_body = unused_lets(new_body)
            sep = "\n    " if "\n" in new_body.strip() else " "
            made[k] = f"pub {what[1]} : goal.{what[1]}\n" + (unf + "\n" if unf else "") + f"{what[1]} {' '.join(['c'] + extra)} ={sep}{new_body.strip()}"
    # helpers, at each place where they are used
    todo = True
    copies = {}
    seen = set()
    while todo:
        todo = False
        for k in range(len(outs) - 1, -1, -1):
            kind, name, note, code = outs[k]
            if kind != "helper":
                continue
            for h, at in list(alluses):
                if h == name and (h, at) not in seen:
                    seen.add((h, at))
                    todo = True
                    var, place = sigs[name]
                    fn.goal = next((o for o, b in fn.asked if b == at), None)
                    m = re.match(r"(abbrev )?([^\s:]+)\s*:\s*(.*?)\n((?:unfolding [^\n]*\n)*)(?=" + re.escape(name) + r"[ \n])(.*)$", code, re.S)
                    if not m:
                        fn.problems.append(f"{name}: helper not read")
                        continue
                    sig, unf, clauses = m.group(3), m.group(4), m.group(5)
                    if var:
                        tail = re.sub(r"^\([^)]*\)", "", sig, count=1)
                        tail = fn.term(tail, {var: place}, at, sigs, alluses)
                        nsig = f"(c : goal.{at})" + unused_lets(tail)
                    else:
                        nsig = re.sub(r"^tie\.\S+(?: invariant\S*| decreases\S*)*", f"goal.{at}", sig)
                    cl = []
                    for q in re.split(r"\n(?=" + re.escape(name) + r" )", clauses):
                        mm = re.match(re.escape(name) + r" (\S+)((?: [^=]*?)?) =\s*(.*)$", q, re.S)
                        if not mm:
                            fn.problems.append(f"{name}: helper's clause not read")
                            cl.append(q)
                            continue
                        body = unused_lets(fn.term(mm.group(3), {mm.group(1): place}, at, sigs, alluses))
                        sep = "\n    " if "\n" in body.strip() else " "
                        cl.append(f"\x00{name}\x01{at}\x02 c{mm.group(2)} ={sep}{body.strip()}")
                    copies.setdefault(k, []).append((at, f"{m.group(1) or ''}\x00{name}\x01{at}\x02 : {nsig}\n{unf}" + "\n".join(cl)))
    names_of = {}
    for k in copies:
        name = outs[k][1]
        for z, (at, _) in enumerate(copies[k]):
            names_of[(name, at)] = name if z == 0 else f"{name}-{z + 1}"
    result = []
    for k, (kind, what, note, code) in enumerate(outs):
        if kind == "goal":
            if made.get(k):
                result.append("\n".join(note + [made[k]]))
        elif kind == "helper":
            for at, t in copies.get(k, []):
                result.append("\n".join(note + [t]))
        else:
            if "tie." in code:
                fn.problems.append("tie in: " + code.split("\n")[0])
            result.append("\n".join(note + [code]))
    body = "\n\n".join(result)
    body = re.sub("\x00([^\x01]*)\x01([^\x02]*)\x02", lambda m: names_of.get((m.group(1), m.group(2)), m.group(1)), body)
    # a raw declaration that nothing names any more
    inv_body = "\n\n".join("\n".join(n + [t]) for n, t in invariants)
    full = f"Rattle.{crate}.proofs.{module}"
    inv = ans = None
    if invariants:
        inv = "\n".join(comments + uses_of(uses, inv_body) + [f"use {full}.Given as goal"]) + "\n\n" + inv_body + "\n"
    body = straight(body)
    if re.search(r"\bap not\b", body):
        uses = merged(uses, "mathlib.Core.Path", ["ap"])
        uses = merged(uses, "mathlib.Core.Bool", ["not"])
    if re.search(r"sym \S.* ∙ c\.", body, re.S):
        uses = merged(uses, "mathlib.Core.Path", ["sym", "◌∙◌"])
    if body.strip():
        ans = "\n".join((comments if not invariants else []) + uses_of(uses, body) + [f"use {full}.Goals as goal"]) + "\n\n" + body + "\n"
    if fn.problems and (ans or inv):
        p = "".join(f"-- TURN: {x}\n" for x in fn.problems)
        if ans:
            ans = p + ans
        else:
            inv = p + inv
    return inv, ans, fn.problems


def main():
    with open(sys.argv[1]) as it:
        names = json.load(it)
    folder = os.path.abspath(sys.argv[2])
    crate = os.path.basename(folder)
    only = set(sys.argv[3:])
    for where, dirs, files in sorted(os.walk(f"{folder}/proofs")):
        if "Proof.antt" not in files:
            continue
        path = os.path.relpath(where, f"{folder}/proofs")
        if only and path not in only and os.path.basename(path) not in only:
            continue
        try:
            inv, ans, problems = turn(names, crate, folder, path)
        except Exception as why:
            print(f"{crate}/{path}: FAILED {type(why).__name__} {why}")
            continue
        if inv is None and ans is None and problems:
            print(f"{crate}/{path}: left: {problems}")
            continue
        os.remove(f"{where}/Proof.antt")
        if inv:
            with open(f"{where}/Invariants.antt", "w", encoding="utf-8") as it:
                it.write(inv)
        if ans:
            with open(f"{where}/Answers.antt", "w", encoding="utf-8") as it:
                it.write(ans)
        for p in problems:
            print(f"{crate}/{path}: {p}")
        if not os.listdir(where):
            os.rmdir(where)


if __name__ == "__main__":
    main()
