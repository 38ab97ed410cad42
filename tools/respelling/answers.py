#!/usr/bin/env python3
"""Turns the Proof.antt of a crate's functions into Invariants.antt and Answers.antt.

usage: answers.py NAMES CRATE [FUNCTION..]    NAMES: the names.json of rt check --generated DIR --old-names

A place of the older form, reached by '.before', is a step of the one record c. What the check proves alone is left out.
"""
import json
import os
import re
import sys

ID = r"[A-Za-zα-ωΑ-Ωκ_◌][\w'₀-₉ℕℤ◌]*(?:-[\w'₀-₉ℕℤ]+)*"
PATH = re.compile(r"(?<![\w.'-])(" + ID + r")((?:\.(?:" + ID + r"|\d+))+)?")


def norm(s):
    return s.replace("_", "-")


class Function:
    def __init__(self, data):
        self.parent, self.step, self.new_place = {}, {}, {}
        for (name, parent, step, *_), new in zip(data["places"], data["places_by_name"]):
            self.parent[norm(name)] = norm(parent) if parent else None
            self.step[norm(name)] = step
            self.new_place[norm(name)] = new
        self.used = set()
        self.typed = {norm(p[0]): t for p, t in zip(data["places"], data["typed"])}
        self.arms = {norm(p[0]): a for p, a in zip(data["places"], data["arms"])}
        self.needs = {}
        for (old, new), place in zip(data["needs"], data["asked_at"]):
            self.needs.setdefault(norm(old), (new, norm(place[0])))
        self.loops = [((norm(a), b), names) for (a, b), names in data["loops"]]
        self.changed = data["changed"]

    def viewed(self, place):
        """Whether the place is seen by a view, which has what types say of its variables."""
        return bool(self.typed.get(place)) or bool(self.arms.get(place))

    def need(self, old):
        o = norm(old)
        for k in (o, re.sub(r"^overflow-", "", o), re.sub(r"^nonzero-", "", o), re.sub(r"^slice-bounds-", "part-", o)):
            if k in self.needs:
                return self.needs[k]
        for new, place in self.needs.values():
            if norm(new) == o:
                return new, place
        return None

    def arm(self, root, step, fields):
        """What an arm's record has for the fields of an older step: its label, the field and how many fields it stands for."""
        place, best = root, None
        while place:
            a = self.arms.get(place)
            if a:
                for new, old, path in a[2]:
                    if norm(old) == norm(step) and [norm(x) for x in fields[: len(path)]] == [norm(x) for x in path]:
                        if best is None or len(path) > best[2]:
                            best = (a[0], new, len(path))
                if best:
                    return best
            place = self.parent.get(place)
        return None


class Body:
    """Rewrites a term: places known by variable."""

    def __init__(self, fn, root, place, goal=None):
        self.goal = goal
        self.fn, self.vars, self.root, self.depth = fn, {root: place}, root, {root: 0}

    def path(self, m):
        head, rest = m.group(1), m.group(2)
        if head not in self.vars:
            if head == "tie" and rest:
                w = rest[1:]
                if norm(w) in self.fn.new_place:
                    self.fn.used.add(self.fn.new_place[norm(w)])
                    return self.fn.new_place[norm(w)]
            return m.group(0)
        place = self.vars[head]
        base = "c" if not isinstance(place, tuple) else place[1]
        fields = rest.split(".")[1:] if rest else []
        if isinstance(place, tuple):
            place = place[0]
        steps = self.depth.get(head, 0)
        while fields and fields[0] == "before":
            place = self.fn.parent.get(place) or "Start"
            fields = fields[1:]
            steps += 1
        if not fields:
            if steps and self.goal and self.fn.viewed(place):
                return f"(goal.at-{self.goal} {base}).{self.fn.new_place[place]}"
            return ".".join([base] + ["before"] * steps)
        fields = [{"type-inv": "type_inv", "well-formed": "well_formed"}.get(x, x) for x in fields]
        root = self.vars[self.root] if self.root in self.vars else place
        if fields and fields[0].endswith("_lem"):
            fields[0] = fields[0][:-4]
        if fields:
            old, new = self.fn.step.get(place, ("", ""))
            if old and norm(fields[0]) == norm(old):
                got = self.fn.arm(root if not isinstance(root, tuple) else root[0], old, fields[1:])
                if got:
                    return ".".join([base, got[0], got[1]] + fields[1 + got[2] :])
            if old and norm(fields[0]) == norm(old):
                fields[0] = new
            elif place != "Start":
                # a step that the place itself has not: search the steps of this name
                for p, (o, n) in self.fn.step.items():
                    if o and norm(o) == norm(fields[0]):
                        fields[0] = n
                        break
        return ".".join([base] + fields)

    def run(self, text):
        out, i = [], 0
        let = re.compile(r"let\s+(" + ID + r")\s*=\s*(" + ID + r")((?:\.before)*)\s+in\b[ \t]*\n?[ \t]*")
        while True:
            m = let.search(text, i)
            if not m:
                out.append(PATH.sub(self.path, text[i:]))
                return "".join(out)
            out.append(PATH.sub(self.path, text[i:m.start()]))
            name, head, befores = m.groups()
            if head in self.vars:
                place = self.vars[head]
                tup = isinstance(place, tuple)
                p = place[0] if tup else place
                for _ in range(befores.count(".before")):
                    p = self.fn.parent.get(p) or "Start"
                self.vars[name] = (p, place[1]) if tup else p
                self.depth[name] = self.depth.get(head, 0) + befores.count(".before")
            else:
                out.append(m.group(0))
            i = m.end()


def blocks(text):
    items, cur, open_ = [], [], False
    for line in text.split("\n"):
        starts = line and not line[0].isspace()
        if starts and (line.startswith("--") or not open_continues(cur, line)):
            if cur and not all(l.startswith("--") for l in cur if l):
                items.append("\n".join(cur).rstrip())
                cur = []
        cur.append(line)
    if cur:
        items.append("\n".join(cur).rstrip())
    return [i for i in items if i.strip()]


def open_continues(cur, line):
    """Whether the line goes on with the declaration in cur: the equation or the unfolding line of the name that cur declares."""
    names = [m.group(1) for l in cur for m in [re.match(r"(?:abbrev |unfoldable |pub |private )*(" + ID + r")\s*(?:\s.*)?:", l)] if m]
    if line.startswith("unfolding ") or line[0] in ")}]":
        return True
    word = line.split(" ")[0]
    return bool(names) and word == names[-1]


def convert(text, fn, crate, module):
    items = blocks(text)
    head, uses, rest = [], [], []
    for it in items:
        lines = it.split("\n")
        k = 0
        while k < len(lines) and lines[k].startswith("--"):
            k += 1
        if not rest and k < len(lines) and lines[k].startswith("use "):
            if not uses:
                head = lines[:k]
            uses += lines[k:]
        elif not rest and k == len(lines):
            head = lines
        else:
            rest.append(it)
    uses = [u for u in uses if u.strip()]
    drop = re.compile(r"use Rattle\." + re.escape(module) + r"\.(Statement|Tie)\b")
    uses = [u for u in uses if not drop.match(u)]
    inv, helpers, ans, missing = [], [], [], []
    for it in rest:
        m = re.search(r"^(?:abbrev )?(?:pub )?(" + ID + r")\s*:\s*tie\.(invariant|decreases)[-_](" + ID + r")", it, re.M)
        if m:
            inv.append((m.group(1), m.group(2), m.group(3), it))
            continue
        m = re.search(r"^(?:pub )?(" + ID + r")\s*:\s*((?:\{[^}]*\}|\([^)]*\))?\s*(?:→\s*)?)tie\.Need-(" + ID + r")", it, re.M)
        if m:
            ans.append((m.group(1), m.group(3), it))
            continue
        if "tie.close" in it:
            continue
        helpers.append(it)
    out_inv = []
    loopmap = {}
    for name, kind, loop, it in inv:
        k = next((i for i, ((o, n), _) in enumerate(fn.loops) if norm(o) == norm(loop)), None)
        comment = [l for l in it.split("\n") if l.startswith("--")]
        eq = re.search(r"^" + re.escape(name) + r"((?:[ \t]+(?!:)[^=\s]+)*)[ \t]*=(.*)", it, re.M | re.S)
        if k is None or not eq:
            missing.append(f"{kind} {loop}")
            continue
        (o, n), names = fn.loops[k]
        changed = fn.changed[k]
        params = [p for p in eq.group(1).split() if p in names or not re.fullmatch(r"t\d+₀?", p)]
        targets = [(f"l.initial.{v}" if ch else f"l.{v}") for v, ch in zip(names, changed)]
        targets += [f"l.{v}" for v, ch in zip(names, changed) if ch]
        sub = dict(zip(params, targets)) if len(params) == len(targets) else None
        body = eq.group(2)
        if sub is None:
            missing.append(f"{kind} {loop}: {params} for {targets}")
            sub = {}
        body = re.sub(r"(?<![\w.'-])(" + ID + r")(?![\w'])", lambda m: sub.get(m.group(1), m.group(1)), body)
        new = f"{kind}-{n}"
        loopmap[name] = new
        unf = [l for l in it.split("\n") if l.startswith("unfolding ")]
        out_inv.append("\n".join(comment + [f"abbrev pub {new} : goal.{new}"] + unf + [f"{new} l ={body}"]))
    out_ans = []
    for name, old, it in ans:
        got = fn.need(old)
        eq = re.search(r"^" + re.escape(name) + r"((?:[ \t]+(?!:)[^=\s]+)*)[ \t]*=(.*)", it, re.M | re.S)
        if not eq:
            missing.append(f"answer {old}: no equation")
            continue
        params, body = eq.group(1).split(), eq.group(2)
        if body.strip() == "search rules":
            continue
        if got is None:
            missing.append(f"answer {old}")
            out_ans.append(f"-- LEFT {old}\n" + "\n".join("-- " + l for l in it.split("\n")))
            continue
        new, place = got
        root = "c" if "c" in params else (params[-1] if params else "c")
        comment = [l for l in it.split("\n") if l.startswith("--")]
        unf = [l for l in it.split("\n") if l.startswith("unfolding ")]
        b = Body(fn, root, place, new).run(body)
        args = " ".join(p if p != root else "c" for p in params if p != "κs") or "c"
        out_ans.append("\n".join(comment + [f"pub {new} : goal.{new}"] + unf + [f"{new} {args} ={b}"]))
    out_help = []
    for h in helpers:
        h = re.sub(r"(tie\." + ID + r")((?: (?:invariant|decreases)[-_]" + ID + r")+)", r"\1", h)
        roots = {}
        for m in re.finditer(r"\((" + ID + r")\s*:\s*tie\.(" + ID + r")\)", h):
            roots[m.group(1)] = (norm(m.group(2)), m.group(1))
        # equations name their own parameters
        b = Body(fn, "\0", "Start")
        b.vars.update(roots)
        m = re.search(r":\s*(?:[^\n]*?)tie\.", h)
        if m and not roots:
            types = re.findall(r"tie\.(" + ID + r")", h.split("\n")[0])
            nm = re.match(r"(?:abbrev |unfoldable |pub )*(" + ID + r")", h.split("\n")[0])
            eq = re.search(r"^" + re.escape(nm.group(1)) + r"((?:\s+[^=\s]+)*)\s*=", h, re.M) if nm else None
            if eq and len(types) == 1:
                for p in eq.group(1).split()[:1]:
                    b.vars[p] = (norm(types[0]), p)
        out_help.append(b.run(h))
    return head, uses, out_inv, out_help, out_ans, missing


def negated(text):
    """`ap not (sym e) ∙ c.if-not-x.true` as `ap not (sym e ∙ c.if-not-x.true)`: the test of `!x` now speaks of x."""
    text = re.sub(r"\bnot[-_](?:true|false) [\w.-]+ (c\.if-not-[\w-]+\.(?:true|false))", r"\1", text)
    i = 0
    while (k := text.find("ap not (sym ", i)) >= 0:
        j, depth = k + len("ap not "), 0
        while j < len(text):
            depth += {"(": 1, ")": -1}.get(text[j], 0)
            j += 1
            if depth == 0:
                break
        m = re.compile(r" ∙ c\.if-not-[\w-]+\.(true|false)").match(text, j)
        if m:
            text = text[: j - 1] + m.group(0) + ")" + text[m.end() :]
        i = j
    return text


def words(text):
    text = negated(text)
    text = re.sub(r"(?<![\w'-])(args\.[\w-]+)", lambda m: m.group(1).replace("-", "_"), text)
    text = text.replace(".type-inv", ".type_inv").replace(".well-formed", ".well_formed")
    return re.sub(r"(\.wrapping_\w+(?:-[\w]+)*\.ensures)(?![\w.])", r"\1.value", text)


def main():
    names = json.load(open(sys.argv[1]))
    crate = sys.argv[2]
    only = set(sys.argv[3:])
    top = f"crates/{crate}/proofs"
    for folder, _, fs in sorted(os.walk(top)):
        if "Proof.antt" not in fs:
            continue
        rel = os.path.relpath(folder, top).replace(os.sep, ".")
        if only and rel not in only and rel.split(".")[-1] not in only:
            continue
        key = next((k for k in names if k == f"Rattle-{crate}-proofs.{rel}.Lts"), None)
        if rel.split(".")[-1].startswith("+"):
            key = None
        if key is None:
            print(f"left: {crate} {rel}: no names")
            continue
        fn = Function(names[key])
        text = open(f"{folder}/Proof.antt").read()
        module = f"{crate}.proofs.{rel}"
        head, uses, inv, helpers, ans, missing = convert(text, fn, crate, module)
        goal = f"use Rattle.{module}"
        places = f".{{{', '.join(sorted(fn.used))}}}" if fn.used else ""
        if inv:
            invtext = "\n\n".join(inv)
            mine = [h for h in helpers if (m := re.search(r"^(?:abbrev |unfoldable |pub )*(" + ID + r")", re.sub(r"^--.*\n", "", h, flags=re.M))) and re.search(r"(?<![\w.'-])" + re.escape(m.group(1)) + r"(?![\w'-])", invtext)]
            def name_of(h):
                m = re.search(r"^(?:abbrev |unfoldable |pub )*(" + ID + r")", re.sub(r"^--.*\n", "", h, flags=re.M))
                return m.group(1) if m else None

            more = True
            while more:
                more = False
                for h in helpers:
                    n = name_of(h)
                    if h not in mine and n and any(re.search(r"(?<![\w.'-])" + re.escape(n) + r"(?![\w'-])", x) for x in mine):
                        mine.append(h)
                        more = True
            mine = [h for h in helpers if h in mine]
            helpers_left = [h for h in helpers if h not in mine]
            pubs = []
            for h in mine:
                h = re.sub(r"^(abbrev |unfoldable )?(?!--|pub|abbrev|unfoldable|unfolding)(" + ID + r")(\s*:|\s)", lambda m: m.group(0), h)
                lines = h.split("\n")
                for i, l in enumerate(lines):
                    if l.startswith("--") or l.startswith("unfolding"):
                        continue
                    if "pub " not in l:
                        lines[i] = re.sub(r"^(abbrev |unfoldable )?", lambda m: (m.group(1) or "") + "pub ", l, count=1)
                    break
                pubs.append("\n".join(lines))
            got = [re.search(r"^(?:abbrev |unfoldable )?pub (" + ID + r")", h, re.M).group(1) for h in pubs]
            with open(f"{folder}/Invariants.antt", "w") as f:
                f.write("\n".join(head + uses + [f"{goal}.Given as goal"]) + "\n\n" + "\n\n".join(pubs + inv) + "\n")
            helpers = helpers_left
            if got:
                uses = uses + [f"use Rattle.{module}.Invariants.{{{', '.join(got)}}}"]
        if ans or helpers:
            with open(f"{folder}/Answers.antt", "w") as f:
                f.write("\n".join(head + uses + ([f"{goal}.Goals{places}"] if places else []) + [f"{goal}.Goals as goal"]) + "\n\n" + "\n\n".join([words(x) for x in helpers + ans]) + "\n")
        os.remove(f"{folder}/Proof.antt")
        for m in missing:
            print(f"left: {crate} {rel}: {m}")


main()
