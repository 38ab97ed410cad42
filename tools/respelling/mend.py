#!/usr/bin/env python3
"""Mends answers by what a check says of them: parts of a clause or of a call's new values by number, and places seen by a view.

usage: mend.py CRATE SAID     SAID: what rt check printed in the crate's folder; run it at the top of the repository
"""
import os
import re
import sys

PART = re.compile(r"\.(new|requires|ensures|type_inv|auto|invariant)((?:\.\d)+)")


def part(kind, path, fields):
    parts = path.split(".")[1:]
    k = 0
    if kind in ("new", "auto", "type_inv"):
        while k < len(parts) and parts[k] == "1":
            k += 1
        rest = parts[k + 1 :]
    else:
        while k < len(parts) and parts[k] == "1" and k < len(fields) - 1:
            k += 1
        rest = parts[k + 1 :] if k < len(fields) - 1 else parts[k:]
    if k >= len(fields) and len(fields) == 1:
        return 0, rest
    return (k, rest) if k < len(fields) else None


def parts_of(text, i):
    """The parts of the tuple that opens at i, and where it ends."""
    depth, start, got = 0, i + 1, []
    for j in range(i, len(text)):
        ch = text[j]
        depth += {"(": 1, "[": 1, "{": 1, ")": -1, "]": -1, "}": -1}.get(ch, 0)
        if depth == 0 or (depth == 1 and ch == ","):
            got.append(text[start:j])
            start = j + 1
        if depth == 0:
            return ([g for g in got if g.strip()], j + 1)
    return None


def records(path, es):
    """Turns tuples that are to be records of clauses; they are told by place."""
    text = open(path).read()
    at, n = [0], 0
    for l in text.split("\n"):
        at.append(at[-1] + len(l) + 1)
    for ln, col, goal, ext in sorted(es, reverse=True):
        m = re.search(r"is built with `record \{ (.*?) \}`, not as a tuple", ext)
        i = at[ln - 1] + col - 1
        if not m or text[i] != "(":
            continue
        names = re.findall(r"([\w-]+) = …", m.group(1))
        got = parts_of(text, i)
        while got and len(got[0]) < len(names):
            last = got[0][-1].strip()
            more = parts_of(last, 0) if last.startswith("(") else None
            if not more or more[1] != len(last) or len(more[0]) < 2:
                break
            got = (got[0][:-1] + more[0], got[1])
        if got and len(got[0]) == len(names):
            text = text[:i] + "record { " + "; ".join(f"{a} = {b.strip()}" for a, b in zip(names, got[0])) + " }" + text[got[1] :]
            n += 1
    open(path, "w").write(text)
    return n


def main():
    crate, said = sys.argv[1:3]
    out = open(said).read().split("\n")
    by = {}
    for i, l in enumerate(out):
        m = re.match(r"(?:.*?)\./(proofs/\S+?\.antt):(\d+):(\d+): error: `([^`]*)`(.*)", l)
        if m:
            ext = "\n".join(out[i : i + 6])
            nxt = re.search(r"\n\S*proofs/\S+?:\d+:\d+: error", ext)
            by.setdefault(m.group(1), []).append((int(m.group(2)), int(m.group(3)), m.group(4), ext[: nxt.start()] if nxt else ext))
    n = 0
    for f, es in by.items():
        p = f"crates/{crate}/{f}"
        if not os.path.exists(p):
            continue
        got = records(p, es)
        if got:
            n += got
            continue
        lines = open(p).read().split("\n")
        was = list(lines)
        for ln, col, goal, ext in sorted(es, reverse=True):
            line = lines[ln - 1]
            m = re.search(r"has no field `(\d)`.*?(?:the fields that can be named here are|its fields are|its field is|the field that can be named here is) ((?:`[^`]+`(?:,| and)? ?)+)", ext, re.S)
            if m:
                fields = re.findall(r"`([^`]+)`", m.group(2))
                for mm in PART.finditer(line):
                    if mm.end() < col - 1:
                        continue
                    got = part(mm.group(1), mm.group(2), fields)
                    if got:
                        lines[ln - 1] = line[: mm.start()] + f".{mm.group(1)}." + ".".join([fields[got[0]]] + got[1]) + line[mm.end() :]
                        n += 1
                    break
                continue
            m = re.search(r"record `\S+\.Lts\.Start` has no field `before`", ext)
            if m:
                new = re.sub(r"(?<![\w.])(\w+)(?:\.before)+(?![\w.])", rf"(goal.at-{goal} \1).Start", line)
                n += new != line
                lines[ln - 1] = new
                continue
            m = re.search(r"has no field `([\w-]+)` \(nearest: \.([\w-]+)", ext)
            if m and m.group(1).replace("-", "_") == m.group(2).replace("-", "_"):
                new = re.sub(r"\." + re.escape(m.group(1)) + r"(?![\w'-])", "." + m.group(2), line)
                n += new != line
                lines[ln - 1] = new
                continue
            m = re.search(r"is built with `record { (.*?) }`, not as a tuple", ext, re.S)
            if m and line[col - 1 : col] == "(":
                fields = [x.split("=")[0].strip() for x in m.group(1).split(";")]
                text = "\n".join(lines[ln - 1 :])
                parts, depth, last = [], 0, col
                for k in range(col - 1, len(text)):
                    ch = text[k]
                    depth += (ch in "({[") - (ch in ")}]")
                    if depth == 0 or (depth == 1 and ch == ","):
                        parts.append(text[last:k].strip())
                        last = k + 1
                    if depth == 0:
                        break
                parts = [x for x in parts if x]
                if len(parts) == len(fields):
                    body = "record { " + "; ".join(f"{a} = {b}" for a, b in zip(fields, parts)) + " }"
                    lines[ln - 1 :] = (text[: col - 1] + body + text[last:]).split("\n")
                    n += 1
                continue
            m = re.search(r"expected type `(?:goal\.)?([\w-]+)`, but this has type `", ext)
            if m:
                rest = line[col - 1 :]
                mm = re.match(r"\(?(\w+)((?:\.before)*)\b", rest)
                mm = mm or re.match(r"(\w+)", rest)
                if mm and re.match(r"(\w+)((?:\.before)+)", rest):
                    decl = next((d for d in (re.match(re.escape(goal) + r" : .*?\(" + mm.group(1) + r" : ([\w-]+)\)", x) for x in lines) if d), None)
                    at = decl.group(1) if decl else goal
                    lines[ln - 1] = line[: col - 1] + f"(goal.at-{at} {mm.group(1)}).{m.group(1)}" + rest[mm.end() :]
                    n += 1
        if lines != was:
            open(p, "w").write("\n".join(lines))
    print(f"mend: {crate}: {n} places")


main()
