#!/usr/bin/env python3
"""Turns a crate's Proof.antt files, which walk the code, into Invariants.antt and Answers.antt.

usage: python3 tools/answers.py CRATE NAMES     CRATE is a crate's folder, NAMES what `rt check --generated FOLDER --old-names` wrote (FOLDER/names.json)

Answers that only call the search are left out: the check makes them itself. What it can't turn is named on a line 'left:'.
"""

import glob
import json
import os
import re
import sys

WORD = re.compile(r"[^\s(){}.;,@\"«»`]+")
HEAD = re.compile(r"^(?:abbrev )?(?:pub )?([^\s(){}.;,@\"«»:]+) :")


def norm(name):
    return name.replace("_", "-")


def bare(need):
    """A need's old name, without the words that later kits put before it."""
    return re.sub(r"^overflow-", "", norm(need))


def declarations(text):
    """The declarations of a file, each with the comments before it, as lists of lines."""
    out, block = [], []
    lines = text.rstrip("\n").split("\n")
    body = [i for i, l in enumerate(lines) if not l.startswith("use ")]
    uses = [l for l in lines if l.startswith("use ")]
    seen = set()
    for i in body:
        l = lines[i]
        found = HEAD.match(l)
        if found and found[1] not in seen:
            seen.add(found[1])
            lead = []
            while block and (block[-1].startswith("--")):
                lead.insert(0, block.pop())
            if any(x.strip() for x in block):
                out.append(block)
            block = lead
        block.append(l)
    if any(x.strip() for x in block):
        out.append(block)
    return uses, out


def strip(lines):
    while lines and not lines[-1].strip():
        lines = lines[:-1]
    while lines and not lines[0].strip():
        lines = lines[1:]
    return lines


class Function:
    def __init__(self, info, say):
        self.info = info
        self.say = say
        self.places = {p[0]: p for p in info["places"]}
        self.new_names = [n[1] for n in info["needs"]]
        self.old_names = [n[0] for n in info["needs"]]
        self.asked = [a[0] for a in info["asked_at"]]

    def place(self, name):
        return self.places.get(name)

    def parent(self, name):
        p = self.places.get(name)
        return p[1] if p else None

    def typed(self, step):
        for rows in self.info["typed"]:
            for var, at in rows:
                if norm(at) == norm(step):
                    return var
        return None

    def rewrite(self, text, place, alias=None):
        """Turns the paths of a term of a goal that is asked at a place."""
        alias = dict(alias or {"c": place})
        # lets that only name places
        while True:
            found = re.search(r"let ([^\s(){}.;,@\"«»:]+) = ([^\s(){}.;,@\"«»:]+)((?:\.before)+) in\s*", text)
            if not found or found[2] not in alias:
                break
            at = alias[found[2]]
            for _ in range(found[3].count(".before")):
                at = self.parent(at) if at else None
            alias[found[1]] = at
            text = text[: found.start()] + text[found.end() :]

        def path(m):
            name, rest = m[1], m[2]
            if name not in alias:
                return m[0]
            at = alias[name]
            parts = [x.strip("«»") for x in rest.split(".")[1:]]
            while parts and parts[0] == "before":
                at = self.parent(at) if at else None
                parts = parts[1:]
            if not parts:
                return "c"
            field = parts[0]
            if norm(field) in ("well-formed", "type-inv"):
                field = parts[0] = field.replace("-", "_")
            if field in ("args", "ranges") and len(parts) > 1:
                parts[1] = parts[1].replace("-", "_")
            p = self.place(at) if at else None
            if p and norm(p[2][0]) == norm(field):
                parts[0] = p[2][1]
                if len(parts) > 1 and parts[1] == "ensures" and re.match(r"wrapping_(add|sub)_u64", parts[0]) and len(parts) == 2:
                    parts.append("value")
                if field == "match" and len(parts) > 1 and re.match(r"keys\d+$|rest$", parts[1]):
                    parts[1] = "is" if parts[1] != "rest" else "in_default-own.rest"
            elif field not in ("args", "requires", "ranges", "auto", "type_inv", "well_formed"):
                hits = {q[2][1] for q in self.info["places"] if norm(q[2][0]) == norm(field)}
                if len(hits) == 1:
                    parts[0] = hits.pop()
                else:
                    self.say(f"step {field} at {at}")
            if parts[1:3] == ["given", "1"]:
                above = {self.places[q[1]][2][1] for q in self.info["places"] if q[2][1] == parts[0] and q[1] and self.places[q[1]][2][0] == "match"}
                if len(above) == 1:
                    parts[0:3] = [above.pop(), "is"]
            self.numbered(parts)
            return "c." + ".".join(parts)

        names = "|".join(re.escape(a) for a in sorted(alias, key=len, reverse=True))
        paths = r"(?<![^\s(){};,@\"])(" + names + r")((?:\.[^\s(){}.;,@\"]+)+)"
        text = re.sub(paths, path, text)
        text = re.sub(r"\(c\.(shared_slice_known[\w-]*)\.given ([^()]+)\)\.fits", self.fits, text)
        # a negated test says now what was found
        return re.sub(r"not-(?:true|false) _ (c\.[^\s()]*-not-[^\s()]*\.(?:true|false))", r"\1", text)

    def numbered(self, parts):
        """What a call left in a parameter went by its number, and goes by its name."""
        if len(parts) < 3 or parts[1] not in ("auto", "new") or parts[2] not in ("0", "1"):
            return
        callees = {q[3] for q in self.info["places"] if q[2][1] == parts[0] and q[3]}
        params = self.info["params"].get(callees.pop(), []) if len(callees) == 1 else []
        at = 0
        while parts[2 + at : 3 + at] == ["1"]:
            at += 1
        if parts[2 + at : 3 + at] == ["0"] and at < len(params):
            parts[2 : 3 + at] = [params[at]]
        else:
            self.say(".".join(parts))

    def fits(self, m):
        for p in self.info["places"]:
            if p[2][1] == m[1]:
                var = self.typed(p[2][0])
                if var:
                    return f"(c.type_inv.{var} {m[2]}).fits"
        self.say("given " + m[1])
        return m[0]


def turn(folder, crate, info, name, stem, say):
    path = os.path.join(folder, "proofs", name, "Proof.antt")
    with open(path, encoding="utf-8") as f:
        text = f.read()
    uses, decls = declarations(text)
    f = Function(info, say)
    loops = info["loops"]
    dotted = name.replace("/", ".")
    answers, invariants, own = [], [], []
    used = set()
    for lines in decls:
        lines = strip(lines)
        lead = [l for l in lines if l.startswith("--")]
        code = [l for l in lines if not l.startswith("--")]
        head = code[0]
        if re.match(r"^pub [\w-]+[-_]spec\b", head):
            continue
        found = re.match(r"^(?:abbrev )?(?:pub )?([^\s:]+) : tie\.([^\s]+)(.*)$", head)
        if not found:
            own.append(lines)
            continue
        label, need = found[1], found[2]
        kind = re.match(r"(invariant|decreases)-(loop\d*)$", need)
        if kind:
            row = [l for l in loops if l[0][0] == kind[2]]
            if not row:
                say(f"loop {kind[2]}")
                continue
            at = loops.index(row[0])
            new, variables = row[0][0][1], row[0][1]
            changed = info["changed"][at]
            rest = "\n".join(code[1:])
            m = re.match(rf"^{re.escape(label)}((?: [^\s=]+)*) =\s*", rest)
            args = m[1].split()
            body = rest[m.end() :]
            want = [("l." if not ch else "l.initial.") + v for v, ch in zip(variables, changed)] + ["l." + v for v, ch in zip(variables, changed) if ch]
            if len(args) != len(want):
                say(f"invariant {label}: {len(args)} arguments, {len(want)} wanted")
            table = dict(zip(args, want))
            body = WORD.sub(lambda w: table.get(w[0], w[0]), body)
            invariants.append(lead + [f"abbrev pub {kind[1]}-{new} : goal.{kind[1]}-{new}", f"{kind[1]}-{new} l = {body}"])
            continue
        if not need.startswith("Need-"):
            say(f"need {need}")
            continue
        old = bare(need[5:])
        hits = [i for i, o in enumerate(f.old_names) if bare(o) == old and i not in used]
        if not hits:
            say(f"goal {need}")
            continue
        i = hits[0]
        used.add(i)
        new, place = f.new_names[i], f.asked[i]
        opens = [l for l in code[1:] if l.startswith("unfolding")]
        rest = "\n".join(l for l in code[1:] if not l.startswith("unfolding"))
        m = re.match(rf"^{re.escape(label)}((?: [^\s=]+)*) =\s*", rest)
        if not m:
            say(f"answer {label}")
            continue
        args = m[1].split()
        body = rest[m.end() :]
        if body.strip() in ("search rules", "search needs", "omega arith") and not opens:
            continue
        body = f.rewrite(body, place)
        body = re.sub(r"\bκs\b", "_", body)
        first = " c"
        sep = "\n    " if "\n" in body else " "
        answers.append(lead + [f"pub {new} : goal.{new}"] + opens + [f"{new}{first} ={sep}{body.strip()}"])
    keep = [u for u in uses if not re.search(r"\.(Statement|Tie)\b", u)]

    def imports(texts):
        tokens = set(WORD.findall("\n".join(texts)))
        out = []
        for u in keep:
            m = re.match(r"^(use .*\.\{)(.*)(\})$", u)
            if m:
                items = [x.strip() for x in m[2].split(",")]
                items = [x for x in items if re.split(r"\s+as\s+", x)[-1] in tokens or "◌" in x and any(o and o in " ".join(texts) for o in x.split("◌"))]
                if items:
                    out.append(f"{m[1]}{', '.join(items)}{m[3]}")
            else:
                out.append(u)
        return out

    def write(file, module, blocks):
        texts = ["\n".join(b) for b in blocks]
        head = imports(texts) + [f"use Rattle.{crate}.proofs.{dotted}.{module} as goal"]
        with open(os.path.join(folder, "proofs", name, file), "w", encoding="utf-8") as out:
            out.write("\n".join(head) + "\n\n" + "\n\n".join(texts) + "\n")

    if invariants:
        write("Invariants.antt", "Given", invariants)
    if answers:
        write("Answers.antt", "Goals", own + answers)
    os.remove(path)


def main():
    folder, names = sys.argv[1:3]
    crate = os.path.basename(os.path.realpath(folder))
    with open(names, encoding="utf-8") as f:
        table = json.load(f)
    for path in sorted(glob.glob(os.path.join(folder, "proofs", "**", "Proof.antt"), recursive=True)):
        name = os.path.relpath(os.path.dirname(path), os.path.join(folder, "proofs"))
        key = f"Rattle-{crate}-proofs.{name.replace('/', '.')}.Lts"
        if key not in table:
            print(f"left: {name}: no names")
            continue
        turn(folder, crate, table[key], name, "", lambda t, name=name: print(f"left: {name}: {t}"))


if __name__ == "__main__":
    main()
