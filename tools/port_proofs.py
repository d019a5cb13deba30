#!/usr/bin/env python3
"""Turns a crate's Proof.antt files into Invariants.antt and Answers.antt: each answer under today's name of its goal.

usage: python3 tools/port_proofs.py NAME..      at the top of the repository; the crates below NAME are proved

An answer that only says `search rules` goes. What a path of c means today is taken from the list that the check writes under
--generated --old-names. A walk by hand stays as it is.
"""

import glob
import json
import os
import re
import subprocess
import sys
import tempfile

plain = lambda it: it.replace("_", "-")


def norm(it):
    it = plain(it).lower()
    if it.endswith("-lem"):
        it = it[:-4]
    return it


def names_of(crate):
    with tempfile.TemporaryDirectory() as d:
        r = subprocess.run(["rt", "check", "--generated", d + "/g", "--old-names"], cwd=f"crates/{crate}", capture_output=True, text=True)
        path = d + "/g/names.json"
        if not os.path.exists(path):
            sys.exit(f"{crate}: no names: {(r.stdout + r.stderr)[-1500:]}")
        return json.load(open(path))


def blocks(text):
    out, cur = [], []
    for line in text.split("\n"):
        if line.strip() == "":
            if cur:
                cur.append("")
            continue
        if line[0] not in " )" and cur and cur[-1] == "":
            out.append("\n".join(cur).rstrip())
            cur = []
        cur.append(line)
    if cur:
        out.append("\n".join(cur).rstrip())
    return out


class Function:
    def __init__(self, of):
        self.of = of
        self.place = {p[0]: i for i, p in enumerate(of["places"])}

    def chain(self, old_place):
        """Indices of the places from here up to the start."""
        out, at = [], old_place
        while at is not None and at in self.place:
            i = self.place[at]
            out.append(i)
            at = self.of["places"][i][1]
        return out

    def step(self, old, up, chain):
        """The chain's place whose old step has this name; of several the nearest to so many steps up."""
        want = norm(old)
        found = [(abs(n - up), i) for n, i in enumerate(chain) if want in (norm(self.of["places"][i][2][0]), "is" + norm(self.of["places"][i][2][0]))]
        return min(found)[1] if found else None

    def path(self, parts, chain, said):
        up = 0
        while parts and parts[0] == "before":
            parts = parts[1:]
            up += 1
        if not parts:
            return "c", [], None
        first, rest = parts[0], parts[1:]
        first = {"well-formed": "well_formed", "type-inv": "type_inv"}.get(first, first)
        if first in ("args", "requires", "ranges", "well_formed", "captures", "utf8", "type_inv", "lifetimes"):
            return f"c.{first}", rest, None
        # an arm's field
        best = None
        for n, i in enumerate(chain):
            arm = self.of["arms"][i]
            if not arm:
                continue
            for field, old, path in arm[2]:
                if norm(old) == norm(first) and path and [norm(x) for x in rest[: len(path)]] == [norm(x) for x in path]:
                    it = (abs(n - up), f"c.{arm[0]}.{field}", rest[len(path):])
                    if best is None or it[0] < best[0]:
                        best = it
        if best:
            return best[1], best[2], None
        for typed in [self.of["typed"][n] for n in chain]:
            for name, old in typed:
                if norm(old) == norm(first):
                    return f"c.type_inv.{name}", rest[1:] if rest[:1] == ["given"] else rest, None
        i = self.step(first, up, chain)
        if i is None:
            said.append(f"no step {first}")
            return f"c.{first}", rest, None
        _, _, (_, new), callee, _ = self.of["places"][i]
        if rest and (new.startswith("if-") or new.endswith("-test")):
            rest = [{"taken": "true", "left": "false"}.get(rest[0], rest[0])] + rest[1:]
        arm = self.of["arms"][i]
        if arm and rest and re.match(r"rest$|keys\d+$", rest[0]):
            for field, old, path in arm[2]:
                if norm(old) == norm(first) and not path:
                    return f"c.{arm[0]}.{field}", rest, None
        return f"c.{new}", rest, callee

    def arm_step(self, parts, chain):
        """Whether the path ends at a step whose parts are fields of an arm today."""
        parts = [it for it in parts if it != "before"]
        arms = [self.of["arms"][i] for i in chain if self.of["arms"][i]]
        return len(parts) == 1 and any(norm(old) == norm(parts[0]) and path for arm in arms for _, old, path in arm[2])

    def rest(self, rest, callee):
        """Fields behind a step; what .auto says goes by the parameter's name."""
        if rest and rest[0] == "auto" and callee in self.of["params"]:
            k, n = 1, 0
            while k < len(rest) and rest[k] == "1":
                k += 1
                n += 1
            params = self.of["params"][callee]
            if k < len(rest) and rest[k] == "0" and n < len(params):
                return ["auto", params[n]] + rest[k + 1:]
            if k == len(rest) and n < len(params):
                return ["auto", params[n]]
        return rest

    def body(self, text, chain, said):
        bound = {}

        def one(it):
            parts = it[0].split(".")[1:]
            new, rest, callee = self.path(parts, chain, said)
            return ".".join([new] + self.rest(rest, callee))

        def let(it):
            parts = it[2].split(".")[1:]
            _, rest, callee = self.path(parts, chain, [])
            if callee and not rest:
                bound[it[1]] = callee
            return it[0]

        # What was given of an enum is no record of its own today: its parts go by their own paths.
        again = True
        while again:
            again = False
            for it in re.finditer(r"[ \n]*let (\S+) = (c(?:\.[^\s(){}.,;∙]+)*) in(?=\s)", text):
                last = it[2].split(".")
                rest = text[it.end():]
                given = "given" in last or norm(last[-1]).startswith(("enum-told", "enum-known", "match")) or self.arm_step(last[1:], chain)
                if given or set(last[1:]) <= {"before"} or re.search(rf"(?<![\w.'-]){re.escape(it[1])}\.before", rest):
                    rest = re.sub(rf"(?<![\w.'-]){re.escape(it[1])}(?![\w'-])", lambda _: it[2], rest)
                    text = text[:it.start()] + " " + rest
                    again = True
                    break
        text = text.lstrip() if text.startswith(" ") else text
        text = re.sub(r"(?<![\w-])not-(?:true|false) (?:_|c(?:\.[^\s(){}.,;∙]+)+|\([^()]*\)) (c(?:\.[^\s(){}.,;∙]+)*\.(?:true|false))", r"\1", text)
        re.sub(r"let (\S+) = (c(?:\.[^\s(){}.,;∙]+)*) in", let, text)
        text = re.sub(r"(?<![\w.'-])c(?:\.[^\s(){}.,;∙]+)+", one, text)
        # What Rattle knows of a value's range needs no name.
        text = re.sub(r",\s*c\.known_told[^\s,(){}]*", "", text)
        for name, callee in bound.items():
            text = re.sub(rf"(?<![\w.'-]){re.escape(name)}\.(auto(?:\.[01])+)", lambda it: ".".join([name] + self.rest(it[1].split("."), callee)), text)
        return text


def goal_of(f, need, taken):
    old = re.sub(r"^(Need-)", "", need)
    norms = {norm(old), norm(re.sub(r"^overflow[-_]", "", old)), norm(re.sub(r"^bounds[-_]", "", old))}
    for i, (was, new) in enumerate(f.of["needs"]):
        if norm(was) in norms and i not in taken:
            return i
    for i, (was, new) in enumerate(f.of["needs"]):
        if norm(new) in norms and i not in taken:
            return i
    return None


def invariant(f, what, args, rhs):
    """Today's name of a loop's invariant or measure, and l.x for the parameters that the old form named in order."""
    kind, old = re.match(r"(invariant|decreases)[-_](.*)", what).groups()
    i = next(i for i, loop in enumerate(f.of["loops"]) if norm(loop[0][0]) == norm(old))
    (_, new), names = f.of["loops"][i]
    changed = f.of["changed"][i]
    to = [("l.initial." if c else "l.") + n for n, c in zip(names, changed)] + ["l." + n for n, c in zip(names, changed) if c]
    args = [it for it in args if not re.fullmatch(r"t\d+", it)]
    if len(to) != len(args):
        return f"{kind}-{new}", "-- LEFT " + " ".join(args) + " FOR " + " ".join(to) + "\n" + rhs
    by = dict(zip(args, to))
    return f"{kind}-{new}", re.sub(r"(?<![\w.'-])([A-Za-z_][\w'₀-₉]*)", lambda it: by.get(it[1], it[1]), rhs)


def convert(crate, path, of, said):
    rel = os.path.relpath(os.path.dirname(path), f"crates/{crate}/proofs")
    module = rel.replace("/", ".")
    f = Function(of)
    text = open(path, encoding="utf-8").read()
    uses, answers, invariants, helpers, head = [], [], [], [], []
    taken = set()
    for block in blocks(text):
        lines = block.split("\n")
        notes = []
        while lines and lines[0].startswith("--"):
            notes.append(lines.pop(0))
        if not lines:
            head += notes
            continue
        if lines[0].startswith("use "):
            head += notes
            joined = "\n".join(lines)
            for use in re.findall(r"(?m)^use .*(?:\n .*)*", joined):
                uses.append(use)
            continue
        m = re.match(r"(?:(abbrev|pub|unfoldable) )*(\S+) : (.*)", lines[0])
        name = m[2] if m else None
        if name and (name.endswith("_spec") and "statement" in block.split("=")[0]):
            continue
        t = re.match(r".*? : tie\.(\S+)", lines[0]) if m else None
        if not t:
            helpers.append("\n".join(notes + lines))
            continue
        what = t[1]
        clauses = lines[1:]
        while clauses and clauses[0].startswith(" ") and "unfolding" not in clauses[0]:
            clauses = clauses[1:]
        unfolding = []
        while clauses and clauses[0].startswith("unfolding"):
            unfolding.append(clauses.pop(0))
        if what.startswith(("invariant", "decreases")):
            body = "\n".join(clauses)
            it = re.match(r"\S+ (.*?)\s*=\s?((?:.|\n)*)", body)
            invariants.append((what, notes, it[1].split(), it[2], unfolding))
            continue
        i = goal_of(f, what, taken)
        if i is None:
            if re.search(r"=\s*search rules\s*$", "\n".join(clauses)):
                continue
            said.append(f"{rel}: no goal for {what}")
            helpers.append("-- LEFT " + what + "\n" + "\n".join("-- " + x for x in lines))
            continue
        taken.add(i)
        new = f.of["needs"][i][1]
        body = "\n".join(clauses)
        it = re.match(r"\S+((?: +[^\s=]+)*)\s*=\s?((?:.|\n)*)", body)
        args, rhs = it[1].split(), it[2]
        if rhs.strip() == "search rules" and not unfolding:
            continue
        asked = f.of["asked_at"][i][0] if i < len(f.of["asked_at"]) else None
        rhs = f.body(rhs, f.chain(asked), said)
        answers.append((new, notes, unfolding, args[:1], rhs))
    base = os.path.dirname(path)
    mod = f"Rattle.{crate}.proofs.{module}"
    kept = [u for u in uses if not re.search(r"\.(Statement\.\{statement\}|Tie as tie|Reads as \S+|Met as \S+)", u)]
    if invariants:
        out = head + kept + [f"use {mod}.Given as goal", ""]
        for what, notes, args, rhs, unf in invariants:
            what, rhs = invariant(f, what, args, rhs)
            out += notes + [f"abbrev pub {what} : goal.{what}"] + unf + [f"{what} l = {rhs}", ""]
        open(base + "/Invariants.antt", "w", encoding="utf-8").write("\n".join(out).rstrip() + "\n")
        head = []
    if answers or helpers:
        out = head + kept + [f"use {mod}.Goals as goal", ""]
        for h in helpers:
            out += [h, ""]
        for new, notes, unf, args, rhs in answers:
            out += notes + [f"pub {new} : goal.{new}"] + unf + [f"{new} {' '.join(args)} = {rhs}", ""]
        open(base + "/Answers.antt", "w", encoding="utf-8").write("\n".join(out).rstrip() + "\n")
    os.remove(path)
    if not os.listdir(base):
        os.removedirs(base)


def main():
    for crate in sys.argv[1:]:
        names = names_of(crate)
        said = []
        for path in sorted(glob.glob(f"crates/{crate}/proofs/**/Proof.antt", recursive=True)):
            if "Tie as tie" not in open(path, encoding="utf-8").read():
                print(f"{path}: by hand")
                continue
            rel = os.path.relpath(os.path.dirname(path), f"crates/{crate}/proofs").replace("/", ".")
            key = f"Rattle-{crate}-proofs.{rel}.Lts"
            if key not in names:
                print(f"{path}: not in the list of names")
                continue
            convert(crate, path, names[key], said)
        for it in said:
            print(f"{crate}: {it}")


if __name__ == "__main__":
    main()
