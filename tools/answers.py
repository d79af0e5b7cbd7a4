#!/usr/bin/env python3
"""Turns a function's Proof.antt, which ties answers to goals by hand, into Invariants.antt and Answers.antt.

usage: answers.py NAMES CRATE [FUNCTION..]

NAMES is the folder that `rattle check --generated NAMES --old-names` wrote for the crate: its names.json has each goal's and each step's old
name and new name. CRATE is the crate's folder. An answer that only asks for the search goes: the check searches by itself. What it cannot
turn it leaves as it stands, and `rt check` says so. It removes each Proof.antt that it has turned.
"""
import glob
import itertools
import json
import os
import re
import sys

NAME = r"[^\s(){}.;,@\"«»\[\]\\:`]+"
CRATES = ""


def read(path):
    with open(path, encoding="utf-8") as f:
        return f.read()


def plain(name):
    return re.sub(r"_lem$", "", name.replace("-", "_"))


# ---- contracts: the names of each function's clauses


def clauses(crates):
    found = {}
    for path in glob.glob(os.path.join(crates, "*/src/*.rt")):
        crate = path.split("/")[-3]
        module = os.path.basename(path)[:-3]
        for m in re.finditer(r"\bfn (\w+)(.*?)(?=\n\{|\n}|\bfn )", read(path), re.S):
            text = m[2]
            for kind in ("requires", "ensures"):
                names = re.findall(r"\n\s*" + kind + r"\*?(?: (\w+))? \{", text)
                if names:
                    key = f"{crate}::{m[1]}" if module in ("lib", "main") else f"{crate}::{module}::{m[1]}"
                    found[key, kind] = names
    return found


def by_clause(path, names):
    """`.1.0` after `.requires` of three clauses, as the name of the clause and what is left."""
    digits = path
    at = 0
    if len(names) < 2:
        return None
    while at < len(names) - 1:
        if not digits:
            return None
        first, digits = digits[0], digits[1:]
        if first == "0":
            return names[at], digits
        if first != "1":
            return None
        at += 1
    return names[at], digits


# ---- the text of a proof file


def blocks(text):
    """The declarations of a file, each with the comments above it."""
    lines, out, held = text.split("\n"), [], []
    for line in lines:
        if line.strip() == "":
            if held:
                out.append(held)
            held = []
        else:
            held.append(line)
    if held:
        out.append(held)
    # a section's declarations stay with it
    joined = []
    for b in out:
        if joined and b[0].startswith(" "):
            joined[-1] += [""] + b
        else:
            joined.append(b)
    return ["\n".join(b) for b in joined]


def close_of(text, at):
    depth = 0
    for i in range(at, len(text)):
        if text[i] in "([{":
            depth += 1
        elif text[i] in ")]}":
            depth -= 1
            if depth == 0:
                return i
    return -1


def parts(text):
    out, depth, start = [], 0, 0
    for i, ch in enumerate(text):
        if ch in "([{":
            depth += 1
        elif ch in ")]}":
            depth -= 1
        elif ch == "," and depth == 0:
            out.append(text[start:i])
            start = i + 1
    out.append(text[start:])
    return [p.strip() for p in out if p.strip()]


def as_record(body, names):
    """The tuple at the end of a body, as a record of clauses."""
    if len(names) < 2 or any(n == "" for n in names):
        return body
    end = body.rstrip()
    if not end.endswith(")"):
        return body
    # the bracket that the last one closes
    depth = 0
    for i in range(len(end) - 1, -1, -1):
        if end[i] in ")]}":
            depth += 1
        elif end[i] in "([{":
            depth -= 1
            if depth == 0:
                break
    before, inner = end[:i], end[i + 1 : -1]
    if re.search(r"(omega|simp|grind|search|rw|[\w]) $", before) and re.search(r"(omega|simp|grind|search) $", before):
        return body
    pieces = parts(inner)
    flat = []
    while len(flat) < len(names) - 1:
        if len(pieces) < 2:
            return body
        flat.append(pieces[0])
        pieces = pieces[1:]
        if len(flat) < len(names) - 1 and len(pieces) == 1:
            p = pieces[0]
            if p.startswith("(") and close_of(p, 0) == len(p) - 1:
                pieces = parts(p[1:-1])
            else:
                return body
    flat.append(pieces[0] if len(pieces) == 1 else "(" + ", ".join(pieces) + ")")
    fields = "; ".join(f"{n} = {v}" for n, v in zip(names, flat))
    made = "record { " + fields + " }"
    if before.rstrip().endswith(("=", "in", "↦")) or before.strip() == "":
        return before + made
    return before + "(" + made + ")"


class Turner:
    def __init__(self, entry, crate, function, contracts):
        self.entry, self.contracts = entry, contracts
        self.own = f"{crate}::{function.replace('/', '::')}"
        self.steps, self.calls, self.types = {}, {}, {}
        for (old, _, pair, callee, _), new in zip(entry["places"], entry["places_by_name"]):
            self.types[plain(old)] = new
            # a step that the toolchain alone made, which no answer cites
            made = callee is None and not pair[0].startswith(("if", "loop", "match")) and re.search(r"-\d+$", pair[1])
            if pair[0] and not made:
                self.steps.setdefault(plain(pair[0]), pair[1])
                if callee:
                    self.calls[pair[1]] = callee
        self.loops = {}
        for (old, new), live in entry["loops"]:
            self.loops[plain(old)] = new
            self.steps.setdefault(plain(old), new)
            self.steps.setdefault(plain(old) + "_test", new + "-test")
        self.goals, self.places = {}, set()

    def fields(self, text):
        """The names of steps, clauses and aliases behind dots."""

        # what a `let` binds: a step of a call, or all clauses of a contract
        self.bound, self.whole = {}, {}
        for var, path in re.findall(r"\blet (" + NAME + r") = ((?:" + NAME + r")(?:\." + NAME + r")+) in", text):
            last = [self.steps.get(plain(x), x) for x in path.split(".")[1:]]
            if last[-1] in self.calls:
                self.bound[var] = self.contracts.get((self.calls[last[-1]], "ensures")) or []
            if last[-1] == "ensures" and len(last) > 1 and last[-2] in self.calls:
                self.whole[var] = self.contracts.get((self.calls[last[-2]], "ensures")) or []
            if last[-1] in ("requires", "pre"):
                self.whole[var] = self.contracts.get((self.own, "requires")) or []

        def chain(m):
            root = m[1]
            names = m[2].split(".")[1:]
            out, i = [], 0
            while i < len(names):
                n = names[i]
                if n == "inv":
                    n = "invariant"
                elif n == "pre":
                    n = "requires"
                elif plain(n) in self.steps and all(o == "before" for o in out):
                    n = self.steps[plain(n)]
                elif n == "taken" and i and out[-1].startswith(("loop", "if")):
                    n = "true"
                elif i and (names[i - 1] == "args" or out[-1].startswith("loop-")) and "-" in n:
                    n = n.replace("-", "_")
                elif n.endswith("_lem"):
                    n = n[:-4]
                out.append(n)
                names_of = None
                if n == "ensures" and len(out) > 1 and out[-2] in self.calls:
                    names_of = self.contracts.get((self.calls[out[-2]], "ensures"))
                if n == "ensures" and len(out) == 1 and root in self.bound:
                    names_of = self.bound[root]
                if i == 0 and n.isdigit() and root in self.whole:
                    got = by_clause([d for d in itertools.takewhile(str.isdigit, names)], self.whole[root])
                    if got:
                        rest = names[len([d for d in itertools.takewhile(str.isdigit, names)]) :]
                        return m[1] + "." + ".".join([got[0]] + got[1] + rest)
                if n == "requires" and (len(out) < 2 or out[-2] == "before" or len(out) == 1):
                    names_of = self.contracts.get((self.own, "requires"))
                if names_of and len(names_of) > 1:
                    digits = []
                    j = i + 1
                    while j < len(names) and names[j].isdigit():
                        digits.append(names[j])
                        j += 1
                    got = by_clause(digits, names_of)
                    if got:
                        out.append(got[0])
                        out += got[1]
                        i = j - 1
                i += 1
            # a step is known at all later ones by its own name
            last = len(out)
            while last and out[last - 1] == "before":
                last -= 1
            out = [o for o in out[:last] if o != "before"] + out[last:]
            return m[1] + "." + ".".join(out)

        return re.sub(r"(" + NAME + r"|\))((?:\." + NAME + r")+)", chain, text)

    def types_in(self, text):
        def one(m):
            name = m[1]
            if name.startswith(("Need-", "invariant", "decreases")):
                return m[0]
            new = self.types.get(plain(name), name)
            self.places.add(new)
            return new

        return re.sub(r"tie\.(" + NAME + r")((?: (?:invariant|decreases)-loop\d*)*)", one, text)

    def turn(self, text):
        text = self.types_in(text)
        text = self.fields(text)
        for old, new in self.goals.items():
            text = re.sub(r"(?<![^\s(){},\[\]])" + re.escape(old) + r"(?![^\s(){},\[\].])", new, text)
        return text


def turn_file(path, entry, crate, function, contracts):
    text = read(path)
    turner = Turner(entry, crate, function, contracts)
    comment, uses, decls = [], [], []
    for b in blocks(text):
        if b.startswith("use ") or (b.startswith("--") and "\nuse " in b):
            for line in b.split("\n"):
                (uses if line.startswith("use ") else comment).append(line)
        else:
            decls.append(b)
    uses = [u for u in uses if not re.search(r"\.(Statement\.\{statement\}|Tie as tie)$", u)]
    # the order in which the answers are tied
    spec = [d for d in decls if re.search(r"tie\.spec", d)]
    tied = []
    if spec:
        body = spec[0].split("tie.spec", 1)[1].rstrip()
        if body.endswith(")"):
            body = body[:-1]
        i = 0
        while i < len(body):
            if body[i].isspace():
                i += 1
            elif body[i] == "(":
                j = close_of(body, i)
                tied.append(body[i : j + 1])
                i = j + 1
            else:
                j = i
                while j < len(body) and not body[j].isspace():
                    j += 1
                tied.append(body[i:j])
                i = j
    tied = [t for t in tied if not re.match(r"(invariant|decreases)-loop", t)]
    needs = entry["needs"]
    answer_of = {}
    if len(tied) == len(needs):
        for t, (old, new) in zip(tied, needs):
            answer_of[t] = new
    else:
        print(f"{path}: {len(tied)} tied, {len(needs)} goals")
    by_old = {plain(re.sub(r"^overflow-", "", o)): n for o, n in needs}
    for d in decls:
        m = re.search(r"(?m)^(" + NAME + r") : tie\.Need-(" + NAME + r")", d)
        if m:
            new = answer_of.get(m[1]) or by_old.get(plain(re.sub(r"^overflow-", "", m[2])))
            if new:
                turner.goals[m[1]] = new
    inv, ans = [], []
    for d in decls:
        if "tie.spec" in d or re.search(r"(?m)^pub \S+_spec :", d):
            continue
        m = re.search(r"(?m)^((?:--[^\n]*\n)*)abbrev ((?:invariant|decreases)-loop\d*) : tie\.\S+\n(.*)", d, re.S)
        if m:
            note, name, rest = m[1], m[2], m[3]
            kind, loop = name.split("-", 1)
            new = turner.loops.get(plain(loop), loop)
            index = [plain(l[0][0]) for l in entry["loops"]].index(plain(loop))
            live, changed = entry["loops"][index][1], entry["changed"][index]
            head, body = rest.split("=", 1)
            args = head.split()[1:]
            names = {}
            for v, c, a in zip(live, changed, args):
                names[a] = f"l.initial.{v}" if c else f"l.{v}"
            for v, a in zip([v for v, c in zip(live, changed) if c], args[len(live) :]):
                names[a] = f"l.{v}"
            body = re.sub(r"(?<![^\s(){},;\[\]])(" + NAME + r")", lambda x: names.get(x[1], x[1]), body)
            under = re.findall(r"(?m)^unfolding .*\n", head)
            inv.append(f"{note}abbrev pub {kind}-{new} : goal.{kind}-{new}\n{''.join(under)}{kind}-{new} l ={turner.fields(body)}".rstrip())
            continue
        m = re.search(r"(?m)^((?:--[^\n]*\n)*)(" + NAME + r") : tie\.Need-\S+(?: (?:invariant|decreases)-loop\d*)*\n((?:unfolding [^\n]*\n)?)(.*)", d, re.S)
        if m and m[2] in turner.goals:
            note, name, under, rest = m[1], m[2], m[3], m[4]
            new = turner.goals[name]
            head, body = rest.split("=", 1)
            args = [a for a in head.split()[1:] if a not in ("κs", "κ", "_")]
            used = any(re.search(r"(?<!\S)" + re.escape(name) + r"(?!\S)", o) for o in decls if o is not d and "tie.spec" not in o)
            if body.strip() in ("search rules", "omega arith", "?") and not under and not used:
                continue
            if re.search(r"\.(match|enum[-_]told)\d*\b", body):
                # a match's arms are told otherwise now, and the check often closes these goals by itself
                print(f"{path}: {new} cites a match")
                continue
            body = turner.turn(body)
            old = next((o for o, n in needs if n == new), "")
            names = entry["asked"].get(old) or entry["asked"].get(old.replace("_", "-")) or []
            if new.startswith("returns"):
                names = contracts.get((turner.own, "ensures"), [])
            if not names and new.endswith("-requires"):
                names = []
            body = as_record(body, names)
            ans.append(f"{note}pub {new} : goal.{new}\n{under}{new} {' '.join(args)} ={body}".rstrip())
            continue
        if m:
            print(f"{path}: no goal for {m[2]}")
        ans.append(turner.turn(d).rstrip())
    for t, new in answer_of.items():
        if t.startswith("("):
            m = re.fullmatch(r"\(λ ([^.]+)\. (.*)\)", t, re.S)
            body = m[2] if m else t
            if body.strip() in ("search rules", "omega arith"):
                continue
            first = m[1].split()[0] if m else "c"
            ans.append(f"pub {new} : goal.{new}\n{new} {first} = {turner.turn(body)}")
    at = f"Rattle.{crate}.proofs.{function.replace('/', '.')}"
    folder = os.path.dirname(path)
    head = "\n".join(comment) + ("\n" if comment else "")
    own_rules = any("rules" in re.split(r"[{}, ]+", u) for u in uses if u != "use borrow.Author.Rules.{rules}")

    def used(text):
        return [u for u in uses if u != "use borrow.Author.Rules.{rules}" or re.search(r"\brules\b", text) and not own_rules]

    places = [f"use {at}.Goals.{{{', '.join(sorted(turner.places))}}}"] if turner.places else []
    if inv:
        with open(os.path.join(folder, "Invariants.antt"), "w", encoding="utf-8") as f:
            f.write(head + "\n".join(used("\n".join(inv)) + [f"use {at}.Given as goal"]) + "\n\n" + "\n\n".join(inv) + "\n")
    if ans:
        with open(os.path.join(folder, "Answers.antt"), "w", encoding="utf-8") as f:
            f.write(head + "\n".join(used("\n".join(ans)) + [f"use {at}.Goals as goal"] + places) + "\n\n" + "\n\n".join(ans) + "\n")
    os.remove(path)


def main():
    names, folder, only = sys.argv[1], sys.argv[2].rstrip("/"), sys.argv[3:]
    crate = os.path.basename(folder)
    contracts = clauses(os.path.dirname(folder))
    of = json.loads(read(os.path.join(names, "names.json")))
    for path in sorted(glob.glob(os.path.join(folder, "proofs/**/Proof.antt"), recursive=True)):
        function = os.path.relpath(os.path.dirname(path), os.path.join(folder, "proofs"))
        if only and function not in only:
            continue
        key = f"Rattle-{crate}-proofs.{function.replace('/', '.')}.Lts"
        if key not in of or "tie." not in read(path):
            print(f"{path}: no names")
            continue
        turn_file(path, of[key], crate, function, contracts)


main()
