#!/usr/bin/env python3
"""Spells the repository's own definitions, fields and lemmas in snake case, as the toolchain's library is spelt.

usage: respell.py [--list] [FOLDER]

FOLDER is the top of the repository, the present folder where none is named. It reads crates/*/specs and crates/*/proofs for the
names that they declare, and writes .rt, .antt and .edit files and the pages README.md and docs/*.md in place: commit first. A name keeps its
spelling where a library of the toolchain has it, or where it begins with a capital letter. `lineStart` and `line-start` become
`line_start`; a lemma that would have its definition's name gets `_lem`: these stand in the lists MEETING and MEETING_IN.

--list prints each name with its new one and writes nothing. A second run changes nothing.
"""
import glob
import os
import re
import sys

# Names that would meet another one, and what they become.
MEETING = {
    "by-method": "by_method_lem",
    "comma-at": "comma_at_lem",
    "digits-said": "digits_said_lem",
    "early-plain": "early_plain_lem",
    "field-read": "field_read_lem",
    "field-words": "field_words_lem",
    "fields-number": "fields_number_lem",
    "gas-credited": "gas_credited_lem",
    "is-letter": "is_letter_lem",
    "join-fields": "join_fields_lem",
    "join-lines": "join_lines_lem",
    "kind-number": "kind_number_lem",
    "last-three": "last_three_lem",
    "line-fields": "line_fields_lem",
    "line-number": "line_number_lem",
    "line-words": "line_words_lem",
    "no-method": "no_method_lem",
    "order-number": "order_number_lem",
    "plain-stream": "plain_stream_lem",
    "record-words": "record_words_lem",
    "records-lent": "records_lent_lem",
    "refused-at": "refused_at_lem",
    "refused-by": "refused_by_lem",
    "shape-number": "shape_number_lem",
    "spell-field": "spell_field_lem",
    "spell-fields": "spell_fields_lem",
    "spell-line": "spell_line_lem",
    "spell-lines": "spell_lines_lem",
    "spell-sheet": "spell_sheet_lem",
    "row-line": "row_line_lem",
    "short-at": "short_at_lem",
    "full-words": "full_words_lem",
}
# The same, of names that have their new spelling already, each in one file.
MEETING_IN = {
    "crates/records/proofs/Fields.antt": {"no_step": "no_step_lem"},
    "crates/report/proofs/Reading.antt": {"whole_part": "whole_part_lem"},
}

# A name of antt's: what stands between spaces, brackets and the signs that part names.
NAME = re.compile(r"[^\s(){}.;,@\"«»\[\]\\:`']+'*")
DECLARED = re.compile(r"^\s*(?:(?:unfoldable|abbrev|pub|private|ghost)\s+)*([^\s:(){}.,;]+)(?:\s+\{[^{}]*\})*\s+:\s")
HEAD = re.compile(r"^\s*(?:(?:unfoldable|abbrev|pub|private)\s+)*(?:record|data)\s")
USE = re.compile(r"use ([^\s;{]+?)\.\{([^}]*)\}", re.S)
OWN = re.compile(r"Rattle\.(\w+)\.")
# The answers that a proof file gives to the goals which the toolchain names.
ANSWER = re.compile(r"^\s*(?:abbrev |pub )*(\S+) : tie\.")


# Files whose names are those of goals, which the toolchain gives.
GOALS = ("/Answers.antt", "/Invariants.antt")


def snake(name):
    words = name.replace("-", "_")
    words = re.sub(r"(?<=[a-z0-9])([A-Z]+)", lambda m: "_" + m[1].lower(), words)
    words = re.sub(r"(?<=[a-z0-9])(ℤ)", r"_\1", words)
    return re.sub(r"_[A-Z]+(?=_|$)", lambda m: m[0].lower(), words)


def read(path):
    with open(path, encoding="utf-8", newline="") as f:
        return f.read()


def files(top, *patterns):
    found = []
    for p in patterns:
        found += glob.glob(os.path.join(top, p), recursive=True)
    return sorted(f for f in set(found) if "/out/" not in f and os.path.isfile(f) and not f.endswith(GOALS))


def declared(top):
    names, library = set(), set()
    crates = {os.path.basename(p) for p in glob.glob(os.path.join(top, "crates", "*"))}
    for path in files(top, "crates/*/specs/**/*.antt", "crates/*/proofs/**/*.antt", "crates/*/src/**/*.rt"):
        text = read(path)
        for module, items in USE.findall(text):
            own = OWN.match(module + ".")
            if not (own and own[1] in crates):
                library |= {i.split(" as ")[0].strip() for i in items.replace("\n", " ").split(",")}
        if path.endswith(".rt"):
            continue
        asked = set()
        for line in text.split("\n"):
            a = ANSWER.match(line)
            if a:
                asked.add(a[1])
            elif not HEAD.match(line):
                d = DECLARED.match(line)
                if d:
                    names.add(d[1])
            for binding in re.findall(r"[({]([^(){}:]+) : ", line):
                names |= {b for b in binding.split() if re.search("[a-z][A-Z]", b)}
            for bound in re.findall(r"λ ([^.]+)\. ", line):
                names |= {b for b in bound.split() if re.fullmatch("[a-z]+[A-Z][A-Za-z]*", b)}
            for bound in re.findall(r"\blet (\S+) ", line):
                names.add(bound)
    return {n for n in names if n not in library}


def renaming(top):
    new = {}
    for n in declared(top):
        if not re.match(r"[a-zℤℕ]", n) or not re.fullmatch(r"[\wℤℕ₀-₉-]+'*", n):
            continue
        to = MEETING.get(n) or snake(n)
        if to != n:
            new[n] = to
    return new


def turn(text, new):
    return NAME.sub(lambda m: new.get(m[0], m[0]), text)


def turned(path, text, new):
    if path.endswith("Proof.antt"):
        # an answer's own name is the toolchain's
        kept = {m[1] for m in map(ANSWER.match, text.split("\n")) if m}
        new = {k: v for k, v in new.items() if k not in kept}
    return turn(text, new)


def turned_edit(path, text, new):
    """An edit's text, also where the toolchain's own script respelt a name in the file that it changes."""
    text = re.sub(r"Rattle·(\w+)(?:·(?:specs|proofs)\.(specs|proofs))?\.", lambda m: f"Rattle.{m[1]}.{m[2]}." if m[2] else f"Rattle.{m[1]}.", text)
    text = turn(text, new)
    file = ""
    lines = []
    for line in text.split("\n"):
        if line.startswith("file: "):
            file = os.path.join(os.path.dirname(path), "..", line[6:].strip())
        if file and line.startswith(("old: ", "new: ")):
            there = set(NAME.findall(read(file)))
            line = NAME.sub(lambda m: snake(m[0]) if m[0] not in there and snake(m[0]) in there else m[0], line)
            if file.endswith(".antt"):
                line = re.sub(r"(?<=\w) (\.\w)", r"\1", line)
        lines.append(line)
    return "\n".join(lines)


def turned_page(text, there):
    """A page's names between backquotes."""

    def name(m):
        return m[0] if m[0] in there or m[0].endswith((".rt", ".antt", ".md")) else MEETING.get(m[0]) or (snake(m[0]) if snake(m[0]) in there else m[0])

    return re.sub(r"`[^`\n]+`", lambda m: NAME.sub(name, m[0]), text)


def main():
    arguments = [a for a in sys.argv[1:] if a != "--list"]
    top = arguments[0] if arguments else "."
    new = renaming(top)
    if "--list" in sys.argv:
        for k in sorted(new):
            print(k, new[k])
        return
    for path in files(top, "crates/*/specs/**/*.antt", "crates/*/proofs/**/*.antt", "crates/*/src/**/*.rt", "crates/*/must-fail/*.edit"):
        text = read(path)
        here = MEETING_IN.get(os.path.relpath(path, top), {})
        if any(v in text for v in here.values()):
            here = {}
        after = turned_edit(path, text, new) if path.endswith(".edit") else turned(path, text, {**new, **here})
        if after != text:
            with open(path, "w", encoding="utf-8", newline="") as f:
                f.write(after)
    there = set()
    for path in files(top, "crates/*/specs/**/*.antt", "crates/*/proofs/**/*.antt", "crates/*/src/**/*.rt"):
        there |= set(NAME.findall(read(path)))
    for path in files(top, "README.md", "docs/*.md", "reference/README.md", "callers/README.md"):
        text = read(path)
        after = turned_page(text, there)
        if after != text and os.path.basename(path) != "PORT.md":
            with open(path, "w", encoding="utf-8", newline="") as f:
                f.write(after)


main()
