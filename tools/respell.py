#!/usr/bin/env python3
"""Brings the repository's own definitions and lemmas to today's spelling: words in snake case. Run once, at the top, after port.py.

usage: python3 tools/respell.py

Each name that a file of specs/ or proofs/ defines, or a ghost use renames, and that is in lower camel case gets its snake case form: in the .antt
files, in the clauses and comments of the .rt files, in the must-fail edits and in the pages. Names that would fall together with another are in OWN.
"""

import os
import re

# A name that would be a field, a constant or another definition in snake case.
OWN = {
    "termId": "term_id_of",
    "termOffset": "term_offset_of",
    "frameLength": "frame_length_of",
    "noteStart": "start_of_note",
}
# In one file: a name that stood there in snake case already, where the definition's own name now stands.
HERE = {
    "crates/logbuffer/proofs/Assembly.antt": {"frame_row": "row_of_frame"},
    "crates/model/proofs/Edges.antt": {"no_record": "no_record_lem"},
    "crates/model/proofs/ReadLaws.antt": {"read_walk": "read_walk_lem"},
    "crates/model/proofs/Tails.antt": {"with_tail": "reading_with_tail"},
    "crates/model/proofs/Rising.antt": {"with_tail": "reading_with_tail"},
    "crates/model/proofs/Calls.antt": {"with_tail": "reading_with_tail"},
    "crates/model/proofs/Keeping.antt": {"with_tail": "reading_with_tail"},
    "crates/model/specs/Publication.antt": {"no_record": "no_record_lem"},
    "crates/publication/proofs/Fits.antt": {"in_step": "step_in"},
    "crates/replay/proofs/InPlace.antt": {"over_by": "over_by_lem"},
    "crates/replay/proofs/frames/give/Proof.antt": {"kept_by": "kept_by_lem"},
    "crates/tally/proofs/Cases.antt": {"in_three": "in_three_lem"},
    "crates/tally/proofs/Parting.antt": {"by_parts": "by_parts_lem"},
    "crates/tally/proofs/tally_by_partition/Proof.antt": {"in_three": "in_three_lem"},
}
WORD = re.compile(r"(?<![\w'\u2080-\u2089-])[A-Za-z_][\w'\u2080-\u2089\u00b7]*(?:-[\w'\u2080-\u2089\u00b7]+)*")
CAMEL = re.compile(r"^[a-z][\w'-]*[A-Z]")
FACT = re.compile(r"(?<=[a-z0-9])([A-Z])")


def snake(name):
    return FACT.sub(lambda m: "_" + m.group(1).lower(), name)


def files(ends, folders=("crates",)):
    for top in folders:
        for folder, dirs, names in os.walk(top):
            dirs[:] = sorted(d for d in dirs if d not in ("out", "target", ".git"))
            for n in sorted(names):
                if n.endswith(ends):
                    yield os.path.join(folder, n)


def read(path):
    with open(path, encoding="utf-8") as f:
        return f.read()


def letters(name):
    return snake(name).replace("-", "_")


def turn(path, names):
    text = read(path)
    new = WORD.sub(lambda m: names.get(m.group(0), m.group(0)), text)
    if new == text:
        return 0
    with open(path, "w", encoding="utf-8") as f:
        f.write(new)
    return 1


def main():
    found = {}
    for path in files((".antt",)):
        for line in read(path).splitlines():
            head = line.split(" :")[0] if " :" in line and not line.startswith("use ") else ""
            names = set(re.findall(r" as ([a-z]\w*)", line)) if line.startswith("use ") else set(WORD.findall(head))
            found.update((n, 1) for n in names if CAMEL.match(n))
    for path in files((".rt",)):
        for line in read(path).splitlines():
            if line.startswith("ghost use "):
                found.update((n, 1) for n in WORD.findall(line) if CAMEL.match(n))
    turned = {n: OWN.get(n, snake(n)) for n in found if n[0].islower()}
    count = 0
    for path in files((".antt", ".rt")):
        count += turn(path, {**turned, **HERE.get(path, {})})
    # What port.py respelled is found by its letters: it turned neither edits nor pages.
    named = {}
    for path in files((".antt",)):
        for line in read(path).splitlines():
            if " :" in line and not line.startswith(("use ", "--")):
                for n in WORD.findall(line.split(" :")[0]):
                    named.setdefault(letters(n), set()).add(n)
    every = {n for ns in named.values() for n in ns}
    left = {}
    for path in [*files((".edit", ".antt", ".rt")), *files((".md",), ("docs",)), "README.md"]:
        for n in set(WORD.findall(read(path))):
            if n not in every and (CAMEL.match(n) or ("-" in n and path.endswith((".edit", ".md")))):
                to = turned.get(n) or (min(named[letters(n)]) if len(named.get(letters(n), ())) == 1 else None)
                if to:
                    left.setdefault(path, {})[n] = to
    for path, names in sorted(left.items()):
        count += turn(path, names)
    print(f"respell: {len(turned)} names in {count} files")


if __name__ == "__main__":
    main()
