#!/usr/bin/env python3
"""Respells this repository's own names as today's Rattle spells names: words in snake case, types in camel case.

Run once, at the top, after the kit's own script. It goes over the definitions, laws, contracts and must-fail edits; functions,
exported names and texts keep their names, since none of them is written in camel case with a small first letter.

    tools/respell.py
"""
import pathlib
import re

# Definitions and laws whose snake-case form is not their letters apart alone: (folder or file, old name, new name).
APART = [
    ("crates", "primeTo251", "prime_to_251"),
    # `placeHere` is a placing; the law that says when one is made keeps the spelling that it had.
    ("crates/theory", "place_here", "place-here"),
    ("crates", "placeHere", "placed_here"),
    # Facts are spelled as types.
    ("crates/theory/proofs/Collecting.antt", "here", "Here"),
    ("crates/presentation", "record-at", "RecordAt"),
    ("crates/presentation", "lent_at", "LentAt"),
    # A word of the kit that the must-fail edits still spell as before.
    ("crates", "getD", "get_or"),
    # Fields: plain words are joined by an underscore.
    ("crates", "above-one", "above_one"),
    ("crates", "bodies-are", "bodies_are"),
    ("crates", "count-is", "count_is"),
    ("crates", "inverse-of", "inverse_of"),
    ("crates", "overlap-is", "overlap_is"),
    ("crates", "vector-is", "vector_is"),
    ("crates", "work-is", "work_is"),
]

# A name: letters, digits, underscores, dashes and primes.
NAME = re.compile(r"[^\W\d][\w'′-]*")
# A part of a name in camel case: a small first letter, and a capital after a small letter or a digit.
CAMEL = re.compile(r"^[a-z][a-z0-9]*(?:[A-Z][a-z0-9]*)+$")


def apart(name: str) -> str:
    """The name with each of its parts between dashes in snake case."""
    parts = name.split("-")
    return "-".join(re.sub(r"[A-Z]", lambda m: "_" + m.group().lower(), p) if CAMEL.match(p) else p for p in parts)


def respelled(path: pathlib.Path, text: str) -> str:
    table = {old: new for under, old, new in APART if path.as_posix() == under or path.as_posix().startswith(under + "/")}
    return NAME.sub(lambda m: table.get(m.group()) or apart(m.group()), text)


def main() -> None:
    for path in sorted(pathlib.Path("crates").rglob("*")):
        if "out" in path.parts or path.suffix not in (".antt", ".rt", ".edit"):
            continue
        text = path.read_text(encoding="utf-8")
        new = respelled(path, text)
        if new != text:
            path.write_text(new, encoding="utf-8")


if __name__ == "__main__":
    main()
