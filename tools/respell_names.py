#!/usr/bin/env python3
"""Brings the repository's own definitions and lemmas to the spelling of today's Rattle: words in snake case.

Usage: tools/respell_names.py [--list]
Run once, after the kit's own script. It collects the names that specs/ and proofs/ declare in camel case
with a small first letter (types, facts and modules keep their capitals), and writes each in snake case wherever it stands: in
specs/, proofs/, the clauses of src/ and must-fail/. Functions of src/ are in snake case already and no name of theirs is touched.
--list prints old and new names, and each new name that another name has already, and writes nothing.
"""

import re
import sys
from pathlib import Path

TOP = Path(__file__).resolve().parent.parent
HEAD = re.compile(r"\s*(?:(?:unfoldable|abbrev|pub|record|data)\s+)*([^\s:(){};,=]+)(?:\s+\([^)]*\)|\s+\{[^}]*\})*\s*:(?!=)")
RULES = re.compile(r"\s*(?:pub )?ruleset (\S+)")
# A name of antt: letters, digits, and what else may stand inside one. A dot ends it.
TOKEN = re.compile(r"[A-Za-z0-9_'ℕℤ◌\-+*/<>=≡≤&|^]+")
# A word with a capital inside that is no case of the rule: an acronym, or a letter for the logic's own N or Z.
APART = {"printedDCT": "printed_dct", "le-leZ": "le-le_z", "lt-leZ": "lt-le_z", "lit-outN": "lit-out_n", "m-scaleN": "m-scale_n", "m-scaleN'": "m-scale_n'"}
# Lemmas that would fall together with a function: the files in which the lemma stands, or "" for all of specs/ and proofs/.
LEMMAS = {
    "applied_beside": ("singlerows/specs/LaidRows", "singlerows/specs/SingleRows"),
    "byte_of": ("laws/specs/Strips", "laws/specs/ReturnedStrips"),
    "entry_at": ("offender/specs/FactorMatrix", "offender/proofs/weights/matrix_at/"),
    "in_row": ("offender/specs/RefusedBounds", "offender/proofs/weights/sign_at/", "offender/proofs/weights/weight_at/", "pairmoves/specs/Moves"),
    "sign_at": ("rules/specs/Laws/Along", "rules/specs/Laws/PassProducts", "offender/specs/FactorMatrix", "offender/proofs/weights/sign_of/"),
    **{n: ("",) for n in ("first_read", "in_blocks", "in_order", "in_two", "made_by", "moved_by", "numbers_of", "one_size", "too_many", "two_size")},
}
# The kit's script respells the uses of these as std's words, and not the declarations.
OPERATORS = {"◌or-else◌": "◌or_else◌", "or-else": "or_else"}


def files():
    for p in sorted(TOP.glob("crates/*/*/**/*")):
        if p.is_file() and p.suffix in (".antt", ".rt", ".edit") and "out" not in p.parts:
            yield p


def snake(name: str) -> str:
    return APART.get(name) or re.sub(r"(?<=[a-z0-9])([A-Z])", lambda m: "_" + m.group(1).lower(), name)


def declared() -> set[str]:
    names = set()
    for p in files():
        if p.suffix == ".antt":
            for line in p.read_text().splitlines():
                m = HEAD.match(line) or RULES.match(line)
                if m:
                    names.add(m.group(1))
    return names


def main() -> None:
    names = declared()
    new = {n: snake(n) for n in names if re.match(r"[a-z]", n) and re.search(r"[a-z0-9][A-Z]", n)}
    new.update(OPERATORS)
    if sys.argv[1:] == ["--list"]:
        words: dict[str, set[str]] = {}
        for p in files():
            for t in TOKEN.findall(p.read_text()):
                words.setdefault(t, set()).add(str(p.relative_to(TOP)))
        for old, to in sorted(new.items()):
            there = sorted(words.get(to, ()))
            print(old, "->", to, "  ALSO IN " + " ".join(there[:6]) if there else "")
        return
    for p in files():
        text = p.read_text()
        if p.suffix == ".antt":
            here = {n for n, places in LEMMAS.items() if any(s in str(p) for s in places)}
            text = TOKEN.sub(lambda m: m.group(0) + "_lem" if m.group(0) in here else m.group(0), text)
        turned = TOKEN.sub(lambda m: new.get(m.group(0), m.group(0)), text)
        p.write_text(turned)


main()
