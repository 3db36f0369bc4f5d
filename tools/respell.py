#!/usr/bin/env python3
"""Respells the repository's own definitions and lemmas, once, to the spelling of the installed Rattle:
words in snake case, a dash only where a lemma's name joins the names of two definitions.

  python3 tools/respell.py        at the top, after port.py

It goes over specs/ and proofs/ and the clauses in src/. It changes whole names only, so functions of src/,
strings, inputs and outputs stay. A lemma that would fall together with its definition gets `_lem`.
"""
import glob
import re

DEFINITIONS = """
allMeans cellMeans characterOf choiceNumber columnMeans columnOf columnsMeans diagonalMeans firstColumnMeans
firstFrom firstPast firstRowMeans frameMeans fromLast fromLastColumn fromLastRow heightOf isExcluded isOnEdge
isSmall lastColumnMeans lastRowMeans positionMeans positionsLeft positionsOf rowMeans rowsMeans sectorOf
segmentMeans theColumn unlessEmpty
""".split()
LEMMAS = """
all-cells all-member all-other apart-counting before-space bit-read block-narrow cell-tells column-tells
decides-same distinct-each distinct-ordered distinct-positions distinct-single each-cell first-column first-is
first-number first-of-line first-or-later first-row from-0 in-covered in-line in-range last-column lawful-over
less-left lists-frame lists-sector member-kept never-before-itself no-bit not-above not-empty numeral-without
or-move order-append order-covered order-kept order-line other-numbers power-bit rest-along rest-none rest-start
rest-turn row-tells same-cut same-is same-value says-one shown-more small-cell small-each to-9 unspaced-rest
whole-picture with-bit without-first without-rest
""".split()
NAMES = {"upTo127": "up_to_127"}
NAMES |= {n: re.sub(r"([A-Z])", lambda m: "_" + m.group(1).lower(), n) for n in DEFINITIONS}
NAMES |= {n: n.replace("-", "_") for n in LEMMAS}
NAMES |= {
    "from-last-row": "from_last_row_lem",
    "from-last-column": "from_last_column_lem",
    "unless-empty": "unless_empty_lem",
}
# these lemmas were respelled by the first script, and would fall together with a definition
AT_FILE = {"crates/single/specs/Laws.antt": {"from_last": "from_last_lem"}}
# a name is no part of a longer one, such as those that the prover makes for its goals
WORD = re.compile(r"(?<![\w'-])[A-Za-z][\w']*(?:-[\w']+)*")


def respell(path):
    old = open(path, encoding="utf-8").read()
    names = {**NAMES, **AT_FILE.get(path, {})}
    new = WORD.sub(lambda m: names.get(m.group(0), m.group(0)), old)
    if new != old:
        open(path, "w", encoding="utf-8").write(new)
        print("respelled", path)


for pattern in ("crates/*/specs/**/*.antt", "crates/*/proofs/**/*.antt", "crates/*/src/**/*.rt"):
    for path in sorted(glob.glob(pattern, recursive=True)):
        respell(path)
