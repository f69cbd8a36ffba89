#!/usr/bin/env python3
"""Brings the repository's own definitions and lemmas to one spelling: words in snake case, facts and types in camel case.

usage: python3 tools/respell.py        at the top of a repository, once

Rewritten are: proofs and definitions (.antt), clauses and ghost imports (.rt), must-fail edits, and names between
backticks in README.md and docs/. Comments and strings keep their words, and so do the names of functions in src/.
"""

import os
import re

# definitions, fields and constructors in mixed case
MIXED = """
accessAt accessOf allKinds allNamed anyBelow cellKeeps cellNumber cellWith dependsOn eventsOf everyBool everyKind
expectedValue externalReadsFrom formulaOf fromInitialRead fromRead furtherExamples inThread initialOf instructionAt
isNil isTarget isWriteTo locationOf marksOf noneBetween numbersOf placeAt readAccess readAt readsFrom refusalLine
sameSome sameTarget setsRegister signByte storedValue tableKeeps threadAt wordHolds writeCount writesTo
""".split()

# lemmas, fields and constructors whose words are joined by dashes
DASHED = """
a-sign access-addressed access-same ahead-at ahead-tail alike-back at-bool at-kind at-location before-ahead
before-cases before-read before-then bound-before by-initial by-write choice-to-order clear-all clear-more close-stops
closed-apart closed-cases closed-inside counted-no counted-yes cut-ahead cut-before cut-lists cut-only dec-ahead
dec-before dec-both dec-earlier dec-edge dec-either dec-from-read dec-in dec-kept dec-later dec-listed dec-not dec-read
dec-source dec-writes-to each-five each-of-map each-push earlier-alike edge-ends either-named every-at factor-reads
facts-unique few-push few-set few-take first-letter five-words found-bracketed found-more found-one found-run from-iff
from-seen from-test fulfils-alike has-facts held-last held-set in-at in-listed in-text in-word initial-is is-named
kind-at-index kind-same later-writes latest-alike latest-as latest-more latest-same length-lists length-of listed-cases
listed-first listed-second location-same more-factors more-terms more-words next-completed next-may no-bracketed
no-choice no-factor no-letter no-next no-rest no-space none-asked none-closed none-empty none-requested not-both-ways
not-by-write not-digits not-rows not-shorter of-kind one-factor one-latest one-term only-forbids only-location
only-value or-no-and order-to-choice other-target other-thread past-byte path-forward path-of pick-seen place-within
precedes-back put-after put-ahead put-before put-new put-once reads-alike reads-or-writes result-same same-earlier
same-later same-position second-in seen-is sees-alike sees-as sound-of sound-push sound-set sound-take source-latest
source-visible split-formula split-term strange-byte strange-word target-same tested-again tested-all tested-before
tested-below tested-between tested-both tested-bound tested-control tested-depends tested-earlier tested-either
tested-equal tested-fulfillable tested-fulfils tested-if tested-in-thread tested-kept tested-latest tested-listed
tested-may tested-names tested-never tested-not tested-precedes tested-register tested-right tested-same-kind
tested-same-some tested-same-target tested-search tested-sees tested-some tested-stores tested-target tested-true
tested-visible tested-writes-to three-words to-test tokens-end tokens-unique told-again told-both told-either
told-equal told-if told-not two-words unvalued-visible valued-visible visible-alike visible-as with-last within-alike
word-positive writes-alike writes-forward
""".split()

# names that would fall together with another one, and facts
OTHERS = {
    "is-byte": "is_byte_lem",
    "is-target": "is_target_lem",
    "reads-from": "reads_from_lem",
    "kind-of": "kinds_of",
    "one-location": "one_location_lem",
    "same-addr": "same_addr_lem",
    "data-dep": "data_dep_lem",
    "control-dep": "control_dep_lem",
    "By-way": "ByWay",
    "Not-first": "NotFirst",
}

# `result` is what a function returns, in clauses: what an instruction puts into its target gets another name
RESULT = ("Values.antt", "Running.antt", "LastSet.antt", "Monotone.antt", "Statements.antt")

TABLE = {n: re.sub(r"[A-Z]", lambda m: "_" + m.group().lower(), n) for n in MIXED}
TABLE.update({n: n.replace("-", "_") for n in DASHED})
TABLE.update(OTHERS)

# names that are in snake case in the sources already, and are still mentioned in pages as they were
MENTIONED = """
allBelow cellOf cellsOf factsOf isByte isRegister kindAt kindOf nameOf numberOf placeOf placesOf rowOf tableOf targetOf
textOf valueAt wordsOf
""".split()

NAME = re.compile(r"[^\s(){}\[\].,;λ:«»|→×`⌜⌝\"]+")
GOAL = re.compile(r"(?<=goal\.)[^\s(){}\[\].,;:]+")


def turned(code, table):
    """The names of a piece of code in the new spelling, but for those that a check makes."""
    made = set(GOAL.findall(code))
    return NAME.sub(lambda m: m.group() if m.group() in made else table.get(m.group(), m.group()), code)


def lines_of(text, mark, table):
    """The same of each line, up to a comment that begins with this mark."""
    for line in text.split("\n"):
        at = re.search(r"(^|\s)" + re.escape(mark) + r"(\s|$)", line)
        cut = at.start() if at else len(line)
        yield turned(line[:cut], table) + line[cut:]


def respelled(path, text):
    table = dict(TABLE)
    if path.endswith(".md"):
        table.update({n: re.sub(r"[A-Z]", lambda m: "_" + m.group().lower(), n) for n in MENTIONED})
        return re.sub(r"`[^`\n]+`", lambda m: turned(m.group(), table), text)
    if path.endswith(".antt"):
        if os.path.basename(path) in RESULT:
            text = re.sub(r"(?<![\w.'-])result(?![\w'-])", "result_of", text)
        return "\n".join(lines_of(text, "--", table))
    if path.endswith("values.rt"):
        text = re.sub(r"(ghost use .*\bValues\.\{.*)\bresult\b", r"\1result_of", text)
    return "\n".join(lines_of(text, "//", table))


def main():
    found = ["README.md"]
    for top in ("crates", "docs"):
        for folder, below, files in os.walk(top):
            below[:] = [b for b in below if b != "out"]
            found += [os.path.join(folder, f) for f in files if f.endswith((".rt", ".antt", ".edit", ".md"))]
    for path in sorted(found):
        with open(path, encoding="utf-8") as f:
            old = f.read()
        new = respelled(path, old)
        if new != old:
            with open(path, "w", encoding="utf-8") as f:
                f.write(new)


main()
