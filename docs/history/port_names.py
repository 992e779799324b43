#!/usr/bin/env python3
"""Spells the repository's own definitions and lemmas in snake case.

    python3 tools/port_names.py [FOLDER]

FOLDER (else the current one) has crates/, turned by the kit's port.py before.
Every name that specs/ or proofs/ declare, or that an import gives with `as`,
gets underscores: `sheetOf` becomes `sheet_of`, `links-push` `links_push`. A
dash beside a sign stays, as in `sum-++`. Types, modules and facts keep their
capital, and names that Rattle makes (goals, steps and their fields in proof
files of functions) stay. It is run once; a second run finds nothing to do.

Where two names would fall together, or a new name stands in the crates
already, it says so, writes nothing and ends with 1.
"""

import os
import re
import sys

STOP = r"\s(){}.;,@\"«»"
TOKEN = re.compile(rf"(?<![^{STOP}])[^{STOP}]+")
DECLARED = re.compile(
    r"(?m)^ *(?:(?:abbrev|unfoldable|pub|opaque|data|record) )*"
    rf"([^{STOP}:]+)(?: [({{][^\n]*[)}}])* :(?= |$)(.*)")
ALIAS = re.compile(rf"\bas ([^{STOP}]+)")
ANSWERS = re.compile(r"/proofs/.*/(Answers|Invariants|Choices)\.antt$")
# Words of the library's older spelling inside names of our own.
PARTS = (("ltZ", "int_lt"), ("leZ", "int_le"), ("eqZ", "int_same"),
         ("getD", "get_or"))
# Names whose new spelling is that of a function in src/, or of another name.
OTHERWISE = {
    "cornerCount": "corner_count_of", "labelNumeral": "label_numeral_of",
    "wordingLength": "wording_length_of", "wording-end": "wording_end_lem",
    "roomIn": "room_of", "faceOf": "face_of_answer", "onSheet": "is_on_sheet",
    "corners-in": "corners_within", "eqZ-same": "same_of_int_same",
    "same-eqZ": "int_same_of_same",
}
# A step or a goal of a function's proof: what stands behind these is Rattle's.
MADE = re.compile(r"(?<![\w.'-])(c|l|w|goal)(\.[^\s(){};,]*)$")


def spelled(name):
    if name in OTHERWISE:
        return OTHERWISE[name]
    if not (name[0].islower() or "-" in name):
        return name
    for old, new in PARTS:
        name = re.sub(rf"(?<![a-zA-Z0-9]){old}(?![a-z0-9])", new, name)
        name = re.sub(rf"(?<![A-Z]){old}(?![a-z0-9])", new, name)
    if name[0].islower():
        name = re.sub(r"(?<=[a-z0-9])[A-Z]", lambda m: "_" + m[0].lower(), name)
    return re.sub(r"(?<=[\w⊎'])-(?=\w)", "_", name)


def sources(top):
    for folder, dirs, files in os.walk(os.path.join(top, "crates")):
        dirs[:] = sorted(d for d in dirs if d not in ("out", "target"))
        for name in sorted(files):
            if name.endswith((".rt", ".antt", ".edit")):
                yield os.path.join(folder, name)


def own_names(texts):
    """Each name that the texts declare, with its new spelling where that is another."""
    found = {}
    for path, text in texts.items():
        if path.endswith(".antt"):
            for m in DECLARED.finditer(text):
                if not (ANSWERS.search(path) and m[2].strip() == f"goal.{m[1]}"):
                    found[m[1]] = spelled(m[1])
        for m in ALIAS.finditer(text):
            found[m[1]] = spelled(m[1])
    return {a: b for a, b in found.items() if a != b}


def turned(text, names, answers):
    def one(m):
        word = m[0]
        if word not in names:
            return word
        if answers and MADE.search(text[:m.start()].rsplit("\n", 1)[-1]):
            return word
        return names[word]

    return TOKEN.sub(one, text)


def main():
    top = sys.argv[1] if len(sys.argv) > 1 else "."
    texts = {p: open(p, encoding="utf-8").read() for p in sources(top)}
    names = own_names(texts)
    words = {w for t in texts.values() for w in TOKEN.findall(t)}
    bad = [f"{a}: {b} stands there already" for a, b in names.items() if b in words]
    for b in sorted(set(names.values())):
        olds = sorted(a for a in names if names[a] == b)
        if len(olds) > 1:
            bad.append(f"{', '.join(olds)}: all would be {b}")
    if bad:
        print("\n".join(bad))
        return 1
    for path, text in texts.items():
        new = turned(text, names, bool(ANSWERS.search(path)))
        if new != text:
            with open(path, "w", encoding="utf-8") as out:
                out.write(new)
    for a in sorted(names):
        print(f"{a} -> {names[a]}")
    return 0


if __name__ == "__main__":
    sys.exit(main())
