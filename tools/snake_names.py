#!/usr/bin/env python3
"""Respells the repository's own definitions and lemmas as Rattle spells names now: words in snake case.

usage: python3 tools/snake_names.py          at the top of the repository, once, after Rattle's port.py, before any edit by hand

agedObjects-again becomes aged_objects_again. Types and modules keep their capitals. Names of Rust functions, and strings, are as they were.
Names that Rattle makes (goals, and what is under a goal's context), and names of its library, stay. Where two names would fall together it stops and writes nothing.
"""

import glob
import re
import sys

# Names that would fall together with another one, or with a word of Rattle's, get one of their own: a lemma on a definition ends in _lem.
# What is a type keeps a capital: a relation is named as one.
OWN = {
    "clockSame": "ClockSame",
    "echoSame": "EchoSame",
    "recorderSame": "RecorderSame",
    "twiceSame": "TwiceSame",
    "at-end": "at_end_lem",
    "bit-xor": "bit_xor_lem",
    "block-of": "block_of_lem",
    "cut-beside": "cut_beside_lem",
    "in-room": "in_the_room",
    "is-row": "row_fits",
    "is-there": "is_there_lem",
    "isBlock": "fits_block",
    "lost-row": "lost_row_lem",
    "payload-of": "payload_of_lem",
    "put-at": "put_at_lem",
    "rising-keys": "rising_keys_lem",
    "rising-shown": "rising_shown_lem",
    "room-alone": "room_alone_lem",
    "row-of": "row_of_lem",
    "tells-time": "tells_the_time",
    "time-of": "time_of_lem",
}

KEPT = {"not-nil"}  # of mathlib's membership

# Names that may fall together: a constructor, which is named by its type, and a field or a lemma.
SHARED = "call_cut goes_on loses_off loses_on opening_cut replaces_off replaces_on rise_cut".split()

NAME = re.compile(r"(?<![\w'])[^\W\d_][\w'-]*")
LIBRARY = re.compile(r"(?m)^\s*(?:ghost )?use (?:Rattle\.(?:std|core|alloc)|Prim|mathlib|native|lib)\b[^\n{]*\{([^}]*)\}")
HEAD = re.compile(r"^\s*(?:(?:abbrev|unfoldable|data|record) )*(?:pub )?(?:(?:data|record) )?((?:[^\s:(){}λ.;|,]+ )+):(?: |$)")
MADE = re.compile(r"^(?:returns|loop|if|in|then|else|match|overflow|underflow|requires|ensures|invariant|decreases|bounds|let|measure|terminates|exit|entry)[-_]")


def snake(name):
    word = re.sub(r"(?<=[a-z0-9])(?=[A-Z])|(?<=[A-Z])(?=[A-Z][a-z])", "_", name)
    return OWN.get(name, word.lower().replace("-", "_"))


def is_camel(name):
    return name[0].islower() and re.search(r"[a-z0-9][A-Z]", name)


def without_comments(text):
    return re.sub(r"(?m)(--|//).*$", "", text)


def answers(path):
    """Whether a file answers a function's goals: most names with a dash there are made by Rattle."""
    return len(path.split("/proofs/")[1].split("/")) > 1 if "/proofs/" in path else False


def read(path):
    with open(path, encoding="utf-8") as f:
        return f.read()


def main():
    proofs = sorted(glob.glob("crates/*/specs/**/*.antt", recursive=True) + glob.glob("crates/*/proofs/**/*.antt", recursive=True))
    sources = sorted(glob.glob("crates/*/src/**/*.rt", recursive=True))
    edits = sorted(glob.glob("crates/*/must-fail/*.edit"))
    texts = {p: read(p) for p in proofs + sources + edits}
    library = set()
    for p in proofs + sources:
        for found in LIBRARY.finditer(texts[p]):
            library |= {w.strip() for part in found[1].split(",") for w in part.split(" as ")}
    names = set()
    for p in proofs:
        plain = without_comments(texts[p])
        if answers(p):
            for line in plain.splitlines():
                head = HEAD.match(line)
                if head and not re.search(r": (?:goal|need|given|rule)s?\.", line):
                    names |= {n for n in head[1].split() if not MADE.match(n)}
        else:
            names |= {m[0] for m in NAME.finditer(plain) if m[0][0].islower()}
    turned = {n: snake(n) for n in names - library - KEPT if n[0].islower() and ("-" in n or is_camel(n))}
    turned = {a: b for a, b in turned.items() if a != b}
    taken = {}
    for a, b in sorted(turned.items()):
        taken.setdefault(b, []).append(a)
    every = {m[0] for p in proofs for m in NAME.finditer(without_comments(texts[p]))} | library
    # A function of src/ may have the name of what its contract cites.
    functions = {f for p in sources for f in re.findall(r"\bfn (\w+)", texts[p])}
    clash = [(b, a) for b, a in sorted(taken.items()) if b not in SHARED and (len(a) > 1 or b in every - set(turned) - functions)]
    if clash:
        for b, a in clash:
            print(f"{' and '.join(a)} would be {b}, which is there" if b in every else f"{' and '.join(a)} would both be {b}", file=sys.stderr)
        return 1
    for p, text in texts.items():
        made = answers(p)

        def turn(found):
            word = found[0]
            if word not in turned:
                return word
            before = found.string[found.start() - 1 : found.start()]
            if made and before == "." and "-" in word:
                return word
            return turned[word]

        new = "".join(part if part.startswith('"') else NAME.sub(turn, part) for part in re.split(r'("(?:[^"\\\n]|\\.)*")', text)) if p.endswith(".rt") else NAME.sub(turn, text)
        if new != text:
            with open(p, "w", encoding="utf-8") as f:
                f.write(new)
    print(f"{len(turned)} names")
    return 0


if __name__ == "__main__":
    raise SystemExit(main())
