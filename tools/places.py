#!/usr/bin/env python3
"""Lists the places in crates/*/src that docs/DESIGN-PASS.md counts, point by point: `python3 tools/places.py [POINT]`.

A line that is listed is a place to look at, not a verdict; the page says what each came to. Comments don't count, but for point 1's words
of a number that stands for none.
"""
import collections
import glob
import re
import sys

SOURCES = sorted(glob.glob("crates/*/src/**/*.rt", recursive=True))


def lines(code_only=True):
    for name in SOURCES:
        for number, line in enumerate(open(name, encoding="utf-8"), 1):
            text = line.rstrip("\n")
            if code_only and text.strip().startswith("//"):
                continue
            yield name, number, text


def matching(pattern, code_only=True):
    return [(n, i, t.strip()) for n, i, t in lines(code_only) if re.search(pattern, t)]


def functions():
    """Each function with its header: name, parameters, clauses."""
    for name in SOURCES:
        text = open(name, encoding="utf-8").read()
        for found in re.finditer(r"^[ \t]*(?:pub(?:\(crate\))? )?(?:extern \"C\" )?fn (\w+)(.*?)\n?[ \t]*(?:\{\n|\{\}|;\n)", text, re.S | re.M):
            yield name, text[: found.start()].count("\n") + 1, found.group(1), found.group(2)


def enums():
    """Enums, each with the number of its variants and of those that hold a value."""
    out = []
    for name in SOURCES:
        text = open(name, encoding="utf-8").read()
        for found in re.finditer(r"^(?:pub(?:\(crate\))? )?enum (\w+)[^{]*\{(.*?)^\}", text, re.S | re.M):
            body = re.sub(r"//.*", "", found.group(2))
            body = re.sub(r"\{[^}]*\}|\([^)]*\)", "#", body)
            variants = [v.strip() for v in body.split(",") if v.strip()]
            held = sum("#" in v for v in variants)
            if len(variants) == 2 and held >= 1:
                where = text[: found.start()].count("\n") + 1
                out.append((name, where, f"enum {found.group(1)}: {', '.join(variants)}"))
    return out


def loops():
    return matching(r"\bwhile\b.*\{|\bfor \w+ in .*\.\.|\.enumerate\(\)")


def facts():
    """Facts that stand in the clauses of three or more functions, and pairs of parameters that three or more functions have."""
    seen = collections.defaultdict(set)
    pairs = collections.defaultdict(set)
    for name, where, function, header in functions():
        crate = name.split("/")[1]
        for clause in re.findall(r"(?:requires|ensures)(?: \w+)? \{ (.*) \}", header):
            for fact in re.split(r" × | && ", clause):
                fact = fact.strip("() ")
                if len(fact) > 12:
                    seen[crate, fact].add((name, where, function))
        inner = header[header.find("(") + 1 : header.find(")")]
        parameters = [p.split(":")[0].strip() for p in inner.split(",") if ":" in p]
        for i, one in enumerate(parameters):
            for two in parameters[i + 1 :]:
                pairs[crate, f"parameters {one}, {two}"].add((name, where, function))
    out = []
    for (crate, fact), places in sorted(seen.items()) + sorted(pairs.items()):
        if len(places) >= 3:
            name, where, _ = sorted(places)[0]
            out.append((name, where, f"{len(places)} functions: {fact[:110]}"))
    return out


def twins():
    """Functions whose text is the same but for names, numbers and strings."""
    shapes = collections.defaultdict(list)
    for name in SOURCES:
        text = open(name, encoding="utf-8").read()
        for found in re.finditer(r"^([ \t]*)(?:pub(?:\(crate\))? )?(?:extern \"C\" )?fn (\w+).*?^\1\}", text, re.S | re.M):
            body = re.sub(r"//.*|^\s*(requires|ensures).*$", "", found.group(0), flags=re.M)
            shape = re.sub(r"b?\"[^\"]*\"|b'.'|\b\w+\b", lambda m: m.group(0) if m.group(0) in KEPT else "_", body)
            shape = re.sub(r"\s+", "", shape)
            if len(shape) > 20:
                where = text[: found.start()].count("\n") + 1
                shapes[shape].append((name, where, f"fn {found.group(2)}"))
    return [place for places in shapes.values() if len(places) > 1 for place in places]


KEPT = set("fn pub for in if else match return let mut while loop Some None Ok Err self Self true false".split())

POINTS = {
    "1a enums of two variants, one or both with a value": enums,
    "1b functions that answer bool": lambda: matching(r"-> (io::Result<)?bool"),
    "1c numbers for kinds": lambda: matching(r"\b(kind|place|wanted|other): (u8|usize)\b|^\s+\d+( if .*)? =>|\bU8\(\d+\)|\blaid\(\d|kind != Some|-> u8$"),
    "1d a number that stands for none": lambda: matching(r"//.*\b(0|largest),? (for|where|while|of none)\b|return u64::MAX|None => (0|255)|best / 512|unwrap_or\(\d", False),
    "2 functions of one shape": twins,
    "3 loops over a range or a count": loops,
    "4 by hand": lambda: matching(
        r"\bfn (begins_with|is_word|same|is_blank|is_laid|is_digit|is_decimal|are_digits|digit_value|to_digit|number|of|word|say_done|say_number|choice_of|label_of|time_in|first_space|through_end)\b"
    ),
    "5 facts and parameters that go together": facts,
    "6 a length beside a buffer, parallel arrays": lambda: matching(r"\[[^;\]]+; 6\]|-> Option<usize>|-> usize|Line\(usize\)|n\.min\(|\.len\(\)\]"),
    "7 switches on a step": lambda: matching(r"match (self|\*self)(\.phase|\.doing|\.task)? ?\{|match (kind|c|call) \{|fn\("),
}


def main():
    wanted = sys.argv[1] if len(sys.argv) > 1 else ""
    for point, find in POINTS.items():
        if not point.startswith(wanted):
            continue
        places = find()
        print(f"{point}: {len(places)}")
        for name, where, what in places:
            print(f"    {name}:{where}: {what}")


main()
