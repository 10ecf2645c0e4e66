#!/usr/bin/env python3
"""Counts in crates/*/src the places that docs/DESIGN-PASS.md speaks of: count_places.py [FOLDER] [-l] (-l lists them)."""
import glob
import os
import re
import sys

root = next((a for a in sys.argv[1:] if a != "-l"), ".")
listing = "-l" in sys.argv
places = {}


def note(point, path, line, text):
    places.setdefault(point, []).append(f"{path}:{line}: {text.strip()}")


def block(lines, i):
    depth = 0
    out = []
    for line in lines[i:]:
        out.append(line)
        depth += line.count("{") - line.count("}")
        if depth == 0 and "{" in "".join(out):
            return out
    return out


TABLE = re.compile(r"length t\.(?:now|old) ≡ decoded_length|Known t(?:able)?\.now")
for path in sorted(glob.glob(os.path.join(root, "crates/*/src/**/*.rt"), recursive=True)):
    name = os.path.relpath(path, os.path.join(root, "crates"))
    lines = open(path).read().split("\n")
    for i, line in enumerate(lines):
        if re.match(r"\s*(pub )?enum \w+ \{", line):
            body = block(lines, i)[1:-1]
            variants, depth = [], 0
            for b in body:
                if depth == 0 and re.match(r"\s*[A-Z]\w*", b):
                    variants.append(b.strip())
                depth += b.count("{") - b.count("}")
            if len(variants) == 2 and any(re.search(r"[({]", v) for v in variants):
                note("1 own enums of two cases, one with a value", name, i + 1, line)
        if re.match(r"use signature::refusals::(\{[A-Z_, ]+\}|[A-Z_]{3,});", line):
            note("1 files that name refusals as numbers", name, i + 1, line)
        if re.match(r"\s*number: u16,|\s*pub number: u16,", line) and "fn" not in line:
            before = "".join(lines[max(0, i - 3) : i])
            if "struct" in before:
                note("1 structs with a refusal's number beside values", name, i + 1, before.strip()[-30:])
        if re.match(r"(pub(\(crate\))? )?fn (?!all_)\w+_(small|large)\(", line):
            note("2 functions in two sizes", name, i + 1, line)
        if re.match(r"(pub )?fn (lesser|lower|higher|larger|cap|limit|either)\(\w+: (u16|usize|bool), \w+: (u16|usize|bool)\)|(pub )?fn cap\(", line):
            note("2 own least, greatest and or", name, i + 1, line)
        m = re.match(r"\s*while (.*) \{", line)
        if m or re.match(r"\s*loop \{", line):
            body = "\n".join(block(lines, i))
            words = re.findall(r"\b[a-z_]\w*\b", m.group(1)) if m else []
            if any(re.search(rf"\b{w} [+-]= 1;", body) for w in words) and "left - 1" not in body:
                note("3 loops that count by one", name, i + 1, line)
            else:
                note("3 other loops by while and loop", name, i + 1, line)
        if re.match(r"\s*for ", line):
            note("3 loops by for", name, i + 1, line)
        if re.match(r"\s*(\w+): \1,", line):
            note("4 fields written twice", name, i + 1, line)
        if re.search(r"requires", line) and TABLE.search(line):
            note("5 clauses that a signature's table is one", name, i + 1, line)
        if re.match(r"\s*plus: bool,|.*\(.*plus: bool", line):
            note("7 functions told the side by a flag", name, i + 1, line)
for path in glob.glob(os.path.join(root, "crates/*/proofs/**/Answers.antt"), recursive=True):
    name = os.path.relpath(path, os.path.join(root, "crates"))
    for i, line in enumerate(open(path)):
        if re.match(r"pub \S+ : goal\.", line):
            note("8 answers", name, i + 1, line)
        if re.search(r"(true|false)-raw", line):
            note("8 answers by names of the tool's own", name, i + 1, line)
for point in sorted(places):
    print(f"{len(places[point]):5}  {point}")
    if listing:
        for p in places[point]:
            print("       ", p)
