#!/usr/bin/env python3
"""Brings the repository's own names to the spelling of today's Rattle, once, after port.py.

usage: port_names.py [--list] ROOT

A name of specs/ or proofs/ that joins its words by dashes gets underscores: read-signature -> read_signature.
Names of the library, which a file imports, and names that Rattle makes (goals, steps of a proof) stay.
The crate `log` becomes `day_log`, since the library has a crate `log`.
"""
import glob
import os
import re
import subprocess
import sys

W = r"[^\s(){}.;,@\"«»\[\]\\`]+"
DASHED = re.compile(r"^[^-]\S*[^-]$")
USE = re.compile(r"(?m)^\s*(?:pub )?(?:ghost )?use ([\w.◌·-]+?)\.?\{([^}]*)\}")
OLD_CRATE, NEW_CRATE = "log", "day_log"


def crates(root):
    return sorted(os.path.basename(c) for c in glob.glob(root + "/crates/*") if os.path.isdir(c + "/src"))


def read(p):
    with open(p, encoding="utf-8") as f:
        return f.read()


def dashed(t):
    return bool(re.search(r"[\w′'₀-₉σ]-[\w]", t)) and not t.startswith("-")


def is_own(module, own):
    m = re.match(r"Rattle\.(\w+)", module)
    return bool(m) and m[1] in own


def imported(text, own):
    """The names that a file takes from the library, and those it takes from the repository."""
    lib, mine = set(), set()
    for module, names in USE.findall(text):
        for n in names.split(","):
            for part in n.split(" as "):
                part = part.strip()
                if part:
                    (mine if is_own(module, own) else lib).add(part)
    return lib, mine


def main():
    args = sys.argv[1:]
    only_list = "--list" in args
    root = [a for a in args if not a.startswith("--")][0]
    own = crates(root)
    antt = sorted(p for p in glob.glob(root + "/crates/**/*.antt", recursive=True) if "/out/" not in p)
    rts = sorted(p for p in glob.glob(root + "/crates/**/*.rt", recursive=True) if "/out/" not in p)
    texts = {p: read(p) for p in antt + rts}

    # names of the source: functions, parameters, fields and variables
    source = set()
    for p in rts:
        source |= set(re.findall(r"\b[a-z][a-z0-9]*(?:_[a-z0-9]+)+\b", texts[p]))

    # names that the repository defines: at the head of a declaration, a field or a constructor
    head = re.compile(r"(?m)^[ ]*(?:(?:pub|abbrev|unfoldable|open|private|record|data) )*(" + W + r")(?: [({][^\n]*)? :")
    defined = set()
    for p in antt:
        if p.endswith("/Proof.antt"):
            continue
        defined |= {n for n in head.findall(texts[p]) if dashed(n)}

    # two of the repository's own laws would fall together with the words of the library that they speak of
    apart = {"bit-or": "bit_of_or", "bit-and": "bit_of_and"}

    def turn(n):
        return apart.get(n) or n.replace("-", "_")

    renamed, unknown = {}, {}

    def lemma_file(p):
        text = texts[p]
        lib, mine = imported(text, own)
        keep = lib - mine
        in_proof = p.endswith("/Proof.antt")

        def word(m):
            t = m[0]
            if not dashed(t) or t in keep:
                return t
            before = text[: m.start()]
            after_dot = before.endswith(".")
            if in_proof:
                if re.match(r"(invariant|decreases)-", t):
                    return t
                if after_dot:
                    if re.search(r"\btie\.$", before[-6:]):
                        return t
                    # a step or a goal that Rattle names, but for the names of the source in it
                    if t in defined or turn(t) in source:
                        return turn(t)
                    return t
            if t not in defined:
                unknown.setdefault(t, set()).add(p)
            renamed.setdefault(t, set()).add(p)
            return turn(t)

        out = []
        pos = 0
        for m in re.finditer(r"--(?![^\s])[^\n]*|\"(?:[^\"\\]|\\.)*\"|" + W, text):
            out.append(text[pos : m.start()])
            t = m[0]
            if t.startswith("--"):
                # a comment: names in it that the repository defines
                t = re.sub(W, lambda k: turn(k[0]) if k[0] in defined and dashed(k[0]) and ("`" + k[0] + "`") in m[0] else k[0], t)
                out.append(t)
            elif t.startswith('"'):
                out.append(t)
            else:
                out.append(word(m))
            pos = m.end()
        out.append(text[pos:])
        return "".join(out)

    def clause_words(text, keep):
        return re.sub(W, lambda k: turn(k[0]) if dashed(k[0]) and k[0] not in keep and k[0] in defined else k[0], text)

    def source_file(p):
        text = texts[p]
        lib, mine = imported(text, own)
        keep = lib - mine
        out = []
        in_clause = False
        for line in text.split("\n"):
            s = line.strip()
            starts = re.match(r"(requires|ensures)\*?( \w+)? \{", s) or re.match(r"(ghost|pub ghost) ", s)
            if starts or in_clause:
                out.append(clause_words(line, keep))
                if starts and s.startswith("ghost use"):
                    in_clause = not s.endswith(";")
                else:
                    opened = (0 if not in_clause else depth) + line.count("{") - line.count("}")
                    depth = opened
                    in_clause = depth > 0
            elif s.startswith("//"):
                out.append(re.sub(r"`(" + W + r")`", lambda k: "`" + (turn(k[1]) if k[1] in defined else k[1]) + "`", line))
            else:
                out.append(line)
        return "\n".join(out)

    new = {}
    for p in antt:
        new[p] = lemma_file(p)
    for p in rts:
        new[p] = source_file(p)

    # the crate whose name the library has
    def crate_name(text):
        text = re.sub(r"\bRattle\.%s\b" % OLD_CRATE, "Rattle." + NEW_CRATE, text)
        return text

    if only_list:
        for t in sorted(unknown):
            print(t, len(unknown[t]), sorted(unknown[t])[0].replace(root, ""))
    # names that fall together in one file
    for p in antt + rts:
        words = set(re.findall(W, texts[p]))
        for t in words:
            if t in renamed and p in renamed[t] and turn(t) in words:
                print("together:", p.replace(root, ""), t)
    for t in sorted(renamed):
        if turn(t) in renamed:
            print("together:", t)
    # a parameter, field or constant of the source that a clause's word now hides behind
    for p in rts:
        words = set(re.findall(W, new[p]))
        code = set()
        for line in texts[p].split("\n"):
            if re.match(r"\s*(requires|ensures|ghost|//)", line):
                continue
            code |= set(re.findall(r"\b([a-z]\w*_\w+)\s*:(?!:)", line))
        for t in renamed:
            if turn(t) in code and turn(t) in words and t in set(re.findall(W, texts[p])):
                print("hidden:", p.replace(root, ""), t)
    if only_list:
        return
    for p in antt + rts:
        t = crate_name(new[p])
        if p.endswith(".rt"):
            t = re.sub(r"(?m)^(\s*use )%s::" % OLD_CRATE, r"\1%s::" % NEW_CRATE, t)
        if t != texts[p]:
            with open(p, "w", encoding="utf-8") as f:
                f.write(t)
    # edits: the names of definitions, and a projection written tight
    for p in glob.glob(root + "/crates/*/must-fail/*.edit"):
        text = read(p)
        lines = text.split("\n")
        at = next((l[5:].strip() for l in lines if l.startswith("file:")), "")
        out = []
        for l in lines:
            if l.startswith(("old:", "new:")) and at.endswith(".antt"):
                l = re.sub(r"(?<=[\w′']) \.(?=[a-z0-9])", ".", l)
                l = l.replace("′", "'").replace("getElem?", "get_elem?").replace("getD", "get_or")
                l = re.sub(W, lambda k: turn(k[0]) if dashed(k[0]) else k[0], l)
            elif l.startswith(("old:", "new:")) and ("⌜" in l or "ensures" in l or "requires" in l):
                l = clause_words(l, set())
            out.append(l)
        if "\n".join(out) != text:
            with open(p, "w", encoding="utf-8") as f:
                f.write("\n".join(out))
    listed = read(root + "/crates.txt")
    listed = "\n".join(
        l if l.startswith("#") else re.sub(r"(?<![\w])%s(?![\w])" % OLD_CRATE, NEW_CRATE, l) for l in listed.split("\n")
    )
    with open(root + "/crates.txt", "w") as f:
        f.write(listed)
    old, to = f"{root}/crates/{OLD_CRATE}", f"{root}/crates/{NEW_CRATE}"
    if os.path.isdir(old):
        subprocess.run(["git", "mv", old, to], cwd=root, check=True)
    # pages: names of definitions between backquotes
    for p in glob.glob(root + "/docs/*.md") + [root + "/README.md"]:
        text = read(p)
        t = re.sub(r"`([^`\n]+)`", lambda m: "`" + re.sub(W, lambda k: turn(k[0]) if k[0] in defined else k[0], m[1]) + "`", text)
        if t != text:
            with open(p, "w", encoding="utf-8") as f:
                f.write(t)


if __name__ == "__main__":
    main()
