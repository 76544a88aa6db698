#!/usr/bin/env python3
"""Spells the project's own names as today's Rattle does, once, after the kit's own script; run at the top.

A word of specs/ and proofs/ (a definition, a lemma, a constructor, a field) goes to snake case; a type keeps its
capital. Names that Rattle makes, names that a file imports from a library, strings, functions of src/ and exported
names stay. Two crates whose names are the kit's get other ones. A name that would fall together with another in some
file is shown on a line 'meets:' and spelled as OTHER says.
"""
import collections
import os
import re
import sys

CRATES = {"hex": "hexdigits", "base64": "base64text", "json": "jsonevent"}
# names that would fall together with another, and how they are spelled
OTHER = {}
HERE = os.path.dirname(os.path.realpath(__file__))
TABLE = os.path.join(HERE, "respelled.tsv")
if os.path.exists(TABLE):
    with open(TABLE, encoding="utf-8") as f:
        OTHER = dict(line.rstrip("\n").split("\t") for line in f if line.strip() and not line.startswith("#"))

CUT = re.compile(r'[^\s(){}.;,@"«»]+')
DECLARED = re.compile(
    r"^ *(?:(?:abbrev|unfoldable|pub|mutual|ruleset|\|) +)*((?:[^\s(){}.;,@\"«»:=→]+ +)*?[^\s(){}.;,@\"«»:=→]+)(?: \{[^{}\n]*\})* (?::|=(?= \()) "
)
USE = re.compile(r"\buse ([^\s;{]+?)\.?(\{[^;}]*\})?(?: as ([^\s;]+))?(?=;|\s*$)", re.M)
COMMENT = re.compile(r"--[^\n]*")
MADE = re.compile(r"^(invariant|decreases|ghost)-|^(Need|Start|After|Else|Then)-")


def spelled(word):
    if word in OTHER:
        return OTHER[word]
    if not re.search(r"[A-Za-z]", word):
        return word
    stem = word
    if stem[0].isupper():
        # a fact or a type, or a lemma named after one: the type's own humps stay
        parts = stem.split("-")
        if len(parts) == 1:
            return stem
        return "_".join(parts)
    stem = re.sub(r"(?<=[a-z0-9₀-₉'])([A-Z])(?=[a-z0-9_']|$|-)", lambda m: "_" + m[1].lower(), stem)
    return stem.replace("-", "_")


def files(kind):
    for folder, dirs, names in os.walk("crates"):
        dirs[:] = sorted(d for d in dirs if d != "out")
        for name in sorted(names):
            if name.endswith(kind):
                yield os.path.join(folder, name)


def own_crates():
    return set(os.listdir("crates")) | set(CRATES)


def declared_in(text):
    """The names that a file declares, but for those of let lines."""
    found = set()
    text = COMMENT.sub("", text)
    for line in text.split("\n"):
        m = DECLARED.match(line)
        if not m:
            continue
        words = m[1].split()
        if words[0] in ("let", "use", "open", "record", "data", "λ", "elim", "in", "where", "module", "unfold", "unfolding"):
            continue
        for w in words:
            if not MADE.match(w) and re.search(r"[A-Za-z]", w):
                found.add(w)
    return found


def imports(text, crates):
    """The names that a file takes from libraries, and those that it takes from the project."""
    lib, own = set(), set()
    for path, items, alias in USE.findall(text):
        steps = path.split(".")
        ours = steps[0] == "Rattle" and len(steps) > 1 and steps[1] in crates
        made = ours and ("proofs" in steps and steps[-1] in ("Statement", "Tie", "Given", "Lts") or "declared" in steps)
        names = CUT.findall(items) if items else [alias or steps[-1]]
        (own if ours and not made else lib).update(names)
    return lib, own


def main():
    crates = own_crates()
    antt = {p: open(p, encoding="utf-8").read() for p in files(".antt")}
    rt = {p: open(p, encoding="utf-8").read() for p in files(".rt")}
    declared = {p: declared_in(t) for p, t in antt.items()}
    everything = set().union(*declared.values())
    table = {w: spelled(w) for w in everything if spelled(w) != w}
    taken = collections.defaultdict(set)
    for w in everything:
        taken[table.get(w, w)].add(w)
    # a lemma that is named as what it speaks of gets an ending
    for w in list(table):
        if "-" in w and w not in OTHER and len(taken[table[w]]) > 1:
            table[w] += "_lem"
    # fields of records of the project, which also stand behind a dot
    fields = set()
    for t in antt.values():
        for block in re.finditer(r"(?m)^(?:pub )?(?:abbrev )?record [^\n]*where\n((?: +[^\n]*\n|\n)*)", COMMENT.sub("", t)):
            for line in block[1].split("\n"):
                m = re.match(r" +(?:pub )?([^\s:(){}]+(?: [^\s:(){}]+)*) :", line)
                if m:
                    fields.update(m[1].split())
    functions = set()
    for t in rt.values():
        functions.update(re.findall(r"\bfn (\w+)", t))
    meets = collections.Counter()

    def turn(path, text):
        lib, own = imports(text, crates)
        stay = lib - own
        local = {w: n for w, n in table.items() if w not in stay}
        # a new spelling that the file has already
        bare = COMMENT.sub("", text)
        words = {m[0] for m in CUT.finditer(bare) if bare[m.start() - 1 : m.start()] != "." and bare[m.end() : m.end() + 1] != "."}
        for w in words & set(local):
            n = local[w]
            others = {x for x in words if x != w and local.get(x, x) == n}
            for x in others:
                meets[(n, w, x)] += 1
                if len(sys.argv) > 1:
                    print("meets:", path, w, x, "->", n)

        def one(m):
            w = m[0]
            if w not in local or MADE.match(w):
                return w
            if m.start() and text[m.start() - 1] == ".":
                before = re.search(r"([^\s(){}.;,@\"«»]+)\.$", text[: m.start()])
                head = before[1] if before else ""
                module = head[:1].isupper() or head in aliases
                if not module and w not in fields:
                    return w
            return local[w]

        aliases = {a for _, _, a in USE.findall(text) if a} - {"tie", "goal"}
        aliases |= {p.split(".")[-1] for p, items, a in USE.findall(text) if not items and not a}
        return CUT.sub(one, text)

    out = {}
    for p, t in antt.items():
        out[p] = turn(p, t)
    clause = re.compile(r"(?s)((?:requires|ensures)\*?(?: +\w+)? *\{|ghost use [^;{]*\{?)")
    for p, t in rt.items():
        lib, own = imports(t, crates)
        stay = lib - own

        def braces(text, start):
            depth, i = 1, start
            while depth:
                depth += {"{": 1, "}": -1}.get(text[i], 0)
                i += 1
            return i

        new, at = "", 0
        for m in re.finditer(r"(?:requires|ensures)\*?(?: +\w+)? *\{|ghost use [^;]*;|ghost(?: \w+:)? \{", t):
            if m.start() < at:
                continue
            end = m.end() if m[0].startswith("ghost use") else braces(t, m.end())
            new += t[at : m.start()]
            part = t[m.start() : end]
            params = set(re.findall(r"\b(\w+): ", t))

            def one(k, part=part):
                w = k[0]
                if w in stay or w not in table or MADE.match(w):
                    return w
                if k.start() and part[k.start() - 1] == "." and w not in fields and not part.startswith("ghost use"):
                    return w
                if table[w] in params:
                    meets[(table[w], w, "parameter")] += 1
                    if len(sys.argv) > 1:
                        print("meets:", p, w, "parameter ->", table[w])
                return table[w]

            new += CUT.sub(one, part)
            at = end
        out[p] = new + t[at:]
    # crates
    for old, name in CRATES.items():
        for p in out:
            out[p] = re.sub(rf"\bRattle\.{old}\b", f"Rattle.{name}", out[p])
            if p.endswith(".rt"):
                out[p] = re.sub(rf"(?<![\w.:]){old}::", f"{name}::", out[p])
                out[p] = re.sub(rf"(?<![\w.:])use {old}\b", f"use {name}", out[p])
    print(len(table), "names;", len(meets), "that meet another")
    for k, n in sorted(meets.items()):
        print("meets:", *k, n)
    if "--check" in sys.argv:
        return
    for p, t in out.items():
        with open(p, "w", encoding="utf-8") as f:
            f.write(t)
    lines = open("crates.txt", encoding="utf-8").read().split("\n")
    for i, line in enumerate(lines):
        if line.startswith("#") or ":" not in line:
            continue
        for old, name in CRATES.items():
            line = re.sub(rf"(?<![\w]){old}(?![\w])", name, line)
        lines[i] = line
    open("crates.txt", "w", encoding="utf-8").write("\n".join(lines))
    for old, name in CRATES.items():
        if os.path.isdir(f"crates/{old}"):
            os.rename(f"crates/{old}", f"crates/{name}")


main()
