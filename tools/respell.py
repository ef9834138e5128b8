#!/usr/bin/env python3
"""Brings the names that the repository's own definitions and lemmas have to the spelling of the library: types, facts and modules in upper camel case,
everything else in snake case. A dash stays only where it joins two names (of definitions), a plain word is added with `_`.

usage: respell.py [TOP]        rewrites crates/*/{specs,proofs,src,must-fail}, README.md, docs/ and comments in place; run once, after port.py
       respell.py --list [TOP] prints old and new names and writes nothing

Names of Rust functions, C symbols, strings and names of the library or made by Rattle stay. Two names that would fall together are a fault.
"""
import collections
import glob
import os
import re
import sys

TOKEN = re.compile(r"[^\s(){}.;,@\"«»`\[\]\\:]+")
CAMEL = re.compile(r"^[a-z][A-Za-z0-9_'₀-₉-]*$")
STD = set("length take drop append map reverse sum set sets get_or replicate insert remove filter fold concat zip div mod add mul sub at slice_index".split())
USE = re.compile(r"^\s*(?:ghost )?(?:unfoldable )?(?:pub )?use ([^\s{;]+)(?:\{([^}]*)\})?", re.M)


def snake(part):
    """camelCase to snake_case; a name that begins with a capital is a type or a fact and stays."""
    if not part or not part[0].islower():
        return part
    part = re.sub(r"([a-z0-9])([A-Z]+)(?=[A-Z][a-z]|$|[^A-Za-z])", r"\1_\2", part)
    part = re.sub(r"([a-z0-9])([A-Z])", r"\1_\2", part)
    return part.lower() if part.isascii() else "".join(c.lower() if c.isascii() else c for c in part)


def declared(text):
    """The names that a file declares: of definitions and constructors, of lemmas (those of sections and `where` blocks too), and of fields."""
    words, lemmas, fields = set(), set(), set()
    block = None
    for line in text.splitlines():
        if line.startswith("--") or not line.strip():
            continue
        m = re.match(r"^((?:unfoldable |abbrev |private )*)(?:pub )?(data |record |ruleset )?([^\s(:{.]+)(?= [:({]| =)", line)
        if not line[0].isspace():
            block = None
        if m and m[3] not in ("use", "mod", "where"):
            block = m[2]
            if re.match(r"^(?:pub )?[^\s]+ :", line) and not m[1] and not m[2]:
                lemmas.add(m[3])
            elif m[1] or m[2]:
                words.add(m[3])
        m = re.match(r"^ +((?:unfoldable |abbrev |private )*)(?:pub )?(data |record )?([^\s(:{.]+)(?: :|(?= \(.*\) :)) ", line)
        if m and line[0].isspace():
            (fields if block == "record " else words if block == "data " or m[1] or m[2] else lemmas).add(m[3])
    return words, lemmas - words, fields


def spelled(name, known):
    """The new spelling of an own name: each part between dashes in snake case, dashes kept between two known names alone."""
    parts = [snake(p) for p in name.split("-")]
    out = parts[0]
    last = parts[0]
    for p in parts[1:]:
        grown = last + "_" + p
        if grown in known:
            out, last = out + "_" + p, grown
        elif last in known and p in known:
            out, last = out + "-" + p, p
        else:
            out, last = out + "_" + p, p
    return out


def main(argv):
    listing = "--list" in argv
    argv = [a for a in argv if a != "--list"]
    top = argv[0] if argv else "."
    crates = sorted(os.listdir(os.path.join(top, "crates")))
    own = re.compile(r"^Rattle\.(%s)\." % "|".join(crates))
    laws = [f for f in glob.glob(top + "/crates/*/specs/**/*.antt", recursive=True)]
    laws += [f for f in glob.glob(top + "/crates/*/proofs/**/*.antt", recursive=True) if os.path.basename(f) != "Proof.antt"]
    walks = glob.glob(top + "/crates/*/proofs/**/Proof.antt", recursive=True)
    functions = collections.defaultdict(set)
    for f in glob.glob(top + "/crates/*/src/**/*.rt", recursive=True):
        functions[os.path.relpath(f, top).split(os.sep)[1]] |= set(re.findall(r"\bfn (\w+)", open(f).read()))
    words, lemmas, members, walked, of_function = set(), set(), set(), set(), set()
    for f in laws:
        w, l, m = declared(open(f).read())
        of_function |= {n for n in l if snake(n).replace("-", "_") in functions[os.path.relpath(f, top).split(os.sep)[1]] and "-" in n}
        words |= w
        lemmas |= l
        members |= m
    for f in walks:
        w, l, m = declared(open(f).read())
        walked |= {x for x in w | l if not re.match(r"^(invariant|decreases|returns|loop|.*-(spec|requires)(-\d+)?$)", x)}
    lemmas -= words
    known = {snake(w) for w in words} | STD
    table = {}
    for name in words | lemmas | members:
        new = snake(name) if name in words and "-" not in name else spelled(name, known)
        if name in of_function and name not in words and "-" not in new:
            new += "_lem"
        if new != name:
            table[name] = new
    # A name that would fall together with another one in some file: a lemma gets `_lem`, as the library writes it.
    files = {f: set(TOKEN.findall(open(f).read())) for f in laws + walks}
    by_new = collections.defaultdict(set)
    for name in words | lemmas | members:
        by_new[table.get(name, name)].add(name)
    fell = []
    for new, names in sorted(by_new.items()):
        if len(names) < 2:
            continue
        here = [f for f, ts in files.items() if len(ts & names) > 1]
        if not here:
            continue
        solid = [n for n in names if n in words] or [n for n in names if n in members and n not in lemmas]
        loose = [n for n in sorted(names) if n not in solid] if solid else sorted(names, key=lambda n: (n in table, n))[1:]
        if len(solid) > 1:
            loose = sorted(solid, key=lambda n: (n in table, n))[1:] + loose
        for n in loose:
            if n in members and n not in lemmas and n not in words:
                continue
            table[n] = new + "_lem"
        fell.append((new, sorted(names), [os.path.relpath(f, top) for f in here][:2]))
    if listing:
        for name in sorted(table):
            kind = "word" if name in words else "lemma" if name in lemmas else "member"
            print(kind, name, table[name])
        for row in fell:
            print("together:", *row)
        return 0

    def imported(text):
        kit, mine = set(), set()
        for m in USE.finditer(text):
            into = mine if own.match(m[1]) else kit
            for leaf in (m[2] or "").split(","):
                into.update(x.strip() for x in leaf.split(" as "))
        return kit - {""}, mine - {""}

    left = collections.Counter()

    def turn(text, may, path):
        def one(m):
            t = m[0]
            if t in table and may(t):
                return table[t]
            core = t.rstrip("'₀₁₂₃₄₅₆₇₈₉")
            if CAMEL.match(t) and re.search(r"[a-z0-9][A-Z]", t) and may(t):
                return snake(t) if "-" not in t else spelled(t, known)
            if "-" in core and re.match(r"^[a-z]", core) and may(t):
                left[(t)] += 1
            return t
        return TOKEN.sub(one, text)

    for f in laws:
        text = open(f).read()
        kit, mine = imported(text)
        new = turn(text, lambda t: t not in kit, f)
        if new != text:
            open(f, "w").write(new)
    for f in walks:
        text = open(f).read()
        kit, mine = imported(text)
        new = turn(text, lambda t: t not in kit and (t in mine or ("-" not in t)), f)
        if new != text:
            open(f, "w").write(new)
    sources = glob.glob(top + "/crates/*/src/**/*.rt", recursive=True)
    for f in sources:
        text = open(f).read()
        kit, mine = imported(text)
        rows, depth = [], 0
        for line in text.split("\n"):
            ghost = depth > 0 or re.match(r"\s*(ghost use|requires|ensures|ghost |//)", line)
            if ghost and not line.lstrip().startswith("//"):
                code = re.sub(r'b?"(?:[^"\\]|\\.)*"', "", line)
                if re.match(r"\s*(requires|ensures|ghost )", line) or depth > 0:
                    depth += code.count("{") - code.count("}")
            if ghost and line.lstrip().startswith("//"):
                line = re.sub(r"`[^`]*`", lambda m: turn(m[0], lambda t: t not in kit and (t in table), f), line)
            elif ghost:
                line = turn(line, lambda t: t not in kit and (t in table), f)
            rows.append(line)
        new = "\n".join(rows)
        if new != text:
            open(f, "w").write(new)
    for f in glob.glob(top + "/crates/*/must-fail/*.edit"):
        text = open(f).read()
        new = "\n".join(turn(l, lambda t: t in table, f) if re.match(r"(old|new):", l) else re.sub(r"`[^`]*`", lambda m: turn(m[0], lambda t: t in table, f), l) for l in text.split("\n"))
        if new != text:
            open(f, "w").write(new)
    for f in glob.glob(top + "/docs/*.md") + glob.glob(top + "/*.md") + glob.glob(top + "/oracle/*.md") + glob.glob(top + "/bench/*.md"):
        text = open(f).read()
        new = re.sub(r"`[^`\n]*`", lambda m: turn(m[0], lambda t: t in table and (t in words or t in lemmas), f), text)
        if new != text:
            open(f, "w").write(new)
    for t, n in left.most_common(400):
        print("left:", t, n)
    return 0


if __name__ == "__main__":
    raise SystemExit(main(sys.argv[1:]))
