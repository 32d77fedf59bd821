#!/usr/bin/env python3
"""Brings the names of definitions and lemmas to one spelling.

Words are in snake case, a dash joins two names, and a prime is an apostrophe. The names are those that the files of specs/ and proofs/
declare; names of the kit, of Rust items and of what Rattle makes keep their spelling. Run it once, at the top of the repository:

    python3 tools/respell.py KIT
"""
import collections
import glob
import os
import re
import sys

KIT = sys.argv[1]
TOKEN = re.compile(r"[^\s(){}\[\],;.\"·⟦⟧]+")
HEAD = re.compile(
    r"^\s*((?:abbrev|unfoldable|opaque|pub|private|data|record)\s+)*([^\s(){}\[\],;.\":]+(?:\s+[^\s(){}\[\],;.\":]+)*)\s+:(\s|$)"
)
MADE = re.compile(
    r"(-spec|-requires|-preserved|-again|-smaller|-decreases|-progress|-begins|-enters|-lifetimes|-args)(-\d+)?$|^(returns|loop|if|then|else|overflow|invariant|decreases|index|in|sub|add|mul|slice|shared|mut)-"
)
ANTT_PART = re.compile(r"ghost use [^;]*;|(?:requires|ensures|invariant)\*?(?:\s+\w+)?\s*\{|ghost \w+: \{")
LIBRARY_WORDS = {"length", "take", "drop", "map", "set", "get_or", "zero", "suc", "replicate", "append", "reverse", "sum", "filter"}


def antt_files():
    for where in ("specs", "proofs"):
        for f in sorted(glob.glob("crates/*/%s/**/*.antt" % where, recursive=True)):
            yield f


def kit_names():
    names = set()
    for f in glob.glob(KIT + "/**/*.antt", recursive=True):
        if "/examples/" in f or "/sqlite" in f or "/tests/" in f:
            continue
        try:
            for line in open(f, encoding="utf8"):
                m = HEAD.match(line)
                if m:
                    names.update(m.group(2).split())
        except (OSError, UnicodeDecodeError):
            pass
    return names


def declared():
    """Each declared name, with whether it is a lemma: whether only files of proofs/ declare it."""
    lemma = {}
    for f in antt_files():
        walk = f.endswith("/Proof.antt")
        for line in open(f, encoding="utf8"):
            if line.lstrip().startswith("--"):
                continue
            m = HEAD.match(line)
            if not m:
                continue
            goal = walk and re.search(r":\s*(tie\.|\{M : Type 1\} → statement)", line)
            for t in m.group(2).split():
                if goal:
                    continue
                lemma[t] = lemma.get(t, True) and "/proofs/" in f
    return lemma


def words(part):
    if part[:1].isupper():
        return part
    part = re.sub(r"(?<=[a-z0-9'′₀-₉])(?=[A-Z])", "_", part)
    part = re.sub(r"(?<=[A-Z])(?=[A-Z][a-z])", "_", part)
    part = "_".join(w.lower() if len(w) == 1 or w[0].isupper() and w[1:].islower() else w for w in part.split("_"))
    return re.sub(r"\bget_d\b", "get_or", part)


def spelled(name, lemma, functions):
    parts = [words(p) for p in name.split("-")]
    out = parts[0]
    for before, after in zip(parts, parts[1:]):
        joins = lemma and before in functions and after in functions
        out += ("-" if joins else "_") + after
    return out


def antt_parts(text):
    """The imports and the clauses of a Rattle file, which are antt's."""
    i = 0
    while True:
        m = ANTT_PART.search(text, i)
        if not m:
            return
        i = m.end()
        if not m.group(0).startswith("ghost use"):
            depth = 1
            while depth:
                depth += {"{": 1, "}": -1}.get(text[i], 0)
                i += 1
        yield m.start(), i


def tokens_of_files():
    """For each file the names that may stand for one another there; in the proof of a function a step's name stands behind a dot."""
    for f in antt_files():
        seen = set()
        for line in open(f, encoding="utf8"):
            if not line.lstrip().startswith("--"):
                if f.endswith("/Proof.antt"):
                    line = re.sub(r"\.[^\s(){}\[\],;.]+", "", line)
                seen.update(TOKEN.findall(re.sub(r"Rattle\.\w+", "", line)))
        yield seen
    for f in sorted(glob.glob("crates/*/src/**/*.rt", recursive=True)):
        text = open(f, encoding="utf8").read()
        yield {t for a, b in antt_parts(text) for t in TOKEN.findall(text[a:b])}


def table():
    kit = kit_names()
    lemma = declared()
    functions = set(LIBRARY_WORDS)
    turned = {}
    kit_words = {"result", "data", "record", "open", "search", "grind", "simp", "omega", "where", "with", "at", "in", "let", "module"}
    for f in glob.glob("crates/*/specs/**/*.antt", recursive=True):
        for line in open(f, encoding="utf8"):
            m = re.match(r"^\s{0,2}((?:abbrev|unfoldable)\s+)(pub\s+)?(\S+)\s+:", line)
            if m:
                functions.add(words(m.group(3)))
    for name in sorted(lemma):
        if not name[0].islower() or not (re.search(r"[a-z0-9][A-Z]", name) or "-" in name):
            continue
        if name in kit or (lemma[name] and MADE.search(name)):
            continue
        new = spelled(name, lemma[name], functions)
        if new != name:
            turned[name] = new
    clashes = set()
    while True:
        more = {old: to for old, to in turned.items() if to in kit_words}
        for seen in tokens_of_files():
            at = collections.defaultdict(list)
            for t in seen:
                at[turned.get(t, t)].append(t)
            for new, olds in at.items():
                if len(olds) == 1:
                    continue
                # definitions keep the plain spelling
                olds.sort(key=lambda n: (n in turned, lemma.get(n, True), n))
                if olds[0] not in turned and lemma.get(olds[0]) and not lemma[olds[1]]:
                    olds[0], olds[1] = olds[1], olds[0]
                for old in olds[1:]:
                    if old in lemma:
                        more[old] = new
        if not more:
            return turned, sorted(clashes)
        for old, to in more.items():
            turned[old] = turned.get(old, old) + ("_lem" if lemma[old] else "_of")
            clashes.add((old, turned[old]))


def turn(text, turned):
    return TOKEN.sub(lambda m: turned.get(m.group(0), m.group(0)), text)


def turn_antt(text, turned):
    out = []
    for line in text.split("\n"):
        bare = line.lstrip()
        if bare.startswith("--"):
            if re.match(r"--\s{2,}", bare):
                out.append(turn(line, turned))
            else:
                out.append(TOKEN.sub(lambda m: turned.get(m.group(0), m.group(0)) if re.search("[a-z][A-Z]", m.group(0)) else m.group(0), line))
        else:
            out.append(turn(line, turned))
    return "\n".join(out)


def turn_rt(text, turned):
    out, last = [], 0
    for a, b in antt_parts(text):
        out += [text[last:a], turn(text[a:b], turned)]
        last = b
    return "".join(out) + text[last:]


def main():
    turned, clashes = table()
    for old, to in clashes:
        print("falls together: %s -> %s" % (old, to))
    new = set(turned.values())
    for f in list(antt_files()):
        text = open(f, encoding="utf8").read()
        after = turn_antt(text, turned)
        if after != text:
            open(f, "w", encoding="utf8").write(after)
    for f in sorted(glob.glob("crates/*/src/**/*.rt", recursive=True)):
        text = open(f, encoding="utf8").read()
        after = turn_rt(text, turned)
        for m in re.finditer(r"fn (\w+)[^(]*\(([^)]*)\)", after):
            for p in re.findall(r"(\w+):", m.group(2)):
                if p in new:
                    print("look: %s: a parameter %s of %s has a name of a definition" % (f, p, m.group(1)))
        if after != text:
            open(f, "w", encoding="utf8").write(after)
    print("%d names respelled" % len(turned))


main()
