#!/usr/bin/env python3
"""Gives the repository's own definitions and lemmas the spelling of today's Rattle: words in snake case.

usage: respell.py [--write]     at the top of the repository, after port.py

A name is renamed that a file of specs/ or proofs/ defines and that has a dash or a capital inside: is-there and
isThere become is_there. It is renamed as a whole word wherever it stands: in contracts, specs/, proofs/ and must-fail
edits, and between backticks in the pages. Functions of src/, fields of their structs, goals and steps that Rattle
makes, types and modules keep their names. Without --write the script prints what falls together.
"""
import glob
import os
import re
import sys

SEP = r"\s(){}\[\].,;:⌜⌝`\"|"
TOKEN = re.compile(r"[^%s]+" % SEP)
DEFINED = re.compile(
    r"^\s*(?:abbrev |unfoldable )?(?:pub )?(?:abbrev |unfoldable )?(?:pub )?([a-z][^%s]*) +:(?:\s|$)" % SEP)
# a name that would fall together with another: the lemma is told apart from the definition
APART = {
    "in-range": "in_range_holds",
    "is-call": "is_call_holds",
    "no-sets": "no_sets_holds",
    "run-from": "run_from_holds",
    "noneLeft": "has_none_left",
    "leftOut": "is_left_out",
    "noValue": "without_value",
}
# and where the lemma had today's spelling already
INNER = {("crates/seat_book/proofs/Rooms.antt", "is_within"): "is_within_holds"}


def snake(n):
    n = n.replace("-", "_")
    n = re.sub(r"(?<=[a-z0-9])(?=[A-Z])", "_", n)
    n = re.sub(r"(?<=[A-Z])(?=[A-Z][a-z])", "_", n)
    return n.lower() if re.fullmatch(r"[A-Za-z0-9_']+", n) else re.sub(r"[A-Z]", lambda m: m.group(0).lower(), n)


def files(*patterns):
    for p in patterns:
        yield from sorted(f for f in glob.glob(p, recursive=True) if "/out/" not in f)


def collect():
    names = {}
    for f in files("crates/*/specs/**/*.antt", "crates/*/proofs/**/*.antt"):
        goals = "/proofs/" in f and f.count("/") > 3 and f.endswith(("Answers.antt", "Invariants.antt", "Proof.antt"))
        text = open(f).read()
        for line in text.split("\n"):
            m = DEFINED.match(line)
            if not m:
                continue
            n = m.group(1)
            if snake(n) == n or n.startswith(("invariant-", "decreases-")):
                continue
            if goals and re.search(r":\s*(goal|tie|lts)\.|statement M", line):
                continue
            if goals and re.search(r"^%s :\s*$" % re.escape(n), line.strip()):
                after = text.split(line + "\n", 1)[1][:200]
                if re.match(r"\s*(goal|tie|lts)\.", after):
                    continue
            names.setdefault(n, set()).add(f)
    return names


def main():
    names = collect()
    inner = {snake(n) for n in names if re.search(r"[A-Z]", n)}
    to = {}
    for n in names:
        s = snake(n)
        # a lemma on the definition of that name
        if "-" in n and s in inner:
            s += "_holds"
        to[n] = APART.get(n, s)
    # names of libraries that are spelled alike
    foreign = {}
    for f in files("crates/*/src/**/*.rt", "crates/*/specs/**/*.antt", "crates/*/proofs/**/*.antt"):
        for m in re.finditer(r"use ((?!Rattle\.(?!std))[\w.·+-]+)\.\{([^}]*)\}", open(f).read()):
            for w in TOKEN.findall(m.group(2)):
                foreign.setdefault(w, set()).add(f)
    clash = sorted(n for n in to if n in foreign)
    if clash:
        print("also names of a library, where that is imported:", clash)
    back = {}
    for n, t in to.items():
        back.setdefault(t, []).append(n)
    tokens = {}
    for f in files("crates/*/specs/**/*.antt", "crates/*/proofs/**/*.antt"):
        text = re.sub(r"--.*", "", open(f).read())
        text = re.sub(r"\.%s" % TOKEN.pattern, "", text)
        text = re.sub(r"(?<=[{;]) *[a-z_]+ [=:] ", "", text)
        tokens[f] = set(TOKEN.findall(text))
    for t, ns in sorted(back.items()):
        for f, ws in tokens.items():
            here = [n for n in ns if n in ws]
            if len(here) > 1 or here and t in ws:
                print("falls together in %s: %s with %s" % (f, here, t))
    print(len(to), "names")
    if "--write" not in sys.argv:
        return

    def turn(f, text):
        def word(m):
            w = m.group(0)
            if (f, w) in INNER:
                return INNER[f, w]
            if w in to and not (w in foreign and f in foreign[w]):
                return to[w]
            return w
        # steps and goals that Rattle makes, after c, keep their names: only a field of the repository's may follow
        steps = re.compile(r"(?<![\w.'-])c(?: ?\.%s)+" % TOKEN.pattern)
        out, pos = [], 0
        for m in steps.finditer(text):
            out.append(TOKEN.sub(word, text[pos:m.start()]))
            out.append(TOKEN.sub(lambda k: word(k) if re.search("[A-Z]", k.group(0)) else k.group(0), m.group(0)))
            pos = m.end()
        out.append(TOKEN.sub(word, text[pos:]))
        return "".join(out)

    for f in files("crates/*/src/**/*.rt", "crates/*/specs/**/*.antt", "crates/*/proofs/**/*.antt", "crates/*/must-fail/*.edit"):
        text = open(f).read()
        new = turn(f, text)
        if new != text:
            open(f, "w").write(new)
    for f in files("README.md", "docs/*.md", "rust/README.md", "compare/README.md"):
        text = open(f).read()
        new = re.sub(r"`[^`\n]+`", lambda m: turn(f, m.group(0)), text)
        if new != text:
            open(f, "w").write(new)


main()
