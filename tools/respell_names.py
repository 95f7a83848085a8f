#!/usr/bin/env python3
"""Brings the repository's own names in specs/ and proofs/ to one spelling: words in snake case, types in camel case.

usage: python3 tools/respell_names.py [--dry]      at the top of the repository, once, right after the toolchain's own script

A name of ours is one that a file of crates/*/specs or crates/*/proofs declares or binds: `after-is` becomes `after_is`,
`Everything-is-accounted-for` becomes `EverythingIsAccountedFor`, `endLine` and the ghost members of our traits, as `nextOf`,
become `end_line` and `next_of`.
Names of the library, and those that the checker makes for a function's goals and steps, stay as they are, and so do comments
and strings. It prints each name that would fall together with another one. It also renames the crate `slab`, whose name a
library of the toolchain has, to `slabs`.
"""
import os
import re
import sys

WORD = r"[^\s(){}\[\],;.«»\"∷]+"
TOKEN = re.compile(r"--.*$|\"(?:[^\"\\]|\\.)*\"|" + WORD, re.M)
RT_TOKEN = re.compile(r"//.*$|b?\"(?:[^\"\\]|\\.)*\"|[A-Za-z_][\w'-]*", re.M)
GHOSTS = {}
FUNCTION_FILES = {"Answers.antt", "Invariants.antt", "Proof.antt", "Choices.antt", "Reads.antt"}


def snake(name):
    return re.sub(r"(?<=[a-z0-9])[A-Z]", lambda m: "_" + m.group(0).lower(), name.replace("-", "_"))


def camel(name):
    return "".join(p[:1].upper() + p[1:] for p in name.split("-"))


def turned(name):
    if name in GHOSTS:
        return GHOSTS[name]
    return camel(name) if name[0].isupper() else snake(name)


def files(ending):
    for folder, dirs, names in os.walk("crates"):
        dirs[:] = sorted(d for d in dirs if d not in ("out", "target", "must-fail"))
        for n in sorted(names):
            if n.endswith(ending):
                yield os.path.join(folder, n)


def crates():
    return {c for c in os.listdir("crates")}


def imports(text, own):
    """The names that a file takes from the library, and those that it takes from our crates."""
    lib, ours = set(), set()
    for path, names in re.findall(r"use ([^\s{]+)\.\{([^}]*)\}", text):
        parts = path.split(".")
        mine = parts[0] == "Rattle" and len(parts) > 1 and parts[1] in own
        made = mine and ("Goals" in parts or "Given" in parts)
        for n in names.split(","):
            n = n.strip().split(" as ")
            (ours if mine and not made else lib).add(n[-1])
    return lib, ours


def dashed(t):
    """Whether a name is spelled in another way than ours: with dashes, or in camel case from a small letter on."""
    return re.fullmatch(r"[A-Za-z][\w'′]*(-[\w'′]+)+|[a-z][a-z0-9]*[A-Z]\w*", t) is not None


DECL = re.compile(r"^\s*(?:(?:abbrev|pub|unfoldable|record|data|private|mod|module)\s+)*(" + WORD + r")(?=\s+[:({])", re.M)
BINDER = re.compile(r"[({]((?:" + WORD + r"\s+)+):\s")
LET = re.compile(r"\blet\s+(" + WORD + r")\s*[:=]")
LAMBDA = re.compile(r"λ\s+((?:" + WORD + r"\s+)*" + WORD + r")\.\s")
HEAD = re.compile(r"^\s*(" + WORD + r"(?:\s+[^=:\n]+)?)\s=\s", re.M)


def rename_crate(old, new):
    """Gives a crate a name that no library of the toolchain has."""
    if not os.path.isdir(f"crates/{old}"):
        return
    os.rename(f"crates/{old}", f"crates/{new}")
    spots = list(files(".antt")) + list(files(".rt")) + ["crates.txt"]
    for p in spots:
        t = u = open(p, encoding="utf-8").read()
        if p == "crates.txt":
            u = re.sub(rf"^((?!#).*?)$", lambda m: re.sub(rf"(?<![\w]){old}(?![\w])", new, m.group(1)), t, flags=re.M)
        else:
            u = re.sub(rf"\bRattle\.{old}\.", f"Rattle.{new}.", u)
            if p.endswith(".rt"):
                u = re.sub(rf"(?<![\w:.]){old}::", f"{new}::", u)
        if u != t:
            open(p, "w", encoding="utf-8").write(u)


def main():
    if "--dry" not in sys.argv:
        rename_crate("slab", "slabs")
    own = crates()
    texts = {p: open(p, encoding="utf-8").read() for p in files(".antt")}
    rts = {p: open(p, encoding="utf-8").read() for p in files(".rt")}
    for t in rts.values():
        for g in re.findall(r"^\s*ghost ([a-z]+[A-Z]\w*):", t, re.M):
            GHOSTS[g] = re.sub(r"[A-Z]", lambda m: "_" + m.group(0).lower(), g)
    mine, made, lib_all = set(), set(), set()
    for p, t in texts.items():
        lib, _ = imports(t, own)
        lib_all |= lib
        bare = re.sub(r"--.*$", "", t, flags=re.M)
        found = set(DECL.findall(bare)) | set(LET.findall(bare))
        for b in BINDER.findall(bare) + LAMBDA.findall(bare):
            found |= set(b.split())
        if os.path.basename(p) not in FUNCTION_FILES:
            for h in HEAD.findall(bare):
                found |= set(re.findall(WORD, h))
        found = {f for f in found if dashed(f)}
        if os.path.basename(p) in FUNCTION_FILES:
            goals = set(re.findall(r"\b(?:goal|given)\.(" + WORD + ")", bare))
            made |= {g for g in goals if dashed(g)}
            found -= goals
        mine |= found - lib
    # what stands only as a made name is not ours
    names = {n for n in mine} | set(GHOSTS)
    new = {n: turned(n) for n in names}
    back = {}
    for n, m in sorted(new.items()):
        back.setdefault(m, set()).add(n)
    every = set()
    for t in list(texts.values()) + list(rts.values()):
        every |= set(re.findall(r"[\w'′-]+", t))
    for m, ns in sorted(back.items()):
        if len(ns) > 1:
            print("falls together:", m, sorted(ns))
        elif m in every:
            print("stands already:", sorted(ns)[0], "->", m)
    print(len(new), "names;", len(names & made), "also made by the checker:", sorted(names & made))
    if "--list" in sys.argv:
        print("\n".join(f"{n} {new[n]}" for n in sorted(new)))
    if "--dry" in sys.argv:
        return

    def sub(text, pattern, skip, made_here):
        out = []
        at = 0
        for m in pattern.finditer(text):
            w = m.group(0)
            if w in new and w not in skip and w not in made_here:
                before = text[: m.start()]
                if not re.search(r"\b(?:goal|given)\.$", before[-10:]):
                    out.append(text[at : m.start()])
                    out.append(new[w])
                    at = m.end()
        out.append(text[at:])
        return "".join(out)

    for p, t in texts.items():
        lib, _ = imports(t, own)
        here = set()
        if os.path.basename(p) in FUNCTION_FILES:
            here = set(re.findall(r"\b(?:goal|given)\.(" + WORD + ")", t))
        u = sub(t, TOKEN, lib, here)
        if u != t:
            open(p, "w", encoding="utf-8").write(u)
    for p, t in rts.items():
        lib, _ = imports(t, own)
        u = sub(t, RT_TOKEN, lib, set())
        if u != t:
            open(p, "w", encoding="utf-8").write(u)


if __name__ == "__main__":
    main()
