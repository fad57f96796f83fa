#!/usr/bin/env python3
"""Spells the repository's own definitions, fields and lemmas in snake case, in crates/ and wrong-builds/: pgnOf as pgn_of, adds-up as adds_up.

usage: tools/respell.py [--dry]     at the top of the repository, once, after the toolchain's own port.py

Types, modules, names of the Rattle sources, strings and names that a file brings in from a library stay. In the proofs of single functions (proofs/F/) the names
that the toolchain makes stay. Names that would fall together with another name of a file are printed, and stay.
"""
import collections
import os
import re
import sys

OURS = {l.split(":")[0].split()[0] for l in open("crates.txt") if l.strip() and not l.startswith("#")}
WORD = re.compile(r'[^\s(){}.;,@"«»`]+')
DECL = re.compile(r"(?m)^ *(?:(?:abbrev|unfoldable|opaque|irreducible|pub) )*([A-Za-z_][\w'-]*)(?: \{[^{}\n]*\})* :(?=\s)")
MADE = re.compile(r": (?:tie|goal)\.|: statement |: \{M : Type 1\} → statement")
USE = re.compile(r"(?m)^(?:ghost |pub )?use ([^\s;{]+)\{([^}]*)\}|^(?:ghost |pub )?use ([^\s;{]+?)\.([^\s;.{]+);?$")
TURNS = re.compile(r"[a-z][\w']*[a-z0-9][A-Z]|-")


def snake(name):
    return re.sub(r"(?<=[a-z0-9])[A-Z]", lambda m: "_" + m[0].lower(), name).replace("-", "_")


def files():
    for top in ("crates", "wrong-builds"):
        for folder, dirs, names in os.walk(top):
            dirs[:] = sorted(d for d in dirs if d != "out")
            for n in sorted(names):
                if n.endswith((".rt", ".antt", ".edit")):
                    yield os.path.join(folder, n)


def is_walk(path):
    return "/proofs/" in path and path.endswith("/Proof.antt")


def own(path):
    steps = path.split(".")
    return steps[0] == "Rattle" and len(steps) > 1 and steps[1] in OURS


def foreign(text):
    """The names that a file brings in from a library."""
    found = set()
    for m in USE.finditer(text):
        if m[1] and not own(m[1]):
            for item in m[2].split(","):
                found.update(w.strip("«» ") for w in item.split(" as "))
        elif m[3] and not own(m[3]):
            found.add(m[4])
    return {f.strip() for f in found}


def main():
    dry = "--dry" in sys.argv
    texts = {p: open(p, encoding="utf-8").read() for p in files()}
    names, local, stood, lemmas = set(), collections.defaultdict(set), set(), set()
    for p, t in texts.items():
        if not p.endswith(".antt"):
            continue
        code = re.sub(r"(?m)(^|\s)--.*$", "", t)
        for m in DECL.finditer(code):
            n = m[1]
            if not TURNS.search(n) or n[0].isupper() and "-" not in n:
                if not is_walk(p) and "_" in n:
                    (stood if "/specs/" in p else lemmas).add(n)
                continue
            if is_walk(p):
                end = code.find("\n", m.end())
                if MADE.search(code[m.start() : end if end > 0 else len(code)]):
                    continue
                local[p].add(n)
            else:
                names.add(n)
    # a lemma or a field that would have the name of a definition gets _lem, as the toolchain's style says
    camel = {snake(n) for n in names if "-" not in n}
    to = {n: snake(n) for n in names if "-" not in n}
    to.update({n: snake(n) + ("_lem" if snake(n) in camel | stood | lemmas else "") for n in names if "-" in n})
    to.update({n: n + "_lem" for n in lemmas if n in camel and n not in stood})
    names = set(to)
    turned, met = collections.Counter(), collections.Counter()
    for p, t in texts.items():
        stay = foreign(t)
        words = set(WORD.findall(t))
        turn = {n: to.get(n, snake(n)) for n in (names | local[p]) & words if n not in stay and (p.endswith(".antt") or TURNS.search(n))}
        code = re.sub(r"(?m)(^|\s)--.*$", "", t) if p.endswith(".antt") else ""
        together = collections.defaultdict(set)
        for w in set(WORD.findall(code)):
            together[turn.get(w, w)].add(w)
        for it, ws in together.items():
            if len(ws) > 1:
                met[(it, p, " ".join(sorted(ws)))] += 1
        if not turn:
            continue
        quiet = re.compile(r'"(?:[^"\\\n]|\\.)*"|//[^\n]*|(?<![^\s(){}.;,@"«»])--[^\n]*')

        def word(m):
            w = m[0]
            if w in turn:
                turned[w] += 1
                return turn[w]
            return w

        def quieted(m):
            s = m[0]
            if s.startswith('"'):
                return s
            # a comment: names of code spans, and words in camel case, which no prose has
            s = re.sub(r"`[^`]*`", lambda k: WORD.sub(word, k[0]), s)
            return WORD.sub(lambda k: turn[k[0]] if k[0] in turn and "-" not in k[0] else k[0], s)

        out, at = [], 0
        if p.endswith(".edit"):
            lines = []
            for l in t.split("\n"):
                lines.append(WORD.sub(word, l) if l.startswith(("old:", "new:")) and '"' not in l else WORD.sub(lambda k: turn[k[0]] if k[0] in turn and "-" not in k[0] else k[0], l))
            new = "\n".join(lines)
        else:
            for m in quiet.finditer(t):
                out.append(WORD.sub(word, t[at : m.start()]))
                out.append(quieted(m))
                at = m.end()
            out.append(WORD.sub(word, t[at:]))
            new = "".join(out)
        # names under which a file brings others in
        if not p.endswith(".edit"):
            for a in set(re.findall(r"\bas ([a-z][a-z0-9]*(?:[A-Z]\w*)+)", new)):
                new = re.sub(rf"(?<![\w'.-]){a}(?![\w'-])", snake(a), new)
        if not dry and new != t:
            with open(p, "w", encoding="utf-8") as f:
                f.write(new)
    for (to, p, ws), _ in sorted(met.items()):
        print(f"look: {p}: {ws}")
    print(f"{len(turned)} names, {sum(turned.values())} places")


main()
