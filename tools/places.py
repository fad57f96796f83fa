#!/usr/bin/env python3
"""Lists the places in crates/*/src that docs/DESIGN-PASS.md counts, a line each, the count last.

usage: tools/places.py POINT, POINT one of
  enums     own enums of the shape of Option or Result: two variants, or one that holds nothing beside those that hold something
  zeros     comments that give a number a second meaning: 0, or a count, for none
  flags     structs with a bool beside other fields
  twins     functions whose bodies are the same but for names, numbers, types and texts, three lines or more, in groups
  loops     `while` and `loop` whose body steps a variable by hand, and that walk over something
  by-hand   `match` arms that say true or false for each variant; functions that do no more than cast, compare bytes or turn a bool into a number
  clauses   facts that stand in the `requires` of three or more functions of a crate
  lengths   functions that are given a buffer and a place or a length beside it, and structs of a start and an end
  steps     function pointers, boxed closures, and `match` on a number that says which step runs
"""
import glob
import re
import sys


def sources():
    for path in sorted(glob.glob("crates/*/src/**/*.rt", recursive=True)):
        yield path, open(path, encoding="utf-8").read()


def without_comments(text):
    return re.sub(r"//[^\n]*", "", text)


def block(text, start):
    """What stands between the brace at `start` and the one that closes it."""
    depth = 0
    for at in range(start, len(text)):
        depth += {"{": 1, "}": -1}.get(text[at], 0)
        if depth == 0:
            return text[start + 1 : at]
    return text[start + 1 :]


def functions(text):
    """Name, line, head and body of each function; a body's brace stands alone on its line or ends a head without clauses."""
    for found in re.finditer(r"^( *)(pub )?(const )?fn (\w+)", text, re.M):
        rest = text[found.start() :]
        head_end = re.search(r"(\n" + found.group(1) + r"\{\n|\{\n)", rest)
        one_line = re.search(r"^\{|\n" + found.group(1) + r"\{", rest)
        if not head_end:
            continue
        clause = re.search(r"\n" + found.group(1) + r"    (requires|ensures)", rest[: head_end.start() + 1])
        if clause or not one_line:
            head_end = re.search(r"\n" + found.group(1) + r"\{\n", rest) if clause else head_end
        if not head_end:
            continue
        brace = found.start() + head_end.end() - 2
        yield found.group(4), text.count("\n", 0, found.start()) + 1, text[found.start() : brace], block(text, brace)


def enums():
    for path, text in sources():
        plain = without_comments(text)
        for found in re.finditer(r"\benum (\w+)[^{]*\{", plain):
            body = block(plain, found.end() - 1)
            names = re.findall(r"^ {4,8}(\w+)( *[({])?", re.sub(r"[({][^(){}]*[)}]", "(", body), re.M)
            empty = [name for name, holds in names if not holds]
            full = [name for name, holds in names if holds]
            if len(names) == 2 and full or (len(empty) == 1 and full and len(names) <= 3):
                yield f"{path}: {found.group(1)} {{ {', '.join(n for n, _ in names)} }}"


def zeros():
    words = r"\bor 0\b|, 0 (for|where|if)|0 for none|0 where|or how many (there )?are|0 throughout|or n\.|0 if it is not"
    for path, text in sources():
        for number, line in enumerate(text.split("\n"), 1):
            if re.match(r" *//", line) and re.search(words, line):
                yield f"{path}:{number}: {line.strip()[:120]}"


def flags():
    for path, text in sources():
        plain = without_comments(text)
        for found in re.finditer(r"\bstruct (\w+)[^{;(]*\{", plain):
            body = block(plain, found.end() - 1)
            if re.search(r": bool,", body) and len(re.findall(r"\w+: ", body)) > 1:
                yield f"{path}: {found.group(1)}"


def shape(body):
    plain = without_comments(body)
    plain = re.sub(r'b?"[^"]*"|b?\'[^\']*\'|\b\d[\w]*\b', "0", plain)
    plain = re.sub(r"\b[A-Z][A-Z_0-9]+\b", "0", plain)
    plain = re.sub(r"\b(?!let|mut|if|else|while|for|in|match|return|loop|break|as|true|false)[A-Za-z_]\w*(::\w+)*", "x", plain)
    return re.sub(r"\s+", " ", plain).strip()


def twins():
    groups = {}
    for path, text in sources():
        for name, line, _, body in functions(text):
            if len([part for part in without_comments(body).split("\n") if part.strip()]) >= 3:
                groups.setdefault(shape(body), []).append(f"{path}:{line} {name}")
    for group in groups.values():
        if len(group) > 1:
            yield "; ".join(group)


def loops():
    for path, text in sources():
        for found in re.finditer(r"^ *('\w+: )?(while\b[^\n]*|loop) \{$", text, re.M):
            body = block(text, found.end() - 1)
            if re.search(r"\b[\w.]+ [+-]= |\b(\w+) = \1\b|\w+ = \w+(\.\w+)*\(", body):
                yield f"{path}:{text.count(chr(10), 0, found.start()) + 1}: {found.group(0).strip()}"


def by_hand():
    for path, text in sources():
        for name, line, head, body in functions(text):
            plain = without_comments(body)
            arms = re.findall(r"=> (true|false),", plain)
            cast = re.fullmatch(r"\s*\w+(\.\w+)* as \w+\s*", plain) and re.search(r"\((self|\w+: \w+)\)", head)
            flag = re.fullmatch(r"\s*if \w+ \{\s*(return )?1;?\s*\}( else \{)?\s*0\s*\}?\s*", plain)
            least = re.fullmatch(r"\s*if (\w+) < (\w+) \{ \1 \} else \{ \2 \}\s*", plain)
            digit = "48" in plain and "57" in plain or "b'9'" in plain
            if len(arms) > 2 or cast or flag or least or digit or name in ("is_same", "number", "word", "from_word"):
                yield f"{path}:{line}: {name}"


def clauses():
    counts = {}
    for path, text in sources():
        crate = path.split("/")[1]
        for name, _, head, _ in functions(text):
            for clause in re.findall(r"requires (?:\w+ )?\{ (.*?) \}$", head, re.M):
                for fact in set(re.split(r" × (?![^(]*\))", clause)):
                    fact = re.sub(r"\.(old|now)\b", "", fact.strip())
                    fact = fact[1:-1] if fact.startswith("(") and fact.endswith(")") else fact
                    counts.setdefault((crate, fact), []).append(name)
    for (crate, fact), names in sorted(counts.items()):
        if len(names) > 2:
            yield f"{crate}: {fact}: {len(names)} functions"


def lengths():
    for path, text in sources():
        for name, line, head, _ in functions(text):
            given = re.findall(r"(\w+): (&[^,)]*\[[^\]]*\]|\w+)", head.split("ensures")[0].split("requires")[0])
            if any("[" in kind for _, kind in given) and any(n in ("at", "n", "len", "start", "end", "held", "kept") and k == "usize" for n, k in given):
                yield f"{path}:{line}: {name}"
        for found in re.finditer(r"struct (\w+)[^{;(]*\{([^}]*)\}", without_comments(text)):
            if re.search(r"\b(start|first): usize", found.group(2)) and "end: usize" in found.group(2):
                yield f"{path}: {found.group(1)}"


def steps():
    for path, text in sources():
        for number, line in enumerate(without_comments(text).split("\n"), 1):
            if re.search(r"\bfn\(|Box<dyn|&dyn|\bmatch (letter|kind|function|step|what)\b", line):
                yield f"{path}:{number}: {line.strip()}"


POINTS = {
    "enums": enums, "zeros": zeros, "flags": flags, "twins": twins, "loops": loops,
    "by-hand": by_hand, "clauses": clauses, "lengths": lengths, "steps": steps,
}
if len(sys.argv) != 2 or sys.argv[1] not in POINTS:
    sys.exit(__doc__)
places = list(POINTS[sys.argv[1]]())
print("\n".join(places + [str(len(places))]))
