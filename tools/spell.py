#!/usr/bin/env python3
"""Spells the repository's own names as today's Rattle does: words and lemmas in snake case.

usage: python3 tools/spell.py     at the top, once, after port.py

Turned are the names with a dash that specs/ and proofs/ of the crates declare: in specs/, proofs/, clauses and `ghost use`
items, in must-fail edits, and in the code spans of pages. Names of src/ are not declared there and stay; so do strings.
A name that Rattle makes of the code, as `c.check-lent`, stands in Proof.antt files alone and stays there. Names that today's
library spells with a dash, as `length-append`, stay, and so do two lemmas whose snake-case form is another word's.
"""
import collections
import os
import re
import sys

WORD = re.compile(r"[^\s(){}.;,@\"«»`]+")
QUIET = re.compile(r"\"(?:[^\"\\\n]|\\.)*\"|(?<![^\s(){}.;,@\"«»])--[^\n]*|\{-.*?-\}", re.S)
RT = re.compile(r"//[^\n]*|b?\"(?:\\.|[^\"\\])*\"|b?'(?:\\.|[^'\\])'", re.S)
SPAN = re.compile(r"`[^`\n]+`")
DECLARED = re.compile(
    r"^\s*(?:(?:pub|abbrev|unfoldable|private)\s+)*(?:(?:data|record|module)\s+)?([^\s(){}.;,:]*-[^\s(){}.;,:]*)(?:\s[^\n=]*)?\s:(?=\s)", re.M
)
SNAKE = re.compile(
    r"^\s*(?:(?:pub|abbrev|unfoldable|private)\s+)*(?:(?:data|record|module)\s+)?([^\s(){}.;,:]*_[^\s(){}.;,:]*)(?:\s[^\n=]*)?\s:(?=\s)", re.M
)
FIELD = re.compile(r"^ +pub ([^\s(){}.;,:]+-[^\s(){}.;,:]+) :(?=\s)", re.M)
USE = re.compile(r"\buse\s+([^\s;{]+?)(?:\.\{([^}]*)\}|\s+as\s+(\S+))?\s*;?$", re.M)
# As today's library spells them, or as two names joined, where `_` would give another word's name.
STAY = {"bit-and", "bit-xor", "length-append", "mul-one", "add-zero", "drop-drop", "add-mul", "mul-add", "eq-eqb", "not-false"}
PROSE = set()


def read(p):
    with open(p, encoding="utf-8") as f:
        return f.read()


def bare(text):
    return QUIET.sub(" ", text)


def files(top, *ends):
    for folder, dirs, names in os.walk(top):
        dirs[:] = sorted(d for d in dirs if d not in ("out", "target", ".git"))
        for n in sorted(names):
            if n.endswith(ends):
                yield os.path.join(folder, n)


def main():
    crates = sorted(os.listdir("crates"))
    antt = list(files("crates", ".antt"))
    lemmas = [p for p in antt if os.path.basename(p) != "Proof.antt"]
    words, declared, kit = set(), set(), collections.defaultdict(set)
    for p in antt:
        text = bare(read(p))
        for m in USE.finditer(text):
            own = m[1].split(".")[0] == "Rattle" and m[1].split(".")[1] in crates
            for item in (m[2] or "").split(","):
                for w in item.strip().split(" as "):
                    if "-" in w and not own:
                        kit[p].add(w)
    for p in lemmas:
        text = bare(read(p))
        for w in WORD.findall(text):
            if "-" in w and re.search("[A-Za-z]", w) and not any(w in kit[q] for q in (p,)):
                words.add(w)
        declared |= {m[1] for m in DECLARED.finditer(text)}
    names = {w for w in words if re.fullmatch(r"[A-Za-z_][\w'₀-₉]*(?:-[\w'₀-₉]+)+", w)} - STAY
    allkit = set().union(*kit.values())
    table = {w: w.replace("-", "_") for w in names if w not in allkit or w in declared}
    snake = {m[1] for p in lemmas for m in SNAKE.finditer(bare(read(p)))}
    clash = {w: n for w, n in table.items() if n in snake}
    functions = {f for p in files("crates", ".rt") for f in re.findall(r"\bfn (\w+)", read(p))}
    fields = {m[1] for p in lemmas for m in FIELD.finditer(bare(read(p)))} & set(table)
    made_of = {f.replace("_", "-") for f in functions}
    if "--list" in sys.argv:
        print(len(table), "undeclared:", sorted(set(table) - declared)[:400])
        print("clash", clash)
        print("dropped:", sorted(words - set(table))[:300])
        print("fields that are made too:", sorted(fields & made_of))
        rust = {m for p in files("crates", ".rt") for m in re.findall(r"[A-Za-z_]\w*", re.sub(r"ghost use[^;]*;|(requires|ensures)[^\n]*", "", RT.sub(" ", read(p))))}
        print("rust:", sorted(w for w, n in table.items() if n in rust))
    if clash:
        sys.exit(f"two names would fall together: {clash}")
    turn_all(table, kit, fields - made_of)


def words_turned(text, table, keep=()):
    return WORD.sub(lambda m: table[m[0]] if m[0] in table and m[0] not in keep else m[0], text)


def split(pattern, text, quiet, loud):
    out, at = [], 0
    for m in pattern.finditer(text):
        out += [loud(text[at : m.start()]), quiet(m[0])]
        at = m.end()
    return "".join(out + [loud(text[at:])])


def comment(table):
    return lambda t: t if t[:1] in "\"b'" else SPAN.sub(lambda m: words_turned(m[0], table), t)


def made(text, table, fields):
    """A Proof.antt: what follows a dot may be Rattle's own name, and so is an answer to a goal."""
    answers = set(re.findall(r"^(\S+) : tie\.", text, re.M)) | {"fix"}
    fresh = {k: v for k, v in table.items() if k not in answers}
    out = []
    for line in text.split("\n"):
        if re.match(r"\s*(pub )?use ", line):
            out.append(line if ".Tie" in line or ".Lts" in line else words_turned(line, table))
        else:
            line = re.sub(r"(?<![.\w'-])" + WORD.pattern, lambda m: fresh.get(m[0], m[0]), line)
            out.append(re.sub(r"(?<=\.)" + WORD.pattern, lambda m: table[m[0]] if m[0] in fields else m[0], line))
    return "\n".join(out)


def turn_all(table, kit, fields):
    for p in files("crates", ".antt", ".rt", ".edit"):
        old = read(p)
        if p.endswith("Proof.antt"):
            new = split(QUIET, old, comment(table), lambda t: made(t, table, fields))
        elif p.endswith(".antt"):
            new = split(QUIET, old, comment(table), lambda t: words_turned(t, table, kit[p]))
        elif p.endswith(".rt"):
            new = split(RT, old, comment(table), lambda t: words_turned(t, table))
        else:
            new = "".join(words_turned(l, table) if re.match("old:|new:", l) else l for l in old.splitlines(True))
        if new != old:
            with open(p, "w", encoding="utf-8") as f:
                f.write(new)
    pages = [p for p in files(".", ".md") if not p.startswith(("./crates", "./docs/01", "./docs/demands"))]
    for p in pages:
        old = read(p)
        new = SPAN.sub(lambda m: words_turned(m[0], table), old)
        if new != old:
            with open(p, "w", encoding="utf-8") as f:
                f.write(new)


if __name__ == "__main__":
    main()
