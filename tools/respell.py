#!/usr/bin/env python3
"""Respells the repository's own definitions and lemmas in snake case, in its .antt and .rt files, must-fail edits and documents.

usage: respell.py [--show] [FOLDER]

FOLDER holds crates/ (default: the folder above this one). A name with capitals inside is split at them: blackClue becomes black_clue.
In a name with dashes a dash stays where it joins the names of two definitions, as in length-push_all; elsewhere it becomes an underscore.
A name that would fall together with another gets an ending, OF or LEMMA. --show prints the names and writes nothing.
"""

import collections
import glob
import os
import re
import sys

WORD = re.compile(r"[^\s(){}.;,@\"«»]+")
HEAD = re.compile(r"\s*((?:abbrev |unfoldable |pub |data |record |ruleset )*)([^\s:{}().,]+)\s*(?:\([^)]*\)\s*|\{[^}]*\}\s*)*(:|$)(.*)")
# What stands in the type of a proof's part that Rattle asks for by its name.
OF_RATTLE = re.compile(r"\btie\.|\bgoal\.|\bNeed-|-lts\.|-kinds\.|^ *$")
# An old part of a name in the library's new word.
LIBRARY = {"getD": "get_or", "eqb": "nat_eq", "ltb": "nat_lt", "leb": "nat_le"}
# Names of the library that lemmas join to others by a dash.
KNOWN = set(
    "length map append drop take get_or nat_eq nat_lt nat_le set replicate reverse any all mem cond sum add sub mul div mod min max zero suc count insert join"
    " filter concat foldr foldl last head tail fits pow bit_and bit_or index slice_set slice_index".split()
)
# The endings that keep a name apart from another: of a definition, from a name of the source; of a lemma, from its definition's or function's.
OF, BY, LEMMA = "_of", "_by", "_lem"


def texts(root, *patterns):
    for pattern in patterns:
        for path in sorted(glob.glob(os.path.join(root, pattern), recursive=True)):
            if "/out/" not in path:
                with open(path, encoding="utf-8") as it:
                    yield path, it.read()


def declared(root):
    """The names that .antt files declare, but for those that Rattle asks for; the functions among them, and the names of nothing but fields."""
    names, functions, fields, others = set(), set(), set(), set()
    for path, text in texts(root, "crates/*/specs/**/*.antt", "crates/*/proofs/**/*.antt"):
        lines = text.split("\n")
        inside = ""
        for at, line in enumerate(lines):
            if re.match(r"\S", line):
                inside = "record" if re.match(r"(pub )?record ", line) else ""
            m = HEAD.fullmatch(line)
            if not m or line.lstrip().startswith("--"):
                continue
            words, name, colon, rest = m.groups()
            if path.endswith("/Proof.antt") and (OF_RATTLE.search(rest) or name.endswith("-spec")):
                continue
            if name in ("use", "mod", "pub", "unfolding", "let", "where"):
                continue
            if not colon and not (at + 1 < len(lines) and re.match(r"\s+[:(]", lines[at + 1])):
                continue
            if not re.match(r"[^\W\d_]", name) or "◌" in name or "=" in line.split(":")[0]:
                continue
            names.add(name)
            (fields if inside and line.startswith(" ") else others).add(name)
            if words.strip() and ("abbrev" in words or "unfoldable" in words or "data" in words or "record" in words):
                functions.add(name)
    return names, functions, fields - others


def snake(part):
    if part in LIBRARY:
        return LIBRARY[part]
    if re.match(r"[A-Z]", part):
        return part
    return re.sub(r"(?<=[a-z0-9'])([A-Z])", lambda m: "_" + m.group(1).lower(), part)


def respelled(name, known):
    parts = [snake(p) for p in name.split("-")]
    out = parts[0]
    for before, after in zip(parts, parts[1:]):
        out += ("-" if before in known and after in known else "_") + after
    return out


def taken(root):
    """Words that mean something already: identifiers of the source but its functions' names, and words of .antt files behind no dot."""
    words = set()
    for _, text in texts(root, "crates/*/src/**/*.rt"):
        code = re.sub(r"//[^\n]*|ghost use [^;]*;|\bfn \w+|\b\w+\(|\b\w+::|::\w+", " ", text)
        words |= set(re.findall(r"\b[a-z]\w*", code))
    for _, text in texts(root, "crates/*/specs/**/*.antt", "crates/*/proofs/**/*.antt"):
        words |= set(re.findall(r"(?<![^\s(){};,@])[^\s(){}.;,@\"«»]+", re.sub(r"--[^\n]*", "", text)))
    return words


def table(root):
    names, functions, fields = declared(root)
    known = KNOWN | {snake(f) for f in functions if f != snake(f) and "-" not in f}
    words = taken(root)
    new = {}
    for n in sorted(names, key=lambda n: ("-" in n, n)):
        m = respelled(n, known)
        if m == n:
            continue
        ending = LEMMA if "-" in n else OF
        if ending == OF and m.endswith(OF):
            m, ending = m[: -len(OF)], BY
        functions_word = re.search(r"\bfn " + re.escape(m) + r"\b", SOURCE(root)) and "-" in n and not m.endswith("_spec")
        whole = m if ending != BY else m + OF
        if n in fields:
            new[n] = whole
            continue
        new[n] = m + ending if whole in words or whole in new.values() or functions_word else whole
    return new


def SOURCE(root, held={}):
    if root not in held:
        held[root] = "".join(t for _, t in texts(root, "crates/*/src/**/*.rt"))
    return held[root]


def turn(text, rows):
    return WORD.sub(lambda m: rows.get(m.group(), m.group()), text)


def clauses(text, rows):
    """A .rt file with the names turned in its ghost items and clauses alone."""
    out, at = "", 0
    for m in re.finditer(r"ghost use [^;]*;|\b(?:requires|ensures|ghost)\b[*]?\s*(?:\w+\s*:?\s*)?\{", text):
        if m.start() < at:
            continue
        end = m.end()
        if m.group().endswith("{"):
            depth = 1
            while depth:
                depth += {"{": 1, "}": -1}.get(text[end], 0)
                end += 1
        out += text[at : m.start()] + turn(text[m.start() : end], rows)
        at = end
    return out + text[at:]


def edit(text, rows):
    """A must-fail edit: its lines of text, and not its headline."""
    return "\n".join(turn(l, rows) if re.match("(old|new):", l) else l for l in text.split("\n"))


def page(text, rows):
    """A document: what stands in backquotes."""
    return re.sub(r"`[^`\n]+`", lambda m: turn(m.group(), {f"{q}{a}{r}": f"{q}{b}{r}" for a, b in rows.items() for q in ("", "`") for r in ("", "`")}), text)


def collisions(root, rows):
    """New names that something else has already: a token of any file, with where."""
    seen = collections.defaultdict(set)
    for path, text in texts(root, "crates/*/specs/**/*.antt", "crates/*/proofs/**/*.antt", "crates/*/src/**/*.rt"):
        for w in set(WORD.findall(text)):
            seen[w].add(os.path.relpath(path, root))
    back = collections.defaultdict(list)
    for a, b in rows.items():
        back[b].append(a)
    for b, olds in sorted(back.items()):
        if len(olds) > 1:
            print("together:", b, olds)
        if b in seen and b not in rows:
            print("taken:", olds, "->", b, len(seen[b]), sorted(seen[b])[:6])


def main(argv):
    show = "--show" in argv
    rest = [a for a in argv if a != "--show"]
    root = rest[0] if rest else os.path.join(os.path.dirname(os.path.abspath(__file__)), "..")
    rows = table(root)
    if show:
        for a, b in sorted(rows.items()):
            print(a, "->", b)
        collisions(root, rows)
        return 0
    for patterns, turned in (
        (("crates/*/specs/**/*.antt", "crates/*/proofs/**/*.antt"), turn),
        (("crates/*/src/**/*.rt",), clauses),
        (("crates/*/must-fail/*.edit",), edit),
        (("README.md", "docs/*.md", "tests/*.md"), page),
        (("docs/STATEMENTS.md",), turn),
    ):
        for path, text in texts(root, *patterns):
            new = turned(text, rows)
            if new != text:
                with open(path, "w", encoding="utf-8") as it:
                    it.write(new)
    return 0


if __name__ == "__main__":
    raise SystemExit(main(sys.argv[1:]))
