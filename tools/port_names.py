#!/usr/bin/env python3
"""Brings the repository's own definitions and lemmas to the spelling of today's language.

Run once, at the top, after the toolchain's own port script. Types are in upper camel case and everything else in snake
case; a dash stays only where a lemma's name joins the names of two functions, as in `length-digest`. Where a proof cites a
name that is made from the source (a goal, a step), the source's own spelling stands in it again.
Code outside clauses, strings, exported names, inputs and outputs are left alone.
"""
import collections
import os
import re
import sys

TOP = sys.argv[1] if len(sys.argv) > 1 else "."
TOKEN = re.compile(r"[\w\-'′₀-₉]+")
HEADS = ("abbrev", "unfoldable", "pub", "data", "record", "ruleset")
LIST_WORDS = {"length", "take", "drop", "append", "map", "set", "sum", "reverse", "replicate", "all", "cond"}
LIBRARIES = re.compile(r"use (?:Rattle\.std|mathlib|Prim|borrow|denote|lib)\b[^{;\n]*\.\{([^}]*)\}")


def files(*ends):
    for folder, names, found in os.walk(os.path.join(TOP, "crates")):
        names[:] = sorted(n for n in names if n != "out")
        for name in sorted(found):
            if name.endswith(ends):
                yield os.path.join(folder, name)


def read(path):
    with open(path, encoding="utf-8") as f:
        return f.read()


def declared():
    """name -> set of kinds: type, def, lemma, field, con"""
    names = collections.defaultdict(set)
    made, library = set(), set()
    for path in files(".antt"):
        text = read(path)
        for m in LIBRARIES.finditer(text):
            for item in m.group(1).split(","):
                library.update(part.strip() for part in item.split(" as "))
        lines = text.split("\n")
        inside = None
        for i, line in enumerate(lines):
            if not line or line.startswith(("--", "use ", "mod ", "pub mod ", "unfolding", "open ")):
                continue
            if line[0] != " ":
                words = line.split()
                heads = []
                while words and words[0] in HEADS:
                    heads.append(words.pop(0))
                inside = None
                if not words:
                    continue
                name = words[0]
                if "data" in heads or "record" in heads:
                    inside = "con" if "data" in heads else "field"
                    names[name].add("type")
                elif "ruleset" in heads:
                    names[name].add("lemma")
                elif len(words) > 1 and words[1] == ":":
                    kind = " ".join(words[2:])
                    if kind.startswith(("goal.", "given.")):
                        made.add(name)
                    elif "abbrev" in heads or "unfoldable" in heads:
                        names[name].add("type" if name[0].isupper() else "def")
                    else:
                        names[name].add("lemma")
            elif inside and re.match(r"  \S", line):
                m = re.match(r"  (?:pub )?((?:[^\s:()]+ )+):", line)
                if m:
                    for name in m.group(1).split():
                        names[name].add(inside)
    return names, made, library


def spelling(name, kinds, words):
    parts = re.split(r"[-_]", name)
    if "type" in kinds and name[0].isupper():
        return "".join(p[:1].upper() + p[1:] for p in parts if p)
    if "lemma" in kinds and kinds == {"lemma"}:
        for i in range(1, len(parts)):
            left, right = "_".join(parts[:i]), "_".join(parts[i:])
            if left in words and right in words and (left in LIST_WORDS or right in LIST_WORDS):
                return left + "-" + right
    return name.replace("-", "_")


def source_names():
    """identifiers of the source that have an underscore"""
    found = set()
    for path in files(".rt"):
        found.update(re.findall(r"\b[a-z][a-z0-9]*(?:_[a-z0-9]+)+\b", read(path)))
    return found


def renamed(text, table):
    return TOKEN.sub(lambda m: table.get(m.group(0), m.group(0)), text)


def renamed_source(text, table):
    """all but string literals"""
    parts = re.split(r'("(?:[^"\\]|\\.)*")', text)
    return "".join(p if i % 2 else renamed(p, table) for i, p in enumerate(parts))


def renamed_page(text, table):
    """what stands between backticks"""
    return re.sub(r"`[^`\n]+`", lambda m: renamed(m.group(0), table), text)


# words of the language in the names that it makes
WORDS = re.compile(r"(?<![^\-])(?:in-(?:default|ok|err)|overflow-(?:add|sub|mul|cast|shl|shr|step)|type-inv|invariant-of)(?![^\-])")


def made_names(text, pattern, kept):
    """names made from the source, with the source's spelling in them"""
    def turn(m):
        token = m.group(0)
        if "-" not in token or token in kept:
            return token
        token = pattern.sub(lambda n: n.group(0).replace("-", "_"), token)
        return WORDS.sub(lambda n: n.group(0).replace("-", "_"), token)
    return TOKEN.sub(turn, text)


def main():
    names, made, library = declared()
    words = {n.replace("-", "_") for n, k in names.items() if "def" in k} | LIST_WORDS
    table = {}
    for name, kinds in names.items():
        if name in library or name in made:
            continue
        new = spelling(name, kinds, words)
        if new != name:
            table[name] = new
    back = collections.defaultdict(list)
    for old, new in table.items():
        back[new].append(old)
    for new, olds in sorted(back.items()):
        if len(olds) > 1 or new in names or new in library:
            print("falls together:", new, olds, "declared" if new in names else "", "library" if new in library else "")
    source = sorted((s.replace("_", "-") for s in source_names()), key=len, reverse=True)
    pattern = re.compile(r"(?<![^\-.])(?:" + "|".join(map(re.escape, source)) + r")(?![^\-.])")
    kept = set(table.values()) | set(names) | library
    for path in files(".antt", ".rt", ".edit"):
        old = read(path)
        new = renamed_source(old, table)
        if path.endswith(".antt") and re.search(r"/proofs/.*(Answers|Invariants|Choices|Proof)\.antt$", path):
            new = made_names(new, pattern, kept)
        if new != old:
            with open(path, "w", encoding="utf-8") as f:
                f.write(new)
    pages = [os.path.join(TOP, "README.md")]
    pages += [os.path.join(TOP, "docs", n) for n in os.listdir(os.path.join(TOP, "docs")) if n.endswith(".md")]
    for path in pages:
        old = read(path)
        new = renamed_page(old, table)
        if new != old:
            with open(path, "w", encoding="utf-8") as f:
                f.write(new)
    print(len(table), "names respelled")


main()
