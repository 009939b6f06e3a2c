#!/usr/bin/env python3
"""Brings the names of this repository's own definitions and lemmas to the spelling of the language: types in camel case, all else in snake case.

usage: tools/respell.py [--list] [FOLDER]      FOLDER has crates/; --list writes nothing and shows each old and new name, and the names that fall together

It goes by text, once, on files that still have dashes in such names. Names that the prover makes, names of its library, strings and code outside of
clauses keep their spelling; a lemma on a fact keeps its dash behind the fact's name, as in All-more.
"""
import collections
import os
import re
import sys

WORD = re.compile(r'[^\s(){}.;,@"«»`]+')
COMMENT = re.compile(r"(?<![^\s(){}.;,])--[^\n]*")
MODIFIERS = r"(?:(?:abbrev|unfoldable|pub|data|record|mutual|private) +)*"
# heads of declarations, binders and locals
HEAD = re.compile(r"^ *(?:where +)?" + MODIFIERS + r"([^\s(){}.;,@\"«»]+)(?= [^=\n]*:| *:)", re.M)
TYPED = re.compile(r"^ *" + MODIFIERS + r"(?:data|record) +([^\s(){}.;,@\"«»]+)", re.M)
BOUND = re.compile(r"[({] *((?:[^\s(){}.;,@\"«»:]+ +)+):")
LET = re.compile(r"\blet +([^\s(){}.;,@\"«»]+) *(?::|=)")
LAMBDA = re.compile(r"λ +((?:[^\s(){}.;,@\"«»]+ *)+)\.")
LEFT = re.compile(r"^ *([a-z][^\s(){}.;,@\"«»:=]*)((?: +[^\s(){}.;,@\"«»:=]+)*) +=", re.M)
ANSWER = re.compile(r"^ *" + MODIFIERS + r"([^\s(){}.;,@\"«»]+) *: *(?:goal|need|needs|step)\.", re.M)
STD = re.compile(r"\buse +Rattle\.(?:std|core|sep)[^\s{]*\{([^}]*)\}")
MADE = re.compile(
    r"^(?:invariant|decreases|loop|returns|overflow|slice|index|if|then|else|in|bounds|unwrap|cast|type)-|-requires(?:-|$)|^type-inv$|-index$"
)
# words of clauses in .rt
GHOST = re.compile(r"ghost\s+use\b[^;]*;")


def files(root, ends):
    for folder, dirs, names in os.walk(os.path.join(root, "crates")):
        dirs[:] = sorted(d for d in dirs if d != "out")
        for name in sorted(names):
            if name.endswith(ends):
                yield os.path.join(folder, name)


def read(path):
    with open(path, encoding="utf-8") as f:
        return f.read()


def plain(name):
    return "-" in name and re.match(r"[A-Za-z]", name) is not None and re.fullmatch(r"[\w'-]+", name) is not None


def spelled(name, facts):
    if name[0].isupper() and name not in facts:
        return name
    if name[0].isupper():
        return "".join(part[0].upper() + part[1:] for part in name.split("-"))
    return name.replace("-", "_")


def own(root):
    """The names with dashes that this repository declares, and those of them that are types."""
    names, facts, std, made = set(), set(), set(), set()
    for path in files(root, ".antt"):
        text = COMMENT.sub("", read(path))
        made |= set(ANSWER.findall(text))
        for items in STD.findall(text):
            std |= set(WORD.findall(items))
        lemmas = os.path.basename(os.path.dirname(path)) in ("specs", "proofs")
        heads = set(HEAD.findall(text)) | set(LET.findall(text))
        for group in BOUND.findall(text) + LAMBDA.findall(text):
            heads |= set(group.split())
        for head, rest in LEFT.findall(text):
            heads.add(head)
        if not lemmas:
            heads = {n for n in heads if not MADE.search(n)}
        facts |= set(TYPED.findall(text))
        facts |= {m for m in re.findall(r"^ *abbrev pub ([^\s(){}.;,@\"«»]+)(?: [^\n]*)?: (?:[^\n]*→ )?Type 0$", text, re.M)}
        names |= heads | facts
    names = {n for n in names if plain(n) and n not in std and n not in made}
    return names, {f for f in facts if plain(f)}, std


def blocks(text):
    """The spans of clauses, ghost items and ghost members in a .rt file."""
    for m in GHOST.finditer(text):
        yield m.span()
    for m in re.finditer(r"\b(?:requires|ensures|ghost)\b[^{;\n]*\{", text):
        depth, i = 1, m.end()
        while depth and i < len(text):
            depth += {"{": 1, "}": -1}.get(text[i], 0)
            i += 1
        yield (m.start(), i)
    for m in re.finditer(r"//[^\n]*", text):
        for span in re.finditer(r"`[^`]*`", m.group()):
            yield (m.start() + span.start(), m.start() + span.end())


def turn(text, table):
    return WORD.sub(lambda m: table.get(m.group(), m.group()), text)


def main():
    args = sys.argv[1:]
    listing = "--list" in args
    args = [a for a in args if a != "--list"]
    root = args[0] if args else "."
    names, facts, std = own(root)
    table = {n: spelled(n, facts) for n in names}
    table = {a: b for a, b in table.items() if a != b}
    seen = collections.Counter()
    for path in files(root, (".antt", ".rt")):
        seen.update(WORD.findall(COMMENT.sub("", read(path))))
    if listing:
        for a in sorted(table):
            print(a, table[a], "FALLS TOGETHER" if seen[table[a]] else "", "STD" if table[a] in std else "")
        rest = {w for w in seen if plain(w) and w not in table and w not in std}
        print("LEFT:", " ".join(sorted(rest)))
        return
    for path in files(root, (".antt", ".rt")):
        text = read(path)
        if path.endswith(".antt"):
            new = turn(text, table)
        else:
            new = text
            for a, b in sorted(set(blocks(text)), reverse=True):
                new = new[:a] + turn(new[a:b], table) + new[b:]
        if new != text:
            with open(path, "w", encoding="utf-8") as f:
                f.write(new)


main()
