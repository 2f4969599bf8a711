#!/usr/bin/env python3
"""Spells this repository's own names as today's Rattle spells names: words in snake case, types and facts in camel case.

usage: python3 tools/respell.py [--list]        at the top, once, behind port.py

Own names are those that the files of specs/ and proofs/ declare: definitions, lemmas, fields and bound names. They are
turned in .rt, .antt and .edit files. What a file imports from a library stays there, and so do the names that Rattle
makes in a function's answers. The names T, N, X and Y of the labeling keep their capitals, alone and within a name:
in small letters they would fall together with bound variables. `--list` prints old and new and changes nothing.
"""

import os
import re
import sys

NAME = r"[^\s(){}.;,@\"«»:]+"
TOKEN = re.compile(r"[^\s(){}.;,@\"«»:]+")
OWN = open("crates.txt").read()
OWN = {m.group(1) for m in re.finditer(r"(?m)^([a-z0-9_]+)", OWN)}
DECLARED = re.compile(
    rf"(?m)(?:^\s*(?:abbrev pub |abbrev |unfoldable pub |unfoldable |pub )?(record |data )?|\blet )({NAME})((?: *[({{](?:[^(){{}}\n]|\([^()\n]*\))*[)}}])*) :(?=\s)([^\n]*)"
)
BOUND = re.compile(rf"[({{]((?:{NAME} )+):\s|λ ((?:{NAME} ?)+)\.|\blet ({NAME}) =")
USE = re.compile(r"\buse ([^\s;{]+?)\.?\{([^}]*)\}")
MADE = re.compile(r"/proofs/.+/(Answers|Invariants|Proof|Choices)\.antt$")
HEADS = {"c", "l", "w", "g", "goal", "need", "given"}


def files():
    for folder, dirs, names in os.walk("crates"):
        dirs[:] = sorted(d for d in dirs if d != "out")
        for name in sorted(names):
            if name.endswith((".antt", ".rt", ".edit")):
                yield os.path.join(folder, name)


def bare(text):
    """The text without comments and strings, at the same places."""
    return re.sub(r'--[^\n]*|"(?:\\.|[^"\\\n])*"', lambda m: " " * len(m.group(0)), text)


def is_fact(kind, rest):
    """Whether a declaration is of a type or a fact, and not of a value."""
    return bool(kind) or rest.strip().endswith("Type 0")


def spelled(name, fact):
    if fact:
        return "".join(w[:1].upper() + w[1:] for w in re.split("[-_]", name))
    words = re.sub(r"(?<=[a-z])[A-Z]", lambda m: "_" + m[0].lower(), name) if name[0].islower() else name
    return words.replace("-", "_")


def declared():
    """Each own name with what it is to be spelled as."""
    turned = {}
    for path in files():
        text = open(path, encoding="utf-8").read()
        for line in re.findall(r"(?m)^(?:pub )?(?:ghost )?use [^\n]*", text):
            for name in re.findall(rf" as ({NAME})", line):
                if is_name(name):
                    turned.setdefault(name, spelled(name, False))
        if not path.endswith(".antt"):
            continue
        text = bare(text)
        made = MADE.search(path)
        for m in DECLARED.finditer(text):
            kind, name, _, rest = m.groups()
            if made and re.match(r"\s*(goal|need|given)\.", rest):
                continue
            if is_name(name):
                turned.setdefault(name, spelled(name, is_fact(kind, rest)))
        for m in BOUND.finditer(text):
            for name in (m.group(1) or m.group(2) or m.group(3)).split():
                if is_name(name):
                    turned.setdefault(name, spelled(name, False))
    return {k: v for k, v in turned.items() if k != v}


def is_name(name):
    return re.fullmatch(r"[A-Za-z][\w'ℕ-]*", name) and not name.endswith("-")


def lent(text):
    """The names that a file imports from a library or from what Rattle makes."""
    found = set()
    for m in USE.finditer(text):
        parts = m.group(1).split(".")
        own = parts[0] == "Rattle" and len(parts) > 1 and parts[1] in OWN
        if not own or parts[-1] in ("Goals", "Given", "Lets", "Lts"):
            found |= {it.strip().split(" as ")[0] for it in m.group(2).split(",")}
    return found


def main():
    turned = declared()
    if "--list" in sys.argv:
        for k in sorted(turned):
            print(k, turned[k])
        return
    taken = {}
    for path in files():
        text = open(path, encoding="utf-8").read()
        plain = bare(text) if path.endswith(".antt") else text
        keep = lent(plain) if not path.endswith(".edit") else set()
        made = MADE.search(path)
        labels = {m.group(1) for m in re.finditer(rf"(?m)^pub ({NAME}) : (?:goal|need|given)\.", plain)} if made else set()
        labels |= {m.group(1) for m in re.finditer(rf"(?m)^abbrev pub ({NAME}) : (?:goal|need|given)\.", plain)} if made else set()
        out, at = [], 0
        words = set(TOKEN.findall(plain))
        for m in TOKEN.finditer(plain):
            name = m.group(0)
            new = turned.get(name)
            if new is None or name in keep or name in labels:
                continue
            before = plain[: m.start()]
            head = re.search(rf"({NAME})\.$", before[-80:])
            if made and head and head.group(1) in HEADS:
                print(f"look: {path}: {head.group(1)}.{name} stays")
                continue
            if new in words:
                taken.setdefault((name, new), []).append(path)
            out.append(text[at : m.start()])
            out.append(new)
            at = m.end()
        out.append(text[at:])
        new_text = "".join(out)
        if new_text != text:
            open(path, "w", encoding="utf-8").write(new_text)
    for (a, b), paths in sorted(taken.items()):
        print(f"look: {a} is {b} now, which stood there already: {' '.join(paths)}")


main()
