#!/usr/bin/env python3
"""Brings the repository's own definitions, fields and lemmas to snake case: netsRead and each-from become nets_read and each_from.

usage: tools/respell.py [--list]     at the top of the repository, once, after /opt/rattle/port/port.py and before any edit by hand

It goes by text. What it renames is what a file of specs/ or proofs/ declares (a definition, a lemma, a field, a constructor that
begins with a small letter) or imports under a name of its own, in .antt files and in the ghost parts of .rt files. Names that Rattle makes (goals, steps) stay.
Types and modules begin with a capital and stay. With --list it prints the names and those that fall together, and writes nothing.
"""
import os
import re
import sys

STOPS = " \t\n(){}[];,\"`.λ→"
TOKEN = re.compile(r"[^\s(){}\[\];,\"`.λ→]+")
DECLARES = re.compile(r"^(?:abbrev |unfoldable |infix\S* )?(?:pub )?(?:abbrev |unfoldable )?([^\s(){}\[\];,\"`.:]+)(?: [^:=]*)?\s:(?:\s|$)")
IMPORTED_AS = re.compile(r" as ([a-z][a-z0-9]*[A-Z]\w*)")
FIELD = re.compile(r"^  +(?:abbrev |unfoldable )?(?:pub )?([^\s(){}\[\];,\"`.:]+)\s:(?:\s|$)")


def files(root):
    for folder, dirs, found in os.walk(os.path.join(root, "crates")):
        dirs[:] = sorted(d for d in dirs if d != "out")
        for f in sorted(found):
            if f.endswith((".antt", ".rt", ".edit")):
                yield os.path.join(folder, f)


def is_answers(path):
    return os.path.basename(path) in ("Answers.antt", "Invariants.antt", "Choices.antt", "Proof.antt")


def spelled(name):
    if not re.match(r"^[a-z]", name):
        return name
    name = re.sub(r"(?<=[a-z0-9])([A-Z])", lambda m: "_" + m.group(1).lower(), name)
    name = re.sub(r"([A-Z])", lambda m: m.group(1).lower(), name)
    return name.replace("-", "_").replace("′", "'")


def declared(path, text):
    """What a file declares, less the goals that it answers."""
    out = []
    for line in text.splitlines():
        if line.startswith("--"):
            continue
        m = DECLARES.match(line)
        if m and not line.startswith(("use ", "record ", "pub record ", "data ", "pub data ", " ")):
            if not re.search(r":\s*goal\.", line):
                out.append(m.group(1))
            continue
        if not is_answers(path):
            m = FIELD.match(line)
            if m:
                out.append(m.group(1))
    return out


def names(old, every, texts):
    """The new name of each: a lemma that would have the name of a definition, or of a word that a file already has, gets _lem."""
    stand = set()
    for p, text in texts.items():
        if p.endswith(".antt"):
            stand.update(declared(p, text))
            for line in re.findall(r"^use Rattle\.std\S*\.\{(.*)\}", text, re.M):
                stand.update(x.strip().split(" as ")[-1] for x in line.split(","))
    definitions = {spelled(n) for n in old if "-" not in n}
    turn = {}
    for n in old:
        new = spelled(n)
        if new in stand or ("-" in n and new in definitions):
            new += "_lem"
        turn[n] = new
    return turn


def main(argv):
    root = "."
    old, every, texts = {}, {}, {}
    for p in files(root):
        with open(p, encoding="utf-8") as f:
            texts[p] = f.read()
        if p.endswith(".antt"):
            for name in declared(p, texts[p]):
                new = spelled(name)
                if new != name:
                    old.setdefault(name, []).append(p)
        for names_of_use in re.findall(r"^(?:ghost )?use [^{;\n]*\{(.*?)\}", texts[p], re.S | re.M):
            for name in IMPORTED_AS.findall(names_of_use):
                old.setdefault(name, []).append(p)
        for t in TOKEN.findall(texts[p]):
            every.setdefault(t, set()).add(p)
    turn = names(old, every, texts)
    if "--list" in argv:
        by_new = {}
        for n, new in turn.items():
            by_new.setdefault(new, []).append(n)
        for n in sorted(turn):
            print(n, "->", turn[n])
        print("\nfall together:")
        for new, olds in sorted(by_new.items()):
            if len(olds) > 1:
                print("  ", new, olds)
        print("\nnew name stands already:")
        for n, new in sorted(turn.items()):
            if new in every:
                print("  ", n, "->", new, sorted(x.replace("./crates/", "") for x in every[new])[:6])
        return 0
    for p, text in texts.items():
        new = TOKEN.sub(lambda m: turn.get(m.group(0), m.group(0)), text)
        if new != text:
            with open(p, "w", encoding="utf-8") as f:
                f.write(new)
    print(f"respell: {len(turn)} names")
    return 0


if __name__ == "__main__":
    raise SystemExit(main(sys.argv[1:]))
