#!/usr/bin/env python3
"""Writes names of the source as the source spells them, in what proof files cite of a function's steps and clauses:
c.same-outputs-outputs.ensures.says-whether-x becomes c.same_outputs-outputs.ensures.says_whether_x.

usage: tools/keep_underscores.py    at the top of the repository, after tools/respell.py

It goes by text: an identifier with underscores that stands in any crate's src/ is looked for, with dashes, among the parts of each
name with dashes in a function's proof files; the longest is taken first.
"""
import glob
import re

TOKEN = re.compile(r"[^\s(){}\[\];,\"`.λ→↦|]+")


# Rattle's own words of several parts.
OWN = re.compile(
    r"(?<![^-+])(overflow-(add|sub|mul|shl|shr|cast|step|neg)|nonzero-(div|rem)|(offset|slice)-bounds|(invariant|shape)-of|no-deeper"
    r"|type-inv|yielded-by|len-below|len-at-least|[iI]n-(default|ok|err)|call-mut|element-fits|array-long|items-fit)(?![^-+'])"
)


# Functions of std that proof files cite as steps.
OF_STD = "from_residual deref_mut as_slice extend_from_slice push_reserved with_capacity as_mut from_slice split_at as_mut_slice as_bytes as_str write_all index_mut is_none is_some is_ok is_err"


def identifiers():
    out = set(OF_STD.split())
    for p in glob.glob("crates/*/src/**/*.rt", recursive=True):
        with open(p, encoding="utf-8") as f:
            text = re.sub(r"//[^\n]*", "", f.read())
        text = re.sub(r"ghost use [^;]*;", "", text)
        out.update(re.findall(r"\b[a-z][a-z0-9]*(?:_[a-z0-9]+)+\b", text))
    return {tuple(x.split("_")) for x in out}


def turned(token, known, longest):
    parts = token.split("-")
    out, i = [], 0
    while i < len(parts):
        for n in range(min(longest, len(parts) - i), 1, -1):
            if tuple(parts[i : i + n]) in known:
                out.append("_".join(parts[i : i + n]))
                i += n
                break
        else:
            out.append(parts[i])
            i += 1
    return OWN.sub(lambda m: m.group(0).replace("-", "_"), "-".join(out))


def imported(text):
    out = set()
    for path, names in re.findall(r"^use (\S+?)\.\{(.*?)\}", text, re.S | re.M):
        if path.endswith("Goals"):
            continue
        out.update(x.strip() for y in names.split(",") for x in y.split(" as "))
    return out


def main():
    known = identifiers()
    longest = max(map(len, known))
    changed = 0
    for p in glob.glob("crates/*/proofs/**/*.antt", recursive=True):
        if p.split("/")[-1] not in ("Answers.antt", "Invariants.antt", "Proof.antt"):
            continue
        with open(p, encoding="utf-8") as f:
            text = f.read()
        stay = imported(text)

        def turn(m):
            t = m.group(0)
            if "-" not in t or t.startswith("--") or t in stay:
                return t
            return turned(t, known, longest)

        new = "\n".join(l if l.startswith(("--", "use ")) and "Goals." not in l else TOKEN.sub(turn, l) for l in text.split("\n"))
        if new != text:
            changed += 1
            with open(p, "w", encoding="utf-8") as f:
                f.write(new)
    print(f"keep_underscores: {changed} files")


if __name__ == "__main__":
    main()
