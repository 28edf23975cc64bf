#!/usr/bin/env python3
"""Respells the repository's own definitions and lemmas: words in snake case, types in camel case.

usage: python3 tools/respell.py [--dry] [ROOT]

Run once, right after the kit's port.py. It looks for names with a dash that an .antt file of specs/ or proofs/ declares (definitions, lemmas, records and their
fields), leaves those that Rattle makes itself (goals, invariants), and writes the new spelling wherever such a name stands: in .antt files outside comments, in .rt files
only in ghost items and clauses. Strings, comments, functions and everything else of src/ keep their text. `must-fail/*.edit` are left for the hand.
It says where two names would fall together, or where a new name stands already, and goes on: each such line is for the hand to look at.
"""
import collections
import os
import re
import sys

# what Rattle makes: names of goals, invariants and measures
MADE = re.compile(r"^(loop|returns|invariant|decreases|overflow|bounds|offset|index|ghost|requires|ensures|in|then|else|if|bill-page-requires|sound-law|the)-"
                  r"|-(requires|ensures|preserved|init|law)$")
# own names that the pattern above would take for Rattle's
OWN = {"index-card", "index-terms", "in-month"}
# names whose plain respelling is a field of src/
OTHER = {"daily-excess": "day_excess", "accumulated-excess": "accumulation_excess"}
NAME = r"[A-Za-z_][\w']*(?:-[\w']+)+"
DECLARED = re.compile(r"^\s*(?:(?:abbrev|unfoldable|pub|record|data)\s+)*(" + NAME + r")(?=\s*(?:\(|\{|:|where\b))[^=]*:")
TOKEN = re.compile(r"(?<![\w'-])(" + NAME + r")(?![\w'-])")


def files(root, ending):
    for folder, dirs, names in os.walk(os.path.join(root, "crates")):
        dirs[:] = sorted(d for d in dirs if d != "out")
        for n in sorted(names):
            if n.endswith(ending):
                yield os.path.join(folder, n)


def new_name(old):
    if old in OTHER:
        return OTHER[old]
    parts = old.split("-")
    if old[0].isupper():
        return "".join(p[0].upper() + p[1:] for p in parts)
    return "_".join(parts)


def split_comment(line, mark):
    """The line up to a comment, and the comment."""
    at = line.find(mark)
    return (line, "") if at < 0 else (line[:at], line[at:])


def declared(root):
    found = {}
    for path in files(root, ".antt"):
        with open(path, encoding="utf-8") as f:
            for line in f:
                m = DECLARED.match(split_comment(line, "-- ")[0])
                if m and (m.group(1) in OWN or not MADE.search(m.group(1))):
                    found.setdefault(m.group(1), path)
    return found


def ghost_spans(text):
    """The parts of a .rt file that are ghost: `ghost use` items, ghost members, and clauses up to their closing brace."""
    for m in re.finditer(r"(?m)^[ \t]*(?:pub(?:\([a-z]+\))? )?ghost use [^;]*;|(?m:^[ \t]*)(?:ghost|requires\*?|ensures\*?)\b[^{};]*\{", text):
        if m.group(0).rstrip().endswith(";"):
            yield m.start(), m.end()
            continue
        depth, at = 1, m.end()
        while depth and at < len(text):
            depth += {"{": 1, "}": -1}.get(text[at], 0)
            at += 1
        yield m.end(), at


def respell(path, renamed, code):
    with open(path, encoding="utf-8") as f:
        text = f.read()
    put = lambda t: TOKEN.sub(lambda m: renamed.get(m.group(1), m.group(1)), t)
    if code:
        out, last = [], 0
        for a, b in sorted(ghost_spans(text)):
            if a < last:
                continue
            out += [text[last:a], put(text[a:b])]
            last = b
        new = "".join(out + [text[last:]])
    else:
        new = "".join(put(a) + b for a, b in (split_comment(l, "-- ") for l in text.splitlines(keepends=True)))
    return text, new


def main(argv):
    dry = "--dry" in argv
    rest = [a for a in argv if a != "--dry"]
    root = rest[0] if rest else "."
    found = declared(root)
    renamed = {o: new_name(o) for o in found}
    back = collections.defaultdict(list)
    for o, n in renamed.items():
        back[n].append(o)
    bad = [f"{', '.join(os_)} would all be {n}" for n, os_ in back.items() if len(os_) > 1]
    used = collections.defaultdict(set)
    for path in files(root, ".antt"):
        with open(path, encoding="utf-8") as f:
            for line in f:
                for w in re.findall(r"(?<![\w'-])[A-Za-z_][\w']*(?![\w'-])", split_comment(line, "-- ")[0]):
                    if w in back:
                        used[w].add(path)
    for w, ps in sorted(used.items()):
        bad.append(f"{w} stands already in {', '.join(sorted(ps)[:4])}")
    if bad:
        print("\n".join("together: " + b for b in bad))
    for path in list(files(root, ".antt")) + list(files(root, ".rt")):
        old, new = respell(path, renamed, path.endswith(".rt"))
        if old != new and not dry:
            with open(path, "w", encoding="utf-8") as f:
                f.write(new)
    print(f"respell: {len(renamed)} names")
    if dry:
        for o in sorted(renamed):
            print(f"  {o} -> {renamed[o]}")


if __name__ == "__main__":
    main(sys.argv[1:])
