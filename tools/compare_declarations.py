#!/usr/bin/env python3
"""Lays the declarations of specs/ in an older tree beside today's: each must stand in specs/ or proofs/ with the same statement.

usage: python3 tools/compare_declarations.py OLD [--moved]     at the top of the repository

OLD is a folder with the older commit on which port.py and tools/respell.py were run, so that only spelling is gone (docs/PORT.md says
how). A declaration is known by its file's name (in proofs/ by another one, where only one file there has it), its own name and the
sections round it. Compared are its statement and, for what is defined, its text, with white space made even; local ones, of a `where` or a
`let`, too. --moved prints the statements of those that moved from specs/ to proofs/.
Ends with 1 if one is missing or differs.
"""
import glob
import os
import re
import sys

WORD = r'[^\s(){}.;,@"«»`|\[\]]+'
GROUP = r"(?:\{(?:[^{}]|\{[^{}]*\})*\}|\((?:[^()]|\((?:[^()]|\([^()]*\))*\))*\))"
DECLARED = re.compile(rf"\s*((?:abbrev |unfoldable )?(?:pub )?(?:data |record )?)({WORD})((?: {GROUP})*) :(?= |$)(.*)")


def indent(line):
    return len(line) - len(line.lstrip())


def even(text):
    return re.sub(r"\s+", " ", text).strip()


def section(lines, i):
    """The header of a section `module _ .. where` that begins at line i, and the line behind it."""
    head = lines[i].strip()
    while not head.endswith("where"):
        i += 1
        head += " " + lines[i].strip()
    return head, i + 1


def declaration(lines, i, m):
    """Statement and text of the declaration at line i, and the line behind its statement."""
    depth, said, j = indent(lines[i]), m[3] + " :" + m[4], i + 1
    while j < len(lines) and lines[j].strip() and indent(lines[j]) > depth:
        said += " " + lines[j].strip()
        j += 1
    text, k = "", j
    own = re.compile(re.escape(m[2]) + r"(?![\w-])")
    while k < len(lines):
        line = lines[k]
        if line.strip() and (indent(line) < depth or indent(line) == depth and not (line.strip().startswith("unfolding") or own.match(line.strip()))):
            break
        text += " " + line
        k += 1
    return (m[1].strip(), even(said), even(text)), j


def declarations(folder):
    found = {}
    for path in sorted(glob.glob(folder + "/**/*.antt", recursive=True)):
        with open(path, encoding="utf-8") as f:
            lines = re.sub(r"(?m)^\s*--.*\n", "", f.read()).split("\n")
        round_it, i = [], 0
        while i < len(lines):
            line = lines[i]
            if not line.strip():
                i += 1
                continue
            while round_it and round_it[-1][0] >= indent(line):
                round_it.pop()
            m = DECLARED.match(line)
            if line.strip().startswith("module _ "):
                head, after = section(lines, i)
                round_it.append((indent(line), even(head)))
                i = after
            elif m and not line.lstrip().startswith("use"):
                key = (os.path.basename(path), m[2], " ".join(h for _, h in round_it))
                is_local = indent(line) != (round_it[-1][0] + 2 if round_it else 0)
                one, i = declaration(lines, i, m)
                found.setdefault(key, []).append((*one, is_local))
            else:
                i += 1
    return found


def compare(crate, old, moved):
    was = declarations(f"{old}/crates/{crate}/specs")
    specs, proofs = declarations(f"crates/{crate}/specs"), declarations(f"crates/{crate}/proofs")
    differ = 0
    left = {}
    for key, one in was.items():
        now = specs.get(key)
        elsewhere = [k for k in proofs if k[1:] == key[1:]] if now is None else []
        if now is None and (key in proofs or len(elsewhere) == 1):
            now = proofs[key if key in proofs else elsewhere[0]]
            if not one[0][3]:
                left.setdefault(key[0], []).append((key, one))
        if now is None or [d[1:3] for d in now] != [d[1:3] for d in one]:
            differ += 1
            print(f"{crate}/{key[0]}: {key[1]} {'is gone' if now is None else 'differs'}")
        elif [d[0] for d in now] != [d[0] for d in one]:
            print(f"{crate}/{key[0]}: {key[1]}: '{one[0][0]}' is '{now[0][0]}' now")
    count = sum(len(d) for d in left.values())
    whole = sum(not d[0][3] for d in was.values())
    print(f"{crate}: {whole} declarations and {len(was) - whole} local ones, {differ} differ or are gone, {count} moved to proofs/, {len(set(specs) - set(was))} new in specs/")
    if moved:
        for name, those in left.items():
            print(f"\n{name}")
            for (_, what, inside), one in those:
                print(f"    {what}{one[0][1]}" + (f"    -- in {inside}" if inside else ""))
    return differ


def main(argv):
    if not argv or argv[0].startswith("-"):
        print(__doc__)
        return 2
    old = argv[0]
    crates = sorted(c for c in os.listdir(f"{old}/crates") if os.path.isdir(f"{old}/crates/{c}/specs"))
    return 1 if sum(compare(c, old, "--moved" in argv) for c in crates) else 0


if __name__ == "__main__":
    raise SystemExit(main(sys.argv[1:]))
