#!/usr/bin/env python3
"""Gives the repository's own definitions and lemmas the spelling of today's library, once, after the kit's port/port.py.

usage: python3 tools/respell.py [--list]     at the top of the repository

A name that some .antt file below crates/ declares (a definition, a lemma, a field, a constructor, a bound variable) and that has a dash
is spelled anew wherever it stands as a word of its own, in .antt files and in clauses of .rt files:

- a fact or a type (its signature ends in `Type 0`, or it is a record or data) in upper camel case: `Can-finish` is `CanFinish`;
- any other name in snake case: `most-ops` is `most_ops`, `P-of` is `P_of`.

A name of the library, a name that Rattle makes and a name of TODAY stay. A name that would meet another one gets the spelling of APART.
--list prints the table and changes nothing.
"""
import collections
import glob
import os
import re
import sys

WORD = r'[^\s(){}.;,@"«»`|\[\]]+'
# a declaration at a line's head, a bound variable, a `let`, a `λ`
HEAD = re.compile(rf'(?m)^[ ]*(?:(?:abbrev|unfoldable|opaque) )*(?:pub )?(?:(?:data|record) )?({WORD})((?: \{{[^{{}}]*\}}| \([^()]*\))*) :(?= |$)')
PUB = re.compile(rf'(?m)^[ ]*(?:abbrev |unfoldable )*pub (?:(?:data|record) )?({WORD})')
KIND = re.compile(rf'(?m)^[ ]*(?:abbrev |unfoldable )*(?:pub )?(data|record) ({WORD})')
BOUND = re.compile(rf'(?:\blet |λ |[({{])((?:{WORD}[ ])*{WORD}) ?[:.=]')
# Names of the library and of what Rattle makes, that texts here bind or cite with the same letters.
TODAY = set()
APART = {
    "Alike-front": "AlikeFront",
    "Reached-behind": "ReachedBehind",
    # names that port.py left in two spellings
    "Goes_on": "GoesOn",
    "Op_at": "OpAt",
    "Tells_same": "TellsSame",
    "no_Race": "no_race",
    "keeps-same": "keeps_same",
}


def texts(pattern):
    for path in sorted(glob.glob(pattern, recursive=True)):
        if "/out/" not in path:
            with open(path, encoding="utf-8") as f:
                yield path, f.read()


def bare(text):
    return re.sub(r'(?m)^\s*--.*$', '', text)


def is_lib_import(text):
    """The names that the file brings in from elsewhere than this repository."""
    found = set()
    for m in re.finditer(r'(?m)^\s*(?:ghost )?(?:pub )?use ([^\s{;]+)\.\{([^}]*)\}', text):
        path = m[1]
        own = path.startswith("Rattle.") and path.split(".")[1] in CRATES
        if not own:
            for it in m[2].split(","):
                found.add(it.strip().split(" as ")[-1].strip())
    return found


CRATES = {os.path.basename(p) for p in glob.glob("crates/*")}


def declared():
    kinds, lib = {}, set()
    for path, text in texts("crates/**/*.antt"):
        lib |= is_lib_import(text)
        text = bare(text)
        for m in KIND.finditer(text):
            kinds.setdefault(m[2], set()).add("type")
        for m in HEAD.finditer(text):
            rest = text[m.end():]
            end = re.search(r'\n(?=[ ]*(?:unfolding\b|' + re.escape(m[1]) + r'\b|\n|abbrev |unfoldable |pub |record |data |--|module ))|\Z', rest)
            sig = rest[:end.start()].strip()
            kinds.setdefault(m[1], set()).add("type" if re.search(r'(^|→ |: )Type( 0| 1)?( where)?$', sig) else "value")
        for m in PUB.finditer(text):
            kinds.setdefault(m[1], set())
        for m in BOUND.finditer(text):
            for w in m[1].split():
                kinds.setdefault(w, set()).add("bound")
    return kinds, lib


def camel(name):
    return "".join(p[:1].upper() + p[1:] for p in name.split("-"))


def table():
    kinds, lib = declared()
    out = {}
    for name, kind in kinds.items():
        if "-" not in name or name.startswith("-") or name.endswith("-") or not re.match(r"[^\W\d]", name) or name in lib or name in TODAY:
            continue
        if re.match(r"(Need|After|Goes|At)-", name) or name == "In-loop":
            continue
        if name in APART:
            out[name] = APART[name]
        elif "type" in kind and "value" not in kind:
            out[name] = camel(name)
        else:
            out[name] = name.replace("-", "_")
    # bound variables that only a clause's left side binds
    for path, text in texts("crates/*/specs/**/*.antt"):
        for name in re.findall(WORD, re.sub(r"--.*", "", text)):
            if "-" in name and re.match(r"[^\W\d]", name) and name not in lib and name not in out:
                out[name] = name.replace("-", "_")
    out.update(APART)
    return out, kinds, lib


SPELLED = re.compile(r'(?<![^\s(){}.;,@"«»`|\[\]])' + r'[^\s(){}.;,@"«»`|\[\]:?!\'’]+')


def respelled(line, names):
    return SPELLED.sub(lambda m: names.get(m[0], m[0]), line)


def main():
    if glob.glob("crates/*/proofs/**/Answers.antt", recursive=True):
        # names of goals have dashes: what was written after the port is spelled as it should be
        print("respell: this tree is past the port: nothing to do")
        return
    out, kinds, lib = table()
    if "--list" in sys.argv:
        for a, b in sorted(out.items()):
            print(a, b, *sorted(kinds[a]))
        return
    new = collections.Counter(out.values())
    for b, n in new.items():
        if n > 1:
            print("fall together:", b, [a for a in out if out[a] == b])
    changed = 0
    for pattern in ("crates/**/*.antt", "crates/**/*.rt"):
        for path, text in texts(pattern):
            was = text
            # a name that a file has already in its new spelling is told: it may be hidden or meet the other
            words = set(re.findall(WORD, bare(text)))
            for a in sorted(words & set(out)):
                if out[a] in words:
                    print("meets:", path, a, out[a])
            here = dict(out)
            if path.endswith("rules/specs/Service.antt") or re.search(r"use Rattle\.rules\.specs\.Service\.\{[^}]*\banswers\b", text):
                # a fact of one word
                here["answers"] = "Answers"
            text = text.replace("Service.answers", "Service.Answers")
            said = "\n".join(respelled(line, out if line.lstrip().startswith(("--", "//")) else here) for line in text.split("\n"))
            if said != was:
                with open(path, "w", encoding="utf-8") as f:
                    f.write(said)
                changed += 1
    print(f"respell: {len(out)} names, {changed} files")


main()
