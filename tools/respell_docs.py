#!/usr/bin/env python3
"""Gives names of definitions and laws that pages cite in backquotes the spelling that they have in crates/ today, once.

usage: python3 tools/respell_docs.py [--list] PAGE..     at the top of the repository

A word in backquotes with a dash in it is such a name where crates/ has its spelling in snake case or in upper camel case as a word of
its own (where both stand there, the one that begins as it does: a fact or a type has a capital). Names of files stay.
"""
import glob
import os
import re
import sys

WORD = r"[^\s(){}.;,@\"«»`|\[\]/:]+"
FILES = {os.path.basename(p).rsplit(".", 1)[0] for p in glob.glob("**/*", recursive=True) if "/out/" not in p}


def words_of_crates():
    found = set()
    for p in glob.glob("crates/**/*.antt", recursive=True) + glob.glob("crates/**/*.rt", recursive=True):
        if "/out/" not in p:
            with open(p, encoding="utf-8") as f:
                found |= set(re.findall(WORD, re.sub(r"(?m)^\s*(--|//).*$", "", f.read())))
    return found


def main():
    here, lists = words_of_crates(), "--list" in sys.argv
    for page in [it for it in sys.argv[1:] if it != "--list"]:
        with open(page, encoding="utf-8") as f:
            text = f.read()

        def spelled(w):
            if "-" not in w or not re.match(r"[A-Za-z]", w) or w in FILES or w.endswith("-"):
                return w
            snake, camel = w.replace("-", "_"), "".join(it[:1].upper() + it[1:] for it in w.split("-"))
            fits = [it for it in ((camel, snake) if w[0].isupper() else (snake, camel)) if it in here]
            if fits:
                if lists:
                    print(page, w, fits[0])
                return fits[0]
            print(f"{page}: {w} stays")
            return w

        # (the old notation of a field, `f .number`, is today's `f.number`)
        said = re.sub(r"`[^`\n]+`", lambda m: re.sub(WORD, lambda w: spelled(w[0]), m[0]), text)
        if said != text and not lists:
            with open(page, "w", encoding="utf-8") as f:
                f.write(said)


main()
