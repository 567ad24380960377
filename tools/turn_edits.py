#!/usr/bin/env python3
"""Turns the must-fail edits of the older spelling to today's.

usage: python3 tools/turn_edits.py tree FOLDER     makes FOLDER: the repository at LANDED, and beside each file that an edit changes
                                                   the file as that edit makes it; then port.py and tools/respell.py turn all of it
       python3 tools/turn_edits.py write FOLDER    writes crates/*/must-fail/*.edit by what differs there between a file and its edited one

An edit keeps its name, its leading comment and its file. Its pairs are as long as the old ones, in words, or as they must be to stand once
in the file as it is today. What this script cannot say in pairs of one line each is printed; HAND has the edits that are written by hand.
"""
import difflib
import glob
import json
import os
import re
import subprocess
import sys

LANDED = "101d492a707928439e2dda3df832d783afe88875"
# Edits whose text was mended by hand: this script leaves them.
HAND = {
    "demands/check-with-any-place",
    "demands/crc-of-any-value",
    "demands/follow-with-any-report",
    "demands/premise-that-always-holds",
    "demands/run-of-some-calls",
    "rules/refusal-3-before-2",
    "rules/refusal-9-before-8",
    "search/answers-the-last",
    "searches/receives-take-what-they-find",
    "waiting/answers-the-last",
    "waiting/skips-the-first-defined",
    "waiting/takes-anothers-message",
}


def kit():
    """The folder of the kit: where the page lies that it says to read first."""
    return os.path.dirname(subprocess.run(["rt", "doc"], check=True, capture_output=True, text=True).stdout.strip())


def parse(text):
    """The comment lines, and the pairs as (file, old, new)."""
    head, pairs, path, old = [], [], "", None
    for line in text.split("\n"):
        if line.startswith("file: "):
            path = line[6:].strip()
        elif line.startswith("old: "):
            old = line[5:]
        elif line.startswith("new:"):
            pairs.append((path, old, line[4:].removeprefix(" ")))
        elif line.strip():
            head.append(line)
    return head, pairs


def git(*words):
    return subprocess.run(["git", *words], check=True, capture_output=True, text=True).stdout


def edits():
    """(path of the edit, its text at LANDED), in order."""
    names = git("ls-tree", "-r", "--name-only", LANDED, "crates/").splitlines()
    return [(n, git("show", f"{LANDED}:{n}")) for n in names if re.fullmatch(r"crates/\w+/must-fail/[^/]+\.edit", n)]


def variant(number, path):
    folder, name = os.path.split(path)
    return f"{folder}/zz_e{number:03}_{name}" if name.endswith(".rt") else f"{folder}/ZzE{number:03}{name}"


def tree(folder):
    os.makedirs(folder)
    archive = subprocess.run(["git", "archive", LANDED], check=True, capture_output=True).stdout
    subprocess.run(["tar", "-x", "-C", folder], input=archive, check=True)
    table = []
    for number, (edit, text) in enumerate(edits()):
        crate = edit.split("/must-fail/")[0]
        _, pairs = parse(text)
        texts = {}
        for path, old, new in pairs:
            at = f"{crate}/{path}"
            if at not in texts:
                with open(f"{folder}/{at}", encoding="utf-8") as f:
                    texts[at] = f.read()
            assert texts[at].count(old) == 1, (edit, old)
            texts[at] = texts[at].replace(old, new)
        for at, edited in texts.items():
            table.append([edit, at, variant(number, at)])
            with open(f"{folder}/{variant(number, at)}", "w", encoding="utf-8") as f:
                f.write(edited)
    with open(f"{folder}/EDITS.json", "w", encoding="utf-8") as f:
        json.dump(table, f, indent=0)

    def run(*words):
        subprocess.run(words, cwd=folder, check=True)

    run("git", "init", "-q")
    run("git", "config", "user.email", "none")
    run("git", "config", "user.name", "none")
    run("git", "add", "-A")
    run("git", "commit", "-qm", "LANDED, with the files that its edits make")
    run("python3", os.path.join(kit(), "port", "port.py"))
    run("git", "add", "-A")
    run("git", "commit", "-qm", "port.py")
    run("python3", os.path.abspath("tools/respell.py"))
    run("git", "add", "-A")
    run("git", "commit", "-qm", "respell.py")

# a token: a word, a bracket or a sign
TOKEN = re.compile(r"[\w'\u25cc]+|\s+|&&|\|\||\+\+|::|[<>=]=|[-=]>|[^\w\s]")


def tokens(text):
    return TOKEN.findall(text)


def regions(was, edited):
    """The differing places, as (start, end, new text) in the text as it was: white space apart, token by token."""
    a = [(m.start(), m[0]) for m in TOKEN.finditer(was) if not m[0].isspace()]
    b = [(m.start(), m[0]) for m in TOKEN.finditer(edited) if not m[0].isspace()]
    head = 0
    while head < min(len(a), len(b)) and a[head][1] == b[head][1]:
        head += 1
    tail = 0
    while tail < min(len(a), len(b)) - head and a[-1 - tail][1] == b[-1 - tail][1]:
        tail += 1
    mid_a, mid_b = a[head : len(a) - tail], b[head : len(b) - tail]
    found = []
    for op, i1, i2, j1, j2 in difflib.SequenceMatcher(None, [w for _, w in mid_a], [w for _, w in mid_b], autojunk=False).get_opcodes():
        if op != "equal":
            i1, i2, j1, j2 = (n + head for n in (i1, i2, j1, j2))
            front, back = (a[i1 - 1][0] + len(a[i1 - 1][1]), b[j1 - 1][0] + len(b[j1 - 1][1])) if i1 else (0, 0)
            if i1 < i2:
                start, end = a[i1][0], a[i2 - 1][0] + len(a[i2 - 1][1])
            else:
                start = end = front
            text = edited[b[j1][0] : b[j2 - 1][0] + len(b[j2 - 1][1])] if j1 < j2 else ""
            # the white space before and behind, as the edited file has it, where it stands in one line
            next_a, next_b = a[i2][0] if i2 < len(a) else len(was), b[j2][0] if j2 < len(b) else len(edited)
            if j1 < j2:
                lead = edited[back : b[j1][0]]
                trail = edited[b[j2 - 1][0] + len(b[j2 - 1][1]) : next_b]
                if i1 == i2 and "\n" in lead and "\n" in was[front:next_a]:
                    # it begins a line
                    start = end = next_a
                    text += trail
                elif "\n" not in was[front:start] and was[front:start] != lead:
                    text = lead + text
                    start = front
                    if i1 == i2 and "\n" not in was[front:next_a]:
                        end, text = next_a, text + trail
                elif i1 == i2:
                    text = lead + text
                    if "\n" not in was[front:next_a]:
                        end, text = next_a, text + trail
                elif "\n" not in was[end:next_a] and was[end:next_a] != trail:
                    end, text = next_a, text + trail
            elif "\n" not in was[front:next_a]:
                start, end, text = front, next_a, edited[back:next_b]
            elif "\n" not in was[front:start]:
                start = front
            else:
                end = next_a
            found.append((start, end, re.sub(r"\s*\n\s*", " ", text)))
    # places of one line become one
    joined = []
    for start, end, text in found:
        if joined and "\n" not in was[joined[-1][1] : start]:
            s, e, t = joined[-1]
            joined[-1] = (s, end, t + was[e:start] + text)
        else:
            joined.append((start, end, text))
    return joined


def open_ends(text):
    """How many brackets the text closes that it does not open."""
    low = depth = 0
    for c in text:
        depth += (c in "([{") - (c in ")]}")
        low = min(low, depth)
    return -low


def widen(was, today, start, end, left, right, closes):
    """The shortest stretch about start..end, in its line, that stands once in today's text, as wide as left and right tokens where it can be."""
    line_start, line_end = was.rfind("\n", 0, start) + 1, was.find("\n", end)
    before = [m for m in TOKEN.finditer(was[line_start:start])]
    behind = [m for m in TOKEN.finditer(was[end:line_end])]

    def at(n_before, n_behind):
        s = line_start + before[-n_before].start() if n_before else start
        e = end + behind[n_behind - 1].end() if n_behind else end
        return s, e

    tries = []
    for i in range(len(before) + 1):
        for j in range(len(behind) + 1):
            s, e = at(i, j)
            old = was[s:e]
            if not old or old != old.rstrip() or old != old.lstrip() and s != line_start:
                continue
            if today.count(old) == 1:
                tries.append((abs(i - left) + abs(j - right) + 2 * (old != old.lstrip()) + 3 * abs(open_ends(old) - closes), i, j, s, e))
    return min(tries)[3:] if tries else None


def reach(old, new):
    """How many tokens of an old pair stand on both sides of what it changes. (A dash was a letter of a name, and a field stood apart.)"""
    a, b = (tokens(re.sub(r" \.(?=\w)", ".", re.sub(r"(?<=\w)[-·](?=\w)", "_", it))) for it in (old, new))
    left = 0
    while left < min(len(a), len(b)) and a[left] == b[left]:
        left += 1
    right = 0
    while right < min(len(a), len(b)) - left and a[-1 - right] == b[-1 - right]:
        right += 1
    return left, right


def write(folder):
    with open(f"{folder}/EDITS.json", encoding="utf-8") as f:
        table = json.load(f)
    landed = dict(edits())
    of = {}
    for edit, at, there in table:
        of.setdefault(edit, []).append((at, there))
    left_over = 0
    for edit, files in of.items():
        if re.sub(r"crates/(\w+)/must-fail/(.*)\.edit", r"\1/\2", edit) in HAND:
            continue
        head, pairs = parse(landed[edit])
        out, bad, last = list(head), [], None
        for at, there in files:
            inside = at.split("/", 2)[2]
            with open(f"{folder}/{at}", encoding="utf-8") as f:
                was = f.read()
            with open(f"{folder}/{there}", encoding="utf-8") as f:
                edited = f.read()
            if at.endswith("rules/specs/Service.antt"):
                # respell.py knows that file by its name
                edited = re.sub(r"\banswers\b", "Answers", edited)
            with open(at, encoding="utf-8") as f:
                today = f.read()
            mine = [p for p in pairs if p[0] == inside]
            places = regions(was, edited)
            if not places:
                bad.append("nothing differs")
            if len(places) != len(mine):
                bad.append(f"{len(places)} places and {len(mine)} pairs")
            for n, (start, end, text) in enumerate(places):
                left, right = reach(*mine[n][1:]) if len(places) == len(mine) else (3, 3)
                closes = open_ends(mine[n][1]) if len(places) == len(mine) else 0
                if "\n" in was[start:end]:
                    bad.append(f"over several lines: {was[start:end]!r} -> {text!r}")
                    continue
                it = widen(was, today, start, end, left, right, closes)
                if not it:
                    bad.append(f"stands not once: {was[was.rfind(chr(10), 0, start) + 1 : was.find(chr(10), end)]!r}")
                    continue
                s, e = it
                if last != inside:
                    out.append(f"file: {inside}")
                    last = inside
                new = was[s:start] + text + was[end:e]
                out += [f"old: {was[s:e]}", f"new: {new}"]
                today = today.replace(was[s:e], new)
            for inside_of, o, n in parse("\n".join(out))[1]:
                if inside_of == inside:
                    was = was.replace(o, n)
            if "".join(was.split()) != "".join(edited.split()):
                bad.append(f"{at}: its pairs don't make the edited file")
        if bad:
            left_over += 1
            print(edit, *bad, sep="\n    ")
        with open(edit, "w", encoding="utf-8") as f:
            f.write("\n".join(out) + "\n")
    print(f"turn_edits: {len(of)} edits, {left_over} to look at")


if __name__ == "__main__":
    if sys.argv[1:2] == ["tree"]:
        tree(sys.argv[2])
    elif sys.argv[1:2] == ["write"]:
        write(sys.argv[2])
    else:
        print(__doc__)
        sys.exit(2)
