#!/usr/bin/env python3
"""Counts the places of the design pass's points in crates/*/src, and prints each.

    python3 tools/count_places.py [COMMIT] [--list]

Without COMMIT the files of the checkout are read. A point is one or several patterns over the lines of .rt files, comments left out;
docs/DESIGN-PASS.md says what each pattern is for. With --list every place is printed, as file:line: text.
"""
import re
import subprocess
import sys

PATTERNS = {
    "1a own enum of two cases, one with a value": None,  # over whole enums, below
    "1b a flag in a struct beside a value": r"^\s*(pub )?(ok|refused|failed): bool,",
    "1c a function that answers number and place": r"\) -> Answer\b|^\) -> Answer\b",
    "1d an index past the end for none": r"fn (find|found_at|lowest)\(.*-> usize",
    "1e a kind, a state, a flag or a verdict tested as a number":
        r"\b(kind|flag|state_of|cut_of|state|k|verdict|number)(\([^()]*\))? ?(==|!=) ?\d|\b[12] <= (k|state|rows::)|\bk <= \d",
    "1f a kind, a state or a verdict passed as a number":
        r"(set_state|pend|put_bare|put_row|halting)\([^()]*\b\d\b[^()]*\)|^\s*[0-5],$",
    "2 a pair of functions that differ in a type, a name or a constant": r"TWIN",
    "3 a loop that counts or walks by hand": r"^\s*(while|loop)\b",
    "4a a cast": r"\bas (u8|u16|u32|u64|usize)\b",
    "4b 1 or 0 of a test": r"\{\s*1\s*\} else \{\s*0\s*\}",
    "4c the larger, the smaller, what is left, by hand":
        r"if (\w+ < \w+|\w+ <= [\w.]+) \{ [\w. -]+ \} else \{ [\w.]+ \}",
    "4d a field copied under its own name": r"^\s*(\w+): \1,$",
    "4e bytes put or numbers spelled one by one": r"\bs\[at( \+ \w+)?\] = |wide\(|/ 256\b|% 256\b|line\[at|out\[i\] =",
    "5a the sheet's layout in a clause": r"\bLaid (s|sheet|bytes)\.(now|old)",
    "5b scratch's room in a clause": r"scratch_size ≤ length (c|scratch|self|bytes)\b",
    "5c the script tables, the fields or the whole sheet's rules in a clause": r"\b(Tabled|Fielded|Valid) \(sheet_in",
    "5d sheet, scratch and control block side by side": None,  # over whole heads of functions, below
    "5e source, communicator and tag side by side": None,
    "6a tables side by side, or a length beside a buffer": r"(starts|sources): &(mut )?\[|count: usize,?$|, count: usize[,)]",
    "7a a switch on which rule to run": r"match rule\b|enum Rule\b",
    "7b a switch on one of two stores or lists": r"match (w|list|q|self) \{",
}

# Functions that were one another's twins, by name: where both stand, that is a place.
TWINS = [
    ("limits", "boards_size", "board_rows_size", "SECOND_BOARD_SIZE * p"),
    ("account", "charge", "charging", "fn charging"),
    ("account", "release", "releasing", "fn releasing"),
    ("waiting", "asks_for", "asks_for_at", "fn asks_for_at"),
    ("waiting", "fits_at", "fits_in", "fn fits_in"),
    ("search", "source_asked", "tag_asked", "fn tag_asked"),
    ("steps", "message_in", "receive_in", "fn receive_in"),
    ("steps", "post", "pend", "fn post"),
    ("premise", "ops::refusal", "cover::refusal", "pub fn refusal(s: &[u8], w: Store)"),
    ("report", "bit", "places::bit", "fn bit("),
    ("steps", "waiting half asked", "in able and in turn", "places::waiting_of(c, r) | ops::is_only_half(s, i)"),
    ("fields", "script_refusal", "requests::script_refusal", "rule: Rule, r: usize"),
    ("crc", "wide16", "words::wide", "fn wide16"),
    ("jamturret_c", "the exports", "jamturret's services", "jamturret::jamturret_check(sheet)"),
    ("searches_c", "the exports", "searches' functions", "searches::searches_in_slices(sources"),
]

# Parameters that travel together, by name.
TOGETHER = {
    "5d sheet, scratch and control block side by side": ("s", "c", "t"),
    "5e source, communicator and tag side by side": ("source", "communicator", "tag"),
}


def sources(commit):
    if commit is None:
        names = subprocess.run(["git", "ls-files", "crates/*/src/*.rt"], capture_output=True, text=True, check=True).stdout.split()
        return {n: open(n, encoding="utf-8").read() for n in names}
    names = subprocess.run(["git", "ls-tree", "-r", "--name-only", commit, "crates"], capture_output=True, text=True, check=True).stdout.split()
    names = [n for n in names if n.endswith(".rt") and "/src/" in n]
    return {n: subprocess.run(["git", "show", f"{commit}:{n}"], capture_output=True, text=True, check=True).stdout for n in names}


def places(files):
    found = {point: [] for point in PATTERNS}
    for name, text in files.items():
        lines = text.split("\n")
        for number, line in enumerate(lines, 1):
            code = line.split("//")[0].rstrip()
            if not code.strip() or code.lstrip().startswith("ghost use"):
                continue
            for point, pattern in PATTERNS.items():
                if pattern and pattern != "TWIN" and re.search(pattern, code):
                    found[point].append(f"{name}:{number}: {code.strip()}")
        for m in re.finditer(r"\bfn (\w+)(?:<[^>]*>)?\(([^)]*)\)", text):
            for point, names in TOGETHER.items():
                if all(re.search(rf"\b{n}: ", m.group(2)) for n in names):
                    found[point].append(f"{name}:{text[: m.start()].count(chr(10)) + 1}: fn {m.group(1)}")
        for m in re.finditer(r"enum (\w+)(?:<[^>]*>)? \{\n((?:[^}]|\n)*?)\n\}", text):
            cases = [c.strip() for c in m.group(2).split("\n") if c.strip() and not c.strip().startswith("//")]
            if len(cases) == 2 and sum("(" in c for c in cases) == 1:
                number = text[: m.start()].count("\n") + 1
                found["1a own enum of two cases, one with a value"].append(f"{name}:{number}: enum {m.group(1)}")
    for crate, one, other, mark in TWINS:
        if any(mark in text for name, text in files.items()):
            found["2 a pair of functions that differ in a type, a name or a constant"].append(f"{crate}: {one} and {other}")
    return found


def main():
    arguments = [a for a in sys.argv[1:] if a != "--list"]
    found = places(sources(arguments[0] if arguments else None))
    for point, lines in found.items():
        print(f"{len(lines):4}  {point}")
        if "--list" in sys.argv:
            for line in lines:
                print(f"        {line}")


if __name__ == "__main__":
    main()
