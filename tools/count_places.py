#!/usr/bin/env python3
"""Counts the places of docs/DESIGN-PASS.md in src/, one point after another.

usage: tools/count_places.py [-l] [COMMIT]      the working tree, or a commit; -l lists each place as well

It goes by the text of the sources. What a count takes for a place is said beside it in the page.
"""

import collections
import difflib
import itertools
import re
import subprocess
import sys

LIST = "-l" in sys.argv[1:]
WORDS = [word for word in sys.argv[1:] if word != "-l"]
COMMIT = WORDS[0] if WORDS else None


def run(*words):
    return subprocess.run(words, check=True, capture_output=True, text=True).stdout


def sources(end, folder):
    """The files below crates/ whose path has the folder and the ending, each with its text."""
    if COMMIT:
        names = run("git", "ls-tree", "-r", "--name-only", COMMIT, "crates").splitlines()
    else:
        names = run("git", "ls-files", "--cached", "--others", "--exclude-standard", "crates").splitlines()
    for name in names:
        if name.endswith(end) and folder in name:
            if COMMIT:
                yield name, run("git", "show", COMMIT + ":" + name)
            else:
                try:
                    with open(name, encoding="utf-8") as file:
                        yield name, file.read()
                except FileNotFoundError:
                    pass


SRC = [(name, text) for name, text in sources(".rt", "/src/")]
LINES = [
    (name, number, line)
    for name, text in SRC
    for number, line in enumerate(text.split("\n"), 1)
    if not line.lstrip().startswith("//")
]


def said(point, what, places):
    print(f"{point}  {what}: {len(places)}")
    if LIST:
        for place in places:
            print(f"      {place}")


def lines(pattern):
    return [f"{name}:{number}: {line.strip()}" for name, number, line in LINES if re.search(pattern, line)]


FUNCTION = re.compile(r"^( *)(?:pub(?:\([a-z]+\))? )?(?:extern \"C\" )?fn (\w+)")


def functions():
    """Each function: its crate and name, its parameters, its facts in requires, and its body."""
    for name, text in SRC:
        rows = text.split("\n")
        at = 0
        while at < len(rows):
            begins = FUNCTION.match(rows[at])
            at += 1
            if not begins:
                continue
            indent = begins.group(1)
            end = at
            while end < len(rows) and rows[end] != indent + "}":
                end += 1
            whole = rows[at - 1 : end]
            head, body = [], []
            for row in whole:
                (body if body or row == indent + "{" or row.endswith(") {") or re.search(r"-> [^{]*\{$", row) else head).append(row)
            yield name.split("/")[1] + "::" + begins.group(2), "\n".join(head + body[:1]), head, body[1:]


def parameters(head):
    inner = re.search(r"\((.*?)\)(?: ->|\s*\{|\s*$|\n)", head, re.S)
    names = re.findall(r"(?:mut )?(\w+): ", inner.group(1)) if inner else []
    return [name for name in names if name not in ("rt", "alloc")]


def facts(head):
    """The facts of the clauses that ask something, each part of a product for itself."""
    for row in head:
        clause = re.match(r"\s*requires (?:\w+ )?\{ (.*) \}$", row)
        if clause:
            text = clause.group(1)
            if "×" in text and "→" not in text:
                for part in text.split(" × "):
                    yield part.strip("()") if part.count("(") == part.count(")") else part
            else:
                yield text


ALL = list(functions())

said("1", "structs with a number and a place of their own", lines(r"pub number: u32,"))
said("1", "enums", lines(r"^\s*(pub(\(crate\))? )?enum "))
said("1", "a number that is asked whether it is none", lines(r"\b(number|blocks|tasks|modes|left) [!=]= 0\b"))
said("1", "a number answered as a rule's, or as none", lines(r"^\s*return [0-9]+;|number: [0-9]+,"))
said("1", "arms by the number of a kind", lines(r"^\s*[0-9]+( \| [0-9]+)* => "))
said("1", "a flag beside a value, or a number for a yes", lines(r"pub(\(crate\))? (whole|made|finished): (bool|u32)|-> u32 .*// 1|finished: u32"))


def shape(body):
    text = "\n".join(row.split("//")[0] for row in body)
    return re.findall(r"\w+|[^\w\s]", text)


pairs = []
shapes = [(name, shape(body)) for name, _, _, body in ALL]
for (one, a), (other, b) in itertools.combinations(shapes, 2):
    if min(len(a), len(b)) >= 12 and max(len(a), len(b)) <= 1.5 * min(len(a), len(b)):
        match = difflib.SequenceMatcher(None, a, b, autojunk=False)
        if match.quick_ratio() > 0.8 and match.ratio() > 0.8:
            pairs.append(f"{one} and {other}: {match.ratio():.2f}")
said("2", "pairs of functions whose bodies agree by more than 0.8", pairs)

said("3", "loops that count an index by hand", lines(r"^\s*while "))

said("4", "conversions by functions of our own", lines(r"octets::(wide|index|offset|word|low|high)\("))
said("4", "printing word by word", lines(r"io::(write_all|print_decimal)"))
said("4", "functions that compare, choose or fill by hand", lines(r"fn (least|same\w*|begins|marked|letters_sound|clear|over_and_over|repeat)\b"))

named = collections.defaultdict(set)
for function, _, head, _ in ALL:
    for fact in facts(head):
        named[fact].add(function)
said("5", "facts that three or more functions ask", [f"{fact}: {len(who)} functions" for fact, who in sorted(named.items()) if len(who) >= 3])

groups = collections.defaultdict(set)
for function, head, _, _ in ALL:
    for group in itertools.combinations(sorted(parameters(head)), 3):
        groups[group].add(function)
said("5", "groups of three parameters that four or more functions take", [f"{', '.join(group)}: {len(who)}" for group, who in sorted(groups.items()) if len(who) >= 4])

said("6", "arrays of numbers in place of a struct", lines(r"^(pub )?type \w+ = \[(u32|Counter); |-> \[u32; [0-9]\]|: \[u32; Flow::ROOM_FOR_WORKERS\],|= \[0u32; 3\]"))
said("6", "buffers with a length beside", lines(r"io::(read_full|large_buffer)\("))

said("7", "switches on which step or call to make", lines(r"match (stage|call|name|code|reason)\b|if call == "))

walks = [name for name, _ in sources("Proof.antt", "/proofs/")]
said("8", "proofs that walk the code step by step", walks)
count = sum(text.count("\n") for name, text in sources(".antt", "/proofs/"))
print(f"8  lines of proofs: {count}")
