#!/usr/bin/env python3
"""Lists, for each point of docs/DESIGN-PASS.md, the lines of crates/*/src that may be a place of it.

Run it at the top of the repository; with --list it prints the lines, else their number. What a line is,
reading decides: the page says which of them count.
"""
import collections
import glob
import re
import sys

PATTERNS = [
    ("1 refusals as numbers", r"\bnumber: [0-9]+,|\brefusal\([0-9]+\)"),
    ("1 enums", r"^\s*(pub(\(crate\))? )?enum "),
    ("1 flags", r"-> bool|\b\w+: bool\b"),
    ("1 sentinels", r"index\.len\(\)$|9999|\b99\b|=> 0,$"),
    ("3 loops", r"^\s*(for|while|loop)\b"),
    ("3 counted by hand", r"^\s*(while|loop)\b|^\s*for \w+ in .*\.\.|\.enumerate\(\)"),
    ("4 bytes put together or taken apart", r"256 \*|\* 256|/ 256|% 256"),
    ("4 conversions by as", r" as (u8|u16|u32|u64|usize)\b"),
    ("4 derives without equality", r"derive\(Clone, Copy\)"),
    ("4 field by field", r"\b\w+\.(number|place|label|rest|standings)\b.* == |let (number|place) = fault"),
    ("6 arrays", r"\[[A-Za-z0-9_<>]+; [A-Za-z0-9_]+\][,;) ]"),
    ("7 kinds of a step", r"LeafKind|\bfn\(|\bdyn "),
]


def sources():
    return sorted(glob.glob("crates/*/src/**/*.rt", recursive=True))


def end_of(text, start):
    """Where the bracket closes that opens before `start`."""
    depth, at = 1, start
    while depth:
        depth += (text[at] in "([{") - (text[at] in ")]}")
        at += 1
    return at


def pieces(text):
    """The parameters of a list, split at its own commas."""
    depth, piece = 0, ""
    for c in text.replace("->", "  "):
        depth += (c in "([{<") - (c in ")]}>")
        if c == "," and depth == 0:
            yield piece.strip()
            piece = ""
        else:
            piece += c
    if piece.strip():
        yield piece.strip()


def contracts():
    """Each function with its parameters and the facts of its clauses."""
    for name in sources():
        text = open(name).read()
        for m in re.finditer(r"^[ \t]*(?:pub(?:\(crate\))? )?fn (\w+)(?:<[^(]*>)?\(", text, re.M):
            close = end_of(text, m.end())
            body = re.search(r"^[ \t]*\{[ \t]*(\}|\n)|;[ \t]*$", text[close:], re.M)
            head = text[close:close + (body.start() if body else 0)]
            facts = set()
            for clause in re.finditer(r"(?:requires|ensures)\s*\w*\s*\{(.*?)\}\s*(?=\n|$)", head, re.S):
                for fact in re.split(r" × ", re.sub(r"\s+", " ", clause[1])):
                    facts.add(re.sub(r"\.(now|old|new)\b", "", fact.strip(" ()")))
            yield name, m[1], list(pieces(text[m.end():close - 1])), facts


def main():
    listed = "--list" in sys.argv
    for point, pattern in PATTERNS:
        found = [f"{name}:{n}: {line.strip()}" for name in sources()
                 for n, line in enumerate(open(name).read().split("\n"), 1) if re.search(pattern, line)]
        print(f"{point}: {len(found)}")
        if listed:
            print("".join(f"    {x}\n" for x in found), end="")
    long, where = [], collections.defaultdict(set)
    for name, function, parameters, facts in contracts():
        if len(parameters) >= 5:
            long.append(f"{name}: {function}, {len(parameters)}")
        for fact in facts:
            where[fact].add((name, function))
    shared = [f"{len(v)}: {k}" for k, v in sorted(where.items(), key=lambda x: -len(x[1])) if len(v) >= 3]
    for point, found in (("5 five parameters or more", long), ("5 facts in three contracts or more", shared)):
        print(f"{point}: {len(found)}")
        if listed:
            print("".join(f"    {x}\n" for x in found), end="")
    answers = [a for a in glob.glob("crates/*/proofs/**/*.antt", recursive=True)]
    goals = sum(len(re.findall(r"^(?:abbrev )?pub [^ ]+ : goal\.", open(a).read(), re.M)) for a in answers)
    print(f"8 answers: {goals}")
    print(f"8 lines of proofs: {sum(len(open(a).read().splitlines()) for a in answers)}")


main()
