#!/usr/bin/env python3
"""Respells the repository's own definitions and lemmas: words in snake case, types in camel case.

usage: python3 tools/respell.py            at the top of the repository, once, after the toolchain's own scripts

A name turns if a file of specs/ or a lemma file of proofs/ declares it. What the toolchain makes (the labels of goals and of
facts in Answers, Invariants and Choices) and what a file imports from the library stays. In comments and documents only what
stands in backquotes turns, and a hyphened name that begins with a capital letter.
"""

import os
import re
import sys

WORD = r"[^\s(){}.;,@\"«»`\[\]]+"
PLAIN = re.compile(r"[A-Za-z_][\w'?₀-₉]*(?:-[\w'?]+)+")
DECLARED = re.compile(r"(?m)^ *(?:(?:pub|abbrev|unfoldable|data|record|instance) +)*(" + WORD + r")(?=\s)(?:[^\n]*?(?::|where)|[^\n]*=)")
OF_PROOFS = re.compile(r"/proofs/.+/(Answers|Invariants|Choices|Proof)\.antt$")
USE = re.compile(r"(?m)^(?:ghost )?use ([^\s;{]+)(?:\{([^}]*)\})?")
# What would fall together with a word of the library.
APART = {"bit-or": "bit_of_or", "bit-and": "bit_of_and"}


def respelled(name):
    if name in APART:
        return APART[name]
    name = name.replace("getD", "get_or")
    if name[0].isupper():
        return "".join(word[:1].upper() + word[1:] for word in name.split("-"))
    return name.replace("-", "_")


def files(ends):
    for folder, folders, names in os.walk("."):
        folders[:] = sorted(f for f in folders if f not in (".git", "out", "target", "tools"))
        for name in sorted(names):
            if name.endswith(ends):
                yield os.path.join(folder, name)


def read(path):
    with open(path, encoding="utf-8") as f:
        return f.read()


def own_crates():
    return {line.split(":")[0].split()[0] for line in read("crates.txt").splitlines() if ":" in line}


def declared():
    """The names that turn, and the texts that were read for them."""
    found = set()
    for path in files(".antt"):
        if OF_PROOFS.search(path):
            continue
        code = re.sub(r"(?m)(?:^|(?<=\s))--(?=\s|$).*$", "", read(path))
        for name in re.findall(DECLARED, code):
            if PLAIN.fullmatch(name):
                found.add(name)
    for path in files(".antt"):
        if not OF_PROOFS.search(path):
            continue
        text = read(path)
        for m in re.finditer(r"(?m)^(?:abbrev )?(?:pub )?(" + WORD + r")(?: \{[^}\n]*\})* : (.*)$", text):
            if PLAIN.fullmatch(m[1]) and "goal." not in m[2] and "need." not in m[2] and "given." not in m[2]:
                found.add(m[1])
    return found


def staying(text, crates, path):
    """The names that stay in this file: labels that the toolchain makes, and what the library has."""
    stay = set()
    for m in USE.finditer(text):
        steps = m[1].strip(".").split(".")
        names = [n.split(" as ")[0].strip() for n in (m[2] or "").split(",")]
        if steps[0] != "Rattle" or steps[1] not in crates or steps[-1] in ("Goals", "Given"):
            stay |= set(names)
    if OF_PROOFS.search(path):
        stay |= set(re.findall(r"(?m)^(?:abbrev )?(?:pub )?(" + WORD + r") : (?:goal|need|given)\.", text))
    return stay


def turn_code(code, turned, stay, of_proofs):
    return re.sub(r"((?:[^\s(){};,@\"«»`\[\]]*\.)?)(" + PLAIN.pattern + r")(?![\w'?-])", lambda m: turn_chain(m, turned, stay, of_proofs), code)


def turn_chain(m, turned, stay, of_proofs):
    head, name = m[1], m[2]
    before = m.string[m.start() - 1 : m.start()] if m.start() else ""
    if before and re.match(r"[\w'-]", before):
        return m[0]
    if of_proofs and re.fullmatch(r"(?:goal|need|given|c|l|w|g)\.", head):
        return m[0]
    if head:
        parts = head.split(".")
        first = of_proofs and parts[0] in ("goal", "need", "given", "c", "l", "w", "g")
        for i, part in enumerate(parts):
            if part in turned and part not in stay and not (first and i == 1):
                parts[i] = turned[part]
        head = ".".join(parts)
    if name in turned and name not in stay:
        name = turned[name]
    return head + name


def turn_comment(comment, turned):
    comment = re.sub(r"`([^`\n]*)`", lambda m: "`" + re.sub(PLAIN.pattern, lambda n: turned.get(n[0], n[0]), m[1]) + "`", comment)
    return re.sub(r"(?<![\w`-])" + PLAIN.pattern, lambda m: turned[m[0]] if m[0][0].isupper() and m[0] in turned else m[0], comment)


# Where a comment begins in a line.
COMMENT = {".antt": re.compile(r"(?:^|(?<=\s))--(?=\s|$)"), ".rt": re.compile(r"(?<!:)//")}


def turn_text(text, turned, crates, path):
    begins = COMMENT[os.path.splitext(path)[1]]
    stay = staying(text, crates, path)
    of_proofs = bool(OF_PROOFS.search(path))
    lines = []
    for line in text.split("\n"):
        m = begins.search(line)
        at = m.start() if m else len(line)
        lines.append(turn_code(line[:at], turned, stay, of_proofs) + turn_comment(line[at:], turned))
    return "\n".join(lines)


def main():
    crates = own_crates()
    turned = {name: respelled(name) for name in declared()}
    texts = {path: read(path) for path in files((".antt", ".rt", ".md"))}
    words = set()
    for path, text in texts.items():
        if path.endswith(".antt"):
            words |= set(re.findall(WORD, text))
    meet = {}
    for old, new in sorted(turned.items()):
        meet.setdefault(new, []).append(old)
        if new in words:
            print(f"look: {old} becomes {new}, which stands already")
    for new, olds in meet.items():
        if len(olds) > 1:
            print(f"refused: {' '.join(olds)} all become {new}")
            return 1
    for path, text in texts.items():
        if path.endswith(".md"):
            new = "\n".join(turn_comment(line, turned) for line in text.split("\n"))
        else:
            new = turn_text(text, turned, crates, path)
        if new != text:
            with open(path, "w", encoding="utf-8") as f:
                f.write(new)
    print(f"{len(turned)} names respelled")
    return 0


sys.exit(main())
