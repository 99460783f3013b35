#!/usr/bin/env python3
"""Brings the repository's own definitions, lemmas and fields to snake case: rightCode and right-code become right_code.

usage: python3 tools/respell.py [--check]     at the top of the repository, once, behind the toolchain's own script

It turns specs/, proofs/, contracts and `ghost use` lines, must-fail edits, and code spans of pages. What it leaves: names of the library,
functions of src/ and what the toolchain makes of them, strings, inputs and outputs. It prints the names that fall together. --check writes nothing.
"""
import collections
import os
import re
import sys

WORD = re.compile(r'[^\s(){}.;,@"«»]+')
COMMENT = re.compile(r'(?<![^\s(){}.;,@"«»])--[^\n]*')
DECLARED = re.compile(r'^\s*(?:(?:abbrev|unfoldable|opaque|infixl?r?|record|data|module) (?:\d+ )?)*(?:pub )?(?:(?:record|data) )?([^\s(){}.;,@"«»:]+)(?= :(?!\S)|\s*$)', re.M)
USE = re.compile(r"^(?:pub )?use ([^\s{]+?)(?:\.\{([^}]*)\}| as [^\s]+)?\s*$", re.M)
PLAIN = re.compile(r"[\w'◌Σ-]+$")
CLAUSE = re.compile(r"^\s*(?:requires|ensures|ghost use)\b")
# What the toolchain named in an older form: left to whoever mends the proof.
MADE = re.compile(r"^(?:Need|After|At|In|Free)-|^(?:enum-told|line-arg|calls-)|^(?:well-formed|type-inv|loop-test|shared-slice-.*|by_name-.*)$")


# Names of lemmas that a definition's new name falls on, and two variables that a definition's name falls on.
ASIDE = {"closing_after": "closing_after_lem", "is_open": "is_open_lem", "tables_after": "tables_after_lem", "n-at": "n_is", "m-at": "m_is"}


def snake(name):
    name = re.sub(r"(?<=[\w'])-(?=[\w'])", "_", name)
    return re.sub(r"(?<=[a-z0-9])([A-Z])(?![A-Z])", lambda m: "_" + m.group(1).lower(), name)


def files(ending):
    for top in ("crates",):
        for folder, dirs, names in os.walk(top):
            dirs[:] = sorted(d for d in dirs if d != "out")
            yield from (os.path.join(folder, n) for n in sorted(names) if n.endswith(ending))


def read(path):
    with open(path, encoding="utf-8") as f:
        return f.read()


def crates():
    return {l.split(":")[0].strip() for l in read("crates.txt").splitlines() if ":" in l and not l.startswith("#")}


def turns(word):
    return PLAIN.match(word) and word.strip("-◌") and not word.strip("◌")[:1].isupper() and snake(word) != word and not MADE.search(word)


def table():
    """Each own name that turns, with its new spelling."""
    own, library, declared, used, behind = crates(), set(), set(), set(), set()
    for path in files(".antt"):
        text = COMMENT.sub("", read(path))
        for m in USE.finditer(text):
            part = m.group(1).split(".")
            if not (part[0] == "Rattle" and len(part) > 1 and part[1] in own):
                library |= {n.strip().split(" as ")[0] for n in (m.group(2) or "").split(",")}
        declared |= {m.group(1) for m in DECLARED.finditer(text)}
        body = "\n".join(l for l in text.splitlines() if not re.match(r"(pub )?use ", l))
        for m in WORD.finditer(body):
            (behind if body[m.start() - 1 : m.start()] == "." else used).add(m.group())
    parts = {p for n in declared if "◌" in n for p in n.split("◌") if p}
    names = {n for n in (declared | used | (behind & declared) | parts) if turns(n)} - library
    spelled = {snake(n) for n in names if "-" not in n} | {n for n in declared | used if snake(n) == n}
    rows = {n: snake(n) + ("_lem" if "-" in n and snake(n) in spelled else "") for n in names}
    rows |= ASIDE
    return rows, set(ASIDE) | (behind - declared)


def turned(text, rows, spared):
    """The text with its own names turned. What stands behind a dot is a field or a module's name: turned where it is declared here."""

    def word(m):
        w = m.group()
        if w in rows and not (m.start() and text[m.start() - 1] == "." and w in spared):
            return rows[w]
        return w

    return WORD.sub(word, text)


def antt(text, rows, spared):
    out, at = [], 0
    for m in COMMENT.finditer(text):
        out += [turned(text[at : m.start()], rows, spared), span(m.group(), rows)]
        at = m.end()
    return "".join(out + [turned(text[at:], rows, spared)])


def span(text, rows):
    """Prose: names in code spans, and names that no English word can be."""
    text = re.sub(r"`[^`\n]+`", lambda m: turned(m.group().replace("`", " ` "), rows, ()).replace(" ` ", "`"), text)
    return WORD.sub(lambda m: rows[m.group()] if m.group() in rows and re.search("[a-z][A-Z]", m.group()) else m.group(), text)


def clauses(text, rows, spared):
    """Rust: the lines of contracts and ghost items alone."""
    out, deep = [], 0
    for line in text.split("\n"):
        if deep or CLAUSE.match(line):
            deep += line.count("{") - line.count("}")
            line = turned(line, rows, spared)
        out.append(line)
    return "\n".join(out)


def edit(text, rows, spared):
    target = re.search(r"^file: (\S+)", text, re.M).group(1)
    how = clauses if target.endswith(".rt") else antt
    return "\n".join(
        re.sub(r"^((?:old|new): ?)(.*)$", lambda m: m.group(1) + how(m.group(2), rows, spared), l) if re.match(r"(old|new):", l) else l
        for l in text.split("\n")
    )


def main():
    rows, spared = table()
    fall = collections.defaultdict(set)
    for old, new in rows.items():
        fall[new].add(old)
    for new, olds in sorted(fall.items()):
        if len(olds) > 1:
            print(f"together: {new}: {', '.join(sorted(olds))}")
    jobs = [(".antt", antt), (".rt", clauses), (".edit", edit)]
    changed = 0
    for ending, how in jobs:
        for path in files(ending):
            old = read(path)
            new = how(old, rows, spared)
            if new != old:
                changed += 1
                if "--check" not in sys.argv:
                    with open(path, "w", encoding="utf-8") as f:
                        f.write(new)
    pages = ["README.md", "tests/promises.sh"] + [os.path.join("docs", n) for n in sorted(os.listdir("docs")) if n.endswith(".md")]
    for path in pages:
        if not os.path.exists(path):
            continue
        old = read(path)
        new = span(old, {k: v for k, v in rows.items()})
        if new != old:
            changed += 1
            if "--check" not in sys.argv:
                with open(path, "w", encoding="utf-8") as f:
                    f.write(new)
    print(f"{len(rows)} names, {changed} files")


main()
