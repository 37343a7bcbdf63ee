#!/usr/bin/env python3
"""tools/respell.py: brings this repository's own definitions and lemmas to the spelling of today's Rattle.

Run it once, at the top, right after the toolchain's port.py. Names of specs/ and of the lemma files of proofs/ that are in camel case
or have dashes become snake case; a dash stays where it joins two names (`length-append`), and a name that begins with a type keeps its
first dash. It turns whole words in .antt files, in the clauses and ghost items of .rt files, in weakenings.txt, and in code spans of
.md files. Names of src/, strings, inputs and outputs stay. Where two names fall together in one file, it says so. `--list` only prints
the table.
"""
import collections
import glob
import os
import re
import sys

WORD = re.compile(r'[^\s(){}.;,@"«»`\[\]]+')
DECLARED = re.compile(r'\s*(?:(?:where|pub|abbrev|unfoldable|pattern|axiom|data|record) )*([^\s(){}.;,@":«»]+)(?= (?:[({][^:].*)?: )')
# functions whose laws are lemmas named `function-what`: the library's of lists, and the tree's
SUBJECTS = {"length", "map", "take", "drop", "reverse", "append", "cond", "root", "path", "consistency"}
# the library's own new words
WORDS = {"getD": "get_or", "sha256": "sha256"}
# lemmas that would fall together with the function that they speak of
APART = {
    n: n.replace("-", "_") + "_lem"
    for n in (
        "until-revocation", "from-revocation", "due-at-ten", "is-response", "is-for", "first-long",
        "with-authority", "with-log", "with-monitor", "with-relying",
    )
}
# and those that port.py respelled already, with the crates whose proofs have them
LEMMAS = {"goes_on": "parties", "same_bytes": "parties system", "too_large": "parties", "one_by_one": "wire_theory"}


def antt_files():
    for folder in ("specs", "proofs"):
        yield from sorted(glob.glob(f"crates/*/{folder}/**/*.antt", recursive=True))


def declared_names():
    found = collections.defaultdict(set)
    for path in antt_files():
        for line in open(path, encoding="utf-8"):
            match = DECLARED.match(line)
            if match and not line.lstrip().startswith("--") and ": goal." not in line:
                found[match.group(1)].add(path)
    return found


def snake(word):
    if word in WORDS:
        return WORDS[word]
    if word[:1].isupper():
        return word
    word = re.sub(r"([a-z0-9])([A-Z])", r"\1_\2", word)
    return word.lower()


def respelled(name, names):
    if name in APART:
        return APART[name]
    if "◌" in name:
        return name
    if name[:1].isupper():
        head, *rest = name.split("-")
        return head + "".join("-" + ("_".join(snake(w) for w in rest)) for _ in rest[:1]) if rest else name
    parts = [snake(w) for w in name.split("-")]
    out = parts[0]
    start = parts[0]
    for part in parts[1:]:
        joined = start in SUBJECTS and part in names
        out += ("-" if joined else "_") + part
        start = start + "_" + part
    return out


def table(found):
    functions = SUBJECTS | {snake(n) for n in found if "-" not in n and not n[:1].isupper()}
    rows = {}
    for name in found:
        new = respelled(name, functions)
        if new != name:
            rows[name] = new
    return rows


def turn(text, rows, path=""):
    """Turns whole words; in the proofs of the crates that LEMMAS names, its words first."""
    crate = re.match(r"crates/(\w+)/proofs/", path)
    if crate:
        rows = rows | {n: n + "_lem" for n, crates in LEMMAS.items() if crate.group(1) in crates.split()}
    return WORD.sub(lambda m: rows.get(m.group(0), m.group(0)), text)


def turn_rattle(text, rows, path):
    """Clauses, ghost items and comments: no name of the table can be one of the code's, except inside a string, which stays."""
    pieces = re.split(r'("(?:[^"\\\n]|\\.)*")', text)
    return "".join(p if i % 2 else turn(p, rows) for i, p in enumerate(pieces))


def turn_spans(text, rows, path):
    return re.sub(r"`[^`\n]+`", lambda m: turn(m.group(0), rows), text)


def fallen_together(rows, found, texts):
    """Pairs of an old name and another with its new spelling that one file uses, and new names that two declarations of one file share."""
    said = set()
    back = collections.defaultdict(set)
    for old, new in rows.items():
        back[new].add(old)
    for path, text in texts.items():
        words = set(WORD.findall(text))
        for word in words & set(rows):
            new = rows[word]
            if new in words or len(back[new] & words) > 1:
                said.add((path, word, new))
    return sorted(said)


def main():
    found = declared_names()
    rows = table(found)
    if "--list" in sys.argv:
        print("\n".join(f"{old}\t{new}" for old, new in sorted(rows.items())))
        return
    texts = {p: open(p, encoding="utf-8").read() for p in antt_files()}
    for path, word, new in fallen_together(rows, found, texts):
        print(f"look: {path}: {word} becomes {new}, which is there too")
    if "--check" in sys.argv:
        return
    sources = glob.glob("crates/*/src/**/*.rt", recursive=True)
    tables = glob.glob("crates/*/weakenings.txt")
    pages = ["README.md"] + glob.glob("docs/*.md")
    for paths, turned in ((list(texts), turn), (sources, turn_rattle), (tables, turn), (pages, turn_spans)):
        for path in sorted(paths):
            text = open(path, encoding="utf-8").read()
            new = turned(text, rows, path)
            if new != text:
                with open(path, "w", encoding="utf-8") as f:
                    f.write(new)
    print(f"{len(rows)} names respelled")


if __name__ == "__main__":
    main()
