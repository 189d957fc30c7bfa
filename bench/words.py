#!/usr/bin/env python3
"""Lists the words of specs/, of all crates, that are not to be: each that more than one file defines, those that are the same but
for a preposition, and each that is imported under another name.

A word is the name of a `data`, a `record` or a function, at the left margin or within a `module` or `mutual` block.
Names of fields and of constructors belong to their types and may stand again; so may `>>=`, by whose name a `do` block
calls what goes on in its type. A preposition stands at the end of a word, or is a `with` before it; the word without one is
of the group. Modules may have other names where they are imported; so may variants, operators and names that Rattle makes. Ends
with status 1 where it lists one.
"""
import collections
import pathlib
import re
import sys

CRATES = pathlib.Path(__file__).resolve().parent.parent / "crates"
BLOCK = re.compile(r"(?:pub )?(?:mutual$|module\s)")
KEYWORD = re.compile(r"(?:(?:pub|abbrev|unfoldable|opaque|data|record)\s+)+")
PREPOSITIONS = {"in", "at", "of", "under", "with", "from"}
TEXTS = ("src/**/*.rt", "specs/**/*.antt", "proofs/**/*.antt")
ALIAS = re.compile(r"([^\s,{]+) as (\w+)")
# Operators, and names that Rattle makes.
MADE = re.compile(r"◌|_hidden")
# A name, its parameters in brackets and a colon.
SIGNATURE = re.compile(r"(\S+)\s*(?:[({].*)?:(?:\s|$)")


def defined(text):
    """The words that the text of a file defines."""
    # The lines whose blocks are still open: how far each is indented, and whether the block holds definitions.
    opened = []
    for line in text.splitlines():
        line = line.rstrip()
        words = line.lstrip()
        if not words or words.startswith("--"):
            continue
        indent = len(line) - len(words)
        while opened and opened[-1][0] >= indent:
            opened.pop()
        if opened and not opened[-1][1]:
            continue
        holds = bool(BLOCK.match(words))
        opened.append((indent, holds))
        if holds or re.match(r"(?:pub )?(?:use|mod|infix[lr]?)\s", words):
            continue
        keyword = KEYWORD.match(words)
        found = SIGNATURE.match(words, keyword.end() if keyword else 0)
        if found and found.group(1) != "◌>>=◌":
            yield found.group(1)


def stem(word):
    """A word in small letters, without a preposition at its end and without a `with` before it."""
    found = re.sub(r"(?<=[a-z])(?=[A-Z])", "_", word).lower().split("_")
    if len(found) > 1 and found[-1] in PREPOSITIONS:
        found.pop()
    elif len(found) > 1 and found[0] == "with":
        found.pop(0)
    return word[0].isupper(), "_".join(found)


def groups(words):
    """Those of the words that are the same but for a preposition, together."""
    found = collections.defaultdict(set)
    for word in words:
        found[stem(word)].add(word)
    return [alike for alike in found.values() if len(alike) > 1]


def imports(path, text):
    """The imports of a text, without the words before them."""
    # (A source's import ends with a semicolon, a definition's with its line.)
    return re.findall(r"^ *(?:pub |ghost )?use ([^;]*);" if path.suffix == ".rt" else r"^ *(?:pub )?use (.*)$", text, re.MULTILINE)


def renamed(path, text):
    """The words of definitions and of proofs that a text imports under other names."""
    for use in imports(path, text):
        module, _, items = use.partition(".{")
        if module.startswith("Rattle.") and not module.endswith(".TheVariants"):
            yield from (alias for alias in ALIAS.findall(items) if not MADE.search(alias[0]))


def main():
    places = collections.defaultdict(set)
    for path in sorted(CRATES.glob("*/specs/**/*.antt")):
        for word in defined(path.read_text()):
            places[word].add(f"{path.parts[-3]}/{path.stem}")
    twice = {word: where for word, where in places.items() if len(where) > 1}
    for word, where in sorted(twice.items(), key=lambda pair: (-len(pair[1]), pair[0])):
        print(word, *sorted(where))
    alike = groups(places)
    for words in alike:
        print(*sorted(words), "differ by a preposition")
    others = [(path, *alias) for kind in TEXTS for path in sorted(CRATES.glob(f"*/{kind}")) for alias in renamed(path, path.read_text())]
    for path, word, name in others:
        print(path.relative_to(CRATES), word, "as", name)
    print(f"of {len(places)} words {len(twice)} are defined twice, {sum(map(len, alike))} differ by a preposition, and {len(others)} times one has another name")
    sys.exit(1 if twice or alike or others else 0)


if __name__ == "__main__":
    main()
