"""Has altered texts of random networks checked, and compares with the reading of the rules in reading.py and checking.py: which are refused, for which
rule, and where. What can be read is written anew, and compared with writing.py. And each worked row, by which that reading is tried itself.

    python3 rows/refusals.py --exe PATH [--first SEED] [--count N]

Of each network a token is left out, doubled, exchanged for another one of it or for a word or symbol of the language, or one is put before it; and its
blanks are others. What is refused for its size is left out. Each rule of RULES has to be met by a text. The last line is `N passed, M failed`.
"""

import argparse
import os
import random
import subprocess
import sys
import tempfile

from checking import check
from networks import NAMES, Maker, NoWay
from play import rows_and_examples, text_of
from reading import KEYWORDS, TOKEN, Refused
from writing import canonical

FIRST, COUNT = 1, 3000
# Rules that some text has to break; the others look at sizes alone, or at a number that no altered text has.
RULES = ("C1", "C2", "C3", "C4", "C5", "C6", "C7", "C8", "L1", "L2", "L3", "P1", "P3")
OF_SIZE = ("B1", "B2", "C9", "L4", "P2", "P4")
SYMBOLS = ("(", ")", "[", "]", ",", ":", ";", "=", "=>", "~>", ">>>", "***", "&&&", "-->", ">--", ">=-", "==", "<", "+", "-", "*")
# Tokens that are refused, and some that are refused in most places.
RARE = ("$", "é", '"', '"\\x"', "9223372036854775808", "-1", "0", "3", "pre", "edge", "delay 0 1", "main()", "takeEvents -1", "run k", "use ks")
VOCABULARY = (*sorted(KEYWORDS), *SYMBOLS, *NAMES, *RARE)
BLANKS = (" ", " ", " ", " ", "  ", "\t", "\n", "\r\n", " # a comment, é\n")
# Rows of texts that are longer take too long here.
MOST_BYTES = 50_000


def refusal_of(text):
    """The rule that a text breaks, with its place; nothing where it is accepted."""
    try:
        check(text)
    except Refused as refused:
        return str(refused)
    return ""


def text_for(text):
    """The text that is written for one, or nothing where it can't be read."""
    try:
        return canonical(text)
    except Refused:
        return b""


def altered(text, choice):
    """The text with one token changed, or with none, and with other blanks."""
    tokens = [found.group() for found in TOKEN.finditer(text) if found.lastgroup != "blank"]
    at = choice.randrange(len(tokens))
    other = choice.choice((choice.choice(tokens), choice.choice(VOCABULARY)))
    tokens[at : at + 1] = choice.choice(([tokens[at]], [], [tokens[at]] * 2, [other], [other], [other], [other, tokens[at]]))
    return "".join(token + choice.choice(BLANKS) for token in tokens)


class Program:
    """A program that is given texts in a file."""

    def __init__(self, exe, place):
        self.exe, self.path = os.path.abspath(exe), os.path.join(place, "network")

    def asked(self, text, flag):
        """What is said of a text, and what is written."""
        with open(self.path, "wb") as file:
            file.write(text)
        done = subprocess.run([self.exe, self.path, flag], stdin=subprocess.DEVNULL, capture_output=True, timeout=60)
        return done.stderr.decode("utf-8").removeprefix("sfplay: ").rstrip("\n"), done.stdout


def texts(seeds):
    """Altered networks, each with its seed."""
    for seed in seeds:
        try:
            text, _ = Maker(seed).network()
        except NoWay:
            continue
        yield f"seed {seed}", altered(text, random.Random(seed)).encode("utf-8")


def rows():
    """The networks of the worked rows, each once."""
    seen = set()
    for row in rows_and_examples():
        text = text_of(row["network"]) if row["network"] else b""
        if text and len(text) <= MOST_BYTES and text not in seen:
            seen.add(text)
            yield f"row '{row['name']}'", text


def main():
    parser = argparse.ArgumentParser()
    parser.add_argument("--exe", required=True)
    parser.add_argument("--first", type=int, default=FIRST)
    parser.add_argument("--count", type=int, default=COUNT)
    options = parser.parse_args()
    sys.setrecursionlimit(20_000)
    passed, failed, met = 0, 0, set()
    with tempfile.TemporaryDirectory() as place:
        program = Program(options.exe, place)
        for name, text in (*rows(), *texts(range(options.first, options.first + options.count))):
            (found, _), (_, written) = program.asked(text, "--check"), program.asked(text, "--dump")
            if found.startswith(OF_SIZE):
                continue
            wanted, met = (refusal_of(text), text_for(text)), met | {found[:2]}
            passed, failed = passed + ((found, written) == wanted), failed + ((found, written) != wanted)
            if (found, written) != wanted:
                print(f"{name}: {found!r} and {written!r}, wanted {wanted!r}\n{text!r}")
    missing = [rule for rule in RULES if rule not in met]
    if missing and options.count >= COUNT:
        failed += 1
        print(f"no text was refused for {', '.join(missing)}")
    print(f"{passed} passed, {failed} failed")
    return 1 if failed else 0


if __name__ == "__main__":
    sys.exit(main())
