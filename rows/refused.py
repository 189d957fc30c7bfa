"""Has an executable `sfplay` refuse the networks of refused.json, and looks at what is shown of each.

    python3 rows/refused.py --exe PATH [--explainer PATH] [--only NAME]

A case has what the program says (`said`), and either all lines that are shown (`shown`), or the hint behind the mark and, for P1, what
can stand there (`can`) and, for C4, which types do not fit (`types`), as an executable `sftypes` says it. Each hint has to be shown in one of them, and the words that the hints know be those of docs/LANGUAGE.md.
The last line is `N passed, M failed`.
"""

import argparse
import json
import os
import re
import sys

from play import text_of

HERE = os.path.dirname(os.path.abspath(__file__))
sys.path.insert(0, os.path.join(HERE, "..", "tools"))
import hints
import refusals

NAME = "a file"
EXPLAINER = os.path.join(HERE, "..", "crates", "sftypes", "out", "sftypes")


def faults(case, program, explainer):
    text = text_of(case["network"])
    found = refusals.refusal(program, text)
    said = found[0] if found else "nothing"
    if said != f"sfplay: {case['said']}":
        return [f"said {said!r}, wanted {case['said']!r}"]
    shown = refusals.shown(NAME, text, said, program, explainer).splitlines()
    if "shown" in case:
        return [] if shown == case["shown"] else [f"shown {shown}, wanted {case['shown']}"]
    wanted = [f"^ {case['hint']}".rstrip()]
    if "can" in case:
        wanted.append(f"| Here can stand: {case['can']}")
    if "types" in case:
        wanted.append(f"| {case['types']}")
    well = len(shown) == 2 + len(wanted) and all(line.endswith(end) for line, end in zip(shown[2:], wanted))
    return [] if well else [f"shown {shown[2:]}, wanted {wanted}"]


def note_hints(seen):
    """Has each hint for P1 noted where it is the one that is shown."""
    hints.HINTS[:] = [(lambda place, holds=holds, words=words: holds(place) and not seen.add(words), words) for holds, words in hints.HINTS]


def unshown(cases, seen):
    """What the tables of hints have that no case shows."""
    told = " ".join(case.get("hint", "") for case in cases)
    rules = {case["said"].split()[0] for case in cases}
    return [
        *(words for _, words in hints.HINTS if words not in seen),
        *(words for words in {*hints.BYTES.values(), *hints.NUMBERS.values()} if words not in told),
        *(rule for rule in hints.RULES if rule not in rules),
    ]


def unknown_words():
    """The words and symbols that stand in docs/LANGUAGE.md and not in the lists of the hints, or the other way round."""
    with open(os.path.join(HERE, "..", "docs", "LANGUAGE.md"), encoding="utf-8") as file:
        text = file.read()
    listed = re.search(r"The keywords are .*\n\n((?:    .*\n)+)", text)[1].split()
    symbols = re.findall(r"`(.+?)`", re.search(r"\| symbol \| the longest of (.*) \|\n", text)[1])
    return {*listed, "_"} ^ hints.KEYWORDS | {*symbols} ^ {*refusals.SYMBOLS}


def main():
    parser = argparse.ArgumentParser()
    parser.add_argument("--exe", required=True)
    parser.add_argument("--explainer", default=EXPLAINER)
    parser.add_argument("--only")
    options = parser.parse_args()
    with open(os.path.join(HERE, "refused.json"), encoding="utf-8") as file:
        cases = [case for case in json.load(file) if options.only in (None, case["name"])]
    passed, failed, seen = 0, 0, set()
    note_hints(seen)
    for case in cases:
        found = faults(case, os.path.abspath(options.exe), os.path.abspath(options.explainer))
        passed, failed = passed + (not found), failed + bool(found)
        if found:
            print(f"refusal '{case['name']}': {'; '.join(found)}")
    if not options.only:
        left = [f"no case shows '{hint}'" for hint in unshown(cases, seen)] + [f"'{word}' stands in one list alone" for word in unknown_words()]
        failed += len(left)
        for what in left:
            print(what)
    print(f"{passed} passed, {failed} failed")
    return 1 if failed else 0


if __name__ == "__main__":
    sys.exit(main())
