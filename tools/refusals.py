"""Shows where a network is refused: its line, a mark below the place, what is often meant there, and what can stand there.

The last is asked of the program, and which types do not fit of the program of crates/sftypes. P1 stands at the first token that no network has after the tokens before it. So a token can stand
there exactly where the program doesn't blame it when the text ends with it.
"""

import os
import re
import subprocess
from concurrent.futures import ThreadPoolExecutor

from hints import COLLECTIONS, EXPRESSIONS, FORMS, JOINS, KEYWORDS, OPERATORS, TERMS, hint

SAID = re.compile(r"^sfplay: (\w+) \w+ (\d+):(\d+)$", re.MULTILINE)
SYMBOLS = "--> >-- >=- >>> *** &&& ~> => == != <= >= < > + - * ( ) [ ] , : ; =".split()
# What is asked for, with a token of each kind.
ASKED = {"a name": "a", "a number": "1", "a text": '""', "the end of the text": "", **{word: word for word in [*sorted(KEYWORDS), *SYMBOLS]}}
# What can stand in some places together, the greatest first.
GROUPS = {
    "a term": TERMS | {"(", "a name"},
    "an expression": EXPRESSIONS | {"(", "a name", "a number", "a text"},
    "an operator": OPERATORS,
    "a collection": COLLECTIONS | {"if"},
    "a type": frozenset(FORMS["types"]) | {"("},
    "a join": JOINS,
    "a pattern": frozenset(("_", "(", "a name")),
}
# How much of a line is shown, and how much of that before a place.
WHOLE, BEFORE = 120, 80


def run_on(text, *words):
    """Runs a program on a network's text, which stands in a file behind its words."""
    held = os.memfd_create("network", 0)
    try:
        os.write(held, text)
        return subprocess.run([*words, f"/proc/self/fd/{held}"], stdin=subprocess.DEVNULL, capture_output=True, text=True, pass_fds=[held])
    finally:
        os.close(held)


def refusal(program, text):
    """What the program says of a text that it refuses."""
    return SAID.search(run_on(text, program, "--check").stderr)


def explained(explainer, text, place):
    """Which types do not fit at a place of a text, as the program of crates/sftypes says it; "" where it isn't built or doesn't say."""
    if not explainer or not os.access(explainer, os.X_OK):
        return ""
    at, _, told = run_on(text, explainer).stdout.rstrip("\n").partition(" ")
    return told[:1].upper() + told[1:] if at == place else ""


def that_can_stand(program, front):
    """What can stand behind the front of a text, a token that is refused there."""
    place = ("P1", str(front.count(b"\n") + 2), "1")
    with ThreadPoolExecutor() as pool:
        refusals = pool.map(lambda token: refusal(program, front + b"\n" + token.encode()), ASKED.values())
        return {name for name, said in zip(ASKED, refusals) if not said or said.groups() != place}


def told(can):
    """What can stand somewhere, groups before single words and symbols."""
    parts = []
    for name, group in GROUPS.items():
        if group <= can:
            parts.append(name)
            can = can - group
    parts += [name if " " in name else f"`{name}`" for name in sorted(can)]
    return " or ".join([", ".join(parts[:-1]), parts[-1]] if len(parts) > 1 else parts)


def visible(text):
    """A text as it can be shown: a character that moves the cursor, or is not seen, has a sign in its place."""
    return "".join(each if each.isprintable() or each == "\t" else "\ufffd" for each in text)


def marked(before, behind):
    """What is shown of a line, and a mark below the place between what stands before and behind it."""
    before, behind = visible(before), visible(behind)
    if len(before) > BEFORE:
        before = "..." + before[3 - BEFORE :]
    if len(behind) > WHOLE - len(before):
        behind = behind[: WHOLE - len(before) - 3] + "..."
    return before + behind, re.sub(r"[^\t]", " ", before) + "^"


def shown(path, text, said, program=None, explainer=None):
    """The lines that show where the network of a file is refused, as the program said; "" where it named no place. What can stand there
    and which types do not fit are left out where there is no program to ask."""
    found = SAID.search(said)
    if not found:
        return ""
    rule, number, column = found[1], int(found[2]), int(found[3])
    start = sum(len(line) + 1 for line in text.split(b"\n")[: number - 1]) + column - 1
    can = that_can_stand(program, text[:start]) if program and rule == "P1" else None
    front, rest = (part.decode(errors="replace") for part in (text[:start], text[start:]))
    before, behind = front.rpartition("\n")[2], rest.partition("\n")[0].rstrip("\r")
    line, mark = marked(before, behind)
    edge = " " * max(5, len(str(number))) + " | "
    lines = [f"{path}:{number}:{len(before) + 1}:", f"{number:>5} | {line}", f"{edge}{mark} {hint(rule, front, rest, can)}"]
    if can:
        lines.append(f"{edge}Here can stand: {told(can)}")
    types = explained(explainer, text, f"{number}:{column}") if rule == "C4" else ""
    if types:
        lines.append(f"{edge}{types}")
    return "".join(line.rstrip() + "\n" for line in lines)
