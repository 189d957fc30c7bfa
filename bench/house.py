"""Counts what the sources are to have less of, over all crates.

    python3 bench/house.py [TREE]     prints the counts of a checkout, of this one where none is named

Typing: lines of definitions and of proofs of what has a type and what is refused for its types, in `sf_expr` and in `sf_check`, with
the goals that are answered by hand. What differs, names of templates, and acceptance as a whole are not of these.
Parameters: functions with seven or more, `self` and the allocator counted, by crate and in all, and the ones with most.
Prepositions: words of definitions that are the same but for a preposition (`words.py`). Aliases: names that an import gives to what it imports, and how many of these are different.
Answers: goals that are answered by hand, and those that say what a `?` hands on (`returns-in_err`, or an answer with what
`from_residual` ensures), or what is returned behind one (`returns-in_ok`).
Proofs: lines that import modules of proofs of another crate, and attributes that name one.
Ids that live on: functions that take or make what keeps ids of a plan as long as it lives (states, names, and what these hold).
"""

import pathlib
import re
import sys
from collections import Counter, defaultdict

from surface import code_of, parts, within
from words import TEXTS, defined, groups, imports as imported

MANY = 7
# What is of typing: modules of specs and of proofs by name; of `sf_check`, what is not.
OF_EXPRESSIONS = {"Contexts", "Inference", "Judging", "Refusals", "Typing", "Inferred", "Judged", "Typed", "Apart", "typing"}
NOT_OF_TERMS = set(
    "Differing Differed Apart Unlike differing call_differing blaming Names Naming Again Places Finding names parameters "
    "Calling calling Alike Settled checker checked Lib".split()
)
HEAD = re.compile(r"\bfn (\w+)\s*(?:<(?:[^<>]|<[^<>]*>)*>)?\(")
ALIAS = re.compile(r"([\w◌.:+≤≡<>=-]+) as (\w+)")
ANSWER = re.compile(r"^pub (\S+) : goal\S*\n", re.MULTILINE)
# The types of states, of the names around them and of what holds these, and the crates that have them.
KEEPING = set(
    "State Process Switch Continuation Gathering Releasing Editing Frozen FrozenNode Live Gathered "
    "Env Binding Running Collected Call Handed Given NamesIn Draft Edit Exchange Around Engine".split()
)
KEEPERS = ("sf_state", "sf_begin", "sf_step", "sf_engine")
# An impl for a type, or a function with its place in its line.
OWNER = re.compile(r"^impl\b[^{;]*?\b(\w+)(?:<[^{;]*>)? \{|^([ \t]*)[\w() ]*?\bfn \w+", re.MULTILINE)


def is_of_typing(crate, module):
    return module in OF_EXPRESSIONS if crate == "sf_expr" else module not in NOT_OF_TERMS


def typing(crates):
    for crate in ("sf_expr", "sf_check"):
        lines, by_hand = Counter(), 0
        for part in ("specs", "proofs"):
            for path in sorted((crates / crate / part).glob("**/*.antt")):
                inside = path.relative_to(crates / crate / part)
                if is_of_typing(crate, inside.parts[0].removesuffix(".antt")):
                    text = path.read_text()
                    lines[part] += text.count("\n")
                    by_hand += len(ANSWER.findall(text)) if path.name == "Answers.antt" else 0
        yield f"typing in {crate}: {lines['specs']} lines of definitions, {lines['proofs']} of proofs, {sum(lines.values())} in all, with {by_hand} answers by hand"


def parameters(crates):
    """Functions of sources with their crates and how many parameters they have."""
    for path in sorted(crates.glob("*/src/**/*.rt")):
        text = code_of(path)
        for found in HEAD.finditer(text):
            yield len(parts(within(text[found.end() :]))), path.parts[len(crates.parts)], found[1]


def imports(crates):
    """The imports of all sources, definitions and proofs, and the crates whose proofs attributes name, file by file."""
    for path in (found for kind in TEXTS for found in crates.glob(f"*/{kind}")):
        text = path.read_text()
        yield path, imported(path, text), re.findall(r"\b(\w+)::proofs::", text)


def living(crates):
    """The functions that take or make what keeps ids of a plan, by their crates."""
    for crate in KEEPERS:
        for path in sorted((crates / crate / "src").glob("**/*.rt")):
            text, owner = code_of(path), None
            for found in OWNER.finditer(text):
                if found[1]:
                    owner = found[1]
                    continue
                head = re.split(r"\s(?:requires|ensures)\b|\{", text[found.start() :])[0]
                words = {*re.findall(r"\w+", head)}
                if words & KEEPING or (found[2] and owner in KEEPING and words & {"self", "Self"}):
                    yield crate


def answers(crates):
    """The goals that are answered by hand, with their answers."""
    for path in crates.glob("*/proofs/**/Answers.antt"):
        _, *found = ANSWER.split(path.read_text())
        yield from zip(found[::2], found[1::2])


def main():
    crates = pathlib.Path(sys.argv[1] if len(sys.argv) > 1 else pathlib.Path(__file__).parent.parent).resolve() / "crates"
    print(*typing(crates), sep="\n")
    heads = list(parameters(crates))
    many = sorted((head for head in heads if head[0] >= MANY), reverse=True)
    print(f"parameters: {len(many)} of {len(heads)} functions have {MANY} or more:", *(f"{crate} {count}" for crate, count in Counter(crate for _, crate, _ in many).most_common()))
    print("most parameters:", ", ".join(f"{crate} {name} {count}" for count, crate, name in many[:5]))
    words = {word for path in crates.glob("*/specs/**/*.antt") for word in defined(path.read_text())}
    alike = groups(words)
    print(f"prepositions: {len(alike)} groups, {sum(map(len, alike))} of {len(words)} words")
    aliases, lent = Counter(), []
    for path, uses, named in imports(crates):
        crate = path.relative_to(crates).parts[0]
        aliases.update(alias for use in uses for alias in ALIAS.findall(use))
        others = named + [found for use in uses for found in re.findall(r"Rattle\.(\w+)\.proofs\b", use)]
        lent += [(path, crate, other) for other in others if other not in (crate, "crate", "std")]
    of_variants = sum(count for (name, _), count in aliases.items() if name.endswith("TheVariants"))
    print(f"aliases: {aliases.total()}, {len(aliases)} different; {of_variants} of variants, {aliases.total() - of_variants} of other words")
    lived = Counter(living(crates))
    print(f"ids that live on: in {lived.total()} functions:", ", ".join(f"{crate} {count}" for crate, count in lived.most_common()))
    by_hand = list(answers(crates))
    handed = sum("returns-in_err" in name or "from_residual" in body for name, body in by_hand)
    behind = sum("returns-in_ok" in name and "from_residual" not in body for name, body in by_hand)
    print(f"answers: {len(by_hand)} goals by hand; {handed} say what a `?` hands on, {behind} what is returned behind one")
    print(f"proofs of another crate: named {len(lent)} times in {len({path for path, _, _ in lent})} files, by {len({(crate, other) for _, crate, other in lent})} pairs of crates")


if __name__ == "__main__":
    main()
