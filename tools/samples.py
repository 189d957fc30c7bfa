"""What `sfplay` writes, with its values taken apart."""

import re

LEAF = re.compile(r'\(\)|true|false|-?\d+|"(?:\\.|[^"\\])*"')
# What opens a table or ends one, and texts, in which neither does.
BRACE = re.compile(r'"(?:\\.|[^"\\])*"|[{}]')


def end_of_table(text, start):
    depth = 0
    for brace in BRACE.finditer(text, start):
        depth += (brace[0] == "{") - (brace[0] == "}")
        if not depth:
            return brace.end()
    raise ValueError(f"no value: {text[start:]}")


def take_apart(parts, name, text, at=0):
    """Puts the parts of the value at a place of a text under their names, and answers where the text goes on. An event is whether it
    occurs, and its payload as it is spelled; so is a table."""
    if text.startswith("event ", at):
        end = take_apart({}, name, text, at + len("event "))
        parts.update({f"{name}.occurs": "true", f"{name}.payload": text[at + len("event ") : end]})
        return end
    if text.startswith("none", at):
        parts[f"{name}.occurs"] = "false"
        return at + len("none")
    if text.startswith("(", at) and not text.startswith("()", at):
        comma = take_apart(parts, f"{name}.first", text, at + 1)
        return take_apart(parts, f"{name}.second", text, comma + 1) + 1
    end = end_of_table(text, at) if text.startswith("{", at) else LEAF.match(text, at).end()
    parts[name] = text[at:end]
    return end


def samples(lines):
    """The time of each sample that was written, and its parts by their names: those of the value are called `out`, and those of a probe
    after it. Of a probe that has several readings in a sample, the last one counts."""
    parts = {}
    for line in lines:
        mark, name, value = (line.rstrip("\n").split(" ", 2) + ["", ""])[:3]
        if mark == "?":
            take_apart(parts, f"probe {name}", value)
        elif mark == ">":
            take_apart(parts, "out", value)
            yield int(name), parts
            parts = {}
