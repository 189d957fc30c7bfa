"""Writes docs/SURFACE.md: each call of the surface as it was laid out, with the crate where it stands and its signature there.

    python3 bench/surface.py          writes it, from the sources and from bench/surface.json
    python3 bench/surface.py check    says whether it is what would be written, with status 1 where it isn't

bench/surface.json has for each crate, as it was laid out, rows of three: a call or a type as it was laid out, without the allocator;
where it stands, as `crate::path`, a list of these, or null; and why it differs, in a line. Nothing is written, and the status is 1,
where a row names what no crate hands out, where it differs without a line that says why, where it has such a line and doesn't
differ, and where it says that something isn't there which is.
"""

import json
import os
import re
import sys

TOP = os.path.realpath(os.path.join(os.path.dirname(os.path.abspath(__file__)), ".."))
CRATES = os.path.join(TOP, "crates")
LAID_OUT = os.path.join(TOP, "bench", "surface.json")
WRITTEN = os.path.join(TOP, "docs", "SURFACE.md")
HEAD = """# The surface

Written by `bench/surface.py`, from the sources and from `bench/surface.json`. `./test` looks whether it is what they say.

The calls of the crates, and the types that they speak of, were laid out before the crates were written. Each stands here under the crate that it was laid out for, as it was laid out. Beside it stand the crate where it is today, its signature there, and a line that says why these differ. Where no reason is given, nothing does: the crate, the name, the parameters and the answer are as they were laid out.

What takes memory is given the allocator, `alloc: Global`, first or behind `self`. Methods of a type that keeps its own are not, and neither is what only appends to a vector. That was laid out once for all calls, so the first column leaves the allocator out. It leaves out the names of parameters, lifetimes and bounds too. It has the variants or the fields of a type only where these were laid out.
"""
# Comments, texts and characters.
NO_CODE = re.compile(r"//[^\n]*|\"(?:[^\"\\]|\\.)*\"|'(?:[^'\\\n]|\\[^\n]{1,8}?)'", re.DOTALL)
# Where an item begins, and where its head ends.
ITEM = re.compile(r"^[ \t]*(pub )?((fn|struct|enum|trait|impl)\b)", re.MULTILINE)
END = re.compile(r"\s(?:requires|ensures|decreases|where)\s|[{;]")
# What a crate's root hands out.
USE = re.compile(r"^pub use (\w+)::(?:\w+::)*(?:(\w+(?: as \w+)?)|\{([^}]*)\});", re.MULTILINE)


def code_of(path):
    """The text of a source, with spaces in place of what is no code."""
    with open(path) as file:
        return NO_CODE.sub(lambda found: re.sub(r"[^\n]", " ", found.group()), file.read())


def is_closing(text, at):
    return text[at] in ")]}" or text[at] == ">" and text[at - 1] not in "-="


def within(text):
    """What stands in front of the bracket that is closed and was opened before the text."""
    depth = 1
    for at, sign in enumerate(text):
        depth += (sign in "([{<") - is_closing(text, at)
        if not depth:
            return text[:at]
    return text


def parts(text):
    """What stands between the commas of a list, but for those in brackets."""
    found, depth = [""], 0
    for at, sign in enumerate(text):
        depth += (sign in "([{<") - is_closing(text, at)
        if sign == "," and not depth:
            found.append("")
        else:
            found[-1] += sign
    return [" ".join(part.split()) for part in found if part.strip()]


def on_one_line(text):
    """A head on one line, without the comma behind its last parameter."""
    return re.sub(r"\( |,? \)", lambda found: found.group().strip(" ,"), " ".join(text.split()))


def contents(kind, text):
    """A type's variants, or its fields that are public, in braces; nothing where there are none."""
    inside = parts(re.sub(r"#\[[^\]]*\]", "", within(text)))
    if kind == "struct":
        inside = [part[len("pub ") :] for part in inside if part.startswith("pub ")]
    return f" {{ {', '.join(inside)} }}" if inside else ""


def items_of(text):
    """The public items of a source: the path of each, its head, and what its braces hold."""
    depth, last, owner, is_trait = 0, 0, None, False
    for found in ITEM.finditer(text):
        depth += text.count("{", last, found.start()) - text.count("}", last, found.start())
        last, begin, public, kind = found.start(), found.start(2), found[1], found[3]
        end = END.search(text, begin)
        head = on_one_line(text[begin : end.start()])
        name = re.match(r"\w+ ?(\w*)", head)[1]
        if depth == 0:
            of_type = re.fullmatch(r"impl(?:<.*?>)? (\w+)(?:<.*>)?", head)
            owner = name if kind == "trait" else of_type and of_type[1]
            is_trait = kind == "trait"
        if kind == "fn" and depth == 1 and owner and (public or is_trait):
            yield f"{owner}::{name}", (public or "") + head, ""
        elif kind == "fn" and depth == 0 and public:
            yield name, public + head, ""
        elif kind in ("struct", "enum", "trait") and public:
            braces = contents(kind, text[end.end() :]) if end.group() == "{" and kind != "trait" else ""
            yield name, public + re.sub(r"(?<=struct )(\w+)\(.*", r"\1", head), braces


def handed_out(crate):
    """The public items of a crate that its root hands out."""
    source = os.path.join(CRATES, crate, "src")
    # What an item is called in its module, with what the root calls it.
    named = {}
    for _, one, more in USE.findall(code_of(os.path.join(source, "lib.rt"))):
        for item in [one] if one else parts(more):
            name, _, handed = item.partition(" as ")
            named[name] = handed or name
    found = {}
    for folder, _, files in os.walk(source):
        for file in sorted(files):
            if not file.endswith("tests.rt"):
                for path, *item in items_of(code_of(os.path.join(folder, file))):
                    owner, colons, name = path.partition("::")
                    if owner in named or file == "lib.rt":
                        found[named.get(owner, owner) + colons + name] = item
    # Heads say what the root calls them.
    for item in found.values():
        item[0] = re.sub(r"\w+", lambda word: named.get(word.group(), word.group()), item[0])
    return found


def path_of(laid_out):
    """The path of what was laid out, which stands first in it; none where it is said in words."""
    found = re.match(r"(?:(?:struct|enum|trait) )?([\w:]+)(?=[(<]| \{|$)", laid_out)
    return found and found[1]


def has_braces(laid_out):
    """Whether the variants or the fields of a type were laid out."""
    return "{" in laid_out or not path_of(laid_out)


def without_lifetimes(text):
    return re.sub(r"&'\w+ ", "&", re.sub(r"<'\w+>", "", re.sub(r"'\w+, ", "", text)))


def as_laid_out(path, head, braces, wants_braces):
    """An item as the first column has it: without the allocator, the names of parameters, lifetimes and bounds."""
    text = without_lifetimes(head.removeprefix("pub "))
    if not text.startswith("fn "):
        text = re.sub(r"(\w): [\w +]+", r"\1", text)
        return text + without_lifetimes(braces) if wants_braces else text
    name = re.match(r"fn \w+", text).end()
    if text[name] == "<":
        name += 2 + len(within(text[name + 1 :]))
    inside = within(text[name + 1 :])
    given = [re.sub(r"^(?:mut )?\w+: ", "", part) for part in parts(inside)]
    first = 1 if given and re.fullmatch(r"&?(?:mut )?self", given[0]) else 0
    if given[first : first + 1] == ["Global"]:
        del given[first]
    return f"{path}({', '.join(given)})" + text[name + 2 + len(inside) :]


def faults(group, row, crates):
    """What is wrong with a row."""
    laid_out, places, why = row
    path = path_of(laid_out)
    missing = [place for place in places if place.partition("::")[2] not in crates.get(place.partition("::")[0], {})]
    if missing:
        return [f"no crate hands out {place}" for place in missing]
    if path and path not in {place.partition("::")[2] for place in places}:
        there = [crate for crate in crates if path in crates[crate]]
        if there:
            return [f"{path} stands in {', '.join(there)}, and the row says something else"]
    differs = not places or any(not place.startswith(f"{group}::") for place in places) or path and len(places) > 1
    if path and not differs:
        item = places[0].partition("::")[2]
        ours = as_laid_out(item, *crates[group][item], has_braces(laid_out))
        differs = laid_out not in (ours, item)
        if differs and not why:
            return [f"`{laid_out}` is `{ours}` and has no reason"]
    if differs and not why:
        return [f"`{laid_out}` stands elsewhere and has no reason"]
    return [f"`{laid_out}` has a reason and doesn't differ"] if why and path and not differs else []


def line(row, crates):
    laid_out, places, why = row
    items = [crates[crate][path] for crate, _, path in (place.partition("::") for place in places)]
    where = "<br>".join(f"`{place}`" for place in places) or "not there yet"
    signatures = "<br>".join(f"`{head}{braces if has_braces(laid_out) else ''}`" for head, braces in items)
    first = f"`{laid_out}`" if path_of(laid_out) else laid_out
    return f"| {first} | {where} | {signatures} | {why} |\n"


def surface():
    """What the file has, and what is wrong with the rows."""
    with open(LAID_OUT) as file:
        groups = json.load(file)
    groups = {
        group: [(laid_out, [places] if isinstance(places, str) else places or [], why) for laid_out, places, why in rows]
        for group, rows in groups.items()
    }
    crates = {crate: handed_out(crate) for crate in sorted(os.listdir(CRATES)) if os.path.exists(os.path.join(CRATES, crate, "src", "lib.rt"))}
    wrong = [f"{group}: {fault}" for group, rows in groups.items() for row in rows for fault in faults(group, row, crates)]
    if wrong:
        return "", wrong
    rows = [row for group in groups.values() for row in group]
    absent = sum(not places for _, places, _ in rows)
    same = sum(not why for _, _, why in rows)
    others = f", {len(rows) - same - absent} differ, and {absent} are not there yet" if absent else f", and {len(rows) - same} differ"
    text = HEAD + f"\nOf {len(rows)} rows {same} are as they were laid out{others}.\n"
    for group, rows in groups.items():
        text += f"\n## `{group}`\n\n| As it was laid out | Where | Signature | Why it differs |\n|---|---|---|---|\n"
        text += "".join(line(row, crates) for row in rows)
    return text, []


def main():
    if sys.argv[1:] not in ([], ["check"]):
        sys.exit(__doc__)
    text, wrong = surface()
    if wrong:
        sys.exit("\n".join(f"surface: {fault}" for fault in wrong))
    if not sys.argv[1:]:
        with open(WRITTEN, "w") as file:
            file.write(text)
        return
    with open(WRITTEN) as file:
        if file.read() != text:
            sys.exit("surface: docs/SURFACE.md is not what the sources say: run python3 bench/surface.py")
    print("docs/SURFACE.md is what the sources say")


if __name__ == "__main__":
    main()
