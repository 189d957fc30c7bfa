"""Runs the commands that the documents show, with an executable `sfplay`, and compares what they write with what is shown; and counts
the words of their sentences.

    python3 rows/documents.py --exe PATH

A command stands behind `$ ` in lines that are indented, and what it writes below it, to standard output or standard error. A network
that is shown behind the name of its file has to be that of the file, but for comments, and the picture of docs/RECIPES.md what is drawn.
The last line is `N passed, M failed`.
"""

import argparse
import os
import re
import shutil
import subprocess
import sys
import tempfile

TOP = os.path.join(os.path.dirname(os.path.abspath(__file__)), "..")
# (The commands of docs/EMBEDDING.md need more than the program: rows/embedding.py runs them.)
DOCUMENTS = ("README.md", "docs/TOUR.md", "docs/RECIPES.md")
# Pages of text, of which no sentence has more than 40 words.
PAGES = ("README.md", "CHANGES.md", *(f"docs/{name}.md" for name in ("ARCHITECTURE", "DECISIONS", "EMBEDDING", "FROM_YAMPA", "LANGUAGE", "MEANING", "PROVED", "RECIPES", "TOUR")))
MOST = 40
# Lines behind each other that are indented.
BLOCK = re.compile(r"(?:^    .*\n)+", re.MULTILINE)
# A paragraph that begins with the name of a file, and the network that is shown behind it.
NETWORK = re.compile(r"^`(\w+/\w+\.net)`.*\n\n((?:    .*\n)+)", re.MULTILINE)
# A text, or a comment.
COMMENT = re.compile(r'("(?:\\.|[^"\\\n])*")|#.*')
PICTURE = re.compile(r"^    (\./sfplay .*picture\.py) > (\w+\.svg)$", re.MULTILINE)


def read(name):
    with open(os.path.join(TOP, name), encoding="utf-8") as file:
        return file.read()


def laid_out(place, program):
    """A copy of this repository as it is once the program is built, as far as the commands need it."""
    for name in ("examples", "recipes", "tools", "rows"):
        shutil.copytree(os.path.join(TOP, name), os.path.join(place, name))
    shutil.copy(os.path.join(TOP, "sfplay"), place)
    os.makedirs(os.path.join(place, "crates", "sfplay", "out"))
    os.symlink(program, os.path.join(place, "crates", "sfplay", "out", "sfplay"))
    with open(os.path.join(place, "crates.txt"), "w") as file:
        os.utime(file.fileno(), (0, 0))


def commands(text):
    """Each command that is shown, with what it is to write."""
    for block in BLOCK.findall(text):
        lines = [line[len("    ") :] for line in block.splitlines(True)]
        if lines[0].startswith("$ "):
            starts = [at for at, line in enumerate(lines) if line.startswith("$ ")]
            for start, end in zip(starts, [*starts[1:], len(lines)]):
                yield lines[start][len("$ ") :].rstrip("\n"), "".join(lines[start + 1 : end])


def written(command, place):
    return subprocess.run(command, shell=True, cwd=place, stdin=subprocess.DEVNULL, stdout=subprocess.PIPE, stderr=subprocess.STDOUT, text=True).stdout


def without_comments(network):
    return COMMENT.sub(r"\1", network).split()


def faults(text, place):
    """For each command, network and picture of a document what is wrong with it, or nothing."""
    for command, wanted in commands(text):
        output = written(command, place)
        yield "" if output == wanted else f"$ {command}\nwrites:\n{output}and not:\n{wanted}"
    for name, network in NETWORK.findall(text):
        if network.startswith("    network "):
            yield "" if without_comments(network) == without_comments(read(name)) else f"{name} is another network than the one that is shown"
    for command, name in PICTURE.findall(text):
        yield "" if written(command, place) == read(f"docs/{name}") else f"docs/{name} is not what is drawn"


def long_sentences(text):
    """Each sentence of a page, outside of what is indented, that has more than the most words."""
    for line in re.sub(r"^ {4}.*\n", "", text, flags=re.MULTILINE).split("\n"):
        for cell in line.split("|") if line.startswith("|") else [line]:
            for sentence in re.split(r"(?<=[.!?])\s+", cell):
                if len(sentence.split()) > MOST:
                    yield sentence.strip()


def main():
    parser = argparse.ArgumentParser()
    parser.add_argument("--exe", required=True)
    program = os.path.abspath(parser.parse_args().exe)
    passed = failed = 0
    with tempfile.TemporaryDirectory() as place:
        laid_out(place, program)
        for name in DOCUMENTS:
            for fault in faults(read(name), place):
                passed, failed = passed + (not fault), failed + bool(fault)
                if fault:
                    print(f"{name}: {fault}")
    for name in PAGES:
        found = list(long_sentences(read(name)))
        passed, failed = passed + (not found), failed + bool(found)
        for sentence in found:
            print(f"{name}: a sentence of {len(sentence.split())} words: {sentence}")
    print(f"{passed} passed, {failed} failed")
    return 1 if failed else 0


if __name__ == "__main__":
    sys.exit(main())
