"""Plays networks from C, Rust and Python by the static library of crates/gezmulda_c, and runs the commands of docs/EMBEDDING.md.

    python3 rows/embedding.py --exe PATH [--folder FOLDER]

PATH is an executable `sfplay`. FOLDER has what embedding/build.py gathers; where none is named, that is gathered over the libraries as
the gate left them. What takes a compiler that is not there is left out, with a word. The last line is `N passed, M failed`.
"""

import argparse
import os
import re
import shutil
import subprocess
import sys
import tempfile

import documents

TOP = documents.TOP
DOCUMENT = "docs/EMBEDDING.md"
# A paragraph that begins with the name of a source, and what is shown of it.
SHOWN = re.compile(r"^`((?:crates|embedding)/[\w/]+\.\w+)`.*\n\n((?:(?:    .*)?\n)+)", re.MULTILINE)
# What is left out where a tool is not there: the commands that begin with these words.
TOOLS = {"cc": ("cc ", "./average", "./side_by_side"), "cargo": ("cargo ",)}


def gathered(folder):
    """Whether what programs link is in the folder."""
    build = os.path.join(TOP, "embedding", "build.py")
    status = subprocess.run([sys.executable, build, "--as-they-stand", folder], stdout=subprocess.DEVNULL).returncode
    if status not in (0, 2):
        raise RuntimeError(f"embedding/build.py ended with status {status}")
    return status == 0


def laid_out(place, program, folder):
    """A copy of this repository as far as the commands need it, with what programs link."""
    documents.laid_out(place, program)
    left_out = shutil.ignore_patterns("out", "target", "__pycache__", "Cargo.lock")
    shutil.copytree(os.path.join(TOP, "embedding"), os.path.join(place, "embedding"), ignore=left_out)
    shutil.copytree(folder, os.path.join(place, "embedding", "out"))


def call(words, folder):
    """What a command says where it fails, or nothing."""
    run = subprocess.run(words, cwd=folder, stdin=subprocess.DEVNULL, capture_output=True, text=True)
    return f"{' '.join(words)}:\n{run.stdout}{run.stderr}" if run.returncode else ""


def faults_of_clients(place, tools):
    """What is wrong with the tests of each client, or nothing."""
    yield call([sys.executable, "-m", "unittest"], os.path.join(place, "embedding", "python"))
    if "cargo" in tools:
        yield call(["cargo", "test", "--offline", "--quiet"], os.path.join(place, "embedding", "rust"))


def faults_of_document(text, place, tools):
    """What is wrong with each command of the page and with each piece of a source that it shows, or nothing."""
    for command, wanted in documents.commands(text):
        missing = [tool for tool, starts in TOOLS.items() if tool not in tools and command.startswith(starts)]
        if not missing:
            output = documents.written(command, place)
            yield "" if output == wanted else f"$ {command}\nwrites:\n{output}and not:\n{wanted}"
    for name, piece in SHOWN.findall(text):
        piece = re.sub(r"^    ", "", piece, flags=re.MULTILINE).strip("\n")
        yield "" if piece in documents.read(name) else f"{name} has no such lines as are shown of it"


def faults(place, program, folder):
    tools = {tool for tool in TOOLS if shutil.which(tool)}
    for tool in sorted({*TOOLS} - tools):
        print(f"{tool} is not there: what takes it is left out")
    if not os.path.exists(os.path.join(folder, "libgezmulda.so")):
        print("libgezmulda.so is not there: no network is played from Python")
        return
    laid_out(place, program, folder)
    # (a program that cargo builds is no part of the copy)
    with tempfile.TemporaryDirectory() as target:
        os.environ["CARGO_TARGET_DIR"] = target
        yield from faults_of_clients(place, tools)
        yield from faults_of_document(documents.read(DOCUMENT), place, tools)


def main():
    parser = argparse.ArgumentParser()
    parser.add_argument("--exe", required=True)
    parser.add_argument("--folder")
    words = parser.parse_args()
    passed = failed = 0
    with tempfile.TemporaryDirectory() as place, tempfile.TemporaryDirectory() as room:
        folder = words.folder or os.path.join(room, "gathered")
        if words.folder or gathered(folder):
            for fault in faults(place, os.path.abspath(words.exe), folder):
                passed, failed = passed + (not fault), failed + bool(fault)
                if fault:
                    print(fault)
        else:
            print("the libraries below gezmulda_c are not built here: no network is played from other languages")
    print(f"{passed} passed, {failed} failed")
    return 1 if failed else 0


if __name__ == "__main__":
    sys.exit(main())
