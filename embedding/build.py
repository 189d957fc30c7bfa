#!/usr/bin/env python3
"""Gathers in a folder what programs link that play networks: embedding/build.py [FOLDER], or embedding/out where none is named.

    libgezmulda_c.a        the static library of crates/gezmulda_c
    libgezmulda_memory.a   the toolchain's calls by which it takes memory from the C library
    libgezmulda.so         both in one shared object, where a C compiler is there
    gezmulda.h             the header of the calls

The library is proved and built first, by `rt lib`. With `--as-they-stand` it is built over the libraries below it as the gate or an
earlier check left them in crates/*/out, however old these are, and the status is 2 where one is not there.
"""

import argparse
import os
import shutil
import subprocess
import sys

HERE = os.path.dirname(os.path.abspath(__file__))
CRATES = os.path.join(HERE, "..", "crates")
CRATE = os.path.join(CRATES, "gezmulda_c")
ARCHIVE = os.path.join("out", "libgezmulda_c.a")


def say(text):
    print(f"build.py: {text}", file=sys.stderr)


def toolchain():
    """The folder of the Rattle toolchain: that of the page which `rt doc` names."""
    page = subprocess.run(["rt", "doc"], capture_output=True, text=True, check=True).stdout.strip()
    return os.path.dirname(page)


def libraries():
    """What the crate names, and each crate of this repository below it."""
    with open(os.path.join(HERE, "..", "crates.txt")) as file:
        lines = [line.partition("#")[0].partition(":") for line in file]
    named = {name.split()[0]: used.split() for name, _, used in lines if name.strip()}
    below, left = {}, [*named["gezmulda_c"]]
    while left:
        crate = left.pop()
        if crate in named and crate not in below:
            below[crate] = os.path.abspath(os.path.join(CRATES, crate, "out", "rlib"))
            left += named[crate]
    return named["gezmulda_c"], below


def build_as_they_stand(kit):
    """Proves the crate over the libraries that are there, and builds it. Whether they all are."""
    named, below = libraries()
    if not all(os.path.isfile(f"{folder}/{crate}.rlib/format") for crate, folder in below.items()):
        return False
    words = ["--crate-name", "gezmulda_c", "--crate-type", "staticlib", "src/lib.rt", "-L", f"dependency={kit}/rlibs"]
    for crate in ["std", *named]:
        words += ["--extern", f"{crate}={below.get(crate, f'{kit}/rlibs')}/{crate}.rlib"]
    for folder in below.values():
        words += ["-L", f"dependency={folder}"]
    words += ["--antt-project", f"{kit}/rattle/logic/antt-project.json", "--logic-built", f"{kit}/logic_built"]
    os.makedirs(os.path.join(CRATE, "out"), exist_ok=True)
    words += ["--toolchain", f"{kit}/toolchain", "--backend", "llvm", "-o", ARCHIVE]
    subprocess.run([f"{kit}/bin/rattle", "build", *words], cwd=CRATE, check=True, stdout=sys.stderr)
    return True


def make_shared(compiler, folder):
    """Puts both archives into one shared object, which keeps its calls of itself to itself."""
    whole = ["-Wl,--whole-archive", "libgezmulda_c.a", "-Wl,--no-whole-archive", "libgezmulda_memory.a"]
    subprocess.run([compiler, "-shared", "-Wl,-Bsymbolic", "-o", "libgezmulda.so", *whole], cwd=folder, check=True)


def main():
    parser = argparse.ArgumentParser(description=__doc__, formatter_class=argparse.RawDescriptionHelpFormatter)
    parser.add_argument("folder", nargs="?", default=os.path.join(HERE, "out"))
    parser.add_argument("--as-they-stand", action="store_true")
    words = parser.parse_args()
    kit = toolchain()
    if not words.as_they_stand:
        subprocess.run(["rt", "lib"], cwd=CRATE, check=True, stdout=sys.stderr)
    elif not build_as_they_stand(kit):
        say("a library below gezmulda_c is not built: leave out --as-they-stand")
        return 2
    os.makedirs(words.folder, exist_ok=True)
    shutil.copy(os.path.join(CRATE, ARCHIVE), words.folder)
    shutil.copy(f"{kit}/c/liblibc_c.a", os.path.join(words.folder, "libgezmulda_memory.a"))
    shutil.copy(os.path.join(HERE, "c", "gezmulda.h"), words.folder)
    compiler = next(filter(shutil.which, ("cc", "gcc", "clang")), None)
    if compiler:
        make_shared(compiler, words.folder)
    else:
        say("no C compiler is there, so libgezmulda.so is not made")
    return 0


if __name__ == "__main__":
    sys.exit(main())
