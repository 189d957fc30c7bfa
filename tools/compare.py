"""Plays the networks of a folder, each on its input lines, and compares what is written with what was written down.

    python3 tools/compare.py FOLDER [--write]

Each NAME.net is played on NAME.in, with --plain and without, and has to give NAME.out. Where that file has readings, they are asked for.
With --write, a NAME.out that isn't there is written, for a look whether it is right. The last line is `N passed, M failed`.
"""

import argparse
import itertools
import os
import subprocess
import sys

from session import add_program, program_of


def read(path):
    with open(path, "rb") as file:
        return file.read()


def status_of(output):
    """The status of a run that wrote this."""
    last = (output.splitlines() or [b""])[-1]
    return 4 if last.startswith(b"! line ") else 3 if last.startswith(b"! ") else 0


def played(words, lines):
    run = subprocess.run(words, input=lines, stdout=subprocess.PIPE)
    return run.stdout, run.returncode


def first_difference(output, wanted):
    """The first lines that differ, with their number."""
    pairs = itertools.zip_longest(output.splitlines(), wanted.splitlines(), fillvalue=b"nothing")
    for number, (line, wanted_line) in enumerate(pairs, 1):
        if line != wanted_line:
            return f"line {number} is {line.decode(errors='replace')}, wanted {wanted_line.decode(errors='replace')}"
    return "the end of the last line differs"


def faults(program, path, is_to_write):
    """What is wrong with the network of a path without its ending."""
    lines = read(f"{path}.in")
    if not os.path.exists(f"{path}.out"):
        if not is_to_write:
            return [f"{path}.out is not there"]
        output, status = played([program, "--probes", f"{path}.net"], lines)
        with open(f"{path}.out", "wb") as file:
            file.write(output)
    wanted = read(f"{path}.out")
    probes = ["--probes"] if any(line.startswith(b"? ") for line in wanted.splitlines()) else []
    found = []
    for mode in ([], ["--plain"]):
        output, status = played([program, *probes, *mode, f"{path}.net"], lines)
        if output != wanted:
            found.append(first_difference(output, wanted))
        elif status != status_of(wanted):
            found.append(f"status {status}")
    return found


def main():
    parser = argparse.ArgumentParser(description=__doc__, formatter_class=argparse.RawDescriptionHelpFormatter)
    parser.add_argument("folder", metavar="FOLDER")
    parser.add_argument("--write", action="store_true")
    add_program(parser)
    options = parser.parse_args()
    passed = failed = 0
    for name in sorted(os.listdir(options.folder)):
        path, ending = os.path.splitext(os.path.join(options.folder, name))
        if ending == ".net":
            found = faults(program_of(options), path, options.write)
            passed, failed = passed + (not found), failed + bool(found)
            for what in found:
                print(f"{name}: {what}")
    print(f"{passed} passed, {failed} failed")
    return 1 if failed else 0


if __name__ == "__main__":
    sys.exit(main())
