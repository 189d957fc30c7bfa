"""Times `sfplay` on two lines with networks about as large as a text may be, as they are written and as they are rewritten.

    python3 bench/large.py [--exe PATH] [--rounds N]

The best of some rounds counts, by the clock. Wanted is that a rewritten network takes at most a second more, with its reading and
its rewriting; and both have to write the same. The memory is the most that a run held.
"""

import argparse
import os
import subprocess
import sys
import tempfile
import time

from instructions import HERE, chain, left_spine, right_spine

MOST_MORE = 1.0
# The most bytes that a text may have.
MIB = 1 << 20
# Its text is filled up with spaces to that.
FULL = "49,999 iPre in 1 MiB"
SIDES = "(iPre 0 *** iPre 1)"
# Each with the type of its inputs and outputs, and its term.
NETWORKS = {
    "50,000 iPre": ("Int", chain("iPre 0", 50_000)),
    "46 iPre behind 49,000": ("Int", "(" * 46 + chain("iPre 0", 49_000) + " >>> iPre 0)" * 46),
    "46 iPre before 49,000": ("Int", "(iPre 0 >>> " * 46 + chain("iPre 0", 49_000) + ")" * 46),
    "47,250 iPre in spines": ("Int", left_spine(right_spine(left_spine(right_spine("iPre 0", 15), 15), 15), 14)),
    "33,000 arr": ("Int", chain("arr x => (x + 1)", 33_000)),
    "33,000 arr in spines": ("Int", right_spine(left_spine(right_spine(left_spine("arr x => (x + 1)", 15), 11), 10), 20)),
    "33,000 first iPre": ("(Int, Int)", chain("first iPre 0", 33_000)),
    "24,000 (iPre *** iPre)": ("(Int, Int)", chain(SIDES, 24_000)),
    "24,000 in spines": ("(Int, Int)", left_spine(right_spine(left_spine(right_spine(SIDES, 15), 10), 10), 16)),
    "25,000 iPre >>> constant": ("Int", chain("(iPre 0 >>> constant 5)", 25_000)),
    FULL: ("Int", chain("iPre 12345678", 49_999)),
}


def played(words, lines):
    """What one run writes, how many seconds it takes, and the most KiB that it holds."""
    with tempfile.TemporaryFile() as source, tempfile.TemporaryFile() as sink:
        source.write(lines)
        source.seek(0)
        began = time.perf_counter()
        child = subprocess.Popen(words, stdin=source, stdout=sink)
        _, status, used = os.wait4(child.pid, 0)
        seconds = time.perf_counter() - began
        if status:
            sys.exit(f"large: {' '.join(words)}: status {os.waitstatus_to_exitcode(status)}")
        sink.seek(0)
        return sink.read(), seconds, used.ru_maxrss


def main():
    parser = argparse.ArgumentParser()
    parser.add_argument("--exe", default=os.path.join(HERE, "..", "crates", "sfplay", "out", "sfplay"))
    parser.add_argument("--rounds", type=int, default=3)
    options = parser.parse_args()
    exe = os.path.abspath(options.exe)
    row = "{:<24} {:>9} {:>12} {:>8} {:>12} {:>8} {:>12}".format
    print(row("two samples", "bytes", "written, s", "MiB", "rewritten, s", "MiB", "most, s"))
    with tempfile.TemporaryDirectory() as place:
        path = os.path.join(place, "network")
        for name, (types, term) in NETWORKS.items():
            text = f"network 1;\ntemplate main(): {types} ~> {types} = {term};\n"
            if name == FULL:
                text = text.ljust(MIB)
            with open(path, "w") as file:
                file.write(text)
            lines = b"0 1\n1 2\n" if types == "Int" else b"0 (1,2)\n1 (3,4)\n"
            plain, rewritten = ([played([exe, path, *mode], lines) for _ in range(options.rounds)] for mode in (["--plain"], []))
            if len({output for output, _, _ in plain + rewritten}) > 1:
                sys.exit(f"large: {name}: two outputs differ")
            figures = [f(run[at] for run in runs) for runs in (plain, rewritten) for f, at in ((min, 1), (max, 2))]
            took, held, took_rewritten, held_rewritten = figures
            shown = (f"{took:.2f}", f"{held / 1024:.0f}", f"{took_rewritten:.2f}", f"{held_rewritten / 1024:.0f}", f"{took + MOST_MORE:.2f}")
            print(row(name, len(text), *shown))


if __name__ == "__main__":
    main()
