"""Lists the modules on which a check of a crate from nothing spent most time, and the functions by all of their modules.

    python3 bench/modules.py CRATE [--most N]

To be run after `rm -rf out && rt check --jobs 1` in the crate's folder: the toolchain keeps each module once it is checked, so
the time between two of these files is what the later one took. `Lts` is the following of a function's ways, `Proof` its goals,
`Answers` what is answered by hand, `Tie` what joins these.
"""

import argparse
import os
import sys
from collections import Counter

TOP = os.path.realpath(os.path.join(os.path.dirname(os.path.abspath(__file__)), ".."))
FRONT, BACK = "Rattle-", ".oantt"


def kept(folder):
    """The modules that a check kept, in the order of their times."""
    found = []
    for at, _, names in os.walk(folder):
        found += [(os.stat(os.path.join(at, name)).st_mtime, name[len(FRONT) : -len(BACK)]) for name in names if name.endswith(BACK)]
    return sorted(found)


def main():
    words = argparse.ArgumentParser(description=__doc__.split("\n")[0])
    words.add_argument("crate")
    words.add_argument("--most", type=int, default=25, help="how many lines of each list")
    options = words.parse_args()
    modules = kept(os.path.join(TOP, "crates", options.crate, "out", "incremental"))
    if not modules:
        sys.exit(f"nothing is kept of a check of {options.crate}: run rt check in its folder")
    seconds, functions = Counter(), Counter()
    for (before, _), (after, name) in zip(modules, modules[1:]):
        seconds[name] += after - before
        functions[".".join(name.split(".")[:3])] += after - before
    for title, counted in (("modules", seconds), ("functions", functions)):
        print(f"{title}, seconds")
        for name, took in counted.most_common(options.most):
            print(f"{took:8.2f} {name}")


if __name__ == "__main__":
    main()
