"""Tries the wrong bodies that the gate leaves out for its time: the files crates/CRATE/must-fail/NAME.md, which read as the edits do.

    python3 bench/bodies.py [CRATE ..]

They are tried in a copy of the sources, where they stand in the place of the edits that the gate tries. The toolchain takes what it has
proved of the same sources elsewhere on this machine. The last lines are those of `rt must-fail`, and so is the status.
"""

import os
import shutil
import subprocess
import sys
import tempfile

TOP = os.path.realpath(os.path.join(os.path.dirname(os.path.abspath(__file__)), ".."))


def exchange(folder):
    """Puts the wrong bodies that are left out in the place of the others, and says how many they are."""
    names = sorted(os.listdir(folder)) if os.path.isdir(folder) else []
    for name in names:
        path = os.path.join(folder, name)
        if name.endswith(".edit"):
            os.remove(path)
        elif name.endswith(".md"):
            os.rename(path, path[: -len(".md")] + ".edit")
    return sum(name.endswith(".md") for name in names)


def main():
    wanted = sys.argv[1:]
    if any(name.startswith("-") for name in wanted):
        print(__doc__, end="")
        return 0
    with tempfile.TemporaryDirectory(prefix="bodies-") as place:
        for name in ("crates.txt", "HANDLES"):
            shutil.copy(os.path.join(TOP, name), place)
        crates = os.path.join(place, "crates")
        shutil.copytree(os.path.join(TOP, "crates"), crates, ignore=shutil.ignore_patterns("out"))
        found = {crate: exchange(os.path.join(crates, crate, "must-fail")) for crate in sorted(os.listdir(crates))}
        chosen = [crate for crate in found if found[crate] and (not wanted or crate in wanted)]
        print(f"bodies: {sum(found[crate] for crate in chosen)} of {len(chosen)} crates", flush=True)
        return subprocess.run(["rt", "must-fail", *chosen], cwd=place).returncode if chosen else 0


if __name__ == "__main__":
    sys.exit(main())
