"""Runs each script of this folder that plays what the gate has built, as many side by side as there are processors, the longest first.

    python3 rows/all.py

What a script prints stands together, under its name and the seconds that it took, once it has ended. The status is 1 where one of
them failed.
"""

import os
import subprocess
import sys
import time
from concurrent.futures import ThreadPoolExecutor, as_completed

HERE = os.path.dirname(os.path.abspath(__file__))
# Each with the crate of the program that it plays, the longest first.
SCRIPTS = {
    "refuse_growths": "sfplay",
    "play": "sfplay",
    "soak": "sfplay",
    "alter": "sfplay",
    "histories": "sfplay",
    "refusals": "sfplay",
    "embedding": "sfplay",
    "meters": "sfmeter",
    "documents": "sfplay",
    "refused": "sfplay",
    "tools": "sfplay",
}


def run(name):
    """A script's status, what it printed, and the seconds that it took."""
    crate, began = SCRIPTS[name], time.monotonic()
    program = os.path.join("crates", crate, "out", crate)
    words = [sys.executable, os.path.join("rows", f"{name}.py"), "--exe", program]
    done = subprocess.run(words, cwd=os.path.join(HERE, ".."), stdout=subprocess.PIPE, stderr=subprocess.STDOUT, text=True)
    return done.returncode, done.stdout, time.monotonic() - began


def main():
    failed = []
    with ThreadPoolExecutor(len(os.sched_getaffinity(0))) as pool:
        runs = {pool.submit(run, name): name for name in SCRIPTS}
        for it in as_completed(runs):
            status, said, seconds = it.result()
            print(f"== rows/{runs[it]}.py, {seconds:.0f} seconds\n{said}", end="", flush=True)
            failed += [runs[it]] * bool(status)
    if failed:
        print(f"rows: failed: {', '.join(failed)}")
    return 1 if failed else 0


if __name__ == "__main__":
    sys.exit(main())
