"""Plays the rows of rows.json and the networks of examples/ with an executable `sfmeter`, which counts the nodes that each sample
enters as its network is written and as it is rewritten.

    python3 rows/meters.py --exe PATH [--only NAME] [--timeout SECONDS]

A row whose network is refused, or whose words or files are, is left out, and so is one that has its output only rewritten, or asks
for no run. Each sample with a value has to be counted, and none may enter more nodes rewritten than as its network is written; on
LEAST rows at least one of them has to enter fewer.
The last line is `N passed, M failed`.
"""

import argparse
import os
import subprocess
import sys
import tempfile

from play import rows_and_examples, runs, text_of

# (there were 43 when this was written)
LEAST = 40


def counted(words, lines, timeout):
    """The two counts of each sample, and the status."""
    done = subprocess.run(words, input=lines, capture_output=True, timeout=timeout)
    return [tuple(map(int, line.split())) for line in done.stdout.splitlines()], done.returncode


def faults(row, counts, status):
    found = []
    if status != row["status"]:
        found.append(f"status {status}, wanted {row['status']}")
    samples = sum(line.startswith(b"> ") for line in text_of(row["output"]).splitlines())
    if len(counts) != samples:
        found.append(f"{len(counts)} samples counted, wanted {samples}")
    for number, (plain, rewritten) in enumerate(counts):
        if rewritten > plain:
            found.append(f"sample {number} enters {plain} nodes, and rewritten {rewritten}")
    return found


def main():
    parser = argparse.ArgumentParser()
    parser.add_argument("--exe", required=True)
    parser.add_argument("--only")
    parser.add_argument("--timeout", type=float, default=120)
    options = parser.parse_args()
    passed = failed = fewer = 0
    with tempfile.TemporaryDirectory() as place:
        network = os.path.join(place, "network")
        for row in rows_and_examples():
            if row["status"] not in (0, 3, 4) or not runs(row) or row.get("plain") is False or options.only and row["name"] != options.only:
                continue
            with open(network, "wb") as file:
                file.write(text_of(row["network"]))
            try:
                counts, status = counted([os.path.abspath(options.exe), network], text_of(row["input"]), options.timeout)
                found = faults(row, counts, status)
                fewer += any(rewritten < plain for plain, rewritten in counts)
            except subprocess.TimeoutExpired:
                found = [f"no answer in {options.timeout:g} seconds"]
            passed, failed = passed + (not found), failed + bool(found)
            if found:
                print(f"row '{row['name']}': {'; '.join(found)}")
    if not options.only and fewer < LEAST:
        failed += 1
        print(f"on {fewer} rows a sample enters fewer nodes, wanted {LEAST}")
    print(f"{passed} passed, {failed} failed")
    return 1 if failed else 0


if __name__ == "__main__":
    sys.exit(main())
