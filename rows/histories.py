"""Plays random networks on random lines, and compares what is written with what the networks mean by whole lives (meaning.py); and the worked rows
that are short enough, by which that reading is tried itself.

    python3 rows/histories.py --exe PATH [--meter PATH] [--first SEED] [--count N]

Each network is played with --probes, with and without --plain. By `sfmeter`, as it is written it enters as many terms at each sample as its meaning
counts, and rewritten no more. A network is left out where its meaning would take too long, where a sample is too large, and where a type or a form
of it is. On SHARE in a hundred networks all this has to be compared, and each form of the language that forms.json lists has to stand in one of them.
The last line is `N passed, M failed`.
"""

import argparse
import os
import subprocess
import sys
import tempfile

from meaning import Fault, Network, TooLong, spelled
from networks import Maker, NoWay
from play import rows_and_examples, runs, text_of, unplayed
from reading import value_of

FIRST, COUNT, SHARE = 1, 3000, 90
# The steps of terms that a network or a row may take here, and the lines and bytes that a row may have.
MOST, MOST_LINES, MOST_BYTES = 60_000, 60, 20_000
TIMEOUT = 60
# What is refused for its size alone.
TOO_LARGE = (b"C9 ", b"P2 ", b"L4 ")


def histories_of(lines):
    """The history of each sample."""
    history, saved = [], {}
    for line in lines.split("\n"):
        word, _, rest = line.partition(" ")
        if word == "save":
            saved[rest] = history
        elif word == "back":
            history = saved[rest]
        elif word and not line.startswith("#"):
            value = history[-1][1] if rest == "=" else value_of(rest)
            history = ([] if word == "0" else history) + [(int(word), value)]
            yield history


def outcomes_of(network, histories):
    """The outcomes of each history, of which one that goes on is asked in place of its fronts."""
    known = []
    for history in reversed(histories):
        longer = next((outcomes for other, outcomes in known if other[: len(history)] == history), None)
        known.append((history, network.outcomes(history) if longer is None else longer[: len(history)]))
    return [outcomes for _, outcomes in reversed(known)]


def script(network, lines, probes=True):
    """What is written for lines, and how many terms each sample enters."""
    written, entered, histories = [], [], [*histories_of(lines)]
    for history, outcomes in zip(histories, outcomes_of(network, histories)):
        outcome, time = outcomes[-1], sum(step[0] for step in history[1:])
        if isinstance(outcome, Fault):
            written.append(f"! {time} {outcome}\n")
            break
        written += [f"? {name} {spelled(value)}\n" for name, value in outcome.readings if probes]
        written.append(f"> {time} {spelled(outcome.value)}\n")
        entered.append(outcome.entered)
    return "".join(written), entered


class Programs:
    """The programs that are tried, with a file for a network's text."""

    def __init__(self, exe, meter, place):
        self.exe, self.meter, self.path = os.path.abspath(exe), os.path.abspath(meter), os.path.join(place, "network")

    def ran(self, lines, *words):
        done = subprocess.run([words[0], self.path, *words[1:]], input=lines.encode("utf-8"), capture_output=True, timeout=TIMEOUT)
        return done.returncode, done.stdout, done.stderr

    def faults(self, text, lines):
        """What differs, or nothing; None where nothing is compared."""
        with open(self.path, "w", encoding="utf-8") as file:
            file.write(text)
        modes = [self.ran(lines, self.exe, "--probes", *mode) for mode in ([], ["--plain"])]
        if modes[1][0] == 5 and modes[1][2].startswith(tuple(b"sfplay: " + name for name in TOO_LARGE)) or b" Large\n" in modes[1][1]:
            return None
        try:
            written, entered = script(Network(text, MOST), lines)
        except TooLong:
            return None
        wanted = 3 if "! " in written.splitlines()[-1][:2] else 0, written.encode("utf-8"), b""
        found = [f"{mode}: {got}, wanted {wanted}" for mode, got in zip(("rewritten", "as it is written"), modes) if got != wanted]
        return found + self.miscounted(lines, entered)

    def miscounted(self, lines, entered):
        _, counts, _ = self.ran(lines, self.meter)
        pairs = [tuple(map(int, line.split())) for line in counts.splitlines()]
        if [plain for plain, _ in pairs] != entered:
            return [f"{[plain for plain, _ in pairs]} terms are entered, wanted {entered}"]
        return [f"rewritten {more} terms are entered, as it is written {plain}" for plain, more in pairs if more > plain]


def short_rows():
    """The rows that are compared with their meaning: what a sample is written for, and no more is."""
    for row in rows_and_examples():
        if row["status"] not in (0, 3) or not runs(row):
            continue
        output, lines = text_of(row["output"]).decode("utf-8"), text_of(row["input"])
        if lines.count(b"\n") <= MOST_LINES and len(lines) <= MOST_BYTES and "Large" not in output and "Memory" not in output:
            yield row, text_of(row["network"]).decode("utf-8"), lines.decode("utf-8"), output


def tried_rows():
    """How many rows have their meaning, and what is to be said of others."""
    passed, said = 0, []
    for row, text, lines, output in short_rows():
        try:
            written, _ = script(Network(text, MOST), lines, "--probes" in row["arguments"])
        except TooLong:
            continue
        passed += written == output
        said += [f"row '{row['name']}' means {written!r}"] * (written != output)
    return passed, said


def tried_networks(programs, seeds):
    """The texts that were compared, and what is to be said of others."""
    texts, said = [], []
    for seed in seeds:
        maker = Maker(seed)
        try:
            text, taken = maker.network()
        except NoWay:
            continue
        lines = maker.lines(taken)
        found = programs.faults(text, lines)
        if found is not None:
            texts.append(text.encode("utf-8"))
            said += [f"seed {seed}: {'; '.join(found)}\n{text}{lines}"] * bool(found)
    return texts, said


def main():
    parser = argparse.ArgumentParser()
    parser.add_argument("--exe", required=True)
    parser.add_argument("--meter")
    parser.add_argument("--first", type=int, default=FIRST)
    parser.add_argument("--count", type=int, default=COUNT)
    options = parser.parse_args()
    meter = options.meter or options.exe.replace("sfplay", "sfmeter")
    sys.setrecursionlimit(20_000)
    passed, said = tried_rows()
    with tempfile.TemporaryDirectory() as place:
        texts, differing = tried_networks(Programs(options.exe, meter, place), range(options.first, options.first + options.count))
    passed += len(texts) - len(differing)
    said += differing
    if len(texts) * 100 < options.count * SHARE:
        said.append(f"{len(texts)} of {options.count} networks were compared")
    missing = unplayed(texts)
    if missing and options.count >= COUNT:
        said.append(f"no network that was compared has {', '.join(missing)}")
    for it in said:
        print(it)
    print(f"{passed} passed, {len(said)} failed")
    return 1 if said else 0


if __name__ == "__main__":
    sys.exit(main())
