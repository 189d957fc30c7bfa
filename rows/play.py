"""Plays the worked rows of rows.json and the networks of examples/ and recipes/ with an executable `sfplay`, each with and without --plain.

    python3 rows/play.py --exe PATH [--only NAME] [--timeout SECONDS]

A row with `"plain": true` is played with --plain alone, and one with `"plain": false` without it: a sample that is too large as it is
written may have a value where it is rewritten. All are expected to pass, and each form of the language that forms.json lists has to
stand in the network of one that runs.
The last line is `N passed, M failed`.
"""

import argparse
import json
import os
import re
import subprocess
import sys
import tempfile
import threading

HERE = os.path.dirname(os.path.abspath(__file__))
# The folders of networks, each with what one of theirs is called.
FOLDERS = {"examples": "example", "recipes": "recipe"}
# The words for the modes in which a row is played, by its key "plain".
MODES = {None: ([], ["--plain"]), True: (["--plain"],), False: ([],)}
# A text or a comment, which has no forms, or a word or a symbol.
TOKEN = re.compile(rb'"[^"\n]*"|#.*|[A-Za-z]\w*|-?\d+|-->|>--|>=-|[!=<>]=|~>|=>|>>>|\*{3}|&&&|\S')


def text_of(given):
    """A text, or bytes in hexadecimal digits, or a text for each number of a range, up or down, with the number at each `%` of it; or
    pairs of one of these four and how often it stands."""
    if isinstance(given, str):
        return given.encode("utf-8")
    if isinstance(given, dict) and "each" in given:
        first, last = given["from"], given["to"]
        numbers = range(first, last + 1) if first <= last else range(first, last - 1, -1)
        return b"".join(given["each"].replace("%", str(number)).encode("utf-8") for number in numbers)
    if isinstance(given, dict):
        return bytes.fromhex(given["bytes"])
    return b"".join(text_of(text) * times for text, times in given)


def example(folder, name):
    """A network of a folder as a row: NAME.net is played on NAME.in and writes NAME.out, whose last line tells the status."""
    path = os.path.join(HERE, "..", folder, name)
    network, lines, output = (open(path + end, encoding="utf-8").read() for end in (".net", ".in", ".out"))
    last = output.splitlines()[-1]
    status = 4 if last.startswith("! line ") else 3 if last.startswith("! ") else 0
    name = f"{FOLDERS[folder]} {name}"
    return {"name": name, "network": network, "arguments": [], "input": lines, "output": output, "errors": "", "status": status}


def rows_and_examples():
    """The rows of rows.json, and behind them the examples and recipes."""
    with open(os.path.join(HERE, "rows.json"), encoding="utf-8") as file:
        rows = json.load(file)
    for folder in FOLDERS:
        names = sorted(name for name in os.listdir(os.path.join(HERE, "..", folder)) if name.endswith(".net"))
        rows += [example(folder, name[: -len(".net")]) for name in names]
    return rows


def runs(row):
    """Whether a row asks for a run, and not for a check or a text."""
    return not {"--check", "--dump"} & {*row["arguments"]}


def play_live(words, row, timeout):
    """Each input line only after the output line of the one before it. Where the run ends by itself, its input stays open till then."""
    player = subprocess.Popen(words, stdin=subprocess.PIPE, stdout=subprocess.PIPE, stderr=subprocess.PIPE)
    late = threading.Timer(timeout, player.kill)
    late.start()
    output = b""
    for line, _ in zip(text_of(row["input"]).splitlines(True), text_of(row["output"]).splitlines(True)):
        player.stdin.write(line)
        player.stdin.flush()
        output += player.stdout.readline()
    if not row["status"]:
        player.stdin.close()
    output += player.stdout.read()
    errors = player.stderr.read()
    status = player.wait()
    late.cancel()
    return output, errors, status


def play(words, row, timeout):
    if row.get("live"):
        return play_live(words, row, timeout)
    with tempfile.TemporaryFile() as held:
        held.write(text_of(row["input"]))
        held.seek(0)
        source = os.open(row["input_from"], os.O_RDONLY) if "input_from" in row else held.fileno()
        sink = open(row["output_to"], "wb") if "output_to" in row else subprocess.PIPE
        done = subprocess.run(words, stdin=source, stdout=sink, stderr=subprocess.PIPE, timeout=timeout)
    return done.stdout or b"", done.stderr, done.returncode


def faults(row, output, errors, status):
    found = []
    if status != row["status"]:
        found.append(f"status {status}, wanted {row['status']}")
    if row["output"] is not None and output != text_of(row["output"]):
        found.append(f"output {output[-300:]!r}, wanted {text_of(row['output'])[-300:]!r}")
    if row["errors"] is None and not errors:
        found.append("nothing on standard error")
    if isinstance(row["errors"], list):
        found += [f"no {part!r} on standard error" for part in row["errors"] if part.encode("utf-8") not in errors]
    elif row["errors"] is not None and errors != row["errors"].encode("utf-8"):
        found.append(f"standard error {errors[-300:]!r}, wanted {row['errors']!r}")
    return found


def unplayed(networks):
    """Each form that stands in none of these network texts."""
    with open(os.path.join(HERE, "forms.json"), encoding="utf-8") as file:
        forms = [form for group in json.load(file).values() for form in group]
    played = {token for network in networks for token in TOKEN.findall(network)}
    return [form for form in forms if form.encode("utf-8") not in played]


def main():
    parser = argparse.ArgumentParser()
    parser.add_argument("--exe", required=True)
    parser.add_argument("--only")
    parser.add_argument("--timeout", type=float, default=120)
    options = parser.parse_args()
    passed = failed = 0
    networks = []
    with tempfile.TemporaryDirectory() as place:
        for row in rows_and_examples():
            if options.only and row["name"] != options.only:
                continue
            network = os.path.join(place, "absent" if row["network"] is None else "network")
            if row["network"] is not None:
                with open(network, "wb") as file:
                    file.write(text_of(row["network"]))
            if row["status"] in (0, 3) and runs(row):
                networks.append(text_of(row["network"]))
            for mode in MODES[row.get("plain")]:
                words = [os.path.abspath(options.exe), network, *row["arguments"], *mode]
                try:
                    found = faults(row, *play(words, row, options.timeout))
                except subprocess.TimeoutExpired:
                    found = [f"no answer in {options.timeout:g} seconds"]
                passed, failed = passed + (not found), failed + bool(found)
                if found:
                    print(f"row '{row['name']}' {' '.join(mode)}: {'; '.join(found)}")
    for form in [] if options.only else unplayed(networks):
        failed += 1
        print(f"no row runs a network with '{form}'")
    print(f"{passed} passed, {failed} failed")
    return 1 if failed else 0


if __name__ == "__main__":
    sys.exit(main())
