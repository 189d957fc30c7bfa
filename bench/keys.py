"""Counts the instructions a key of lines with tables of 100 and of some 10,000 keys, those of a line whose table is looked into, and
those of a line whose keys are chosen to cost much, by valgrind, beside the most that is wanted.

    python3 bench/keys.py [--exe PATH]

The networks are `identity` and one that sums the table by `fold`, and then `arr (t, k) => get(t, k)` beside `identity` on the same
lines. A line is played 2 and 6 times, so that the difference is free of what the start costs, and it doesn't depend on how busy the
machine is. The long line has as many keys as 65,536 bytes hold. Wanted are at most 3 times as many instructions a key as on the short
one, and for `get` at most 1.3 times those of `identity`. A line with 4,600 chosen keys is wanted to take at most 3 times the
instructions of one with as many keys at random: keys in and against their order, texts that differ at their end alone, and, where a C
compiler is there, numbers of one group of a hash with a fixed seed (colliding.c). Without valgrind nothing is counted, and the status
is 0.
"""

import argparse
import os
import random
import shutil
import subprocess
import tempfile

from instructions import HERE, instructions

LONGEST = 65536
MOST, MOST_FOR_GET, MOST_FOR_CHOSEN = 3, 1.3, 3
CHOSEN = 4600
FEW_LINES, MANY_LINES = 2, 6
FOLD = "{} ~> Int = arr t => fold(t, 0, (sum, (_, value)) => (sum + value))"
# The types of the inputs, with the version of their text and the spelling of a key.
TABLES = {"Table Int Int": str, "Table Text Int": '"{}"'.format}


def line(key, count, front="", behind=""):
    """A line with a table of so many keys, or as many as a line holds, between a front and what is behind, and how many these are."""
    rows, size = [], len("1 {}" + front + behind)
    for number in range(count):
        row = f"{key(number * 7919 % 10007)}:1"
        size += len(row) + bool(rows)
        if size > LONGEST:
            break
        rows.append(row)
    return "1 " + front + "{" + ",".join(rows) + "}" + behind + "\n", len(rows)


def a_line(words, given):
    """The instructions of a line."""
    few, many = (instructions(words, "0" + given[1:] + given * (lines - 1)) for lines in (FEW_LINES, MANY_LINES))
    return (many - few) / (MANY_LINES - FEW_LINES)


def a_key(words, key, count):
    """How many keys a line has, and the instructions of each."""
    given, keys = line(key, count)
    return keys, a_line(words, given) / keys


def colliding(place):
    """Numbers of one group of a hash, or none where no C compiler is there."""
    if not shutil.which("cc"):
        return []
    program = os.path.join(place, "colliding")
    subprocess.run(["cc", "-O2", "-o", program, os.path.join(HERE, "colliding.c")], check=True)
    found = subprocess.run([program, str(CHOSEN)], check=True, capture_output=True, text=True)
    return found.stdout.split()


def chosen(place):
    """The chosen keys of both kinds by name, each beside as many at random, as they are spelled."""
    numbers = random.Random(1).sample(range(10**8, 10**9), CHOSEN)
    texts = [f'"{number:08x}"' for number in random.Random(1).sample(range(16**8), CHOSEN)]
    for name, keys in (("in order", sorted(numbers)), ("against it", sorted(numbers)[::-1]), ("of one group", colliding(place))):
        if keys:
            yield f"numbers {name}", "Table Int Int", keys, numbers
    for name, keys in (("in order", sorted(texts)), ("against it", sorted(texts)[::-1]), ("alike", [f'"aaaa{n:04}"' for n in range(CHOSEN)])):
        yield f"texts {name}", "Table Text Int", keys, texts


def main():
    parser = argparse.ArgumentParser()
    parser.add_argument("--exe", default=os.path.join(HERE, "..", "crates", "sfplay", "out", "sfplay"))
    options = parser.parse_args()
    if not shutil.which("valgrind"):
        print("keys: skipped, since valgrind is not installed")
        return
    row = "{:<20} {:>6} {:>18} {:>6} {:>18} {:>6} {:>12}".format
    print(row("tables", "keys", "instructions a key", "keys", "instructions a key", "ratio", "wanted most"))
    with tempfile.TemporaryDirectory() as place:
        path = os.path.join(place, "network")
        words = [os.path.abspath(options.exe), path, "--plain"]

        def network(text):
            with open(path, "w") as file:
                file.write(f"network 2;\ntemplate main(): {text};\n")

        for types, key in TABLES.items():
            for name, text in ((types, f"{types} ~> {types} = identity"), (f"fold, {types}", FOLD.format(types))):
                network(text)
                short, short_cost = a_key(words, key, 100)
                long, long_cost = a_key(words, key, 10_000)
                print(row(name, short, f"{short_cost:.0f}", long, f"{long_cost:.0f}", f"{long_cost / short_cost:.2f}", MOST))
        row = "{:<20} {:>6} {:>18} {:>18} {:>6} {:>12}".format
        print()
        print(row("looked into", "keys", "identity, a line", "get, a line", "ratio", "wanted most"))
        for types, key in TABLES.items():
            given, keys = line(key, 10_000, "(", f",{key(5000)})")
            both = types.replace("Table ", "").split()[0]
            network(f"({types}, {both}) ~> ({types}, {both}) = identity")
            whole = a_line(words, given)
            network(f"({types}, {both}) ~> Event Int = arr (t, k) => get(t, k)")
            found = a_line(words, given)
            print(row(types, keys, f"{whole:.0f}", f"{found:.0f}", f"{found / whole:.2f}", MOST_FOR_GET))
        print()
        print(row("chosen", "keys", "at random, a line", "chosen, a line", "ratio", "wanted most"))
        for name, types, keys, ordinary in chosen(place):
            network(f"{types} ~> {types} = identity")
            costs = [a_line(words, "1 {" + ",".join(f"{key}:1" for key in some) + "}\n") for some in (ordinary, keys)]
            print(row(name, CHOSEN, *(f"{cost:.0f}" for cost in costs), f"{costs[1] / costs[0]:.2f}", MOST_FOR_CHOSEN))


if __name__ == "__main__":
    main()
