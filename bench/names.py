"""Times `sfplay` on two lines with networks of many names, as they are written and as they are rewritten.

    python3 bench/names.py [--exe PATH] [--rounds N] [--only WORD]

The best of some rounds counts, by the clock. Wanted is that each takes at most 2 seconds: what a name stands for is found in a time
that doesn't grow with the names beside it. One of the texts is refused, which is to take no longer.
"""

import argparse
import os
import subprocess
import sys
import tempfile
import time

from instructions import HERE

MOST = 2.0
# The most bytes that a text may have.
MIB = 1 << 20


def joined(parts, operator=" >>> "):
    """The parts, joined as a tree that is as low as can be."""
    while len(parts) > 1:
        pairs = [f"({operator.join(parts[at:at + 2])})" if at + 1 < len(parts) else parts[at] for at in range(0, len(parts), 2)]
        parts = pairs
    return parts[0]


def network(term, before="", types="Int ~> Int", version=1):
    return f"network {version};\n{before}template main(): {types} = {term};\n"


def one_template(count, kind, given, used):
    """A network whose `main` calls a template with so many parameters of a kind, each of them given and used."""
    parameters = ", ".join(f"a{at}: {kind}" for at in range(count))
    body = joined([used.format(at) for at in range(count)])
    return network(f"t({','.join([given] * count)})", f"template t({parameters}): Int ~> Int = {body};\n")


def all_at_each(count):
    """Parameters as many as functions, each of which stands inside the names of all parameters and binds one more."""
    return one_template(count, "Int", "1", "arr x => (x + a{})")


def both_kinds(count):
    """A network whose `main` calls a template with so many values and as many processes, in turn, each of them given and used."""
    parameters = ", ".join(f"a{at}: Int, p{at}: Int ~> Int" for at in range(count))
    body = joined([f"(iPre a{at} >>> run p{at})" for at in range(count)])
    return network(f"t({','.join(['1,sf identity'] * count)})", f"template t({parameters}): Int ~> Int = {body};\n")


def the_first_at_each(count):
    """Parameters of which the first alone is used, as often as there are parameters: it is the farthest from its uses."""
    return one_template(count, "Int", "1", "iPre a0")


def wide_pattern(count):
    """A pattern of so many different names for a number: it is refused, once all names were looked at."""
    names = joined([f"a{at}" for at in range(count)], ",")
    return network(f"arr {names} => 1")


def let_nest(levels, width, used, uses):
    """`let`s of pairs one inside another, each of which binds many names, and many uses within of the name around them all."""
    value = joined(["1"] * width, ",")
    body = joined([used] * uses, "+")
    for level in range(levels):
        names = joined([f"a{level}b{at}" for at in range(width)], ",")
        body = f"let {names} = {value} in {body}"
    return network(f"arr x => {body}")


def templates(count):
    """So many templates, of which each calls the next."""
    calls = "".join(f"template t{at}(): Int ~> Int = t{at + 1}();\n" for at in range(count))
    return network("t0()", calls + f"template t{count}(): Int ~> Int = identity;\n")


def probes(count):
    return network(joined([f"probe p{at}" for at in range(count)]))


# Each with its text and what it exits with.
NETWORKS = {
    "32,000 values, each used": (one_template(32_000, "Int", "1", "iPre a{}"), 0),
    "24,500 values in functions": (all_at_each(24_500), 0),
    "36,000 values, the first": (the_first_at_each(36_000), 0),
    "21,500 processes, each run": (one_template(21_500, "Int ~> Int", "sf identity", "run a{}"), 0),
    "13,000 values and processes": (both_kinds(13_000), 0),
    "a pattern of 100,000 names": (wide_pattern(100_000), 5),
    "40 lets of 100 names": (let_nest(40, 100, "x", 40_000), 0),
    "40 lets, a let at each use": (let_nest(40, 100, "let y = x in y", 20_000), 0),
    "20,000 templates, each called": (templates(20_000), 3),
    "30,000 probes": (probes(30_000), 0),
}


def played(words):
    """What one run writes, its status, and how many seconds it takes."""
    began = time.perf_counter()
    run = subprocess.run(words, input=b"0 1\n1 2\n", stdout=subprocess.PIPE, check=False)
    return run.stdout, run.returncode, time.perf_counter() - began


def main():
    parser = argparse.ArgumentParser()
    parser.add_argument("--exe", default=os.path.join(HERE, "..", "crates", "sfplay", "out", "sfplay"))
    parser.add_argument("--rounds", type=int, default=3)
    parser.add_argument("--only", default="")
    options = parser.parse_args()
    exe = os.path.abspath(options.exe)
    row = "{:<30} {:>9} {:>6} {:>10} {:>12} {:>8}".format
    print(row("two samples", "bytes", "status", "written, s", "rewritten, s", "most, s"))
    late = []
    with tempfile.TemporaryDirectory() as place:
        path = os.path.join(place, "network")
        for name, (text, wanted) in NETWORKS.items():
            if options.only not in name:
                continue
            if len(text) > MIB:
                sys.exit(f"names: {name}: {len(text)} bytes")
            with open(path, "w") as file:
                file.write(text)
            plain, rewritten = ([played([exe, path, *mode]) for _ in range(options.rounds)] for mode in (["--plain"], []))
            if len({(output, status) for output, status, _ in plain + rewritten}) > 1:
                sys.exit(f"names: {name}: two outputs differ")
            output, status, _ = plain[0]
            if status != wanted:
                sys.exit(f"names: {name}: status {status} in place of {wanted}: {output[:60]}")
            took = [min(seconds for _, _, seconds in runs) for runs in (plain, rewritten)]
            if max(took) > MOST:
                late.append(name)
            print(row(name, len(text), status, f"{took[0]:.2f}", f"{took[1]:.2f}", f"{MOST:.1f}"), flush=True)
    if late:
        sys.exit(f"names: more than {MOST} s: {', '.join(late)}")


if __name__ == "__main__":
    main()
