"""Counts the instructions and the allocations a sample of `sfplay` on some networks, by valgrind, as they are written and as they are
rewritten, each beside the most that is wanted.

    python3 bench/instructions.py [--exe PATH]

Each network is played on 1,000 and on 3,000 lines, so that the difference is free of what the start costs, and it doesn't
depend on how busy the machine is. As a network is written, what is wanted is said of a node, whose instructions are those of a
sample less those of the network `identity`, which are the cost of a line in and out, by the nodes that a sample enters. A running
total is shown by the whole sample, and so is all that is rewritten. What may be frozen at a sample is held as it was before, so
each of its nodes is copied: 200 instructions more. The instructions of a run without lines come next.
Last come members of collections: what a sample with an edit takes beside one without, what a member of many takes beside one of few,
and the allocations of a sample at which members are frozen beside those of one at which they are not.
Without valgrind nothing is counted, and the status is 0.
"""

import argparse
import os
import re
import shutil
import subprocess
import sys
import tempfile

from run import NETWORKS as TIMED
from run import input_lines

HERE = os.path.dirname(os.path.abspath(__file__))
FEW, MANY = 1000, 3000
# 50 times `identity` may take so many instructions more than once, where they are rewritten.
MORE_FOR_IDENTITIES = 20
# A run of a rewritten network may take so many times the instructions of one as it is written, where no lines are played.
MOST_FOR_START = 1.10
# An edit of one of 50 members may take so many times a sample without, and a member of many so many times one of few.
MOST_FOR_EDIT, MOST_FOR_MANY = 3.00, 1.10
SOME, MANY_MEMBERS, FROZEN = 100, 10_000, 1000
# So many forms of collections stand one inside another in the text of many members.
AT_ONCE = 50


def chain(term, count):
    """The term so many times in sequence, as a balanced tree."""
    if count == 1:
        return term
    return f"({chain(term, count // 2)} >>> {chain(term, count - count // 2)})"


def left_spine(term, count):
    return "(" * (count - 1) + term + f" >>> {term})" * (count - 1)


def right_spine(term, count):
    return f"({term} >>> " * (count - 1) + term + ")" * (count - 1)


def members(term, first, count, others="empty Int"):
    """A collection of so many members more, under the keys from a first one on."""
    for key in range(first, first + count):
        others = f"add({others}, {key}, {term})"
    return others


def sized(term):
    """The number of rows that a term's table has, so that no table is written."""
    return f"({term} >>> arr t => size(t))"


FIFTY = members("iPre 0", 1, 50)
# Each sample has an event of its number behind the input.
NUMBERED = "(identity &&& (sscan(0, (n, _) => (n + 1)) >>> arr n => event n))"
# What some of them call.
TEMPLATE = "template passed(n: Int): Int ~> Int = identity;"
# Each with its type, its term, and as it is written the nodes that a sample enters, the most instructions a node (of the last
# one, a sample) and allocations a sample.
PAIRED, ADDED, HAPPENING = "arr x => (x, x)", "arr x => (x + 1)", "arr x => event x"
ABOVE_ZERO, OCCURS = "arr x => (x > 0)", "arr e => isEvent(e)"
NETWORKS = {
    "identity": ("Int ~> Int", "identity", 1, None, None),
    "50 identity": ("Int ~> Int", chain("identity", 50), 99, 60, 0),
    "50 iPre 0": ("Int ~> Int", chain("iPre 0", 50), 99, 60, 0),
    "50 arr": ("Int ~> Int", chain(ADDED, 50), 99, 120, 0),
    "50 arr, left spine": ("Int ~> Int", left_spine(ADDED, 50), 99, None, 0),
    "50 arr, right spine": ("Int ~> Int", right_spine(ADDED, 50), 99, None, 0),
    "50 swaps of a pair": ("Int ~> (Int, Int)", f"({PAIRED} >>> {chain('arr (x, y) => (y, x)', 50)})", 101, 250, 2),
    "50 first iPre 0": ("Int ~> (Int, Int)", f"({PAIRED} >>> {chain('first iPre 0', 50)})", 151, 90, 3),
    "50 fired switches": ("Int ~> Int", chain("switch((identity &&& now ()), _ => identity)", 50), 99, 60, 0),
    "50 run processes": ("Int ~> Int", chain("kSwitch(identity, now (), k, _ => run k)", 50), 99, 60, 0),
    "50 called templates": ("Int ~> Int", chain("passed(1)", 50), 99, 60, 0),
    "50 probes": ("Int ~> Int", chain("probe p", 50), 99, None, None),
    "50 initially 0": ("Int ~> Int", chain("initially 0", 50), 99, 120, 0),
    "50 delay 100 0": ("Int ~> Int", chain("delay 100 0", 50), 99, 120, None),
    "50 repeatedly 9 0": ("Int ~> Event Int", chain("repeatedly 9 0", 50), 99, 120, None),
    "50 iEdge, truths": ("Int ~> Bool", f"({ABOVE_ZERO} >>> {chain(f'(iEdge true >>> {OCCURS})', 50)})", 201, 120, None),
    "50 edgeTag, truths": ("Int ~> Bool", f"({ABOVE_ZERO} >>> {chain(f'(edgeTag 1 >>> {OCCURS})', 50)})", 201, 120, None),
    "50 edgeBy and hold": ("Int ~> Int", chain("(edgeBy(0, (x, y) => event y) >>> hold 0)", 50), 199, 300, 100),
    "50 once": ("Int ~> Event Int", f"({HAPPENING} >>> {chain('once', 50)})", 101, 120, None),
    "50 takeEvents": ("Int ~> Event Int", f"({HAPPENING} >>> {chain('takeEvents 1000000', 50)})", 101, 120, None),
    "50 dropEvents": ("Int ~> Event Int", f"({HAPPENING} >>> {chain('dropEvents 1', 50)})", 101, 120, None),
    "50 dHold of an event": ("Int ~> Int", chain("(repeatedly 9 0 >>> dHold 0)", 50), 199, 120, None),
    "50 >-- identity": ("Int ~> Int", chain(">--(0, identity)", 50), 149, 120, 0),
    "50 >=- identity": ("Int ~> Int", chain(">=-(x => (x + 1), identity)", 50), 149, 120, 0),
    "50 fby identity": ("Int ~> Int", chain("fby(0, identity)", 50), 149, 120, 0),
    "50 iPre 0 to freeze": ("Int ~> Int", f"kSwitch({chain('iPre 0', 50)}, never Int, k, _ => identity)", 101, 260, 2),
    "running total": ("Int ~> Int", TIMED["total"], None, 2000, 4),
    "50 members iPre 0": ("Int ~> Int", sized(f"parB {FIFTY}"), 53, 90, 2),
    "50 members to freeze": ("Int ~> Int", sized(f"pSwitchB({FIFTY}, never Unit, ks, _ => parB use ks)"), 54, 260, 3),
}
# Where they are rewritten, the most instructions and allocations a sample.
REWRITTEN = {
    "50 arr": (4500, 0),
    "50 arr, left spine": (4500, 0),
    "50 arr, right spine": (4500, 0),
    "50 swaps of a pair": (8000, 2),
}
# Which are started without lines.
STARTED = ("identity", "50 arr", "running total")
ROW = "{:<20} {:>12} {:>7} {:>5} {:>12} {:>5} {:>14} {:>5} {:>12} {:>5}".format


def counted(tool, pattern, words, lines):
    """What valgrind's tool counts in one run on these lines."""
    done = subprocess.run(["valgrind", *tool, *words], input=lines.encode("ascii"), capture_output=True)
    found = re.search(pattern, done.stderr)
    if done.returncode or not found:
        sys.exit(f"instructions: status {done.returncode}: {done.stderr.decode(errors='replace')[-500:]}")
    return int(found[1].replace(b",", b""))


def instructions(words, lines):
    return counted(["--tool=callgrind", "--callgrind-out-file=/dev/null"], rb"Collected : (\d+)", words, lines)


def allocations(words, lines):
    return counted(["--tool=memcheck", "--leak-check=no"], rb"total heap usage: ([\d,]+) allocs", words, lines)


def a_sample(count, words):
    few, many = (count(words, "".join(input_lines(lines))) for lines in (FEW, MANY))
    return (many - few) / (MANY - FEW)


def many_members(count, term):
    """The text of a network of so many delays as members, with this term over all of them."""
    lines, others = [], "empty Int"
    for first in range(0, count, AT_ONCE):
        parameter = "c: [Int ~> Int]" if first else ""
        more = members("iPre 0", first, min(AT_ONCE, count - first), others)
        others = "use c"
        body = f"upto{first + AT_ONCE}(col {more})" if first + AT_ONCE < count else sized(term.format(more))
        lines.append(f"template upto{first}({parameter}): Int ~> Int = {body};\n")
    return "network 1;\ntemplate main(): Int ~> Int = upto0();\n" + "".join(lines)


def members_counted(words, path):
    """What is counted of members: each time a name, two numbers that are compared, and the most that one may be of the other."""

    def counted_of(count, term, count_of, few=FEW, many=MANY):
        with open(path, "w") as file:
            file.write(many_members(count, term))
        return (count_of(words, "".join(input_lines(many))) - count_of(words, "".join(input_lines(few)))) / (many - few)

    without = counted_of(AT_ONCE, "((identity &&& never Int) >>> rpSwitchB({}, ks, k => use ks))", instructions)
    edit = "drop(add(use ks, (k + 1000000), iPre 0), (k + 999999))"
    edited = counted_of(AT_ONCE, f"({NUMBERED} >>> rpSwitchB({{}}, ks, k => {edit}))", instructions)
    yield "one of 50 edited", without, edited, f"{MOST_FOR_EDIT:.2f}"
    some, many = (counted_of(count, "parB {}", instructions, 4, 8) / count for count in (SOME, MANY_MEMBERS))
    yield "a member of 10,000", some, many, f"{MOST_FOR_MANY:.2f}"
    late = "pSwitchB({}, arr (x, _) => gate(event (), (x > 1000)), ks, _ => parB empty Int)"
    with open(path, "w") as file:
        file.write(many_members(FROZEN, late))
    runs = [allocations(words, "0 1\n1 2\n" + line) for line in ("", "1 3\n", "1 2000\n")]
    yield "1,000 are frozen", runs[1] - runs[0], runs[2] - runs[0], ""


def shown(most):
    return "" if most is None else most


def row_of(name, plain, rewritten, line):
    """What a sample of a network takes in both modes, each as its instructions and allocations, beside what one of `identity` takes."""
    _, _, nodes, most, most_allocated = NETWORKS[name]
    most_rewritten, most_allocated_rewritten = REWRITTEN.get(name, (None, None))
    if name == "50 identity":
        most_rewritten, most_allocated_rewritten = round(line[1][0]) + MORE_FOR_IDENTITIES, 0
    node = f"{(plain[0] - line[0][0]) / (nodes - 1):.0f}" if nodes and nodes > 1 else ""
    written = (f"{plain[0]:.0f}", node, shown(most), f"{plain[1]:.1f}", shown(most_allocated))
    return ROW(name, *written, f"{rewritten[0]:.0f}", shown(most_rewritten), f"{rewritten[1]:.1f}", shown(most_allocated_rewritten))


def main():
    parser = argparse.ArgumentParser()
    parser.add_argument("--exe", default=os.path.join(HERE, "..", "crates", "sfplay", "out", "sfplay"))
    options = parser.parse_args()
    if not shutil.which("valgrind"):
        print("instructions: skipped, since valgrind is not installed")
        return
    print(f"{'a sample':20} {'as it is written':^45} {'rewritten':^39}".rstrip())
    print(ROW("network", "instructions", "a node", "most", "allocations", "most", "instructions", "most", "allocations", "most"))
    line, starts, compared = None, {}, []
    with tempfile.TemporaryDirectory() as place:
        path = os.path.join(place, "network")
        words = [os.path.abspath(options.exe), path]
        for name, (types, term, *_) in NETWORKS.items():
            with open(path, "w") as file:
                file.write(f"network 1;\n{TEMPLATE}\ntemplate main(): {types} = {term};\n")
            modes = [[*words, "--plain"], words]
            counts = [[a_sample(count, mode) for count in (instructions, allocations)] for mode in modes]
            line = line or counts
            print(row_of(name, *counts, line))
            if name in STARTED:
                starts[name] = [instructions(mode, "") for mode in modes]
        compared = list(members_counted([*words, "--plain"], path))
    row = "{:<20} {:>16} {:>10} {:>6} {:>12}".format
    print()
    print(row("started", "as it is written", "rewritten", "ratio", "wanted most"))
    for name, (plain, rewritten) in starts.items():
        print(row(name, plain, rewritten, f"{rewritten / plain:.2f}", f"{MOST_FOR_START:.2f}"))
    print()
    print(row("members", "without, or few", "with, many", "ratio", "wanted most"))
    for name, few, many, most in compared:
        print(row(name, f"{few:.0f}", f"{many:.0f}", f"{many / few:.2f}", most))


if __name__ == "__main__":
    main()
