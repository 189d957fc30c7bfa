"""Plays networks that are rewired all the time on 100,000 samples and on 1,000,000, each with and without --plain, and looks whether
memory stays flat, and whether what they let go of is let go of at the end, at a return to a save and on a small stack.

    python3 rows/soak.py --exe PATH

What is written is compared line by line with what the network's meaning gives. Where memory is to stay flat, the longer run may have
held at most 512 KiB more than the shorter one. A network that makes chains of processes is played once more with a save at its first
sample and a return to it behind its last, on the ordinary stack and on an eighth of it. A network that is to be about as quick as
another is played on 100,000 samples as well, and so is the other. The last line is `N passed, M failed`.
"""

import argparse
import contextlib
import itertools
import os
import resource
import sys
import tempfile
import threading
from dataclasses import dataclass
from typing import Callable, Optional


@dataclass
class Run:
    """A network with its inputs, over and over again, and what it gives to the sample of a number from 0 on; a sample is 1 millisecond
    long. A network of version 2 may begin processes anew. A network that makes chains hands itself processes at its events; one that keeps them grows by its meaning. Another may keep
    less, and take no less time for it."""

    name: str
    network: str
    inputs: list
    wanted: Callable
    makes_chains: bool = False
    grows: bool = False
    as_quick_as: Optional["Run"] = None
    version: int = 1


# How many KiB more a run may hold that is ten times as long. Runs of one length differ by some 260 from each other, whatever the length;
# what grows by a byte a sample would hold 879 more.
MOST_GROWN = 512
# How many times the processor time of another network one may take that is to be as quick.
MOST_SLOWER = 3
# The most samples in a million lines, of which one saves, one returns and one has a sample more.
MOST_RETURNED = 999_997
# An event at each sample but the first.
EVENT = "(constant event () >>> notYet)"
GAME = "(Int, Event Unit) ~> Int"


def waiting(samples, **others):
    """A delay of so many samples, which may be frozen at each."""
    return Run(
        f"keeps {samples:,} samples in what may be frozen",
        f"Int ~> Int = kSwitch(delay {samples} 0, never Unit, k, _ => identity)",
        ["1", "2", "3", "4", "5", "6", "7"],
        lambda number: (number - samples) % 7 + 1 if number >= samples else 0,
        **others,
    )


def going_on(samples, **others):
    """The same delay, which is frozen again and again, and goes on."""
    return Run(
        f"keeps {samples:,} samples in what is frozen again and again",
        f"Int ~> Int = go(sf delay {samples} 0);\n"
        f"template go(f: Int ~> Int): Int ~> Int = kSwitch(run f, {EVENT}, k, _ => go(sf run k))",
        ["1", "2", "3", "4", "5", "6", "7"],
        lambda number: (number - samples) % 7 + 1 if number >= samples else 0,
        makes_chains=True,
        **others,
    )


def summed_ages(number):
    """For how many milliseconds 50 members have run in all, of which the oldest goes and one comes at every third sample."""
    come = (number + 1) // 3
    first = max(1, come - 49)
    since = sum(3 * event - 1 for event in (first, come)) * (come - first + 1) // 2
    return 50 * number - since


def added(count, member, others="empty Int"):
    """So many members, under the keys from 1 on."""
    for key in range(1, count + 1):
        others = f"add({others}, {key}, {member})"
    return others


COUNTS_MEMBERS = "arr t => size(t)"
RUNS = [
    Run(
        "holds 50 members, of which the oldest goes and one comes at every third sample",
        f"(Unit, Event Unit) ~> Int = (second count >>> (rpSwitchB({added(50, 'localTime')}, ks,"
        " k => drop(add(use ks, (k + 50), localTime), k)) >>> arr t => fold(t, 0, (s, (_, v)) => (s + v))))",
        ["((),none)", "((),none)", "((),event ())"],
        summed_ages,
    ),
    Run(
        "has its members edited at every sample but the first, and keeps them",
        f"Int ~> Int = ((identity &&& {EVENT}) >>> (rpSwitchB({added(3, 'integral')}, ks, _ => use ks)"
        " >>> arr t => fold(t, 0, (s, (_, v)) => (s + v))))",
        ["1"],
        lambda number: 3 * number,
    ),
    Run(
        "hands itself members, each with those of its kind that it froze before",
        f"Int ~> Int = (go(col {added(2, 'integral')}) >>> {COUNTS_MEMBERS});\n"
        f"template go(c: [Int ~> Int]): Int ~> Table Int = pSwitchB(use c, {EVENT}, ks,"
        " _ => go(col add(add(use ks, 1, held(col drop(use ks, 2))), 2, held(col drop(use ks, 1)))));\n"
        f"template held(c: [Int ~> Int]): Int ~> Int = kSwitch(identity, never Unit, k, _ => (parB use c >>> {COUNTS_MEMBERS}))",
        ["1"],
        lambda number: 2,
        makes_chains=True,
        grows=True,
    ),
    Run(
        "hands itself two collections, each with what it was given, and runs them never",
        "Int ~> Int = go(col empty Int, col empty Int);\n"
        f"template go(c: [Int ~> Int], d: [Int ~> Int]): Int ~> Int = switch((identity &&& {EVENT}),"
        f" _ => go(col {added(1, 'held(col use c)')}, col {added(1, 'held(col use d)')}));\n"
        f"template held(c: [Int ~> Int]): Int ~> Int = (parB use c >>> {COUNTS_MEMBERS})",
        ["1"],
        lambda number: 1,
        makes_chains=True,
        grows=True,
    ),
    waiting(1000, as_quick_as=waiting(10)),
    going_on(1000, as_quick_as=going_on(10)),
    Run(
        "begins anew at every third sample",
        "(Int, Event Int) ~> Int = rSwitch(identity, c => (integral >>> arr x => (x + c)))",
        ["(1,event 10)", "(2,none)", "(3,none)"],
        lambda number: (10, 11, 13)[number % 3],
    ),
    Run(
        "begins anew as a pipeline whose last stage is two functions made into one",
        "(Int, Event Int) ~> Int = rSwitch(identity, c => ((integral >>> iPre 0) >>> (arr x => (x + c) >>> arr x => (x * 2))))",
        ["(1,event 10)", "(2,none)", "(3,none)"],
        lambda number: (20, 20, 22)[number % 3],
    ),
    Run(
        "is frozen and goes on at every second sample",
        "(Unit, Event Unit) ~> Int = rSwitch(constant -1, _ => kSwitch(localTime, arr (_, t) => if (t > 0) then event () else none Unit, k,"
        " _ => ((run k &&& run k) >>> arr (a, b) => (a + b))))",
        ["((),event ())", "((),none)"],
        lambda number: (0, 2)[number % 2],
    ),
    Run(
        "calls itself at every sample but the first",
        f"Unit ~> Int = up(0);\ntemplate up(n: Int): Unit ~> Int = switch((constant n &&& {EVENT}), _ => up((n + 1)))",
        ["()"],
        lambda number: number,
    ),
    Run(
        "hands itself what it froze at every sample but the first",
        f"Int ~> Int = go(sf integral);\ntemplate go(f: Int ~> Int): Int ~> Int = kSwitch(run f, {EVENT}, k, _ => go(sf run k))",
        ["1"],
        lambda number: number,
        makes_chains=True,
    ),
    Run(
        "hands itself what it froze, beside another process that may begin anew",
        f"Int ~> Int = ((go(sf integral) &&& again()) >>> arr (x, _) => x);\n"
        f"template again(): Int ~> Int = kSwitch(identity, never Unit, j, _ => fresh j);\n"
        f"template go(f: Int ~> Int): Int ~> Int = kSwitch(run f, {EVENT}, k, _ => go(sf run k))",
        ["1"],
        lambda number: number,
        makes_chains=True,
        version=2,
    ),
    Run(
        "hands itself what it froze among twenty parameters at every sample but the first",
        f"Int ~> Int = go(sf integral, {', '.join(['1'] * 19)});\n"
        f"template go(f: Int ~> Int, {', '.join(f'a{at}: Int' for at in range(19))}): Int ~> Int ="
        f" kSwitch(run f, {EVENT}, k, _ => go(sf run k, {', '.join(f'a{at}' for at in range(19))}))",
        ["1"],
        lambda number: number,
        makes_chains=True,
    ),
    Run(
        "is a game whose menu opens and closes at every sample but the first",
        f"{GAME} = playing(sf (arr (speed, _) => speed >>> integral));\n"
        f"template playing(game: {GAME}): {GAME} = kSwitch(run game, (arr ((_, press), _) => press >>> notYet), g, _ => paused(sf run g));\n"
        f"template paused(game: {GAME}): {GAME} = switch((constant -1 &&& (arr (_, press) => press >>> notYet)), _ => playing(sf run game))",
        ["(1,event ())"],
        lambda number: -1 if number % 2 else number // 2,
        makes_chains=True,
    ),
    Run(
        "hands itself a process that names nothing",
        f"Int ~> Int = go(sf integral);\ntemplate go(f: Int ~> Int): Int ~> Int = switch((run f &&& {EVENT}), _ => go(sf identity))",
        ["1"],
        lambda number: min(number, 1),
        makes_chains=True,
    ),
    Run(
        "hands itself one of two processes and one that names nothing",
        f"Int ~> Int = go(sf integral, sf integral);\n"
        f"template go(f: Int ~> Int, g: Int ~> Int): Int ~> Int = switch((identity &&& {EVENT}), _ => go(sf run g, sf identity))",
        ["1"],
        lambda number: 1,
        makes_chains=True,
    ),
    Run(
        "hands itself what it froze, which names nothing",
        f"Int ~> Int = go(sf integral);\n"
        f"template go(f: Int ~> Int): Int ~> Int = kSwitch((identity >>> integral), {EVENT}, k, _ => go(sf run k))",
        ["1"],
        lambda number: 0,
        makes_chains=True,
    ),
    Run(
        "hands itself a process that names what it froze, but not what it was given",
        f"Int ~> Int = go(sf integral);\n"
        f"template go(f: Int ~> Int): Int ~> Int = kSwitch(identity, {EVENT}, k, _ => go(sf (identity >>> run k)))",
        ["1"],
        lambda number: 1,
        makes_chains=True,
    ),
    Run(
        "hands itself a process that names the later of two that it froze under one name",
        f"Int ~> Int = go(sf integral);\n"
        f"template go(f: Int ~> Int): Int ~> Int ="
        f" kSwitch(run f, {EVENT}, k, _ => kSwitch(identity, {EVENT}, k, _ => go(sf (identity >>> run k))))",
        ["1"],
        lambda number: min(number, 1),
        makes_chains=True,
    ),
    Run(
        "hands itself what it froze, of which a switch among its parts alone has what it was given",
        f"Int ~> Int = go(sf integral);\ntemplate go(f: Int ~> Int): Int ~> Int ="
        f" kSwitch((arr x => (x, none Unit) >>> rSwitch(identity, _ => run f)), {EVENT}, k, _ => go(sf run k))",
        ["1"],
        lambda number: 1,
        makes_chains=True,
        grows=True,
    ),
    Run(
        "hands itself on, with what it was given, and runs it never",
        f"Int ~> Int = go(sf integral);\ntemplate go(f: Int ~> Int): Int ~> Int = switch((identity &&& {EVENT}), _ => go(sf (identity >>> run f)))",
        ["1"],
        lambda number: 1,
        makes_chains=True,
        grows=True,
    ),
]


def script(run, samples, returns):
    """The lines of some samples, with a save behind the first and a return to it behind the last, and one sample more, if it returns."""
    for number, value in zip(range(samples), itertools.cycle(run.inputs)):
        yield f"{1 if number else 0} {value}\n"
        if returns and number == 0:
            yield "save first\n"
    if returns:
        yield f"back first\n1 {run.inputs[1 % len(run.inputs)]}\n"


def held_by(child):
    """The most memory that a process has held, in KiB; nothing where it has ended."""
    with open(f"/proc/{child}/status") as status:
        return next((int(line.split()[1]) for line in status if line.startswith("VmHWM:")), 0)


def play(words, run, samples, returns, stack):
    """Whether the output is what is wanted, the most memory that the run held before its input ended, in KiB, and the seconds of the
    processor that it took."""
    from_writer, to_program = os.pipe()
    from_program, to_reader = os.pipe()
    child = os.fork()
    if child == 0:
        resource.setrlimit(resource.RLIMIT_STACK, (stack, stack))
        os.dup2(from_writer, 0)
        os.dup2(to_reader, 1)
        os.closerange(3, 256)
        os.execv(words[0], words)
    os.close(from_writer)
    os.close(to_reader)
    given = open(to_program, "w")

    def write():
        with contextlib.suppress(BrokenPipeError):
            given.writelines(script(run, samples, returns))
            given.flush()

    writer = threading.Thread(target=write, daemon=True)
    writer.start()
    numbers = [*range(samples), *([1] if returns else [])]
    with open(from_program) as lines:
        written = 0
        good = True
        for number, line in zip(numbers, lines):
            good = good and line == f"> {number} {run.wanted(number)}\n"
            written += 1
        most = held_by(child)
        writer.join()
        with contextlib.suppress(BrokenPipeError):
            given.close()
        good = good and not lines.read()
    _, status, usage = os.wait4(child, 0)
    return good and written == len(numbers) and status == 0, most, usage.ru_utime + usage.ru_stime


def looks(words, run):
    """What each look at the runs of a network found: nothing where it is as it should be."""
    ordinary = 8 << 20
    held = []
    for samples in (100_000, 1_000_000):
        good, most, _ = play(words, run, samples, False, ordinary)
        held.append(most)
        yield None if good else f"another output in {samples:,} samples"
    if not run.grows:
        is_flat = held[1] <= held[0] + MOST_GROWN
        yield None if is_flat else f"{held[0]:,} KiB held in 100,000 samples and {held[1]:,} KiB in 1,000,000"
    if run.makes_chains:
        for stack in (ordinary, ordinary // 8):
            good, _, _ = play(words, run, MOST_RETURNED, True, stack)
            yield None if good else f"another output in {MOST_RETURNED:,} samples and a return, on a stack of {stack >> 10:,} KiB"


def is_slower(exe, network, mode, run):
    """Nothing where a network takes about as long as the other, the least of three runs each; else what it takes."""
    least = []
    for one in (run, run.as_quick_as):
        write_network(network, one)
        least.append(min(play([exe, network, *mode], one, 100_000, False, 8 << 20)[2] for _ in range(3)))
    return f"{least[0]:.2f} s on the processor, and {least[1]:.2f} s where it {run.as_quick_as.name}" if least[0] > MOST_SLOWER * least[1] else None


def write_network(path, run):
    with open(path, "w") as file:
        file.write(f"network {run.version};\ntemplate main(): {run.network};\n")


def main():
    parser = argparse.ArgumentParser()
    parser.add_argument("--exe", required=True)
    options = parser.parse_args()
    exe = os.path.abspath(options.exe)
    passed = failed = 0
    with tempfile.TemporaryDirectory() as place:
        network = os.path.join(place, "network")
        for run in RUNS:
            for mode in ([], ["--plain"]):
                write_network(network, run)
                found = list(looks([exe, network, *mode], run))
                if run.as_quick_as:
                    found.append(is_slower(exe, network, mode, run))
                passed, failed = passed + found.count(None), failed + len(found) - found.count(None)
                for fault in filter(None, found):
                    print(f"what {run.name} {' '.join(mode)}: {fault}")
    print(f"{passed} passed, {failed} failed")
    return 1 if failed else 0


if __name__ == "__main__":
    sys.exit(main())
