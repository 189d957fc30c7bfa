"""Times `sfplay` beside the same jobs in a small core of Yampa, in netwire, and in Rust by hand and by a tree.

    python3 bench/compare.py [--exe PATH] [--only JOB,..] [--lines N] [--rounds N]

All read and write the same lines, and what they write is compared before it counts. A row has the nanoseconds of the processor that
`sfplay` takes a line, the best of the rounds, in which the programs take turns; then for each peer its time over that (above 1 the
peer is slower), beside the least that is wanted of the core of Yampa; then the instructions a line and the peak memory of `sfplay`,
in KiB. Debian's ghc and libghc-netwire-dev build the peers in Haskell: without ghc nothing is compared, and the status is 0; without
valgrind no instructions are counted.
"""

import argparse
import os
import re
import resource
import shutil
import subprocess
import sys
import tempfile
import time

from jobs import JOBS, WANTED, lines

HERE = os.path.dirname(os.path.abspath(__file__))
# The peers in Haskell with their sources and flags, and those in Rust with theirs.
HASKELL = {"core of Yampa": ("YampaJobs", []), "without joining": ("YampaJobs", ["-DPLAIN"]), "netwire": ("NetwireJobs", [])}
RUST = {"Rust by hand": "baseline", "Rust tree": "tree"}
# The jobs that the tree has.
IN_TREE = ("identity", "id50", "ipre50", "arr50", "total", "integral")
# The most bytes that a program may hold.
MOST_HELD = 6 << 30
FEW, MANY = 1000, 3000


def built(place):
    """The words that run each peer."""
    words = {}
    for name, source in RUST.items():
        words[name] = [os.path.join(place, source)]
        subprocess.run(["rustc", "--edition", "2021", "-O", "-A", "dead_code", "-o", *words[name], os.path.join(HERE, f"{source}.rs")], check=True)
    for name, (source, flags) in HASKELL.items():
        folder = os.path.join(place, re.sub(r"\W+", "_", name))
        os.makedirs(folder)
        words[name] = [os.path.join(folder, "play")]
        made = ["ghc", "-O2", *flags, "-outputdir", folder, "-o", *words[name], f"{source}.hs"]
        subprocess.run(made, check=True, cwd=os.path.join(HERE, "haskell"), stdout=subprocess.DEVNULL)
    return words


def limit():
    resource.setrlimit(resource.RLIMIT_AS, (MOST_HELD, MOST_HELD))


def seconds_of(words, source, sink):
    """The processor time of one run."""
    with open(source, "rb") as taken, open(sink, "wb") as given:
        before = resource.getrusage(resource.RUSAGE_CHILDREN)
        done = subprocess.run(words, stdin=taken, stdout=given, preexec_fn=limit)
        after = resource.getrusage(resource.RUSAGE_CHILDREN)
    if done.returncode:
        sys.exit(f"{words}: status {done.returncode}")
    return after.ru_utime + after.ru_stime - before.ru_utime - before.ru_stime


def peak_of(words, source):
    """The peak memory of one run in KiB, read while its input is still open."""
    player = subprocess.Popen(words, stdin=subprocess.PIPE, stdout=subprocess.DEVNULL)
    with open(source, "rb") as taken:
        while piece := taken.read(1 << 16):
            player.stdin.write(piece)
    player.stdin.flush()
    time.sleep(0.4)
    with open(f"/proc/{player.pid}/status") as status:
        peak = next(int(line.split()[1]) for line in status if line.startswith("VmHWM:"))
    player.stdin.close()
    player.wait()
    return peak


def counted(words, source):
    """The instructions of one run."""
    with open(source, "rb") as taken:
        done = subprocess.run(["valgrind", "--tool=callgrind", "--callgrind-out-file=/dev/null", *words], stdin=taken, capture_output=True)
    found = re.search(rb"Collected : (\d+)", done.stderr)
    if done.returncode or not found:
        sys.exit(f"{words}: valgrind ended with status {done.returncode}")
    return int(found[1])


def instructions_of(words, name, place):
    """The instructions a line, without those of the start; nothing without valgrind."""
    if not shutil.which("valgrind"):
        return ""
    few, many = (counted(words, source_of(name, count, place)) for count in (FEW, MANY))
    return f"{(many - few) / (MANY - FEW):,.0f}"


def source_of(name, count, place):
    path = os.path.join(place, f"{name}.{count}")
    if not os.path.exists(path):
        with open(path, "w") as file:
            file.writelines(lines(name, count))
    return path


def row(name, peers, exe, place, options):
    """What one job took, by its players."""
    network = os.path.join(place, "network")
    with open(network, "w") as file:
        file.write(JOBS[name][0])
    players = {"sfplay": [exe, network]}
    players.update({peer: [*words, name] for peer, words in peers.items() if peer != "Rust tree" or name in IN_TREE})
    source, best = source_of(name, options.lines, place), {}
    for _ in range(options.rounds):
        for player, words in players.items():
            seconds = seconds_of(words, source, os.path.join(place, f"{player}.out"))
            best[player] = min(seconds, best.get(player, seconds))
    with open(os.path.join(place, "sfplay.out"), "rb") as file:
        wanted = file.read()
    for player in players:
        with open(os.path.join(place, f"{player}.out"), "rb") as file:
            if file.read() != wanted:
                sys.exit(f"{name}: {player} writes something else")
    ratios = [f"{best[peer] / best['sfplay']:.2f}" if peer in best else "" for peer in peers]
    own = f"{best['sfplay'] / options.lines * 1e9:,.0f}"
    wanted = "" if name not in WANTED else f"{WANTED[name]}"
    return [name, own, *ratios, wanted, instructions_of(players["sfplay"], name, place), f"{peak_of(players['sfplay'], source):,}"]


def main():
    parser = argparse.ArgumentParser()
    parser.add_argument("--exe", default=os.path.join(HERE, "..", "crates", "sfplay", "out", "sfplay"))
    parser.add_argument("--only")
    parser.add_argument("--lines", type=int, default=200_000)
    parser.add_argument("--rounds", type=int, default=9)
    options = parser.parse_args()
    if not shutil.which("ghc"):
        print("compare: ghc is not here, so nothing is compared with Haskell's signal functions")
        return
    with tempfile.TemporaryDirectory() as place:
        peers = built(place)
        rows = [["job", "ns a line", *peers, "wanted of Yampa", "instructions", "KiB"]]
        for name in options.only.split(",") if options.only else JOBS:
            rows.append(row(name, peers, os.path.abspath(options.exe), place, options))
        widths = [max(len(found[column]) for found in rows) for column in range(len(rows[0]))]
        for found in rows:
            print("  ".join([found[0].ljust(widths[0]), *(cell.rjust(width) for cell, width in zip(found[1:], widths[1:]))]).rstrip())


if __name__ == "__main__":
    main()
