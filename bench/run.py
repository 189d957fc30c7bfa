"""Times `sfplay` on two networks with 1,000,000 lines beside the same jobs by hand in Rust, as bench/baseline.rs has them.

    python3 bench/run.py [--exe PATH] [--lines N] [--rounds N]

The networks are `iPre 7` and a running total by feedback. No law rewrites them, so they run as they would with --plain. Printed
are the time and the peak memory of both programs, the ratio of the times (the best of the rounds counts), and the processor time
that `sfplay` spends on the first and on the last tenth of the lines. The baseline is built with `rustc -O`.
"""

import argparse
import os
import subprocess
import sys
import tempfile
import threading
import time

HERE = os.path.dirname(os.path.abspath(__file__))
NETWORKS = {"previous": "iPre 7", "total": "loopPre(0, arr (x, total) => ((x + total), (x + total)))"}


def input_lines(count):
    return ["0 1\n"] + [f"{1 + n % 50} {n * 7919 % 1000003 - 500000}\n" for n in range(1, count)]


def seconds_of(words, source, sink):
    """How long one run takes."""
    with open(source, "rb") as taken, open(sink, "wb") as given:
        began = time.perf_counter()
        done = subprocess.run(words, stdin=taken, stdout=given)
        seconds = time.perf_counter() - began
    if done.returncode:
        sys.exit(f"{words[0]} ended with status {done.returncode}")
    return seconds


def peak_of(words, source):
    """The peak memory of one run in KiB, read while its input is still open."""
    player = subprocess.Popen(words, stdin=subprocess.PIPE, stdout=subprocess.DEVNULL)
    with open(source, "rb") as taken:
        while piece := taken.read(1 << 16):
            player.stdin.write(piece)
    player.stdin.flush()
    time.sleep(0.3)
    with open(f"/proc/{player.pid}/status") as status:
        peak = next(int(line.split()[1]) for line in status if line.startswith("VmHWM:"))
    player.stdin.close()
    player.wait()
    return peak


def processor_seconds(pid):
    with open(f"/proc/{pid}/schedstat") as file:
        return int(file.read().split()[0]) / 1e9


def seconds_of_tenths(words, lines):
    """The processor time that one run spends on each tenth of its lines, with all its output read before the next."""
    player = subprocess.Popen(words, stdin=subprocess.PIPE, stdout=subprocess.PIPE)
    tenth, times = len(lines) // 10, []
    for at in range(0, 10 * tenth, tenth):
        began = processor_seconds(player.pid)
        piece = "".join(lines[at : at + tenth]).encode("ascii")
        writer = threading.Thread(target=lambda: (player.stdin.write(piece), player.stdin.flush()))
        writer.start()
        awaited = tenth
        while awaited > 0:
            awaited -= os.read(player.stdout.fileno(), 1 << 16).count(b"\n")
        writer.join()
        times.append(processor_seconds(player.pid) - began)
    player.stdin.close()
    player.wait()
    return times


def compare(name, exe, place, options):
    """Times one network beside its baseline."""
    at = lambda part: os.path.join(place, part)
    with open(at(name), "w") as file:
        file.write(f"network 1;\ntemplate main(): Int ~> Int = {NETWORKS[name]};\n")
    players = {"baseline": [at("baseline"), name], "sfplay": [exe, at(name)]}
    best = {}
    for _ in range(options.rounds):
        for player, words in players.items():
            seconds = seconds_of(words, at("lines"), at(player + ".out"))
            best[player] = min(seconds, best.get(player, seconds))
    with open(at("baseline.out"), "rb") as one, open(at("sfplay.out"), "rb") as other:
        if one.read() != other.read():
            sys.exit(f"{name}: the two outputs differ")
    for player, words in players.items():
        print(f"{name}: {player}: {best[player]:.3f} s, {peak_of(words, at('lines'))} KiB at the peak, {options.lines} lines")
    print(f"{name}: ratio: {best['sfplay'] / best['baseline']:.2f}")
    runs = [seconds_of_tenths(players["sfplay"], input_lines(options.lines)) for _ in range(options.rounds)]
    first, last = min(run[0] for run in runs), min(run[-1] for run in runs)
    print(f"{name}: sfplay, first tenth: {first:.4f} s, last tenth: {last:.4f} s of the processor")


def main():
    parser = argparse.ArgumentParser()
    parser.add_argument("--exe", default=os.path.join(HERE, "..", "crates", "sfplay", "out", "sfplay"))
    parser.add_argument("--lines", type=int, default=1_000_000)
    parser.add_argument("--rounds", type=int, default=9)
    options = parser.parse_args()
    with tempfile.TemporaryDirectory() as place:
        with open(os.path.join(place, "lines"), "w") as file:
            file.writelines(input_lines(options.lines))
        baseline = os.path.join(place, "baseline")
        subprocess.run(["rustc", "--edition", "2021", "-O", "-o", baseline, os.path.join(HERE, "baseline.rs")], check=True)
        for name in NETWORKS:
            compare(name, os.path.abspath(options.exe), place, options)


if __name__ == "__main__":
    main()
