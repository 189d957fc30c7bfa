"""Has the crates of a program proved side by side, and the programs built.

rt holds the folders of a crate and of all below it, so in one checkout crates that stand on the same are proved one after another. Here
each lane has a copy of the sources: what it makes of a crate goes to the checkout, and from there to other lanes, which read it there.
Of the crates that wait for no other, those go first behind which the longest way is left. The first of all has a job for each processor,
and those beside it give way to it: so it gets each processor that would be idle, also one that falls idle later.
"""

import json
import os
import shutil
import subprocess
from concurrent.futures import FIRST_COMPLETED, ThreadPoolExecutor, wait
from typing import NamedTuple

PARTS = ("src", "specs", "proofs")
# The memory of a check, and of each job of it but one, in kilobytes.
NEEDED, MORE = 3_000_000, 1_500_000
# How much a check gives way to the first.
BESIDE = 10


def link(source, target):
    """Gives a file a second name, or copies it where the file system has none: rt makes such a file anew, and never writes into it."""
    try:
        os.link(source, target)
    except OSError:
        shutil.copyfile(source, target)


def linked(source, target):
    shutil.copytree(source, target, copy_function=link)


def moved(source, target):
    shutil.rmtree(target, ignore_errors=True)
    if os.path.isdir(source):
        os.rename(source, target)


class Workspace:
    """The crates that `programs` stand on, with these, each with all below it; and how long the way is from each to a program."""

    def __init__(self, top, programs):
        self.top, self.programs, self.below = top, programs, {}
        with open(os.path.join(top, "crates.txt")) as file:
            lines = [line.partition("#")[0].strip() for line in file]
        listed = {line.partition(":")[0].split()[0]: line for line in lines if line}
        for program in programs:
            self.add(program, listed)
        # (rt wants a folder for each crate that is listed)
        self.listed = "".join(f"{line}\n" for crate, line in listed.items() if crate in self.below)
        taken, self.ways = self.times(), {}
        # (those above a crate stand behind it)
        for crate in reversed(self.below):
            above = [way for it, way in self.ways.items() if crate in self.below[it]]
            self.ways[crate] = taken[crate] + max(above, default=0)

    def add(self, crate, listed):
        if crate not in self.below:
            used = [it for it in listed[crate].partition(":")[2].split() if it in listed]
            for it in used:
                self.add(it, listed)
            self.below[crate] = {*used}.union(*(self.below[it] for it in used))

    def folder(self, crate):
        return os.path.join(self.top, "crates", crate)

    def out(self, crate, part):
        return os.path.join(self.folder(crate), "out", part)

    def ready(self, left, done):
        """Those that wait for no other, the longest way first."""
        return sorted((it for it in left if self.below[it] <= done), key=self.ways.get, reverse=True)

    def times(self):
        """How long each crate takes: as it did in the gate that was measured, or else as one of its size."""
        with open(os.path.join(self.top, "bench", "figures.json")) as file:
            measured = {crate: it["proofs"] for crate, it in json.load(file).get("gate", {}).items() if "proofs" in it}
        sizes = {crate: self.size(crate) for crate in self.below}
        known = [crate for crate in sizes if crate in measured]
        a_byte = sum(measured[crate] for crate in known) / max(1, sum(sizes[crate] for crate in known)) or 1
        return {crate: measured.get(crate, size * a_byte) for crate, size in sizes.items()}

    def size(self, crate):
        """How long the sources of a crate are."""
        walked = (it for part in PARTS for it in os.walk(os.path.join(self.folder(crate), part)))
        return sum(os.path.getsize(os.path.join(at, file)) for at, _, files in walked for file in files)


class Lane:
    """A copy of a workspace's sources."""

    def __init__(self, workspace, place):
        self.workspace, self.place, self.read = workspace, place, set()
        os.makedirs(place)
        with open(os.path.join(place, "crates.txt"), "w") as file:
            file.write(workspace.listed)
        for crate in workspace.below:
            for part in PARTS:
                source = os.path.join(workspace.folder(crate), part)
                if os.path.isdir(source):
                    shutil.copytree(source, self.path(crate, part))

    def path(self, crate, *parts):
        return os.path.join(self.place, "crates", crate, *parts)

    def take(self, crate, part):
        """Reads what the checkout has of a crate."""
        made = self.workspace.out(crate, part)
        if os.path.isdir(made):
            linked(made, self.path(crate, "out", part))

    def prove(self, crate, share, say):
        """Proves a crate over those below it, with its share of the machine, and hands on what comes of it. Returns rt's status and what
        it said."""
        workspace = self.workspace
        if crate in workspace.programs:
            # (its status is that of the program without words)
            _, said = rt("run", share, workspace.folder(crate), say)
            return int(not os.access(workspace.out(crate, crate), os.X_OK)), said
        for it in workspace.below[crate] - self.read:
            self.take(it, "rlib")
            self.read.add(it)
        for part in ("rlib", "incremental"):
            self.take(crate, part)
        status, said = rt("lib", share, self.path(crate), say)
        os.makedirs(workspace.out(crate, ""), exist_ok=True)
        for part in ("rlib", "incremental"):
            moved(self.path(crate, "out", part), workspace.out(crate, part))
        return status, said


class Share(NamedTuple):
    """How many jobs a check has, and how much it gives way to others."""

    jobs: int
    niceness: int


class Machine:
    """How many checks run side by side, where there is memory for each, and what share of the machine the first has, and the others."""

    def __init__(self):
        with open("/proc/meminfo") as file:
            free = next(int(line.split()[1]) for line in file if line.startswith("MemAvailable:"))
        processors = len(os.sched_getaffinity(0))
        # (each keeps more than one processor busy at times)
        self.lanes = max(1, min(processors, max(2, processors - 1), free // NEEDED))
        more = max(0, free - self.lanes * NEEDED) // MORE
        self.first = Share(1 + min(processors - 1, more), 0)
        left = (more + 1 - self.first.jobs) // max(1, self.lanes - 1)
        self.other = Share(1 + min(max(1, processors // 2) - 1, left), BESIDE)


def rt(verb, share, folder, say):
    """Runs rt in a folder, and says for whom it waits. Returns its status and what it said."""
    how = {"cwd": folder, "stdin": subprocess.DEVNULL, "stdout": subprocess.PIPE, "stderr": subprocess.STDOUT, "errors": "replace"}
    said = []
    giving_way = ["nice", "-n", str(share.niceness)] if share.niceness else []
    with subprocess.Popen([*giving_way, "rt", verb, "--jobs", str(share.jobs)], **how) as run:
        for line in run.stdout:
            said.append(line)
            if "waiting for" in line:
                say(line.removeprefix("rt: ").strip())
    return run.returncode, "".join(said)


def prove(top, programs, say, heard):
    """Proves all crates of the programs and builds these. Says what begins, and gives `heard` what rt said of a crate that is done. Returns
    the crates that are not proved: once there is one, nothing more begins."""
    workspace = Workspace(top, programs)
    place = workspace.out(programs[0], "lanes")
    shutil.rmtree(place, ignore_errors=True)
    machine = Machine()
    idle = [Lane(workspace, os.path.join(place, str(number))) for number in range(machine.lanes)]
    left, running, done, failed = sorted(workspace.below), {}, set(), []
    try:
        with ThreadPoolExecutor(len(idle)) as pool:
            while running or (left and not failed):
                begun = [] if failed else workspace.ready(left, done)[: len(idle)]
                for crate in begun:
                    left.remove(crate)
                    lane = idle.pop()
                    is_first = all(workspace.ways[it] < workspace.ways[crate] for it, _ in running.values())
                    share = machine.first if is_first else machine.other
                    running[pool.submit(lane.prove, crate, share, say)] = crate, lane
                if begun:
                    proving = ", ".join(crate for crate, _ in running.values())
                    say(f"proving {proving}, {len(left) + len(running)} of {len(workspace.below)} left")
                for run in wait(running, return_when=FIRST_COMPLETED).done:
                    crate, lane = running.pop(run)
                    status, said = run.result()
                    heard(crate, said)
                    idle.append(lane)
                    done.add(crate)
                    failed += [crate] * bool(status)
    finally:
        shutil.rmtree(place, ignore_errors=True)
    return failed
