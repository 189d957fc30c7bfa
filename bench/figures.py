"""Writes what each crate has and costs and where a form is named into docs/ARCHITECTURE.md, and what the first run takes into README.md.

    python3 bench/figures.py          writes them, from the sources and from bench/figures.json
    python3 bench/figures.py gate     runs ./test before, and keeps the processor time of each crate's checks in bench/figures.json
    python3 bench/figures.py first    the same of ./sfplay --prove, in a checkout where nothing is built; without it, README.md has what the gate took
                                      for the proofs of the program
    python3 bench/figures.py speed    runs bench/instructions.py, keys.py, large.py, run.py, compare.py and stack.py, and writes what they print too

Words after `gate` and `first` are the command that is run in place of ./test or ./sfplay --prove (what it doesn't check keeps its figures);
words after `speed` go to all six scripts. The time of a check is read from /proc, five times in a second, so up to a fifth of a second
of each is lost. A run that fails changes nothing.
"""

import json
import os
import re
import signal
import subprocess
import sys
import threading
import time
from collections import defaultdict

TOP = os.path.realpath(os.path.join(os.path.dirname(os.path.abspath(__file__)), ".."))
KEPT = os.path.join(TOP, "bench", "figures.json")
COMMANDS = {"gate": ["./test"], "first": ["./sfplay", "--prove"]}
TICKS = os.sysconf("SC_CLK_TCK")
PARTS = ("src", "specs", "proofs")
# Forms with the names that they have in the sources.
FORMS = {"a join (`&&&`)": "fan", "a head (`loopPre`)": "loop_?pre", "a primitive with a value (`iPre`)": "i(nitial)?_?pre"}


class Watch(threading.Thread):
    """Sees the toolchain's checks in the session of one process, and how much processor time each took."""

    def __init__(self, session):
        super().__init__(daemon=True)
        self.session, self.is_over, self.checks = session, False, {}

    def run(self):
        while not self.is_over:
            for pid in filter(str.isdigit, os.listdir("/proc")):
                try:
                    self.look(pid)
                except (FileNotFoundError, ProcessLookupError):
                    pass
            time.sleep(0.2)

    def look(self, pid):
        with open(f"/proc/{pid}/stat") as file:
            name, _, rest = file.read().partition("(")[2].rpartition(") ")
        state, parent, _, session, *rest = rest.split()
        if name != "rattle" or int(session) != self.session or state == "Z":
            return
        with open(f"/proc/{parent}/comm") as file:
            if file.read().strip() == "rattle":
                return  # (a copy, whose time comes to its parent)
        with open(f"/proc/{pid}/cmdline") as file:
            words = file.read().split("\0")
        if "--crate-name" in words:
            is_edited = os.path.basename(os.readlink(f"/proc/{pid}/cwd")).startswith("rt-edit-")
            kind = "bodies" if is_edited else "tests" if "--test" in words else "proofs"
            # (its own time and that of the copies that it waited for; and when it began)
            self.checks[pid, rest[15]] = words[words.index("--crate-name") + 1], kind, sum(map(int, rest[7:11])) / TICKS

    def seconds(self):
        found = defaultdict(lambda: defaultdict(float))
        for crate, kind, seconds in self.checks.values():
            found[crate][kind] = round(found[crate][kind] + seconds, 1)
        return found


def measure(what, words):
    """Runs a command, with what it prints, and keeps what it took."""
    kept, crate, began = load(), None, time.time()
    if not words:
        kept[what] = {}
    run = subprocess.Popen(words or COMMANDS[what], cwd=TOP, stdin=subprocess.DEVNULL, stdout=subprocess.PIPE, stderr=subprocess.STDOUT, text=True, start_new_session=True)
    watch = Watch(run.pid)
    watch.start()
    try:
        for line in run.stdout:
            print(line, end="", flush=True)
            crate = line[3:].strip() if line.startswith("== ") else crate
            proved = re.match(r"logic=proved functions=(\d+)", line)
            if proved and crate in crates():
                kept["functions"][crate] = int(proved[1])
    except KeyboardInterrupt:
        os.killpg(run.pid, signal.SIGTERM)
    status = run.wait()
    watch.is_over = True
    watch.join()
    if status:
        return status
    for crate, seconds in watch.seconds().items():
        kept[what].setdefault(crate, {}).update(seconds)
    for figures in (kept["functions"], kept["gate"], kept["first"]):
        for crate in {*figures} - {*crates()}:
            del figures[crate]
    if what == "gate":
        kept["program"] = round(sum(kept["gate"].get(crate, {}).get("proofs", 0) for crate in below("sfplay")))
    if not words:
        kept["elapsed"][what] = round(time.time() - began)
        kept["processors"] = len(os.sched_getaffinity(0))
    with open(KEPT, "w") as file:
        json.dump(kept, file, indent=1, sort_keys=True)
        file.write("\n")
    return status


def load():
    if not os.path.exists(KEPT):
        return {"functions": {}, "gate": {}, "first": {}, "elapsed": {}}
    with open(KEPT) as file:
        return json.load(file)


def crates():
    """The crates in the order of crates.txt."""
    with open(os.path.join(TOP, "crates.txt")) as file:
        return [line.partition(":")[0].split()[0] for line in file if ":" in line.partition("#")[0]]


def below(crate):
    """A crate and those that it stands on."""
    with open(os.path.join(TOP, "crates.txt")) as file:
        lines = (line.partition("#")[0].partition(":") for line in file)
        stands_on = {name.split()[0]: words.split() for name, colon, words in lines if colon}
    found, left = set(), [crate]
    while left:
        crate = left.pop()
        if crate in stands_on and crate not in found:
            found.add(crate)
            left += stands_on[crate]
    return found


def is_test(path):
    return path.endswith("tests.rt") or "/proofs/tests/" in path or "/crates/sf_tests/" in path


def lines_of(crate, part):
    """The lines of a part of a crate, each with whether it is of a test."""
    for folder, _, files in os.walk(os.path.join(TOP, "crates", crate, part)):
        for path in (os.path.join(folder, name) for name in files):
            with open(path) as file:
                for line in file:
                    yield line, is_test(path)


def figures_of(crate, kept):
    """What one row of the table says."""
    source = [of_test for _, of_test in lines_of(crate, "src")]
    taken = kept["gate"].get(crate, {})
    bodies = os.path.join(TOP, "crates", crate, "must-fail")
    return [
        source.count(False),
        source.count(True),
        *(sum(1 for _ in lines_of(crate, part)) for part in ("specs", "proofs")),
        kept["functions"].get(crate),
        sum(name.endswith(".edit") for name in os.listdir(bodies)) if os.path.isdir(bodies) else 0,
        (taken["proofs"] + taken.get("tests", 0)) / 60 if "proofs" in taken else None,
        taken["bodies"] / 60 if "bodies" in taken else None,
    ]


def named_in(crate):
    """How many lines name each form, those of tests apart."""
    lines = [line for part in PARTS for line, of_test in lines_of(crate, part) if not of_test]
    return [sum(bool(re.search(names, line, re.IGNORECASE)) for line in lines) for names in FORMS.values()]


def shown(figure):
    return "" if figure is None else f"{figure:.1f}" if isinstance(figure, float) else str(figure)


def table(heads, rows):
    lines = ["| " + " | ".join(["Crate", *heads]) + " |", "|---" * (len(heads) + 1) + "|"]
    lines += ["| " + " | ".join([name, *map(shown, row)]) + " |" for name, row in rows]
    return "\n" + "\n".join(lines) + "\n"


def all_figures(kept):
    heads = ["Source", "Tests", "Definitions", "Proofs", "Functions", "Wrong bodies", "Minutes: proofs", "Minutes: wrong bodies"]
    rows = [(f"`{crate}`", figures_of(crate, kept)) for crate in crates()]
    known = [[it for it in column if it is not None] for column in zip(*(row for _, row in rows))]
    return table(heads, [*rows, ("all", [sum(column) if column else None for column in known])])


def all_names():
    rows = [(f"`{crate}`", named_in(crate)) for crate in crates()]
    return table(FORMS, [(crate, row) for crate, row in rows if any(row)])


def took(kept, what):
    """The minutes of the processor and of the clock that a run took."""
    seconds = sum(sum(it.values()) for it in kept[what].values())
    return f"{seconds / 60:.0f} minutes of processor time, {kept['elapsed'][what] / 60:.0f} on the clock of a machine with {kept['processors']} processors"


def write(name, mark, text):
    """Puts a text between two marks of a document."""
    path = os.path.join(TOP, name)
    with open(path) as file:
        old = file.read()
    begin, end = f"<!-- {mark}: written by bench/figures.py -->", f"<!-- end of {mark} -->"
    before, rest = old.split(begin)
    with open(path, "w") as file:
        file.write(before + begin + text + end + rest.split(end)[1])


def speed(words):
    """What the scripts of the speed print."""
    said = ""
    for script in ("instructions.py", "keys.py", "large.py", "run.py", "compare.py", "stack.py"):
        done = subprocess.run([sys.executable, os.path.join(TOP, "bench", script), *words], stdout=subprocess.PIPE, text=True)
        if done.returncode:
            sys.exit(f"figures: {script} ended with status {done.returncode}")
        said += "\n" + "".join(f"    {line}".rstrip() + "\n" for line in done.stdout.splitlines())
    waiting = os.getloadavg()[0]
    return f"{said}\n    on {len(os.sched_getaffinity(0))} processors, for which {waiting:.1f} programs were waiting in the mean of the last minute\n\n"


def main():
    what, words = (sys.argv[1:2] or [""])[0], sys.argv[2:]
    if what not in ("", "speed", *COMMANDS):
        sys.exit(__doc__)
    if what == "first" and any(os.path.exists(os.path.join(TOP, "crates", crate, "out")) for crate in crates()):
        sys.exit("figures: crates/*/out is there: take a checkout where nothing is built")
    if what == "speed":
        write("docs/ARCHITECTURE.md", "speed", speed(words))
    status = measure(what, words) if what in COMMANDS else 0
    kept = load()
    write("docs/ARCHITECTURE.md", "figures", all_figures(kept))
    write("docs/ARCHITECTURE.md", "names", all_names())
    if "gate" in kept["elapsed"]:
        write("docs/ARCHITECTURE.md", "gate", took(kept, "gate"))
    if "first" in kept["elapsed"]:
        write("README.md", "first", took(kept, "first"))
    elif "program" in kept:
        write("README.md", "first", f"{kept['program'] / 60:.0f} minutes of processor time")
    return status


if __name__ == "__main__":
    sys.exit(main())
