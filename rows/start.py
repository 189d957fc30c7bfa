"""Tests ./sfplay, which has the program proved and built, or an answer from the sources, and shows refusals: on a small repository with
a stand-in for rt and for the program.

    python3 rows/start.py

The last line is `N passed, M failed`.
"""

import os
import pty
import shutil
import subprocess
import sys
import tempfile
import time

HERE = os.path.dirname(os.path.abspath(__file__))
TOP = os.path.join(HERE, "..")
sys.path.insert(0, os.path.join(TOP, "tools"))
from proving import BESIDE

CRATES = "# lowest first\nlow: thiserror\nhigh: low\nsfplay: high clap\nsftypes: high\napart: low\n"
BEGUN = (("low", 4), ("high", 3), ("sfplay, sftypes", 2))
BUILT = "".join(f"sfplay: proving {crates}, {left} of 4 left\n" for crates, left in BEGUN)
# It notes each call, proves all crates but the one that the file `broken` names, where each crate that is listed has a folder, over the
# libraries of those below it, and builds the programs below, or tries one. A proof or a try goes on as long as the file `lib` or `try` is there.
RT = """#!/bin/sh
echo "$* $(nice)" >> "$TOP/calls"
broken=$(cat "$TOP/broken" 2> /dev/null)
while [ -e "$TOP/$1" ]; do sleep 0.01; done
if [ "$1" = try ]; then
    mkdir -p "$TOP/room"
    cd "$TOP/room"
    [ "$2" != --data ] || cp "${3#network=}" network
    while [ "$1" != -- ]; do shift; done
    shift
    [ -z "$broken" ] || { echo 'run=no-answer proved=no' >&2; exit 6; }
    "$TOP/program" "$@"
    status=$?
    printf 'checked: ended status=%s\nrun=ended status=%s runners=1 proved=no\n' $status $status >&2
    exit $status
elif [ "$1" = lib ]; then
    crate=${PWD##*/}
    for listed in $(sed 's/#.*//; s/:.*//' ../../crates.txt); do [ -d ../$listed/src ] || { echo "there is no folder of $listed"; exit 1; }; done
    [ $crate != high ] || [ -e ../low/out/rlib/stamp ] || exit 1
    [ $crate != "$broken" ] || { echo 'why not'; exit 1; }
    mkdir -p out/rlib
    touch out/rlib/stamp
else
    mkdir -p out
    if [ "${PWD##*/}" = sftypes ]; then
        printf '#!/bin/sh\necho 2:5 found Int, wanted Bool\n' > out/sftypes
        chmod +x out/sftypes
        exit 2
    fi
    cp "$TOP/program" out/sfplay
    [ ! -e "$TOP/edited" ] || touch "$TOP/crates/low/src/lib.rt"
    out/sfplay
fi
"""
# It says its words, the network and its input; or refuses the network.
PROGRAM = """#!/bin/sh
[ ! -e "$TOP/refused" ] || { echo 'sfplay: C4 Mismatch 2:5' >&2; exit 5; }
printf '%s.' "$@"
[ $# = 0 ] || cat "$1" - 2> /dev/null
exit 3
"""
NETWORK = "network 1;\nthe network;\n"
PLAYED = f"a b.--plain.{NETWORK}0 1\n"
TRIED = f"network.--plain.{NETWORK}0 1\n"
PROVE = "./sfplay --prove builds the proved program (75 minutes of processor time)"
NOT_PROVED = f"sfplay: this answer is not proved yet: rt try gives it from the sources, in a minute or two; {PROVE}, which is then played at once\n"
NOT_A_TERMINAL = f"sfplay: only the proved program answers the lines of a terminal, and it is not built yet: {PROVE}\n"
TOO_LONG = f"sfplay: only the proved program answers more than 64 MiB of input, and it is not built yet: {PROVE}\n"
PLACE = "sfplay: C4 Mismatch 2:5\na b:2:5:\n    2 | the network;\n      |     ^ types do not fit in the form that begins here\n"
EXPLAINED = PLACE + "      | Found Int, wanted Bool\n"


class Repository:
    """A repository whose crates are empty, with a network in the folder `elsewhere`, where it is played."""

    def __init__(self, top):
        self.top = os.path.realpath(top)
        for crate in ("low", "high", "sfplay", "sftypes", "apart"):
            for part in ("src", "specs", "proofs"):
                self.write(f"crates/{crate}/{part}/lib.rt", "")
        figures = '{"program": 4500}'
        texts = {"crates.txt": CRATES, "program": PROGRAM, "bin/rt": RT, "elsewhere/a b": NETWORK, "bench/figures.json": figures}
        for name, text in texts.items():
            self.write(name, text)
        shutil.copy(os.path.join(TOP, "sfplay"), self.path("sfplay"))
        for name in ("tools", "rows/forms.json"):
            os.makedirs(os.path.dirname(self.path(name)), exist_ok=True)
            os.symlink(os.path.join(TOP, name), self.path(name))
        os.mkdir(self.path("python"))
        os.symlink(sys.executable, self.path("python/python3"))

    def path(self, name):
        return os.path.join(self.top, name)

    def write(self, name, text):
        os.makedirs(os.path.dirname(self.path(name)), exist_ok=True)
        with open(self.path(name), "w") as file:
            file.write(text)
        os.chmod(self.path(name), 0o755)

    def start(self, *words, program=None, has_rt=True, **how):
        places = [self.path("bin"), self.path("python"), "/usr/bin", "/bin"] if has_rt else [self.path("python")]
        how = {"stdin": subprocess.PIPE, **how, "cwd": self.path("elsewhere"), "env": {"PATH": ":".join(places), "TOP": self.top}}
        return subprocess.Popen([program or self.path("sfplay"), *words], stdout=subprocess.PIPE, stderr=subprocess.PIPE, text=True, **how)

    def play(self, *words, lines="0 1\n", **how):
        """What one run writes, to standard output and to standard error, and its status."""
        player = self.start(*(words or ("a b", "--plain")), **how)
        output, errors = player.communicate(None if "stdin" in how else lines, timeout=60)
        return output, errors, player.returncode

    def prove(self, **how):
        return self.play("--prove", "a b", "--plain", **how)

    def wait_for(self, name):
        end = time.monotonic() + 60
        while not os.path.exists(self.path(name)) and time.monotonic() < end:
            time.sleep(0.01)

    def taken(self):
        """How rt was called since it was asked for the last time, with how much that gave way to others behind its words."""
        if not os.path.exists(self.path("calls")):
            return []
        with open(self.path("calls")) as file:
            lines = file.read().splitlines()
        os.remove(self.path("calls"))
        return [line.split() for line in lines]

    def calls(self):
        """The first word of each of these calls."""
        return [words[0] for words in self.taken()]


def first_and_second(at):
    yield "the first run builds", at.prove() == (PLAYED, BUILT, 3)
    taken, own = at.taken(), os.getpriority(os.PRIO_PROCESS, 0)
    yield "it has all crates proved, and the programs built", [words[0] for words in taken] == ["lib", "lib", "run", "run"]
    jobs, niceness = ([int(words[place]) for words in taken] for place in (2, 3))
    yield "what is proved beside another gives way to it", niceness[:2] + sorted(niceness[2:]) == [own, own, own, own + BESIDE]
    yield "and has no more jobs", all(count <= min(jobs[:2]) for count, it in zip(jobs, niceness) if it > own)
    yield "what is made of a crate stands with it, and no copy is left", os.path.exists(at.path("crates/low/out/rlib/stamp")) and not os.path.exists(at.path("crates/sfplay/out/lanes"))
    os.symlink(at.path("sfplay"), at.path("bin/linked"))
    yield "the second only plays", at.play() == (PLAYED, "", 3)
    yield "so does a link to it", at.play(program=at.path("bin/linked")) == (PLAYED, "", 3)
    yield "and one that is to prove first", at.prove() == (PLAYED, "", 3)
    yield "rt is not called then", at.calls() == []


def prove_alone(at):
    said = "sfplay: the proved program is built\n"
    yield "it is built", at.play("--prove") == ("", BUILT + said, 0)
    yield "it is there", at.play("--prove") == ("", said, 0)
    yield "it is played", at.play() == (PLAYED, "", 3)


def newer_sources(at):
    at.prove()
    for name in ("crates/low/src/lib.rt", "crates/high/specs/lib.rt", "crates/apart/proofs/lib.rt", "crates.txt"):
        time.sleep(0.02)
        os.utime(at.path(name))
        yield f"{name} is newer", at.play() == (TRIED, NOT_PROVED, 3)
        yield f"{name} is newer, to be proved", at.prove() == (PLAYED, BUILT, 3) and at.play() == (PLAYED, "", 3)
    os.remove(at.path("crates/low/specs/lib.rt"))
    yield "a source is gone", at.prove() == (PLAYED, BUILT, 3)


def edited_meanwhile(at):
    at.write("edited", "")
    at.prove()
    os.remove(at.path("edited"))
    yield "a source was edited while it was built", at.prove() == (PLAYED, BUILT, 3)


def two_at_once(at):
    words = ("--prove", "a b", "--plain")
    players = [at.start(*words), at.start(*words)]
    played = [player.communicate("0 1\n") for player in players]
    yield "both play", [output for output, _ in played] == [PLAYED, PLAYED]
    yield "one builds", at.calls() == ["lib", "lib", "run", "run"]


def while_it_is_tried(at):
    at.write("try", "")
    player = at.start("a b", "--plain", stdin=subprocess.DEVNULL)
    at.wait_for("calls")
    yield "a run that is to prove waits for none", at.prove() == (PLAYED, BUILT, 3)
    os.remove(at.path("try"))
    yield "the answer comes from the sources", player.communicate() == (TRIED.removesuffix("0 1\n"), NOT_PROVED)


def while_it_is_built(at):
    at.write("lib", "")
    builder = at.start("--prove")
    at.wait_for("calls")
    yield "a run is answered from the sources", at.play() == (TRIED, NOT_PROVED, 3)
    os.remove(at.path("lib"))
    builder.communicate()
    yield "and by the program then", at.play() == (PLAYED, "", 3)


def not_proved(at):
    at.write("broken", "high")
    output, errors, status = at.prove()
    yield "nothing is played", (output, status) == ("", 1)
    yield "the crate is named", "sfplay: high is not proved; " in errors and errors.endswith("== high\nwhy not\n")
    os.remove(at.path("broken"))
    yield "mended, it plays", at.prove() == (PLAYED, BUILT, 3)


def no_toolchain(at):
    said = "sfplay: the Rattle toolchain's command rt is not on the PATH\n"
    output, errors, status = at.prove(has_rt=False)
    yield "a run that is to prove says so", (output, status) == ("", 1) and errors.endswith(said)
    yield "so does one that isn't", at.play(has_rt=False) == ("", NOT_PROVED + said, 1)


def from_the_sources(at):
    yield "a run is answered", at.play() == (TRIED, NOT_PROVED, 3)
    yield "by a try", at.calls() == ["try"] and not os.path.exists(at.path("crates/sfplay/out"))
    at.write("elsewhere/-n", NETWORK)
    yield "a word behind -- is a network", at.play("--", "-n") == ("--.network.0 1\n", NOT_PROVED, 3)
    yield "words without a network are handed on", at.play("--plain") == ("--plain.", NOT_PROVED, 3)
    said = "sfplay: none: No such file or directory\nsfplay: read fault\n"
    at.calls()
    yield "a network that isn't there is not tried", at.play("none") == ("", said, 6) and at.calls() == []
    at.write("refused", "")
    yield "a network is refused", at.play() == ("", NOT_PROVED + PLACE, 5)
    at.write("broken", "sfplay")
    yield "there is no answer", at.play() == ("", NOT_PROVED + "sfplay: rt try gave no answer:\nrun=no-answer proved=no\n", 1)


def input_that_is_not_tried(at):
    terminal, other_side = pty.openpty()
    yield "a terminal", at.play(stdin=other_side) == ("", NOT_A_TERMINAL, 1)
    with open(at.path("long"), "w+b") as file:
        file.truncate((64 << 20) + 1)
        yield "a long file", at.play(stdin=file) == ("", TOO_LONG, 1)
    yield "long lines through a pipe", at.play(lines="0" * ((64 << 20) + 1)) == ("", NOT_PROVED + TOO_LONG, 1)
    yield "nothing is tried", at.calls() == []
    yield "a check reads none", at.play("a b", "--check", stdin=other_side) == (f"network.--check.{NETWORK}", NOT_PROVED, 3)
    os.close(terminal)


def through_a_pipe(at):
    """A network in a pipe can be read once, and is looked at twice."""
    at.prove()
    for refused in (False, True):
        back, front = os.pipe()
        os.write(front, NETWORK.encode())
        os.close(front)
        network = f"/dev/fd/{back}"
        output, errors, status = at.play(network, pass_fds=[back])
        os.close(back)
        if refused:
            yield "a pipe that is refused", (output, errors, status) == ("", EXPLAINED.replace("a b", network), 5)
        else:
            yield "a pipe", output.endswith(f".{NETWORK}0 1\n") and (errors, status) == ("", 3)
        at.write("refused", "")


def refused(at):
    at.prove()
    yield "there is no such network", at.play("none") == ("none.0 1\n", "sfplay: none: No such file or directory\n", 3)
    at.write("refused", "")
    yield "the place is shown, and which types do not fit", at.play() == ("", EXPLAINED, 5)
    at.write("crates/sftypes/out/sftypes", "#!/bin/sh\necho 1:1 found Int, wanted Bool\n")
    yield "types at another place are not", at.play() == ("", PLACE, 5)
    os.remove(at.path("crates/sftypes/out/sftypes"))
    yield "the place is shown alone", at.play() == ("", PLACE, 5)
    at.write("crates/sfplay/out/sfplay", PROGRAM.replace("C4 Mismatch 2:5", "Memory"))
    yield "there is no place", at.play() == ("", "sfplay: Memory\n", 5)


TESTS = (
    first_and_second, prove_alone, newer_sources, edited_meanwhile, two_at_once, while_it_is_tried, while_it_is_built, not_proved,
    no_toolchain, from_the_sources, input_that_is_not_tried, through_a_pipe, refused,
)  # fmt: skip


def main():
    passed = failed = 0
    for test in TESTS:
        with tempfile.TemporaryDirectory() as top:
            for what, well in test(Repository(top)):
                passed, failed = passed + well, failed + (not well)
                if not well:
                    print(f"{test.__name__}: {what}: not so")
    print(f"{passed} passed, {failed} failed")
    return 1 if failed else 0


if __name__ == "__main__":
    sys.exit(main())
