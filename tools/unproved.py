"""Answers by the toolchain's `rt try`, which builds a program from its sources for one run and proves nothing."""

import json
import os
import re
import signal
import subprocess
import sys

import refusals
from command import REFUSED, UNREADABLE

# The most bytes of input that rt try gives a program.
MOST_LINES = 64 << 20
# What begins the lines that rt try says behind those of the program.
OF_RT = ("checked: ", "interpreter: ", "run=")


def first_run(top):
    """How long it took to prove the program, when that was measured."""
    with open(os.path.join(top, "bench", "figures.json")) as file:
        kept = json.load(file)
    seconds = sum(sum(it.values()) for it in kept.get("first", {}).values()) or kept["program"]
    return f"{seconds / 60:.0f} minutes of processor time"


def tried(crate, command, lines):
    """The status that the program ended with, None where it came to no answer, what it wrote, and what was said."""
    given = [] if command.text is None else ["--data", f"network={os.path.abspath(command.path)}"]
    words = ["rt", "try", *given, "--", *command.with_network("network")]
    rt = subprocess.run(words, cwd=crate, input=lines, capture_output=True)
    said = rt.stderr.decode(errors="replace").splitlines(True)
    ended = re.match(r"run=ended status=(\d+) ", ([""] + said)[-1])
    if not ended:
        return None, b"", "".join(said)
    return int(ended[1]), rt.stdout, "".join(line for line in said if not line.startswith(OF_RT))


def answer(top, command, say):
    """Answers from the sources, and says that nothing of it is proved, or why there is no answer. Returns the status."""
    prove = f"./sfplay --prove builds the proved program ({first_run(top)})"
    if command.error:
        say(command.error)
        say("read fault")
        return UNREADABLE
    if command.takes_lines and os.isatty(0):
        say(f"only the proved program answers the lines of a terminal, and it is not built yet: {prove}")
        return 1
    too_long = f"only the proved program answers more than 64 MiB of input, and it is not built yet: {prove}"
    if command.takes_lines and os.fstat(0).st_size > MOST_LINES:
        say(too_long)
        return 1
    say(f"this answer is not proved yet: rt try gives it from the sources, in a minute or two; {prove}, which is then played at once")
    lines = sys.stdin.buffer.read(MOST_LINES + 1) if command.takes_lines else b""
    if len(lines) > MOST_LINES:
        say(too_long)
        return 1
    try:
        status, output, said = tried(os.path.join(top, "crates", "sfplay"), command, lines)
    except FileNotFoundError:
        say("the Rattle toolchain's command rt is not on the PATH")
        return 1
    # (Python ignores it)
    signal.signal(signal.SIGPIPE, signal.SIG_DFL)
    sys.stdout.buffer.write(output)
    sys.stdout.flush()
    if status is None:
        say("rt try gave no answer:")
    sys.stderr.write(said)
    if status == REFUSED:
        sys.stderr.write(refusals.shown(command.network, command.text, said))
    return 1 if status is None else status
