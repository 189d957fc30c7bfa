"""A run of `sfplay` that is told its lines one after the other."""

import os
import subprocess
import sys

BUILT = os.path.join(os.path.dirname(os.path.abspath(__file__)), "..", "crates", "sfplay", "out", "sfplay")


def add_program(parser):
    parser.add_argument("--exe", metavar="PATH", default=BUILT, help="an executable sfplay, in place of the proved one")


def program_of(options):
    """The program that the options name; ends this process where it isn't there."""
    if not os.path.exists(options.exe):
        sys.exit(f"{options.exe} is not there: ./sfplay --prove builds the proved program")
    return os.path.abspath(options.exe)


class Session:
    """`lines` is how many it was told."""

    def __init__(self, *words):
        self.run = subprocess.Popen(words, stdin=subprocess.PIPE, stdout=subprocess.PIPE, text=True)
        self.lines = 0

    def tell(self, line):
        """Has a line that gives nothing played, before the next sample."""
        self.run.stdin.write(line + "\n")
        self.lines += 1

    def sample(self, line):
        """What a line gives: the readings, then the sample, or the fault or the refusal with which the run ends. Ends this process where
        the run has ended before, as of a network that is refused."""
        self.tell(line)
        given = []
        try:
            self.run.stdin.flush()
            while not given or given[-1].startswith("?"):
                given.append(self.run.stdout.readline().rstrip("\n"))
        except BrokenPipeError:
            pass
        if not given or not given[-1]:
            sys.exit(self.run.wait() or 1)
        return given

    def end(self):
        """Ends the run, and answers its status."""
        try:
            self.run.stdin.close()
        except BrokenPipeError:
            pass
        self.run.stdout.read()
        self.run.stdout.close()
        return self.run.wait()
