"""The words of a command line of `sfplay`, and the network that they name."""

import os

# The statuses with which the program ends where a network is refused, and where it can't be read.
REFUSED, UNREADABLE = 5, 6
# Words with which the program reads no input.
WITHOUT_INPUT = {"--check", "--dump", "--help", "-h", "--version", "-V"}
# One byte more than the text of a network may have.
MOST_READ = 1_048_577


class Command:
    """`network` is the one file among the words, and None where there is none or several, which the program refuses; `text` is what
    stands in it, `path` where that can be read again, and `error` why it can't be read."""

    def __init__(self, words):
        self.words = words
        behind = words.index("--") if "--" in words else len(words)
        places = [at for at, word in enumerate(words) if at > behind or not word.startswith("-")]
        self.at = places[0] if len(places) == 1 else None
        self.network = self.path = self.text = self.error = None
        if self.at is not None:
            self.read()

    def read(self):
        self.network = self.path = self.words[self.at]
        try:
            with open(self.network, "rb") as file:
                self.text = file.read(MOST_READ)
        except OSError as error:
            self.error = f"{self.network}: {error.strerror}"
            return
        if not os.path.isfile(self.network):
            # (a pipe is read once)
            held = os.memfd_create("network", 0)
            os.write(held, self.text)
            self.path = f"/proc/{os.getpid()}/fd/{held}"

    def with_network(self, path):
        """The words with another path in the place of the network's."""
        return self.words if self.at is None else [*self.words[: self.at], path, *self.words[self.at + 1 :]]

    @property
    def takes_lines(self):
        return self.text is not None and not WITHOUT_INPUT & {*self.words}
