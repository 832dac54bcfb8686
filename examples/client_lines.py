"""What `upload` and `download` share: request lines to `upspin client`, and the reply lines to them.

The command is read from UPSPIN_CLIENT, which has all its words, as

  export UPSPIN_CLIENT='upspin client home@localhost:5580 helper ann@a.example'
"""
import os
import shlex
import subprocess
import sys
import urllib.parse


def word(data):
    """The word that stands for these bytes: what would end a word, and what codes a byte, is coded."""
    if data in (b"", b"-"):
        return b"%2D" if data else b"-"
    return data.replace(b"%", b"%25").replace(b" ", b"%20").replace(b"\n", b"%0A")


def text(given):
    """The bytes that a printed word stands for."""
    return b"" if given == b"-" else urllib.parse.unquote_to_bytes(given)


class Client:
    """A running `upspin client`. Each line is asked once the lines before it have their replies."""

    def __init__(self):
        if "UPSPIN_CLIENT" not in os.environ:
            sys.exit(__doc__)
        words = shlex.split(os.environ["UPSPIN_CLIENT"])
        self.process = subprocess.Popen(words, stdin=subprocess.PIPE, stdout=subprocess.PIPE)

    def ask(self, *words):
        """The words of the first line of the reply."""
        try:
            self.process.stdin.write(b" ".join(words) + b"\n")
            self.process.stdin.flush()
        except BrokenPipeError:
            pass
        return self.line()

    def line(self):
        """The words of the next line of a reply."""
        line = self.process.stdout.readline()
        if not line.endswith(b"\n"):
            sys.exit(f"the client ended with status {self.process.wait()}")
        return line[:-1].split(b" ")

    def end(self):
        """Lets the client end, and gives its status."""
        self.process.stdin.close()
        return self.process.wait()


def shown(data):
    return os.fsdecode(data)


def said(words):
    return shown(b" ".join(words))
