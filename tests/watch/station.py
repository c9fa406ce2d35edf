"""What the tests of `watch` share: sheets, what they must make it print, and a folder to run it in."""
import os
import subprocess
import sys
import tempfile
import unittest

ROOT = os.path.realpath(os.path.join(os.path.dirname(__file__), "..", ".."))
COMMAND = os.path.join(ROOT, "bin", "watch")
PROGRAM = os.path.join(ROOT, "crates", "watch", "out", "watch")

sys.path.insert(0, os.path.join(ROOT, "tests", "oracle"))
from sentences import SENTENCES  # noqa: E402
from watch import watch  # noqa: E402  (the lines that document 01 asks for)

FLAG_UP = bytes([1, 5, 0, 3, 0, 1, 0, 0])  # one rule, "flag 0 at X": a byte 00 is a violation at its own step
CELLS_4160 = bytes([1, 5, 0, 12, 0, 5, 2, 0, 0, 0, 2, 0, 63, 0, 1, 1, 0])  # X..X+63, document 01's case of refusal 15
REFUSED_1 = "watch: refused 1: %s\n" % SENTENCES[1]
REFUSED_2 = "watch: refused 2: %s\n" % SENTENCES[2]
REFUSED_15 = "watch: refused 15: %s\n" % SENTENCES[15]


def lines(sheet, flags):
    """What `watch` must print, as bytes."""
    return "".join(line + "\n" for line in watch(sheet, flags)).encode()


FIGURES = lines(FLAG_UP, b"").splitlines(True)[0]  # what it prints first


class Station(unittest.TestCase):
    """A folder with a sheet in it, in which `watch` is run."""

    def setUp(self):
        folder = tempfile.TemporaryDirectory()
        self.addCleanup(folder.cleanup)
        self.folder = folder.name
        os.chmod(self.folder, 0o755)
        self.write("watch.sheet", FLAG_UP)

    def path(self, name):
        return os.path.join(self.folder, name)

    def write(self, name, content):
        with open(self.path(name), "wb") as out:
            out.write(content)

    def start(self, words=(COMMAND,), **options):
        """Starts it, with standard output and error as pipes unless said otherwise."""
        options.setdefault("stdin", subprocess.DEVNULL)
        options.setdefault("stdout", subprocess.PIPE)
        options.setdefault("stderr", subprocess.PIPE)
        return subprocess.Popen(list(words), cwd=self.folder, **options)

    def ends(self, status, printed, said, words=(COMMAND,), flags=None, **options):
        """Runs it to its end and compares the exit status, standard output and standard error, byte by byte."""
        if flags is not None:
            options["stdin"] = subprocess.PIPE
        run = self.start(words, **options)
        out, err = run.communicate(flags, timeout=60)
        self.assertEqual((run.returncode, out or b"", err or b""), (status, printed, said.encode()))
