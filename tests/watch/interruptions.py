"""Calls that are interrupted, take less than asked or fail late, as faults.c makes them. It is loaded into the program alone, not into bin/watch."""
import os
import subprocess
import tempfile
import unittest

from station import FLAG_UP, PROGRAM, REFUSED_1, Station, lines

LIBRARY = None


def setUpModule():
    global LIBRARY
    folder = tempfile.TemporaryDirectory()
    unittest.addModuleCleanup(folder.cleanup)
    LIBRARY = os.path.join(folder.name, "faults.so")
    source = os.path.join(os.path.dirname(__file__), "faults.c")
    subprocess.run(["gcc", "-O1", "-Wall", "-Wextra", "-Werror", "-shared", "-fPIC", "-o", LIBRARY, source, "-ldl"], check=True)


class Faults(Station):
    def ends_with(self, fault, printed, said, flags=b"\0\1\0", **options):
        environment = {**os.environ, "LD_PRELOAD": LIBRARY, "FAULTS": fault}
        self.ends(0, printed, said, [PROGRAM], flags, env=environment, **options)

    def test_no_fault(self):
        self.ends_with("", lines(FLAG_UP, b"\0\1\0"), "")

    def test_interrupted_and_short(self):
        """Of sheet, input and output alike, a byte at a time."""
        self.ends_with("interrupt", lines(FLAG_UP, b"\0\1\0" * 40), "", b"\0\1\0" * 40)

    def test_a_write_takes_nothing(self):
        self.ends_with("nothing", b"", "watch: standard output: it takes nothing\n")

    def test_closing_fails(self):
        """A file system may say so late that it could not keep what was written. Only a file is asked; nothing is said where it was kept."""
        for fault, said in ("", ""), ("close", "watch: standard output: Input/output error\n"):
            with self.subTest(fault=fault), open(self.path("printed"), "w+b") as printed:
                self.ends_with(fault, b"", said, stdout=printed)
                printed.seek(0)
                self.assertEqual(printed.read(), lines(FLAG_UP, b"\0\1\0"))

    def test_sheet_fails_in_the_middle(self):
        """What was read so far is a legal sheet, and is not run."""
        self.write("watch.sheet", FLAG_UP + b"\0")
        self.ends_with("sheet", b"refused 1\n", "watch: watch.sheet: Input/output error\n" + REFUSED_1)
