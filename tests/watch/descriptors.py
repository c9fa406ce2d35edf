"""Descriptors that are closed, full, not ready or cannot be read."""
import os
import resource
import subprocess
import threading
import time

from station import CELLS_4160, COMMAND, FIGURES, FLAG_UP, REFUSED_1, REFUSED_2, REFUSED_15, Station, lines

MANY = bytes(100_000)  # as many violations


def closed(*numbers):
    """To be called in the new process: closes descriptors."""
    def close():
        for number in numbers:
            os.close(number)
    return close


def limited(size):
    """To be called in the new process: limits the size of a file."""
    return lambda: resource.setrlimit(resource.RLIMIT_FSIZE, (size, size))


def processor_seconds():
    """What the processes that have ended used so far."""
    used = resource.getrusage(resource.RUSAGE_CHILDREN)
    return used.ru_utime + used.ru_stime


class Output(Station):
    def test_all_is_well(self):
        self.ends(0, lines(FLAG_UP, b"\1\0\1\0\0"), "", flags=b"\1\0\1\0\0")

    def test_full_device(self):
        with open("/dev/full", "wb") as full:
            self.ends(2, b"", "watch: standard output: No space left on device\n", flags=b"\0", stdout=full)

    def test_closed(self):
        self.ends(2, b"", "watch: standard output: Bad file descriptor\n", flags=b"\0", stdout=None, preexec_fn=closed(1))

    def test_closed_with_a_refusal(self):
        self.write("watch.sheet", CELLS_4160)
        said = REFUSED_15 + "watch: standard output: Bad file descriptor\n"
        self.ends(2, b"", said, stdout=None, preexec_fn=closed(1))

    def test_pipe_closed_early(self):
        self.write("flags", MANY)
        with open(self.path("flags"), "rb") as flags:
            run = self.start(stdin=flags)
            self.assertEqual(run.stdout.readline(), FIGURES)
            run.stdout.close()
            self.assertEqual(run.stderr.read(), b"watch: standard output: Broken pipe\n")
            self.assertEqual(run.wait(60), 2)
            run.stderr.close()

    def test_file_at_its_limit(self):
        """The write that reaches the limit takes a part of its line; the next one fails."""
        said = "watch: standard output: File too large\n"
        with open(self.path("printed"), "wb") as printed:
            self.ends(2, b"", said, flags=bytes(1000), stdout=printed, preexec_fn=limited(1000))
        with open(self.path("printed"), "rb") as printed:
            self.assertEqual(printed.read(), lines(FLAG_UP, bytes(1000))[:1000])

    def test_pipe_that_does_not_block_and_fills(self):
        """Nobody reads for a while, then slowly: every line arrives, in order."""
        self.write("flags", MANY)
        reader, writer = os.pipe()
        os.set_blocking(writer, False)
        with open(self.path("flags"), "rb") as flags, open(reader, "rb", buffering=0) as printed:
            run = self.start(stdin=flags, stdout=writer)
            os.close(writer)
            time.sleep(0.5)
            self.assertIsNone(run.poll())
            due = lines(FLAG_UP, MANY)
            got = bytearray()
            while part := printed.read(30_011):
                got += part
                time.sleep(0.005)
            self.assertEqual(len(got), len(due))
            self.assertTrue(got == due, "the lines differ")
            self.assertEqual(run.stderr.read(), b"")
            self.assertEqual(run.wait(60), 0)
            run.stderr.close()


class Input(Station):
    def test_empty(self):
        self.ends(0, lines(FLAG_UP, b""), "", flags=b"")

    def test_directory(self):
        folder = os.open("/", os.O_RDONLY)
        self.addCleanup(os.close, folder)
        self.ends(2, FIGURES, "watch: standard input: Is a directory\n", stdin=folder)

    def test_closed(self):
        self.ends(2, FIGURES, "watch: standard input: Bad file descriptor\n", stdin=None, preexec_fn=closed(0))

    def test_all_closed(self):
        self.ends(2, b"", "", stdin=None, stdout=None, stderr=None, preexec_fn=closed(0, 1, 2))

    def test_pipe_that_does_not_block_and_is_empty(self):
        """Nothing comes for 0.9 seconds in all; waiting for it takes less than a third of the processor."""
        reader, writer = os.pipe()
        os.set_blocking(reader, False)
        before = processor_seconds()

        def bring():
            with open(writer, "wb", buffering=0) as flags:
                for part in (b"\0\1", b"\0", b"\1\1\0"):
                    time.sleep(0.3)
                    flags.write(part)

        run = self.start(stdin=reader)
        os.close(reader)
        bringing = threading.Thread(target=bring)
        bringing.start()
        out, err = run.communicate(timeout=60)
        bringing.join()
        self.assertEqual((run.returncode, out, err), (0, lines(FLAG_UP, b"\0\1\0\1\1\0"), b""))
        self.assertLess(processor_seconds() - before, 0.3)


class Sheet(Station):
    def test_missing(self):
        os.remove(self.path("watch.sheet"))
        said = "watch: no file watch.sheet in the current folder: it counts as empty\n" + REFUSED_1
        self.ends(1, b"refused 1\n", said)

    def test_empty(self):
        self.write("watch.sheet", b"")
        self.ends(1, b"refused 1\n", REFUSED_1)

    def test_one_byte_more(self):
        self.write("watch.sheet", FLAG_UP + b"\0")
        self.ends(1, b"refused 2\n", REFUSED_2)

    def test_refused(self):
        self.write("watch.sheet", CELLS_4160)
        self.ends(1, b"refused 15\n", REFUSED_15, flags=b"\0")

    def test_directory(self):
        os.remove(self.path("watch.sheet"))
        os.mkdir(self.path("watch.sheet"))
        self.ends(2, b"refused 1\n", "watch: watch.sheet: Is a directory\n" + REFUSED_1)

    def test_not_allowed(self):
        """Root may read every file: it gives up that power first."""
        os.chmod(self.path("watch.sheet"), 0)
        words = [COMMAND]
        if os.geteuid() == 0:
            words = ["setpriv", "--bounding-set=-dac_override,-dac_read_search", *words]
        self.ends(2, b"refused 1\n", "watch: watch.sheet: Permission denied\n" + REFUSED_1, words)


class StandardError(Station):
    """A line that cannot be passed on does not change the status."""

    def test_closed(self):
        self.write("watch.sheet", CELLS_4160)
        self.ends(1, b"refused 15\n", "", stderr=None, preexec_fn=closed(2))

    def test_full(self):
        self.write("watch.sheet", CELLS_4160)
        with open("/dev/full", "wb") as full:
            self.ends(1, b"refused 15\n", "", stderr=full)

    def test_pipe_closed(self):
        reader, writer = os.pipe()
        os.close(reader)
        self.addCleanup(os.close, writer)
        with open("/dev/full", "wb") as full:
            self.ends(2, b"", "", stdout=full, stderr=writer)
