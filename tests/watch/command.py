"""The command bin/watch: usage, and signals."""
import os
import signal
import subprocess
import time

from station import COMMAND, FIGURES, Station


def standing(pid):
    """A process's name, state and parent; None where it is gone."""
    try:
        with open("/proc/%d/stat" % pid) as text:
            _, name, state, parent = text.read().split()[:4]
    except OSError:
        return None
    return name, state, int(parent)


def programs_of(parent):
    """The processes named `watch` that a process started."""
    pids = [int(folder) for folder in os.listdir("/proc") if folder.isdigit()]
    return [pid for pid in pids if (now := standing(pid)) and now[0] == "(watch)" and now[2] == parent]


def has_ended(pid):
    """Z: it has ended, and nobody has asked how."""
    now = standing(pid)
    return now is None or now[1] == "Z"


def soon(test):
    """What a test answers once it is true, which it must be within ten seconds."""
    for _ in range(1000):
        if answer := test():
            return answer
        time.sleep(0.01)
    raise AssertionError("waited for nothing")


class Usage(Station):
    def usage(self):
        return subprocess.run([COMMAND, "--help"], stdout=subprocess.PIPE, check=True).stdout

    def test_help(self):
        text = self.usage()
        self.assertTrue(text.startswith(b"usage: watch < FLAGS\n"))
        for word in (b"watch.sheet", b"current folder", b"standard input", b"standard output", b"Exit status:"):
            self.assertIn(word, text)
        self.ends(0, text, "", [COMMAND, "-h"])

    def test_wrong_arguments(self):
        text = self.usage().decode()
        for words in (["flags"], [""], ["--help", "me"], ["-x"]):
            with self.subTest(words=words):
                self.ends(2, b"", text, [COMMAND, *words])


class Signals(Station):
    def setUp(self):
        super().setUp()
        # Where the tests themselves run in the background of a script or under nohup, they ignore a signal, and so would the command.
        self.handle(signal.SIGINT, signal.default_int_handler)
        self.handle(signal.SIGHUP, signal.SIG_DFL)

    def handle(self, number, how):
        self.addCleanup(signal.signal, number, signal.signal(number, how))

    def watching(self):
        """The command, waiting for input, and its program."""
        run = self.start(stdin=subprocess.PIPE, start_new_session=True)
        for pipe in (run.stdin, run.stdout, run.stderr):
            self.addCleanup(pipe.close)
        self.assertEqual(run.stdout.readline(), FIGURES)
        [program] = soon(lambda: programs_of(run.pid))
        return run, program

    def ended(self, program):
        soon(lambda: has_ended(program))

    def test_program_is_killed(self):
        run, program = self.watching()
        os.kill(program, signal.SIGKILL)
        self.assertEqual(run.wait(60), 128 + signal.SIGKILL)

    def test_command_is_ended(self):
        for number in (signal.SIGTERM, signal.SIGHUP, signal.SIGKILL):
            with self.subTest(number=number):
                run, program = self.watching()
                os.kill(run.pid, number)
                self.assertEqual(run.wait(60), -number)
                self.ended(program)

    def test_interrupt_from_the_terminal(self):
        run, program = self.watching()
        os.killpg(run.pid, signal.SIGINT)
        self.assertIn(run.wait(60), (-signal.SIGINT, 128 + signal.SIGINT))
        self.ended(program)
