"""Building by bin/watch and bin/library, in a small repository with an rt of its own that proves nothing: what is said, when it is built, and what when it
fails."""
import os
import shutil
import subprocess
import tempfile
import unittest

from station import ROOT

CRATES = "# two libraries and a program\nwords:\nsheet: words\nwatch: sheet words io # io is the kit's\nother:\n"

RT = """#!/bin/sh
echo "rt $*" >> "$RECORD"
[ -z "$SLOW" ] || sleep 1
echo "rt: words: begins with what a check kept in another copy"
echo "much that nobody wants to see"
[ -z "$FAILS" ] || { echo "sheet.rt:1: error: no"; echo "logic=not-proved"; exit 1; }
echo "crate sheet: modules loaded=1 checked=1"
echo "logic=proved functions=1"
echo "crate watch: modules loaded=1 checked=1"
echo "logic=proved functions=1"
mkdir -p out
printf '#!/bin/sh\\necho ran\\ncat\\n' > out/watch
chmod +x out/watch
exit ${ENDS:-0}
"""

BEGIN = "watch: building: proving what changed; all of it takes 4 to 6 minutes on two cores\n"
PROVED = "watch: building: 1 of 3 crates proved (sheet)\nwatch: building: 2 of 3 crates proved (watch)\n"


class Repository(unittest.TestCase):
    """A folder with one of the commands, crates.txt, an empty crate and an rt."""
    command, crates, rt, built = "watch", CRATES, RT, ["watch"]

    def setUp(self):
        folder = tempfile.TemporaryDirectory()
        self.addCleanup(folder.cleanup)
        self.root = folder.name
        for name in (self.command, "building.sh"):
            os.makedirs(self.path("bin"), exist_ok=True)
            shutil.copy(os.path.join(ROOT, "bin", name), self.path("bin", name))
        self.write(self.crates, "crates.txt")
        self.write("", "crates", "words", "src", "lib.rt")
        for name in self.built:
            self.write("", "crates", name, "src", "main.rt")
        self.write(self.rt, "kit", "rt")
        os.chmod(self.path("kit", "rt"), 0o755)

    def path(self, *names):
        return os.path.join(self.root, *names)

    def write(self, text, *names):
        os.makedirs(os.path.dirname(self.path(*names)), exist_ok=True)
        with open(self.path(*names), "w") as out:
            out.write(text)

    def calls(self):
        """The calls of rt so far."""
        with open(self.path("record")) as record:
            return record.read().splitlines()

    def start(self, **settings):
        environment = {**os.environ, "PATH": self.path("kit") + ":/usr/bin:/bin", "RECORD": self.path("record"), **settings}
        pipe = subprocess.PIPE
        return subprocess.Popen([self.path("bin", self.command)], env=environment, stdin=pipe, stdout=pipe, stderr=pipe, text=True)

    def ends(self, status, printed, said, **settings):
        run = self.start(**settings)
        out, err = run.communicate("input\n", timeout=60)
        self.assertEqual((run.returncode, out, err), (status, printed, said))


class Building(Repository):
    def test_built_where_something_changed(self):
        """The input is left to the program."""
        self.ends(0, "ran\ninput\n", BEGIN + PROVED)
        self.ends(0, "ran\ninput\n", "")
        self.assertEqual(self.calls(), ["rt run"])
        self.write("// changed", "crates", "words", "src", "lib.rt")
        self.ends(0, "ran\ninput\n", BEGIN + PROVED)
        os.remove(self.path("crates", "watch", "out", "watch"))
        self.ends(0, "ran\ninput\n", BEGIN + PROVED)
        self.assertEqual(self.calls(), ["rt run"] * 3)

    def test_all_that_rt_says_is_kept(self):
        self.ends(0, "ran\ninput\n", BEGIN + PROVED)
        with open(self.path("target", "watch-build.log")) as log:
            self.assertIn("much that nobody wants to see\n", log)

    def test_fails(self):
        last = "rt: words: begins with what a check kept in another copy\nmuch that nobody wants to see\nsheet.rt:1: error: no\nlogic=not-proved\n"
        named = "watch: not built: the last lines of %s stand above\n" % self.path("target", "watch-build.log")
        self.ends(2, "", BEGIN + last + named, FAILS="yes")
        self.ends(0, "ran\ninput\n", BEGIN + PROVED)

    def test_the_program_refuses(self):
        """rt runs the program that it has built, with no sheet: how that ends does not matter."""
        self.ends(0, "ran\ninput\n", BEGIN + PROVED, ENDS="1")

    def test_no_rt(self):
        os.remove(self.path("kit", "rt"))
        said = "watch: not built: the Rattle kit's command rt is not on PATH (it lies in /opt/rattle/bin)\n"
        self.ends(2, "", said)

    def test_two_at_once(self):
        """The second waits for the first, and finds the program built."""
        runs = [self.start(SLOW="yes") for _ in range(2)]
        said = []
        for run in runs:
            out, err = run.communicate("input\n", timeout=60)
            self.assertEqual((run.returncode, out), (0, "ran\ninput\n"))
            said.append(err)
        self.assertEqual(sorted(said), ["watch: another command is building; waiting for it\n", BEGIN + PROVED])
        self.assertEqual(self.calls(), ["rt run"])


PARTS = ["exports_%s_c" % part for part in ("rules", "watch", "sets", "calendar", "questions", "reports")]
LIBRARY_CRATES = "words:\n" + "".join("%s staticlib: words\n" % part for part in PARTS)

# Each part has a function of its own and one that is local to it and called the same in each.
LIBRARY_RT = """#!/bin/sh
echo "rt $*" >> "$RECORD"
part=${PWD##*/}
echo "crate words: modules loaded=1 checked=1"
echo "logic=proved functions=1"
[ "$part" != "$FAILS" ] || { echo "$part.rt:1: error: no"; exit 1; }
mkdir -p out && cd out
echo "static int own(int x) { return x ? own(x - 1) : 7; } int sw_$part(int x) { return own(x); }" | gcc -x c -O0 -fPIC -c -o "$part.o" -
[ "$part" != "$EMPTY" ] || mv "$part.o" other.o
rm -f "lib$part.a"
ar rcs "lib$part.a" ./*.o
rm ./*.o
"""

PART_BEGUN = "library: building: 1 of 7 crates proved (words)\n"
LIBRARY_BEGIN = BEGIN.replace("watch", "library") + PART_BEGUN
LIBRARY_BUILT = "library: built target/lib/libstation_watch.a and target/lib/libstation_watch.so\n"
ALL_PARTS = LIBRARY_BEGIN + LIBRARY_BUILT


class Library(Repository):
    command, crates, rt, built = "library", LIBRARY_CRATES, LIBRARY_RT, PARTS

    def setUp(self):
        super().setUp()
        self.write('#define SW_VERSION "9.8.7"\n', "include", "station_watch.h")
        self.archive = self.path("target", "lib", "libstation_watch.a")

    def functions(self, *words):
        said = subprocess.run(["nm", "--defined-only", *words], check=True, text=True, stdout=subprocess.PIPE).stdout
        return sorted(line.split()[2] for line in said.splitlines() if len(line.split()) == 3)

    def bytes(self):
        with open(self.archive, "rb") as archive:
            return archive.read()

    def test_the_parts_are_one_library(self):
        """And the archive is the same from build to build."""
        self.ends(0, "", ALL_PARTS)
        self.assertEqual(self.calls(), ["rt lib"] * 6)
        parts = ["sw_exports_calendar_c", "sw_exports_questions_c", "sw_exports_reports_c", "sw_exports_rules_c", "sw_exports_sets_c", "sw_exports_watch_c"]
        self.assertEqual(self.functions("--extern-only", self.archive), parts)
        self.assertEqual(self.functions("--dynamic", self.path("target", "lib", "libstation_watch.so")), parts)
        self.assertEqual(os.readlink(self.path("target", "lib", "libstation_watch.so.9.8")), "libstation_watch.so")
        built = self.bytes()
        self.ends(0, "", "")
        self.write("// changed", "crates", "words", "src", "lib.rt")
        self.ends(0, "", ALL_PARTS)
        self.assertEqual(self.bytes(), built)

    def test_a_part_that_is_not_proved(self):
        """Nothing is built, whichever it is."""
        log = self.path("target", "library-build.log")
        named = "library: not built: the last lines of %s stand above\n" % log
        first = "crate words: modules loaded=1 checked=1\nlogic=proved functions=1\n"
        self.ends(1, "", LIBRARY_BEGIN + first + "exports_rules_c.rt:1: error: no\n" + named, FAILS="exports_rules_c")
        said = LIBRARY_BEGIN + first + first + "exports_watch_c.rt:1: error: no\n" + named
        self.ends(1, "", said, FAILS="exports_watch_c")
        self.assertEqual(os.listdir(self.path("target", "lib")), ["built.new"])

    def test_the_shared_librarys_own_name_is_gone(self):
        """Programs that were linked with it start by that name, so it is built again."""
        self.ends(0, "", ALL_PARTS)
        own_name = self.path("target", "lib", "libstation_watch.so.9.8")
        os.remove(own_name)
        self.ends(0, "", ALL_PARTS)
        self.assertTrue(os.path.exists(own_name))

    def test_a_part_that_is_not_in_its_archive(self):
        run = self.start(EMPTY="exports_watch_c")
        out, err = run.communicate(timeout=60)
        self.assertEqual((run.returncode, out), (1, ""))
        self.assertEqual(err.splitlines()[-1], "library: not built: its parts could not be put together")
        self.assertNotIn("libstation_watch.a", os.listdir(self.path("target", "lib")))

    def test_no_version(self):
        self.write("", "include", "station_watch.h")
        self.ends(1, "", "library: not built: include/station_watch.h has no SW_VERSION\n")
