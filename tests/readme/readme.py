"""README.md against the repository: what is typed in its blocks `console`, its tables of refusals, commands and functions, and its version; also that of
CHANGELOG.md. A block `sh` is not typed here."""
import os
import re
import shutil
import sys
import tempfile

ROOT = sys.argv[1]
sys.path.insert(0, os.path.join(ROOT, "tests", "rules"))
from page import Wrong, examples, sessions_run  # noqa: E402
from sentences import HEADER, SENTENCES  # noqa: E402

README = os.path.join(ROOT, "README.md")
CHANGELOG = os.path.join(ROOT, "CHANGELOG.md")
USAGE = os.path.join(ROOT, "command", "usage", "station-watch.txt")

# How many blocks are typed at least, so that one which loses its fence or its kind is seen.
LEAST = 11

# The folders that a block may use.
FOLDERS = ("bin", "include", "rust", "target")


def found(pattern, path):
    """What a pattern finds in a page, in order."""
    with open(path, encoding="ascii") as page:
        return re.findall(pattern, page.read(), re.MULTILINE)


def version_told():
    """README's title has the header's version, and so has the first heading of CHANGELOG."""
    due = re.findall(r'^#define SW_VERSION "(.*)"$', HEADER, re.MULTILINE)
    for path, pattern in ((README, r"\A# Station watch engine, version (.*)$"), (CHANGELOG, r"^## (.*)$")):
        told = found(pattern, path)[:1]
        if told != due:
            raise Wrong("%s is about version %s, and the header about %s" % (path, told, due))


def refusals_told():
    """Each refusal has one row, in order, which begins with its sentence; what is added stands in brackets behind it."""
    rows = found(r"^\| (\d+) \| ([^|]*) \|", README)
    if [int(number) for number, _ in rows] != list(SENTENCES):
        raise Wrong("the table of refusals has the rows %s" % [number for number, _ in rows])
    for number, said in rows:
        due = SENTENCES[int(number)]
        if said != due and not said.startswith(due + " ("):
            raise Wrong("refusal %s is %r, and its sentence %r" % (number, said, due))


def commands_told():
    """The table of commands has those of the usage, with their arguments."""
    due = found(r"^  ([a-z]+ [A-Z .]+?) {2,}", USAGE)
    told = found(r"^\| `([a-z]+ [A-Z .]+)` \|", README)
    if sorted(told) != sorted(line for line in due if not line.startswith("help ")):
        raise Wrong("the table of commands has %s, and the usage %s" % (told, due))


def functions_told():
    """The table of functions has those of the header."""
    due = re.findall(r"^\w+ (sw_\w+)\(", HEADER, re.MULTILINE)
    told = [name for row in found(r"^\| (`sw_.*?) \|", README) for name in re.findall(r"`(sw_\w+)`", row)]
    if sorted(told) != sorted(due):
        raise Wrong("the table of functions has %s, and the header %s" % (told, due))


def session_typed(block):
    """A block by itself, in a folder that has what the repository has. The examples are a copy, in which it may write over a file only what was there."""
    stored = os.path.join(ROOT, "examples")
    with tempfile.TemporaryDirectory() as work:
        own = shutil.copytree(stored, os.path.join(work, "examples"))
        sessions_run([block], {name: os.path.join(ROOT, name) for name in FOLDERS}, work)
        if contents(own) != contents(stored):
            raise Wrong("what is typed changes the examples")


def contents(folder):
    """Each file below a folder, with its bytes."""
    found = {}
    for place, _, names in os.walk(folder):
        for name in names:
            path = os.path.join(place, name)
            with open(path, "rb") as file:
                found[os.path.relpath(path, folder)] = file.read()
    return found


def sessions_typed():
    typed = 0
    for kind, start, block in examples(README):
        if kind not in ("console", "sh"):
            raise Wrong("line %d: a block of an unknown kind, %r" % (start, kind))
        if kind == "console":
            session_typed(block)
            typed += 1
    if typed < LEAST:
        raise Wrong("%d blocks are typed, and there were %d" % (typed, LEAST))


try:
    version_told()
    refusals_told()
    commands_told()
    functions_told()
    sessions_typed()
except Wrong as why:
    sys.exit("%s: %s" % (README, why))
