#!/usr/bin/env python3
"""The examples of docs/RULES.md: taken out of the page, worked out anew, and run.

  page.py paper PAGE FOLDER         makes each block anew from its inputs (text, flag bytes, bytes of a body) by the papers alone, as tests/oracle has
                                    it, and compares the whole block, comments and columns included
  page.py programs PAGE FOLDER      runs `station-watch` and `watch` of the folder on each block, and compares lines and exit statuses with the page

Each fenced block of the page is an example of one of the kinds below; any other block is a failure. What is typed in blocks `console` is typed in both
checks, with the commands of the folder; a block `file NAME` is put into the file NAME of the folder where the typing stands.
"""
import difflib
import os
import re
import subprocess
import sys
import tempfile

from blocks import (KEY, bounds_block, bytes_block, data, figures_block, mark, mistakes_block, outcomes_block, refused_block, rule_block,
                    sheet_block, spellings_block)
from notation import compiled, printed, shown
from stand_in import bodies, figures_line, print_lines, sheet_of
from sentences import SENTENCES

# What the page must have at least, so that a block which loses its fence or its kind is seen.
LEAST = {"rule": 15, "outcomes": 5, "figures": 3, "spellings": 1, "mistakes": 3, "bytes": 6, "refused": 1, "bounds": 1, "sheet": 1, "file": 3,
         "console": 15}


class Wrong(Exception):
    """An example differs from what is due."""


# ---- the page


def examples(path):
    """Kind, line and text of each fenced block."""
    with open(path, encoding="ascii") as page:
        text = page.read().split("\n")
    found, kind, start, block = [], None, 0, []
    for number, line in enumerate(text, 1):
        fence = re.match(r"\s*(```|~~~)\s*(.*)$", line)
        if kind is None and fence:
            kind, start, block = fence.group(2), number, []
        elif kind is not None and line == "```":
            found.append((kind, start, block))
            kind = None
        elif kind is not None:
            block.append(line)
        elif line.startswith("    ") or line.startswith("\t"):
            raise Wrong("line %d: an indented block, which nobody runs" % number)
    if kind is not None:
        raise Wrong("line %d: this block does not end" % start)
    return found


def same(page, other, where):
    """The page's lines against those of a calculation or a command."""
    if page != other:
        raise Wrong("\n".join(difflib.unified_diff(page, other, "the page", where, lineterm="", n=1)))


# ---- what a block says, for running it


def field(block, key):
    """The lines of a key: its own and those below it that have none."""
    said, inside = [], False
    for line in block:
        inside = line[:KEY].strip() == key if line[:KEY].strip() else inside
        if inside:
            said.append(line[KEY:])
    return said


def columns(block):
    """Lines of two columns with two blanks or more between."""
    return [tuple(re.split(r" {2,}", line, maxsplit=1)) for line in block]


def tick_lines(marks):
    """What `station-watch outcome` says of each tick, by the marks."""
    for tick, m in enumerate(marks):
        yield "tick %d %s" % (tick, "open" if m == "?" else "%s at %s" % ({"T": "true", "F": "false"}[m[0]], m[1:]))


class Tools:
    """The commands, in a folder of their own."""

    def __init__(self, folder, work):
        self.folder, self.work, self.runs = folder, work, 0

    def call(self, status, said, name, *arguments, flags=b""):
        """Runs a command, which must print these lines and end with this status; on standard error it may speak only where it refuses."""
        done = subprocess.run([os.path.join(self.folder, name), *arguments], input=flags, cwd=self.work, capture_output=True)
        self.runs += 1
        command = " ".join((name,) + arguments)
        same(said, done.stdout.decode("ascii", "replace").split("\n")[:-1], command)
        if done.returncode != status or (status == 0 and done.stderr):
            raise Wrong("%s: exit status %d, and not %d; %r" % (command, done.returncode, status, done.stderr))

    def file(self, name, content):
        with open(os.path.join(self.work, name), "wb") as out:
            out.write(content)

    def content(self, name):
        with open(os.path.join(self.work, name), "rb") as file:
            return file.read()

    def sheet(self, parts):
        """Writes watch.sheet from bytes by the command."""
        self.writes("watch.sheet", parts, "sheet", "watch.sheet", *map(shown, parts))

    def rules(self, texts):
        """Writes watch.sheet from text by the command, has it printed, and has what was printed compiled."""
        parts = [compiled(text) for text in texts]
        self.text_file(texts)
        self.writes("watch.sheet", parts, "compile", "rules.txt", "watch.sheet")
        said = [line for rule, body in enumerate(parts) for line in print_lines(rule, body)]
        self.call(0, said, "station-watch", "print", "watch.sheet")
        self.text_file(said)
        self.writes("again.sheet", parts, "compile", "rules.txt", "again.sheet")

    def text_file(self, lines):
        self.file("rules.txt", "".join(line + "\n" for line in lines).encode("ascii"))

    def writes(self, name, parts, *arguments):
        """Runs a command that must write the sheet of these bodies, as the papers have it."""
        sheet = sheet_of(parts)
        self.file(name, b"")
        self.call(0, ["sheet %s rules %d bytes %d" % (name, len(parts), len(sheet))], "station-watch", *arguments)
        if self.content(name) != sheet:
            raise Wrong("station-watch %s wrote other bytes" % arguments[0])

    def outcomes(self, flags, marks):
        self.file("flags", flags)
        for tick, said in enumerate(tick_lines(marks)):
            self.call(0, [said], "station-watch", "outcome", "watch.sheet", "0", "flags", str(tick))


# ---- each kind: made anew from its inputs ("due"), and run


def rule_inputs(block):
    return field(block, "text")[0], field(block, "flags")[0].strip()


def rule_due(block):
    return rule_block(*rule_inputs(block))


def rule_run(block, tools):
    text, given = rule_inputs(block)
    flags = data(given)
    said, refusal = field(block, "watch"), field(block, "figures")
    status = 1 if refusal else 0
    tools.rules([text])
    tools.call(status, ["rule 0 " + refusal[0]] if refusal else said[:1], "station-watch", "figures", "watch.sheet")
    for row in field(block, "outcome"):
        tools.outcomes(flags, row.split())
    tools.call(status, said, "watch", flags=flags)


def outcomes_inputs(block):
    """The flag bytes, and each rule with its marks."""
    given = [line[len("flags"):].strip() for line in block if line.startswith("flags")][0]
    return given, [pair for pair in columns(block) if pair[0].startswith("monitor ")]


def outcomes_due(block):
    given, ruled = outcomes_inputs(block)
    return outcomes_block(given, [text for text, _ in ruled])


def outcomes_run(block, tools):
    given, ruled = outcomes_inputs(block)
    for text, marks in ruled:
        tools.rules([text])
        tools.outcomes(data(given), marks.split())


def figures_due(block):
    return figures_block([text for text, _ in columns(block)])


def figures_run(block, tools):
    tools.rules([text for text, _ in columns(block)])
    said = ["rule %d %s" % (rule, line) for rule, (_, line) in enumerate(columns(block))]
    tools.call(1 if any(" refused " in line for line in said) else 0, said, "station-watch", "figures", "watch.sheet")


def spellings_due(block):
    return spellings_block([text for text, _ in columns(block)])


def spellings_run(block, tools):
    """Both spellings of a rule compile to its sheet, and the second is printed."""
    for text, again in columns(block):
        tools.rules([again])
        tools.rules([text])
        if printed(compiled(text)) != again:
            raise Wrong("%r is printed otherwise" % text)


def mistakes_inputs(block):
    """Each text, and the last line below it, which is what is said of it."""
    return [(lines[0], lines[-1]) for lines in (part.split("\n") for part in "\n".join(block).split("\n\n"))]


def mistakes_due(block):
    return mistakes_block([text for text, _ in mistakes_inputs(block)])


def mistakes_run(block, tools):
    """Nothing is written."""
    tools.file("watch.sheet", b"as it was")
    for text, said in mistakes_inputs(block):
        tools.text_file([text])
        tools.call(1, [said], "station-watch", "compile", "rules.txt", "watch.sheet")
        if tools.content("watch.sheet") != b"as it was":
            raise Wrong("%r is refused, and a sheet is written" % text)


def bytes_due(block):
    return bytes_block(block[0])


def bytes_run(block, tools):
    """The bytes as they stand are those of the text."""
    body = data(" ".join(own for own, _ in columns(block[1:])))
    tools.rules(block[:1])
    if tools.content("watch.sheet") != sheet_of([body]):
        raise Wrong("%r has other bytes" % block[0])


def refused_due(block):
    return refused_block([digits for digits, _ in columns(block)])


def refused_run(block, tools):
    """These bodies break the layout, so they are refused on a recording too."""
    tools.file("flags", b"\0")
    for digits, said in columns(block):
        tools.sheet([data(digits)])
        tools.call(1, ["rule 0 " + said], "station-watch", "figures", "watch.sheet")
        tools.call(1, [said], "station-watch", "outcome", "watch.sheet", "0", "flags", "0")
        tools.call(1, [said.split(":")[0]], "watch")


def bounds_due(block):
    return bounds_block([text for _, text in columns(block)])


def bounds_run(block, tools):
    """Each bound as the first of an innermost range, on a recording."""
    flags = data("01 01 00 01 00 01")
    around = bytes.fromhex("05 02000000 02000100 05 02010000 02010100 05")
    for digits, _ in columns(block):
        body = around + data(digits) + bytes.fromhex("01000000 01 03 00")
        tools.sheet([body])
        tools.outcomes(flags, [mark(body, flags, tick) for tick in range(len(flags))])


def sheet_given(block):
    return data(" ".join(digits for digits, _ in columns(block)))


def sheet_due(block):
    return sheet_block(sheet_given(block))


def sheet_run(block, tools):
    parts = bodies(sheet_given(block))
    tools.sheet(parts)
    said = ["rule %d %s" % (rule, figures_line(body)) for rule, body in enumerate(parts)]
    tools.call(0, said, "station-watch", "figures", "watch.sheet")


KINDS = {
    "rule": (rule_due, rule_run),
    "outcomes": (outcomes_due, outcomes_run),
    "figures": (figures_due, figures_run),
    "spellings": (spellings_due, spellings_run),
    "mistakes": (mistakes_due, mistakes_run),
    "bytes": (bytes_due, bytes_run),
    "refused": (refused_due, refused_run),
    "bounds": (bounds_due, bounds_run),
    "sheet": (sheet_due, sheet_run),
}


def typed_file(kind, block):
    """A block `file NAME` as what is typed to make the file."""
    return ["$ cat > %s <<'END'\n%s\nEND" % (kind.split()[1], "\n".join(block))]


def sessions_run(blocks, links, work):
    """What is typed, in one shell from the first session to the last, in a folder that has these of the repository's folders. A line after `$ ` is
    typed, the lines below are what is printed."""
    for name, folder in links.items():
        os.symlink(folder, os.path.join(work, name))
    ended = "end of what this command printed"
    typed = [line[2:] for block in blocks for line in block if line.startswith("$ ")]
    script = "\n".join("{ %s\n} 2>&1; status=$?; echo '%s'; (exit $status)" % (line, ended) for line in typed)
    done = subprocess.run(["bash", "-c", script], cwd=work, stdin=subprocess.DEVNULL, stdout=subprocess.PIPE)
    printed = done.stdout.decode("ascii", "replace").split("\n")
    for block in blocks:
        made = []
        for line in block:
            if line.startswith("$ "):
                end = printed.index(ended)
                made += [line] + printed[:end]
                printed = printed[end + 1:]
        same(block, made, "what was printed")


def refusals_told(path):
    """The page's tables have each refusal of a body, of a text and of all rules together with its sentence."""
    with open(path, encoding="ascii") as page:
        text = page.read()
    for number in [*range(4, 16), *range(23, 28)]:
        if text.count("\n| %d | %s | " % (number, SENTENCES[number])) != 1:
            raise Wrong("no row, or two, for refusal %d" % number)


# ---- the whole page


def known(path):
    """The page's examples, all of known kinds and not fewer than there were."""
    found = examples(path)
    for kind, start, _ in found:
        if kind not in LEAST and not re.fullmatch(r"file [a-z.]+", kind):
            raise Wrong("line %d: a block of an unknown kind, %r" % (start, kind))
    for kind, least in LEAST.items():
        count = sum(1 for k, _, _ in found if k.split()[:1] == [kind])
        if count < least:
            raise Wrong("%d blocks of kind %s, and there were %d" % (count, kind, least))
    return found


def check(path, folder, with_programs):
    """Against the papers the blocks are made anew; against programs they are run. Sessions are typed either way."""
    found, failed, runs = known(path), 0, 0
    with tempfile.TemporaryDirectory() as work, tempfile.TemporaryDirectory() as sessions:
        tools = Tools(folder, work)
        for kind, start, block in found:
            if kind in KINDS:
                worked_out, run = KINDS[kind]
                tried = (lambda: run(block, tools)) if with_programs else (lambda: same(block, worked_out(block), "the papers"))
                failed += attempt("%s:%d" % (path, start), tried)
        failed += attempt(path, lambda: refusals_told(path))
        typed = [block if kind == "console" else typed_file(kind, block) for kind, _, block in found if kind not in KINDS]
        failed += attempt("%s, what is typed" % path, lambda: sessions_run(typed, {"bin": folder}, sessions))
        runs = tools.runs
    print("%d examples, %d failed%s" % (len(found), failed, ", %d runs" % runs if with_programs else ""))
    return 1 if failed else 0


def attempt(place, tried):
    try:
        tried()
        return 0
    except Exception as why:  # whatever is wrong with an example, the others are tried too
        print("%s: %s: %s" % (place, type(why).__name__, why))
        return 1


def main(command, path, folder):
    try:
        return check(path, os.path.abspath(folder), {"paper": False, "programs": True}[command])
    except Wrong as why:
        print("%s: %s" % (path, why))
        return 1


if __name__ == "__main__":
    sys.exit(main(*sys.argv[1:]))
