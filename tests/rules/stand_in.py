#!/usr/bin/env python3
"""The commands `station-watch` and `watch`, worked out from the papers alone by tests/oracle: what the examples of docs/RULES.md are compared with first.

Called by either name (a link in a folder that tests/rules/run makes). The lines are those of the commands' usage, the sentences those
of include/station_watch.h.
"""
import os
import re
import sys
from itertools import accumulate

sys.path.insert(0, os.path.join(os.path.dirname(os.path.realpath(__file__)), "..", "oracle"))
sys.dont_write_bytecode = True

from figures import figures  # noqa: E402
from notation import Misspelt, compiled, printed, shown  # noqa: E402
from outcomes import outcome_at  # noqa: E402
from paper import OPEN, Refused  # noqa: E402
from sentences import SENTENCES  # noqa: E402
from watch import bodies, sheet_of, watch, watch_all  # noqa: E402


def refused(number):
    return "refused %d: %s" % (number, SENTENCES[number])


def figures_line(body):
    """A body's figures, or its refusal in words."""
    try:
        return "history %d delay %d cells %d" % figures(body)
    except Refused as why:
        return refused(why.args[0])


def content(path):
    """- is standard input."""
    if path == "-":
        return sys.stdin.buffer.read()
    with open(path, "rb") as file:
        return file.read()


def write_sheet(path, parts):
    sheet = sheet_of(parts)
    with open(path, "wb") as out:
        out.write(sheet)
    print("sheet %s rules %d bytes %d" % (path, len(parts), len(sheet)))
    return 0


def rules_of(data):
    """The lines that have a rule, by their numbers from 1: neither empty nor a comment. A line ends with LF or CR LF; the last may have no end."""
    *ended, last = data.decode("latin-1").split("\n")
    lines = [line.removesuffix("\r") for line in ended] + [last]
    return [(number, line) for number, line in enumerate(lines, 1) if line and not line.startswith("#")]


def line_refused(number, why):
    """What is said of a refused line: of a misspelt one the column too, from 1."""
    column = " column %d" % (why.at + 1) if isinstance(why, Misspelt) else ""
    return "line %d%s %s" % (number, column, refused(why.args[0]))


def compile_command(rules, path):
    parts = []
    for number, line in rules_of(content(rules)):
        try:
            parts.append(compiled(line))
        except Refused as why:
            print(line_refused(number, why))
            return 1
    if not 1 <= len(parts) <= 32:
        print("rules %d %s" % (len(parts), refused(1)))
        return 1
    return write_sheet(path, parts)


def print_lines(rule, body):
    """A rule's figures or refusal as a comment, and its text; bytes that have none as a comment."""
    first = "# rule %d %s" % (rule, figures_line(body))
    try:
        return [first, printed(body)]
    except Refused:
        return [first, "# no text: " + shown(body)]


def print_command(path):
    said = [print_lines(rule, body) for rule, body in enumerate(bodies(content(path)))]
    for lines in said:
        print("\n".join(lines))
    return 1 if any(text.startswith("#") for _, text in said) else 0


def figures_command(path):
    said = [figures_line(body) for body in bodies(content(path))]
    for rule, line in enumerate(said):
        print("rule %d %s" % (rule, line))
    return 1 if any(line.startswith("refused") for line in said) else 0


def outcome_command(path, rule, flags, tick):
    found = bodies(content(path))
    if int(rule) >= len(found):
        raise Refused(3)
    o = outcome_at(found[int(rule)], content(flags), int(tick))
    print("tick %s %s" % (tick, "open" if o is OPEN else "%s at %d" % ("true" if o[0] else "false", o[1])))
    return 0


def complete_report(body, flags):
    """Each tick that is false over the whole recording, with its step, by step and then by tick."""
    decided = ((tick, outcome_at(body, flags, tick)) for tick in range(len(flags)))
    return sorted(((tick, o[1]) for tick, o in decided if o is not OPEN and not o[0]), key=lambda entry: entry[::-1])


def claims_of(data, rule):
    """Line number, tick and step of each violation of a rule; and the number of the first line that is none of a list."""
    found = []
    for number, line in rules_of(data):
        entry = re.fullmatch(r"violation (?:(\d+) )?(\d+) at (\d+)", line)
        if entry and entry[1] in (None, rule):
            found.append((number, (int(entry[2]), int(entry[3]))))
        elif not entry and not re.fullmatch(r"rule \d+ history \d+ delay \d+ cells \d+|end \d+ steps \d+ violations \d+ live", line):
            return found, number
    return found, None


def difference(due, claimed):
    """The first difference in words, if there is one."""
    at = 0
    while at < len(due) and at < len(claimed) and due[at] == claimed[at][1]:
        at += 1
    count, text = "%d %s" % (at, "entry" if at == 1 else "entries"), "violation %d at %d"
    if at < len(due) and at < len(claimed):
        line, entry = claimed[at]
        return "entry %d (line %d) is %s, but the complete report has %s there" % (at, line, text % entry, text % due[at])
    if at < len(due):
        return "the list ends after %s, but the complete report goes on with %s" % (count, text % due[at])
    if at < len(claimed):
        line, entry = claimed[at]
        return "the complete report ends after %s, but the list goes on with %s (line %d)" % (count, text % entry, line)
    return None


def check_command(path, rule, flags, claims):
    found, recording = bodies(content(path)), content(flags)
    if int(rule) >= len(found):
        raise Refused(3)
    claimed, wrong = claims_of(content(claims), rule)
    if wrong:
        name = "standard input" if claims == "-" else claims
        print("station-watch: cannot check %s: line %d is none of a list of violations" % (name, wrong), file=sys.stderr)
        return 2
    said = difference(complete_report(found[int(rule)], recording), claimed)
    print("no: " + said if said else "yes: the list is the complete report, ticks %d violations %d" % (len(recording), len(claimed)))
    return 3 if said else 0


def sheet_command(path, *digits):
    parts = [bytes.fromhex(text) for text in digits]
    if not 1 <= len(parts) <= 32:
        raise Refused(1)
    if not all(1 <= len(part) <= 512 for part in parts):
        raise Refused(2)
    return write_sheet(path, parts)


def rule_named(path, parts):
    """What standard error says of a sheet that is refused for its rules: the first that is refused, or the first with which the cells are too many."""
    for rule, body in enumerate(parts):
        if figures_line(body).startswith("refused"):
            return "rule %d of %s is refused" % (rule, path)
    sums = accumulate(figures(body)[2] for body in parts)
    rule, cells = next((rule, cells) for rule, cells in enumerate(sums) if cells > 4096)
    return "rules 0 to %d of %s need %d cells" % (rule, path, cells)


def watch_all_command(path):
    sheet = content(path)
    parts, said = bodies(sheet), watch_all(sheet, sys.stdin.buffer.read())
    refusal = said[0].startswith("refused")
    if refusal:
        print("station-watch: " + rule_named(path, parts), file=sys.stderr)
    print("\n".join(said))
    return 1 if refusal else 0


def watch_command():
    said = watch(content("watch.sheet") if os.path.exists("watch.sheet") else b"", sys.stdin.buffer.read())
    print("\n".join(said))
    return 1 if said[0].startswith("refused") else 0


COMMANDS = {
    "check": check_command,
    "compile": compile_command,
    "figures": figures_command,
    "outcome": outcome_command,
    "print": print_command,
    "sheet": sheet_command,
    "watch": watch_all_command,
}


def main(name, arguments):
    if name == "watch":
        return watch_command()
    try:
        return COMMANDS[arguments[0]](*arguments[1:])
    except Refused as why:
        print(refused(why.args[0]))
        return 1


if __name__ == "__main__":
    sys.exit(main(os.path.basename(sys.argv[0]), sys.argv[1:]))
