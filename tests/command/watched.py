#!/usr/bin/env python3
"""`station-watch watch SHEET` over the sheets of watched.txt, and over random ones.

  watched.py due              what it must print for each case of watched.txt, by the papers alone: the file watched.said
  watched.py run PROGRAM      runs the program on each case and compares it with watched.said, then on random sheets, which are worked out now

A case begins with a line `case` and its name. Its other lines are, in their order, the flag bytes (`flags`, in hexadecimal; 00*70 is 70 times 00) and the
rules, each as text (`monitor ..`) or as bytes (`body`). Empty lines and lines that begin with # are passed over.
"""
import os
import random
import subprocess
import sys
import tempfile

HERE = os.path.dirname(os.path.realpath(__file__))
sys.path[:0] = [os.path.join(HERE, "..", "rules"), os.path.join(HERE, "..", "oracle")]

from blocks import data  # noqa: E402
from notation import compiled  # noqa: E402
from watch import sheet_of, watch_all  # noqa: E402

RANDOM_SHEETS = 200


# ---- the stored cases


def content(name):
    with open(os.path.join(HERE, name), encoding="ascii") as file:
        return [line for line in file.read().split("\n") if line and not line.startswith("#")]


def cases():
    """Name, sheet and flag bytes of each."""
    found = []
    for line in content("watched.txt"):
        kind, _, rest = line.partition(" ")
        if kind == "case":
            found.append((rest, [], []))
        elif kind == "flags":
            found[-1][1].append(data(rest))
        else:
            found[-1][2].append({"monitor": lambda: compiled(line), "body": lambda: data(rest)}[kind]())
    return [(name, sheet_of(rules), b"".join(flags)) for name, flags, rules in found]


def due():
    """The lines of each case, below its name."""
    return [line for name, sheet, flags in cases() for line in ["case " + name] + watch_all(sheet, flags)]


def stored():
    """The lines of watched.said, by the case's name."""
    found = {}
    for line in content("watched.said"):
        if line.startswith("case "):
            found[line[len("case "):]] = own = []
        else:
            own.append(line)
    return found


# ---- random sheets


class Random(random.Random):
    """Rules of up to four formulas in one another."""

    def bound(self, variables):
        return "%s%+d" % (self.choice(variables), self.randint(-4, 4))

    def formula(self, variables, depth):
        form = self.choice(["flag", "not", "pair", "all", "all"]) if depth else "flag"
        if form == "flag":
            return "@%s.%d" % (self.choice(variables), self.randrange(3))
        if form == "not":
            return "~" + self.formula(variables, depth - 1)
        if form == "pair":
            return "(%s %s %s)" % (self.formula(variables, depth - 1), self.choice(["&&", "/\\"]), self.formula(variables, depth - 1))
        name = "xyzuv"[len(variables)]
        first, last = self.bound(variables), self.bound(variables)
        return "forall %s in %s..%s : %s" % (name, first, last, self.formula(variables + [name], depth - 1))

    def sheet(self):
        rules = ["monitor x : " + self.formula(["x"], 4) for _ in range(self.randint(1, 8))]
        return sheet_of([compiled(text) for text in rules])

    def flags(self):
        return bytes(self.randrange(8) for _ in range(self.randint(0, 60)))


# ---- running


def run(program, sheet, flags, lines):
    """The program must print these lines; a refusal ends it with 1, and standard error names the rule there."""
    with tempfile.NamedTemporaryFile() as file:
        file.write(sheet)
        file.flush()
        done = subprocess.run([program, "watch", file.name], input=flags, capture_output=True, timeout=60)
    refused = lines[0].startswith("refused ")
    if done.stdout.decode().split("\n") != lines + [""] or done.returncode != int(refused) or bool(done.stderr) != refused:
        raise SystemExit("tests/command: of the sheet %s with flags %s it says\n%s%sand ends with %d; due is\n%s"
                         % (sheet.hex(), flags.hex(), done.stdout.decode(), done.stderr.decode(), done.returncode, "\n".join(lines)))


def run_all(program):
    said = stored()
    for name, sheet, flags in cases():
        run(program, sheet, flags, said.pop(name))
    if said:
        raise SystemExit("tests/command: watched.said has cases that are not in watched.txt: %s" % list(said))
    drawn, told, refusals = Random(20), 0, 0
    for _ in range(RANDOM_SHEETS):
        sheet, flags = drawn.sheet(), drawn.flags()
        lines = watch_all(sheet, flags)
        run(program, sheet, flags, lines)
        told += sum(line.startswith("violation") for line in lines)
        refusals += len(lines) == 1
    # So that not all of them come to nothing.
    if told < 5_000 or refusals > RANDOM_SHEETS // 4:
        raise SystemExit("tests/command: the random sheets told %d violations and %d were refused" % (told, refusals))
    print("tests/command: %d cases, and %d random sheets with %d violations" % (len(cases()), RANDOM_SHEETS, told))


if __name__ == "__main__":
    if sys.argv[1:] == ["due"]:
        print("\n".join(due()))
    else:
        run_all(sys.argv[2])
