#!/usr/bin/env python3
"""`station-watch draw` over random flag bytes and sheets: every mark of its SVG file and of its text, against plain loops over the same bytes and, for the
violations, against the papers (tests/oracle). The file must be well-formed XML, and no two words in it may touch.

  drawn.py PROGRAM
"""
import os
import re
import subprocess
import sys
import tempfile
import xml.etree.ElementTree as xml

HERE = os.path.dirname(os.path.realpath(__file__))
sys.path[:0] = [HERE, os.path.join(HERE, "..", "rules"), os.path.join(HERE, "..", "oracle")]

from figures import figures  # noqa: E402
from notation import compiled  # noqa: E402
from paper import Refused  # noqa: E402
from watch import bodies, report, sheet_of  # noqa: E402
from watched import Random  # noqa: E402

PROGRAM = sys.argv[1]

# Where the ticks of a picture begin and end, and how many columns it has at most.
LEFT, RIGHT, COLUMNS = 72.0, 1072.0, 1000

# How wide letters of a class are about, at least.
LETTERS = {"title": 9.0, "under": 7.0, "number": 6.5, "count": 5.5, "small": 5.0, "label": 5.0, "side": 5.0, "text": 6.0, "name": 6.5}

# Rules for long streams, with rare and with dense violations, and with late ones.
RULES = ["monitor x : ~(@x.0 /\\ @x.1)", "monitor x : ~forall y in x..x+2 : @y.2", "monitor x : ~(@x.0 && ~forall y in x-5..x-1 : ~@y.3)",
         "monitor x : ~@x.6", "monitor x : forall y in x..x+9 : ~@y.4", "monitor x : @x.5"]


class Wrong(Exception):
    """A picture differs from what is due."""


def same(told, due, what):
    if told != due:
        raise Wrong("%s: %s, and due is %s" % (what, told, due))


# ---- what is due, by plain loops


class Due:
    """A stretch of flag bytes, and the violations of a sheet's rules at its ticks."""

    def __init__(self, flags, first, last, sheet):
        self.flags, self.first, self.last = flags, first, min(last, len(flags) - 1)
        self.ticks = self.last - self.first + 1
        reported = [report(body, flags)[0] for body in bodies(sheet)] if sheet else []
        self.rules = [[(tick, step) for step, tick in sorted(rule) if self.first <= tick <= self.last] for rule in reported]

    def up(self, flag):
        return {tick for tick in range(self.first, self.last + 1) if self.flags[tick] >> flag & 1}

    def each(self, most):
        """The smallest round number of ticks with which so many columns are enough."""
        numbers = (times * 10 ** power for power in range(12) for times in (1, 2, 5))
        return next(n for n in numbers if self.last // n - self.first // n < most)

    def columns(self, each):
        """The ticks of each column."""
        found = {}
        for tick in range(self.first, self.last + 1):
            found.setdefault(tick // each, []).append(tick)
        return list(found.values())

    def counts(self, marked, each):
        """Of each column, how many ticks are marked, and how many there are."""
        return [(sum(tick in marked for tick in column), len(column)) for column in self.columns(each)]


def shade(count, ticks):
    return 0 if count == 0 else 5 if count == ticks else 4 - sum(count * part < ticks for part in (100, 10, 2))


# ---- the SVG file


class Picture:
    """The elements of an SVG file, and where they are."""

    def __init__(self, path, due):
        self.due, self.each = due, due.each(COLUMNS)
        self.elements = [(element.tag.split("}")[1], element) for element in xml.parse(path).getroot()]
        self.tick = (RIGHT - LEFT) / due.ticks

    def start(self, tick):
        return LEFT + (tick - self.due.first) * self.tick

    def middle(self, tick):
        return self.start(tick) + self.tick / 2

    def words(self, kind):
        """Each text of a class, with its place."""
        texts = [element for tag, element in self.elements if tag == "text" and element.get("class") == kind]
        return [(float(text.get("x")), float(text.get("y")), text.text) for text in texts]

    def strip(self, kind, top, bottom):
        """The parts of a strip between two heights: where each begins, how wide it is, and its shade."""
        found = []
        for tag, element in self.elements:
            match = re.fullmatch(kind + "([1-5])", element.get("class") or "") if tag == "path" else None
            if match:
                parts = re.findall(r"M([\d.]+) ([\d.]+)h([\d.]+)", element.get("d"))
                found += [(float(x), float(width), int(match.group(1))) for x, y, width in parts if top < float(y) < bottom]
        return sorted(found)

    def runs(self, marked):
        """The same, as it must be: columns of one shade, side by side."""
        found, at = [], 0
        for count, ticks in self.due.counts(marked, self.each):
            if found and found[-1][2] == shade(count, ticks):
                found[-1][1] += ticks
            else:
                found.append([self.due.first + at, ticks, shade(count, ticks)])
            at += ticks
        return [(self.start(tick), ticks * self.tick, own) for tick, ticks, own in found if own]


def near(a, b):
    return abs(a - b) < 0.02


def strip_checked(picture, kind, marked, top, bottom):
    """Each run begins at its place; one that is narrow is drawn up to two wide, and then may begin before the end of the ticks."""
    told, due = picture.strip(kind, top, bottom), picture.runs(marked)
    same([own for _, _, own in told], [own for _, _, own in due], "shades of a strip")
    for (x, width, _), (start, wide, _) in zip(told, due):
        if not (near(width, wide) or wide < 2 and wide < width <= 2) or not near(x, min(start, RIGHT - width)):
            raise Wrong("ticks that begin at %s and are %s wide are drawn at %s, %s wide" % (start, wide, x, width))


def axis_checked(picture):
    """Round numbers, above and below the rows, each in the middle of its tick."""
    numbers = [(x, int(number.replace(",", ""))) for x, _, number in picture.words("number")]
    if not numbers or not all(near(x, picture.middle(tick)) for x, tick in numbers):
        raise Wrong("the axis has %s" % numbers)


def rule_row_checked(picture, rule, top, bottom):
    """A rule's violations: all of them one by one, or counted by groups and shaded by columns."""
    due = picture.due.rules[rule]
    between = [element for tag, element in picture.elements if tag == "path" and element.get("class") == "violation"]
    told = []
    for element in between:
        x, y = map(float, re.match(r"M([\d.]+) ([\d.]+)", element.get("d")).groups())
        if top < y < bottom:
            tick, step = (int(n.replace(",", "")) for n in re.fullmatch(r"tick ([\d,]+), certain at step ([\d,]+)", element[0].text).groups())
            end = float(re.search(r"L([\d.]+)", element.get("d")).group(1))
            if not near(x, picture.middle(tick)) or not near(end, min(picture.middle(step), RIGHT)):
                raise Wrong("violation %d at %d is drawn from %s to %s" % (tick, step, x, end))
            told.append((tick, step))
    if told or not due:
        return same(told, due, "violations of rule %d" % rule)
    if picture.due.ticks <= 250:
        raise Wrong("the violations of rule %d are not drawn one by one" % rule)
    groups = [text for x, y, text in picture.words("label") if top < y < bottom and LEFT < x < RIGHT]
    same(sum(int(count.replace(",", "")) for count in groups), len(due), "the groups of rule %d" % rule)
    strip_checked(picture, "broken", {tick for tick, _ in due}, top, bottom)


def words_checked(picture):
    """No two words touch, and none leaves the page."""
    boxes = []
    for tag, element in picture.elements:
        if tag == "text":
            kind, x, y = element.get("class"), float(element.get("x")), float(element.get("y"))
            width = LETTERS[kind] * len(element.text)
            x -= {"number": width / 2, "label": width / 2, "side": width}.get(kind, 0)
            if x < 0 or x + width > 1220:
                raise Wrong("'%s' leaves the page" % element.text)
            boxes.append((y, x, x + width, element.text))
    boxes.sort()
    for place, (y, left, right, text) in enumerate(boxes):
        for other_y, other_left, other_right, other in boxes[place + 1:]:
            if other_y - y >= 9:
                break
            if left < other_right and other_left < right:
                raise Wrong("'%s' and '%s' touch" % (text, other))


def picture_checked(path, due):
    picture = Picture(path, due)
    names = [(y, name) for _, y, name in sorted(picture.words("name"), key=lambda word: word[1])]
    same([name for _, name in names], ["flag %d" % k for k in range(8)] + ["rule %d" % k for k in range(len(due.rules))], "rows")
    counts = {y: text for _, y, text in picture.words("count")}
    ends = [y for y, _ in names[1:]] + [1e9]
    for (y, name), end in zip(names, ends):
        kind, number = name.split()
        marked = due.up(int(number)) if kind == "flag" else due.rules[int(number)]
        told = counts[y].split()[0].replace(",", "")
        same(0 if told == "never" else int(told), len(marked), "count of %s" % name)
        if kind == "flag":
            strip_checked(picture, "flag", marked, y - 10, y + 2)
        else:
            rule_row_checked(picture, int(number), y, end if end < 1e9 else y + 60)
    axis_checked(picture)
    words_checked(picture)


# ---- the text


def axis_of_text(lines, due, each):
    """Each number begins above a bar, at the column that has its tick."""
    bars = next(place for place, line in enumerate(lines) if line.endswith("ups"))
    numbers = [(match.start(), int(match.group())) for match in re.finditer(r"\d+", lines[bars - 1])]
    columns = due.columns(each)
    if not numbers or not all(lines[bars][place] == "|" and tick in columns[place - 8] for place, tick in numbers):
        raise Wrong("the axis has %s" % lines[bars - 1:bars + 1])


def lettered(row, below, rule, due):
    """Each tick that breaks the rule has the letter of its step, if that is drawn, and all others have none. The next step has another letter."""
    same({due.first + place for place, c in enumerate(row) if c != "."}, {tick for tick, _ in rule}, "letters at ticks")
    steps = {due.first + place for place, c in enumerate(below) if c != " "}
    same(steps, {step for _, step in rule if step <= due.last}, "letters at steps")
    for tick, step in rule:
        if step <= due.last:
            same(row[tick - due.first], below[step - due.first], "the letter of violation %d at %d" % (tick, step))
    for (tick, step), (other, later) in zip(rule, rule[1:]):
        same(row[tick - due.first] == row[other - due.first], step == later, "one letter for violations %d at %d and %d at %d" % (tick, step, other, later))


def text_checked(text, due, width):
    lines = text.split("\n")
    count = max(3, len(str(due.ticks)))
    each = due.each(width - 8 - count - 2)
    rows = {line[:8].strip(): line for line in lines if re.fullmatch(r"(flag|rule) \d+ +\S+ +\d+", line)}
    same(list(rows), ["flag %d" % k for k in range(8)] + ["rule %d" % k for k in range(len(due.rules))], "rows of the text")
    axis_of_text(lines, due, each)
    for name, line in rows.items():
        kind, number = name.split()
        marks, total = line[8:].split("  ", 1)
        marked = due.up(int(number)) if kind == "flag" else {tick for tick, _ in due.rules[int(number)]}
        same(int(total), len(marked), "count of %s in the text" % name)
        counts = due.counts(marked, each)
        if kind == "flag":
            same(marks, "".join(".--+%#"[shade(count, ticks)] for count, ticks in counts), "marks of %s" % name)
        elif each > 1:
            same(marks, "".join("." if not count else str(count) if count < 10 else "*" for count, _ in counts), "marks of %s" % name)
        else:
            below = lines[lines.index(line) + 1]
            same(below[:8], "  at".ljust(8)[:len(below)], "the row of steps")
            lettered(marks, below[8:].ljust(len(marks)), due.rules[int(number)], due)
    wide = [line for line in lines if len(line) > width and not line.startswith("rule ")]
    same(wide, [], "lines that are too wide")
    list_checked(lines, due)


def list_checked(lines, due):
    """All violations in the order of `watch`, if they are at most 20."""
    told = [line for line in lines if line.startswith("violation ")]
    listed = sorted((step, rule, tick) for rule, own in enumerate(due.rules) for tick, step in own)
    same(told, ["violation %d %d at %d" % (rule, tick, step) for step, rule, tick in listed] if len(listed) <= 20 else [], "the list")
    ends = []
    for rule, own in enumerate(due.rules):
        if own and len(listed) > 20:
            ends.append("rule %d violations %d first %d at %d last %d at %d" % (rule, len(own), *min(own), *max(own)))
    same([line for line in lines if re.match(r"rule \d+ violations", line)], ends, "the sums")


# ---- running


def draw(words, columns):
    done = subprocess.run([PROGRAM, "draw"] + words, capture_output=True, timeout=60, env={**os.environ, "COLUMNS": str(columns)})
    if done.returncode != 0 or done.stderr:
        raise Wrong("%s ends with %d: %s" % (words, done.returncode, done.stderr.decode()))
    return done.stdout.decode("ascii")


def checked(folder, flags, first, last, sheet, width):
    """A case, as an SVG file and as text."""
    paths = [os.path.join(folder, name) for name in ("flags", "sheet", "svg")]
    for path, content in zip(paths, (flags, sheet or b"")):
        with open(path, "wb") as file:
            file.write(content)
    due = Due(flags, first, last, sheet)
    words = [paths[0], str(first), str(last)] + (["--sheet", paths[1]] if sheet else [])
    try:
        line = draw(words + ["--svg", paths[2]], width)
        total, size = sum(map(len, due.rules)), os.path.getsize(paths[2])
        same(line, "svg %s ticks %d violations %d bytes %d\n" % (paths[2], due.ticks, total, size), "the line")
        picture_checked(paths[2], due)
        text_checked(draw(words, width), due, width)
    except Wrong as why:
        raise SystemExit("tests/command: flags %s from %d to %d, sheet %s: %s" % (flags.hex(), first, last, sheet and sheet.hex(), why))
    return total


class Drawn(Random):
    """Flag bytes and stretches."""

    def stream(self, ticks):
        """Flags that are up for a while, each with its own share: flag 6 rarely, flag 7 never."""
        shares = [(0.05, 0.2), (0.02, 0.3), (0.01, 0.1), (0.01, 0.05), (0.005, 0.5), (0.9, 0.001), (0.002, 0.9), (0.0, 1.0)]
        now, stream = 0, []
        for _ in range(ticks):
            for flag, (rise, fall) in enumerate(shares):
                if self.random() < (fall if now >> flag & 1 else rise):
                    now ^= 1 << flag
            stream.append(now)
        return bytes(stream)

    def small_sheet(self):
        """A random sheet that is not refused."""
        while True:
            sheet = self.sheet()
            try:
                if sum(figures(body)[2] for body in bodies(sheet)) <= 4096:
                    return sheet
            except Refused:
                pass


def cases():
    """Flag bytes, the first and the last tick, and the sheet: every length around what fits, then random ones."""
    drawn = Drawn(5)
    rules = sheet_of([compiled(text) for text in RULES])
    for ticks in (1, 2, 67, 68, 249, 250, 251, 999, 1000, 1001, 2000):
        yield drawn.stream(ticks), 0, ticks - 1, rules
    # Rule 5 is always broken, and the ends cut a tick off its groups.
    yield bytes(3000), 1900, 2900, rules
    yield bytes(3000), 1999, 2999, rules
    for _ in range(20):
        flags = drawn.stream(drawn.randint(1, 3000))
        first = drawn.randrange(len(flags))
        yield flags, first, drawn.randrange(first, len(flags) + 100), rules if drawn.random() < 0.8 else None
    for _ in range(40):
        flags = drawn.flags() + b"\0"
        first = drawn.randrange(len(flags))
        yield flags, first, drawn.randrange(first, len(flags) + 5), drawn.small_sheet()


def run_all():
    pictures, violations, widths = 0, 0, (80, 120, 40, 300)
    with tempfile.TemporaryDirectory() as folder:
        for flags, first, last, sheet in cases():
            violations += checked(folder, flags, first, last, sheet, widths[pictures % 4])
            pictures += 1
    # So that not all of them come to nothing.
    if violations < 3000:
        raise SystemExit("tests/command: only %d violations were drawn" % violations)
    print("tests/command: %d pictures with %d violations" % (pictures, violations))


if __name__ == "__main__":
    run_all()
