#!/usr/bin/env python3
"""The examples' blocks of docs/RULES.md, made from their inputs by the papers alone, as tests/oracle has it. For whoever writes the page:

  blocks.py rule TEXT FLAGS           a rule as it is typed, and flag bytes in hexadecimal
  blocks.py outcomes FLAGS TEXT..     several rules on one stream
  blocks.py figures TEXT..            the figures of several rules
  blocks.py spellings TEXT..          how several rules are printed
  blocks.py mistakes TEXT..           why several texts are refused
  blocks.py bytes TEXT                a rule's bytes

prints the lines that stand between the fences.
"""
import sys

from notation import NAMES, Misspelt, body_listing, bound_bytes, compiled, flags_named, lines, listing, named, parse, parse_bound, printed, shown
from stand_in import bodies, figures_line, line_refused, outcome_at, sheet_of, watch
from paper import OPEN, Refused, read

# The width of the column of keys in a block `rule`.
KEY = 10


def data(text):
    """Bytes in hexadecimal; 80*70 is 70 times 80."""
    found = b""
    for piece in text.split():
        byte, _, times = piece.partition("*")
        found += bytes.fromhex(byte) * int(times or 1)
    return found


def mark(body, flags, tick):
    """An outcome as it stands under its tick: T3 is true at 3, F3 false at 3, ? open."""
    o = outcome_at(body, flags, tick)
    return "?" if o is OPEN else "%s%d" % ("T" if o[0] else "F", o[1])


def rows(flags, named_flags, marked, key):
    """The stream tick by tick, and rows of marks below it."""
    picture = [("tick", [str(tick) for tick in range(len(flags))])]
    picture += [("flag %d" % k, ["#" if flag >> k & 1 else "." for flag in flags]) for k in named_flags]
    picture += [("flags", ["%02X" % flag for flag in flags])]
    picture += marked
    width = 1 + max(len(cell) for _, cells in picture for cell in cells)
    return [name.ljust(key - 1) + "".join(cell.rjust(width) for cell in cells) for name, cells in picture]


def keyed(key, said):
    return [(key if i == 0 else "").ljust(KEY) + line for i, line in enumerate(said)]


def rule_block(text, given):
    """A rule and what it does on a stream. A stream with * in it is long: it is not drawn."""
    body, flags = compiled(text), data(given)
    said = figures_line(body)
    made = keyed("text", [text])
    if said.startswith("refused"):
        made += keyed("figures", [said])
    if "*" in given:
        made += keyed("flags", [given])
    else:
        marks = [mark(body, flags, tick) for tick in range(len(flags))]
        made += rows(flags, flags_named(parse(text)[1]), [("outcome", marks)], KEY)
    return made + keyed("watch", watch(sheet_of([body]), flags))


def outcomes_block(given, texts):
    """Several rules on one stream."""
    flags, key = data(given), 2 + max(len(text) for text in texts)
    marked = [(text, [mark(compiled(text), flags, tick) for tick in range(len(flags))]) for text in texts]
    flags_of_all = sorted({flag for text in texts for flag in flags_named(parse(text)[1])})
    return rows(flags, flags_of_all, marked, key)


def figures_block(texts):
    key = 2 + max(len(text) for text in texts)
    return [text.ljust(key) + figures_line(compiled(text)) for text in texts]


def spellings_block(texts):
    """Texts, and how their rules are printed."""
    key = 2 + max(len(text) for text in texts)
    return [text.ljust(key) + printed(compiled(text)) for text in texts]


def mistake(text):
    """What is said of a refused text; of a misspelt one a mark under its first wrong byte, too."""
    try:
        compiled(text)
    except Misspelt as why:
        return [text, " " * why.at + "^", line_refused(1, why)]
    except Refused as why:
        return [text, line_refused(1, why)]
    raise ValueError("%r is not refused" % text)


def mistakes_block(texts):
    """Refused texts, an empty line between them."""
    return [line for i, text in enumerate(texts) for line in [""] * (i > 0) + mistake(text)]


def bytes_block(text):
    return [text] + body_listing(text)


def refused_block(given):
    key = 3 + max(len(digits) for digits in given)
    return [digits.ljust(key) + figures_line(data(digits)) for digits in given]


def bounds_block(texts):
    """Bounds inside two ranges: x, y and z are variables 0, 1 and 2."""
    return ["%s   %s" % (shown(bound_bytes(parse_bound(text, NAMES[:3]))), text) for text in texts]


def sheet_block(sheet):
    entries = [(sheet[1 + 4 * i:5 + 4 * i], body) for i, body in enumerate(bodies(sheet))]
    made = [(sheet[:1], 0, "%d rules" % sheet[0])]
    for i, (entry, body) in enumerate(entries):
        made.append((entry, 0, "rule %d begins at byte %d and has %d bytes" % (i, entry[0] + 256 * entry[1], len(body))))
    for _, body in entries:
        made += lines(named(read(body)), list(NAMES))
    return listing(made)


if __name__ == "__main__":
    made = {
        "rule": rule_block,
        "outcomes": lambda flags, *texts: outcomes_block(flags, texts),
        "figures": lambda *texts: figures_block(texts),
        "spellings": lambda *texts: spellings_block(texts),
        "mistakes": lambda *texts: mistakes_block(texts),
        "bytes": bytes_block,
    }
    print("\n".join(made[sys.argv[1]](*sys.argv[2:])))
