"""Rules in the notation of the paper, their bytes, and the commented listing of the bytes. For the examples of docs/RULES.md.

The text has the one form that document 02 gives in its point 2; bytes are those of "The body" in document 01. This is a test's own reader: nothing is
shared with the library. A formula is a tuple: ("flag", variable, flag), ("not", F), ("then", F, G), ("beside", F, G) or ("all", name, B1, B2, F), and
a bound is (kind, variable, offset). While a text is read, names stand in the places of variables.
"""
import os
import sys

sys.path.insert(0, os.path.join(os.path.dirname(os.path.realpath(__file__)), "..", "oracle"))

from paper import Refused, read  # noqa: E402

# A text can open a bracket with each of its bytes.
MAX_TEXT = 4096
sys.setrecursionlimit(4 * MAX_TEXT)

LETTERS = "abcdefghijklmnopqrstuvwxyz"
DIGITS = "0123456789"
# "The words monitor, forall, in and infinity are no names"; the last is a bound.
KEYWORDS = ("monitor", "forall", "in", "infinity")
# The names of a text or a listing that is made from bytes, by variable.
NAMES = ("x", "y", "z", "u", "v")


class Misspelt(Refused):
    """The text is no rule: refusal 25, and the place of its first wrong byte, with which no rule begins."""

    def __init__(self, at):
        super().__init__(25)
        self.at = at


# ---- a text, read


class Text:
    """A text that is read from left to right, byte by byte."""

    def __init__(self, text):
        self.text, self.at = text, 0

    def next_in(self, some):
        return self.at < len(self.text) and self.text[self.at] in some

    def one_of(self, some):
        if not self.next_in(some):
            raise Misspelt(self.at)
        self.at += 1
        return self.text[self.at - 1]

    def word(self, word):
        for letter in word:
            self.one_of(letter)

    def name(self, no_names=KEYWORDS):
        """1 to 8 letters. A word that is no name may become one by its next letter, if it can have one."""
        name = ""
        while self.next_in(LETTERS):
            if len(name) == 8 or name + self.text[self.at] in [word for word in no_names if len(word) == 8]:
                raise Misspelt(self.at)
            name += self.one_of(LETTERS)
        if name == "" or name in no_names:
            raise Misspelt(self.at)
        return name

    def bound(self):
        if self.next_in("0"):
            self.word("0")
            kind, name = 0, None
        else:
            name = self.name(KEYWORDS[:3])
            kind, name = (1, None) if name == "infinity" else (2, name)
        return (kind, name, self.offset())

    def offset(self):
        """ "At most one offset", of "1 to 4 decimal digits". """
        if not self.next_in("+-"):
            return 0
        said = self.one_of("+-") + self.one_of(DIGITS)
        while len(said) < 5 and self.next_in(DIGITS):
            said += self.one_of(DIGITS)
        return int(said)

    def formula(self):
        if self.next_in("@"):
            self.word("@")
            name = self.name()
            self.word(".")
            return ("flag", name, int(self.one_of(DIGITS)))
        if self.next_in("~"):
            self.word("~")
            return ("not", self.formula())
        if self.next_in("("):
            return self.connective()
        self.word("forall ")
        name = self.name()
        self.word(" in ")
        first = self.bound()
        self.word("..")
        second = self.bound()
        self.word(" : ")
        return ("all", name, first, second, self.formula())

    def connective(self):
        self.word("(")
        first = self.formula()
        self.word(" ")
        form = "then" if self.next_in("&") else "beside"
        self.word({"then": "&& ", "beside": "/\\ "}[form])
        second = self.formula()
        self.word(")")
        return (form, first, second)

    def rule(self):
        self.word("monitor ")
        name = self.name()
        self.word(" : ")
        formula = self.formula()
        if self.at < len(self.text):
            raise Misspelt(self.at)
        return name, formula


def spelt(text):
    """The one reading of a text of at most 4,096 bytes, names in it; else 25."""
    try:
        rule = Text(text).rule()
    except Misspelt as why:
        raise Misspelt(min(why.at, MAX_TEXT))
    if len(text) > MAX_TEXT:
        raise Misspelt(MAX_TEXT)
    return rule


# ---- names


def variable(name, scope):
    """The variable that a name stands for, the innermost of that name; "an unbound name 26"."""
    if name not in scope:
        raise Refused(26)
    return len(scope) - 1 - scope[::-1].index(name)


def bound_looked_up(bound, scope):
    kind, name, offset = bound
    return (kind, variable(name, scope) if kind == 2 else 0, offset)


def looked_up(formula, scope):
    """The formula with variables in the places of names. A range's own bounds do not see its name."""
    if formula[0] == "flag":
        return ("flag", variable(formula[1], scope), formula[2])
    if formula[0] == "all":
        _, name, first, second, body = formula
        return ("all", name, bound_looked_up(first, scope), bound_looked_up(second, scope), looked_up(body, scope + [name]))
    return (formula[0],) + tuple(looked_up(part, scope) for part in formula[1:])


def parse(text):
    """ "monitor x : F": the name of variable 0, and the formula; 25 is told before 26."""
    name, formula = spelt(text)
    return name, looked_up(formula, [name])


def parse_bound(text, scope):
    reader = Text(text)
    bound = reader.bound()
    if reader.at != len(text):
        raise Misspelt(reader.at)
    return bound_looked_up(bound, list(scope))


# ---- bytes


def bound_bytes(bound):
    kind, variable, offset = bound
    return bytes([kind, variable]) + offset.to_bytes(2, "little", signed=True)


def lines(formula, scope, depth=0):
    """Each formula's own bytes, how deep it stands, and what they say; parts follow it."""
    form = formula[0]
    if form == "flag":
        yield bytes([1, formula[1], formula[2]]), depth, "flag %d at %s" % (formula[2], scope[formula[1]])
    elif form == "all":
        _, name, first, second, body = formula
        said = "for all %s from %s to %s" % (name, spell(first, scope), spell(second, scope))
        yield b"\5" + bound_bytes(first) + bound_bytes(second), depth, said
        yield from lines(body, scope + [name], depth + 1)
    else:
        yield bytes([{"not": 2, "then": 3, "beside": 4}[form]]), depth, form
        for part in formula[1:]:
            yield from lines(part, scope, depth + 1)


def encode(text):
    """The bytes of a text that is spelt and whose names are bound."""
    name, formula = parse(text)
    return b"".join(own for own, _, _ in lines(formula, [name]))


def compiled(text):
    """The body of a text, which document 01 must take and read as the rule that was written: else "refusals 4 to 10, with 23 and 24"."""
    body = encode(text)
    if read(body) != unnamed(parse(text)[1]):
        raise ValueError("%r has other bytes" % text)
    return body


def flags_named(formula):
    """The flags that a formula looks at, ascending."""
    if formula[0] == "flag":
        return [formula[2]]
    return sorted({flag for part in formula[1:] if isinstance(part, tuple) and isinstance(part[0], str) for flag in flags_named(part)})


def unnamed(formula):
    """The formula as tests/oracle/paper.py has it."""
    if formula[0] == "flag":
        return formula
    if formula[0] == "all":
        return ("all", formula[2], formula[3], unnamed(formula[4]))
    return (formula[0],) + tuple(unnamed(part) for part in formula[1:])


def named(formula, depth=0):
    """What tests/oracle/paper.py reads, with the usual names put in."""
    if formula[0] == "flag":
        return formula
    if formula[0] == "all":
        return ("all", NAMES[depth + 1], formula[1], formula[2], named(formula[3], depth + 1))
    return (formula[0],) + tuple(named(part, depth) for part in formula[1:])


# ---- texts and listings of bytes


def spell(bound, scope):
    kind, variable, offset = bound
    return ("0", "infinity", scope[variable])[kind] + ("%+d" % offset if offset else "")


def spell_formula(formula, scope):
    form = formula[0]
    if form == "flag":
        return "@%s.%d" % (scope[formula[1]], formula[2])
    if form == "not":
        return "~" + spell_formula(formula[1], scope)
    if form == "all":
        _, name, first, second, body = formula
        return "forall %s in %s..%s : %s" % (name, spell(first, scope), spell(second, scope), spell_formula(body, scope + [name]))
    sign = {"then": "&&", "beside": "/\\"}[form]
    return "(%s %s %s)" % (spell_formula(formula[1], scope), sign, spell_formula(formula[2], scope))


def printed(body):
    """A body as text, with the usual names."""
    return "monitor %s : %s" % (NAMES[0], spell_formula(named(read(body)), [NAMES[0]]))


def shown(data):
    return " ".join("%02X" % byte for byte in data)


def listing(rows):
    """Bytes at the left, what they say at the right, parts further in."""
    rows = [(shown(own), "  " * depth + said) for own, depth, said in rows]
    width = max(len(own) for own, _ in rows)
    return ["%s   %s" % (own.ljust(width), said) for own, said in rows]


def body_listing(text):
    name, formula = parse(text)
    return listing(lines(formula, [name]))
