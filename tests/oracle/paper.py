"""Bodies and their meaning, by the sentences of document 01 and of document 02, point 1, for the programs beside it.

Nothing is shared with the library: bodies are read and evaluated here anew, in Python's whole numbers of any size.
"""
import math

INF = math.inf


class Refused(Exception):
    """A refusal, by its number."""


# ---- "The body" and "From the input"


class Body:
    """A body that is read from left to right: "code present (4), known (5), 9, its fixed bytes present (4), then for a flag 6, 7; for each
    bound 5, 6" and what `bound` below says."""

    def __init__(self, data):
        self.data, self.at, self.formulas = data, 0, 0

    def fixed(self, n):
        if self.at + n > len(self.data):
            raise Refused(4)
        piece = self.data[self.at:self.at + n]
        self.at += n
        return piece

    def formula(self, around):
        """`around` quantifiers are around it, so the variables 0 to `around` are bound."""
        code = self.fixed(1)[0]
        if code not in (1, 2, 3, 4, 5):
            raise Refused(5)
        self.formulas += 1
        if self.formulas > 64 or (code == 5 and around == 4):
            raise Refused(9)
        if code == 1:
            variable, flag = self.fixed(2)
            if variable > around:
                raise Refused(6)
            if flag > 7:
                raise Refused(7)
            return ("flag", variable, flag)
        if code == 2:
            return ("not", self.formula(around))
        if code == 3 or code == 4:
            first = self.formula(around)
            return ("then" if code == 3 else "beside", first, self.formula(around))
        piece = self.fixed(8)
        first = bound(piece[:4], around)
        second = bound(piece[4:], around)
        return ("all", first, second, self.formula(around + 1))


def bound(four, around):
    """Kind, variable and offset. After 5 and 6: "in the place of 8, the variable byte is looked at first with 23, then an infinity's offset
    with 24, then 8"."""
    kind, variable, low, high = four
    offset = low + 256 * high
    if offset >= 32768:
        offset -= 65536
    if kind > 2:
        raise Refused(5)
    if kind == 2 and variable > around:
        raise Refused(6)
    if kind != 2 and variable != 0:
        raise Refused(23)
    if kind == 1 and offset != 0:
        raise Refused(24)
    if not -4095 <= offset <= 4095:
        raise Refused(8)
    return (kind, variable, offset)


def read(data):
    """ "One formula in prefix order, nothing after it": a tuple of its name and its parts."""
    body = Body(data)
    formula = body.formula(0)
    if body.at != len(data):
        raise Refused(10)
    return formula


# ---- "Meaning": an outcome is (True, step), (False, step) or OPEN

OPEN = None


def position(b, env):
    """ "p1 and p2 are whole numbers, offset added, negative allowed." """
    kind, variable, offset = b
    if kind == 1:
        return INF
    return env[variable] + offset if kind == 2 else offset


def outcome(f, flags, t, env, s):
    """The outcome over the ticks 0 to t of a formula started at step s, its variables at the positions env."""
    if f[0] == "flag":
        return ((flags[env[f[1]]] >> f[2]) & 1 == 1, s)
    if f[0] == "not":
        o = outcome(f[1], flags, t, env, s)
        return OPEN if o is OPEN else (not o[0], o[1])
    if f[0] == "then":
        # "F false decides false at F's step. F true starts G at F's step. F open is open."
        o = outcome(f[1], flags, t, env, s)
        return outcome(f[2], flags, t, env, o[1]) if o is not OPEN and o[0] else o
    if f[0] == "beside":
        return together([outcome(part, flags, t, env, s) for part in f[1:]])
    p1, p2 = position(f[1], env), position(f[2], env)
    if p1 == INF or p1 > p2 or p2 < 0:
        return (True, s)
    # "Position q starts its body at max(s, q); one above t is open." After a body that is false at a step, those that start at that step or
    # later are left out: none is false earlier.
    parts, false = [] if p2 <= t else [OPEN], INF
    for q in range(max(0, p1), min(p2, t) + 1):
        start = max(s, q)
        if false <= start:
            break
        o = outcome(f[3], flags, t, env + (q,), start)
        if o is not OPEN and not o[0]:
            false = min(false, o[1])
        parts.append(o)
    return together(parts)


def together(parts):
    """ "False at the smallest step at which [one] is false; true [if all] are true, at the largest of their steps; else open." """
    false = [o[1] for o in parts if o is not OPEN and not o[0]]
    if false:
        return (False, min(false))
    return OPEN if OPEN in parts else (True, max([o[1] for o in parts]))
