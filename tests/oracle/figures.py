#!/usr/bin/env python3
"""The figures of bodies, worked out from the papers alone ("Figures" of document 01, with point 6 of 02), for crates/cases.

  python3 tests/oracle/figures.py crates/cases/data/bodies.txt     what that program must write for it

Cases are read by cases.py and bodies by paper.py beside it.
"""
import sys

from cases import bytes_of, cases
from paper import INF, Refused, read

# ---- "Figures"


def positive(a):
    """N(a) is a, or 0 if a is negative."""
    return max(a, 0)


def pair_of_bound(b, pairs):
    kind, variable, offset = b
    if kind == 0:
        return (-INF, offset)
    if kind == 1:
        return (INF, INF)
    low, high = pairs[variable]
    return (low + offset, high + offset)


def pair_of_range(formula, pairs):
    return (pair_of_bound(formula[1], pairs)[0], pair_of_bound(formula[2], pairs)[1])


def always_empty(own):
    """02, point 6: "a range whose l is infinity, or whose l is greater than its u"; its body isn't counted at all."""
    low, high = own
    return low == INF or low > high


def delay(f, pairs):
    if f[0] == "flag":
        return 0
    if f[0] == "not":
        return delay(f[1], pairs)
    if f[0] in ("then", "beside"):
        return max(delay(f[1], pairs), delay(f[2], pairs))
    own = pair_of_range(f, pairs)
    if always_empty(own):
        return 0
    return max(delay(f[3], pairs + [own]), positive(own[1]))


def history(f, pairs, k):
    if f[0] == "flag":
        return 0
    if f[0] == "not":
        return history(f[1], pairs, k)
    if f[0] == "beside":
        return max(history(f[1], pairs, k), history(f[2], pairs, k))
    if f[0] == "then":
        return max(history(f[1], pairs, k), history(f[2], pairs, max(k, delay(f[1], pairs))))
    low, high = pair_of_range(f, pairs)
    if always_empty((low, high)):
        return 0
    own = INF if low == -INF else positive(k - low)
    return max(own, history(f[3], pairs + [(low, high)], max(k, positive(high))))


def cells(f, pairs):
    if f[0] == "flag":
        return 0
    if f[0] == "not":
        return cells(f[1], pairs)
    if f[0] == "then":
        return 1 + max(cells(f[1], pairs), cells(f[2], pairs))
    if f[0] == "beside":
        return 1 + cells(f[1], pairs) + cells(f[2], pairs)
    low, high = pair_of_range(f, pairs)
    if always_empty((low, high)):
        return 1
    return 1 + (high - low + 1) * (1 + cells(f[3], pairs + [(low, high)]))


def figures(data):
    """History, delay and cells of a body, "or a refusal from 4 to 15", with 23 and 24."""
    f = read(data)
    start = [(0, 0)]
    d, h = delay(f, start), history(f, start, 0)
    if d == INF:
        raise Refused(11)
    if d > 255:
        raise Refused(12)
    if h == INF:
        raise Refused(13)
    if h > 4096:
        raise Refused(14)
    c = (d + 1) * (1 + cells(f, start))
    if c > 4096:
        raise Refused(15)
    return (h, d, c)


def answer(data):
    try:
        return "history %d delay %d cells %d" % figures(data)
    except Refused as why:
        return "refused %d" % why.args[0]


# ---- the cases of the program


def main(path):
    for name, body in cases(path):
        print("%s: %s" % (name, answer(bytes_of(body))))


if __name__ == "__main__":
    main(sys.argv[1])
