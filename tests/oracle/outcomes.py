#!/usr/bin/env python3
"""The recording evaluator's outcomes, worked out a second time from the papers alone.

  outcomes.py cases CASES     what crates/cases must write for its file data/recordings.txt
  outcomes.py long            what crates/recording_long must write (its file stdout)

The cases of the long recordings stand here and in that program. Case files are read by cases.py, bodies read and the meaning evaluated by paper.py beside
it.
"""
import sys

import cases as files
from paper import OPEN, Refused, outcome, read


def outcome_at(body, flags, tick):
    """ "The rule at tick p is its formula started at p with variable 0 equal to p." "Evaluator: 4 to 10, 16", with 23 and 24. """
    f = read(body)
    if len(flags) > 65535 or tick >= len(flags):
        raise Refused(16)
    return outcome(f, flags, len(flags) - 1, (tick,), tick)


def shown(body, flags, tick):
    try:
        o = outcome_at(body, flags, tick)
    except Refused as why:
        return f"refused {why}"
    return "open" if o is OPEN else f"{'true' if o[0] else 'false'} at {o[1]}"


# ---- the short recordings


def spaced(b):
    return "".join(f" {x:02x}" for x in b)


def cases(path):
    """Every tick of a recording and the one after it, or the tick that is asked for."""
    for name, body, flags, *tick in files.cases(path):
        body, flags = files.bytes_of(body), files.bytes_of(flags)
        print(f"{name}\nbody{spaced(body)}")
        if not tick:
            print(f"flags{spaced(flags)}")
        for t in [int(tick[0])] if tick else range(len(flags) + 1):
            print(f"{t}: {shown(body, flags, t)}")


# ---- the longest recording


def h(text):
    return bytes.fromhex(text)


def long():
    onward = h("05 02000000 01000000 01 01 00")
    past = h("05 00000000 02000000 01 01 00")
    up = bytes([1]) * 65535
    down = bytearray(up)
    down[65534] = 0
    for flags in (up, bytes(down)):
        for body in (onward, past):
            for tick in (0, 1, 32767, 65533, 65534, 65535):
                print(f"{tick}: {shown(body, flags, tick)}")
    print(f"0: {shown(onward, bytes(65536), 0)}")
    # Y from X on, Z from Y on: two thousand million positions, were the walk not to stop
    nested = h("05 02000000 01000000 05 02010000 01000000 01 02 00")
    print(f"65000: {shown(nested, up, 65000)}")
    for tick in (0, 32767):
        print(f"{tick}: {shown(nested, bytes(65535), tick)}")
    # Y from X to X+3, Z from 0 to 2, W from 0 on: the last tick alone is down
    wide = h("05 02000000 02000300 05 00000000 00000200 05 00000000 01000000 01 03 00")
    for tick in (0, 65532, 65534):
        print(f"{tick}: {shown(wide, bytes(down), tick)}")
    # three from 0 on, over 80 ticks
    deep = h("05 00000000 01000000") * 3 + h("01 03 00")
    for tick in (0, 79):
        print(f"{tick}: {shown(deep, up[:80], tick)}")
        print(f"{tick}: {shown(deep, up[:79] + bytes(1), tick)}")


if __name__ == "__main__":
    {"cases": cases, "long": long}[sys.argv[1]](*sys.argv[2:])
