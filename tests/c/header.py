"""Holds include/station_watch.h and the library to each other: both kinds show the header's functions and no others, and the sentence in the comment above
each refusal's constant is what sw_sentence writes. It loads the shared library as other languages do, and asks for the figures of the scope document's
example, for its body from its text, and for its text; it runs a set of two rules, with records as the header declares them, and a rule with a calendar; it
writes and checks the complete report of a recording, with violations as the header declares them.

    python3 header.py SHARED STATIC
"""
import ctypes
import os
import re
import subprocess
import sys

sys.path.insert(0, os.path.join(os.path.dirname(os.path.realpath(__file__)), "..", "oracle"))
from sentences import HEADER, SENTENCES  # noqa: E402

shared, static = sys.argv[1:]
library = ctypes.CDLL(shared)
failures = []


def same(what, expected, seen):
    if seen != expected:
        failures.append(f"{what}: {seen!r}, not {expected!r}")


def constant(name):
    return int(re.search(r"^#define %s (\d+)$" % name, HEADER, re.M).group(1))


def sentence(number):
    """What sw_sentence writes, in a buffer of SW_MAX_SENTENCE bytes."""
    room = constant("SW_MAX_SENTENCE")
    out = ctypes.create_string_buffer(b"\xaa" * room, room)
    written = ctypes.c_size_t()
    same(f"sw_sentence({number})", 0, library.sw_sentence(ctypes.c_uint32(number), out, ctypes.c_size_t(room), ctypes.byref(written)))
    same(f"the length of sentence {number}", len(out.value), written.value)
    return out.value.decode("ascii")


def symbols(*words):
    """What nm lists, a symbol a line, with address and kind before it."""
    said = subprocess.run(["nm", "--defined-only", *words], check=True, text=True, stdout=subprocess.PIPE).stdout
    return sorted(line.split()[2] for line in said.splitlines() if len(line.split()) == 3)


def functions():
    declared = sorted(re.findall(r"^\w+ (sw_\w+)\(", HEADER, re.M))
    same("functions of the shared library", declared, symbols("--dynamic", shared))
    same("functions of the static library", declared, symbols("--extern-only", static))


def sentences():
    same("numbers of the refusals", list(range(1, 28)), list(SENTENCES))
    for number, text in SENTENCES.items():
        same(f"sentence {number}", text, sentence(number))
    for number in (constant("SW_OK"), 28, 4294967295):
        same(f"sentence {number}", "no such refusal", sentence(number))


EXAMPLE = bytes.fromhex("02 04 010000 05 0200FFFF 02000200 010100")
TEXT = rb"monitor x : ~(@x.0 /\ forall y in x-1..x+2 : @y.0)"


def figures():
    body = EXAMPLE
    history, delay, cells = (ctypes.c_uint64() for _ in range(3))
    answer = library.sw_figures(body, ctypes.c_size_t(len(body)), ctypes.byref(history), ctypes.byref(delay), ctypes.byref(cells))
    same("figures of the example", (0, 1, 2, 21), (answer, history.value, delay.value, cells.value))


def texts():
    for function, given, due in ((library.sw_rule_from_text, TEXT, EXAMPLE), (library.sw_rule_to_text, EXAMPLE, TEXT)):
        out = ctypes.create_string_buffer(b"\xaa" * 100, 100)
        written = ctypes.c_size_t()
        answer = function(given, ctypes.c_size_t(len(given)), out, ctypes.c_size_t(100), ctypes.byref(written))
        same("the example's text and body", (0, len(due), due + b"\xaa" * (100 - len(due))), (answer, written.value, out.raw))


def record():
    """The header's record: the names of its numbers and how many bits each has. Nothing lies between them."""
    declared = re.search(r"^typedef struct \{\n(.*?)^\} sw_running;$", HEADER, re.M | re.S).group(1)
    numbers = re.findall(r"^    uint(16|32|64)_t (\w+);", declared, re.M)
    same("lines of the record", len(declared.splitlines()), len(numbers))
    types = {"16": ctypes.c_uint16, "32": ctypes.c_uint32, "64": ctypes.c_uint64}
    same("bytes of the record's numbers", 32, sum(int(bits) for bits, _ in numbers) // 8)
    return type("Running", (ctypes.Structure,), {"_fields_": [(name, types[bits]) for bits, name in numbers]})


def sets():
    """Flag 0 at X and the example, whose bodies lie at 9 and 12 of their sheet: history 1, cells 1 and 21, delay 0 and 2."""
    running = record()
    same("bytes of a record", 32, ctypes.sizeof(running))
    size, number, bits = ctypes.c_size_t, ctypes.c_uint64, ctypes.c_uint32
    sheet = bytes.fromhex("02 09000300 0C001100 010000") + EXAMPLE
    rules, history_figure, cells_figure, pairs_figure = size(), number(), number(), number()
    answer = library.sw_set_figures(sheet, size(len(sheet)), *map(ctypes.byref, (rules, history_figure, cells_figure, pairs_figure)))
    same("figures of the set", (0, 2, 1, 22, 4), (answer, rules.value, history_figure.value, cells_figure.value, pairs_figure.value))
    records, history, cells, report = (running * 3)(), (ctypes.c_uint8 * 1)(7), (bits * 88)(), (number * 8)()
    same("opening the set", 0, library.sw_set_open(sheet, size(len(sheet)), records, size(3), history, size(1), cells, size(88)))
    due = [
        {"start": 9, "size": 3, "first": 0, "cells": 1, "delay": 0, "opened": 1, "live": 0, "next": 0},
        {"start": 12, "size": 17, "first": 1, "cells": 21, "delay": 2, "opened": 1, "live": 0, "next": 0},
    ]
    same("names of a record's numbers", list(due[0]), [name for name, _ in running._fields_])
    seen = [{name: getattr(one, name) for name in due[0]} for one in records]
    same("records of the set", due + [dict.fromkeys(due[0], 0)], seen)
    for flag, due_pairs, live in ((0, [0, 0], (0, 0)), (1, [], (0, 0)), (1, [], (0, 1)), (0, [0, 3], (0, 0))):
        pairs, all_live = size(), size()
        answer = library.sw_set_step(sheet, size(len(sheet)), records, size(3), ctypes.c_uint8(flag), history, size(1), cells, size(88), report, size(8),
                                     ctypes.byref(pairs), ctypes.byref(all_live))
        same("a step of the set", (0, due_pairs, sum(live)), (answer, report[: 2 * pairs.value], all_live.value))
        same("live counts of the records", live, tuple(one.live for one in records[:2]))
    same("next ticks of the records", [4, 4, 0], [one.next for one in records])
    last_ticks(running, sheet, records, history, cells)


def last_ticks(running, sheet, records, history, cells):
    """The set again, from a next tick that was put into its records: the report tells ticks above 32 bits, and 20 comes from tick 2^62 on. It is three times
    some number later than the 4 that they had, so that the ticks of both rules find their cells."""
    size = ctypes.c_size_t
    for tick, due_answer in ((2**32 + 6, 0), (2**62 - 3, 0), (2**62, 20), (2**64 - 1, 20)):
        copies, table, bytes_ = (running * 3)(*records), (ctypes.c_uint32 * 88)(*cells), (ctypes.c_uint8 * 1)(*history)
        for one in copies[:2]:
            one.next = tick
        report, pairs, live = (ctypes.c_uint64 * 8)(*[7] * 8), size(55), size(66)
        answer = library.sw_set_step(sheet, size(len(sheet)), copies, size(3), ctypes.c_uint8(0), bytes_, size(1), table, size(88), report, size(8),
                                     ctypes.byref(pairs), ctypes.byref(live))
        told = (1, 0, [0, tick] + [7] * 6, [tick + 1] * 2) if due_answer == 0 else (55, 66, [7] * 8, [tick] * 2)
        same(f"a step of the set at {tick}", (due_answer, *told), (answer, pairs.value, live.value, report[:], [one.next for one in copies[:2]]))


def answered(function, *given):
    """What a question to a calendar answers, and what is told."""
    told = ctypes.c_uint64(77)
    return function(*given, ctypes.byref(told)), told.value


def calendars():
    """Flag 0 at X, with the words of one run and three more: flag bytes 1, 0 and 129, and then 128 at tick 9."""
    size, number, byte = ctypes.c_size_t, ctypes.c_uint64, ctypes.c_uint8
    sheet, state, history, cells = bytes.fromhex("01 05000300 010000"), (byte * 544)(), (byte * 1)(), (ctypes.c_uint32 * 4)()
    words, report = (number * 11)(*[5] * 11), (number * 2)()
    library.sw_calendar_clear.restype = library.sw_calendar_fill.restype = None
    answer = library.sw_calendar_open(sheet, size(len(sheet)), size(0), history, size(0), cells, size(4), words, size(11), state)
    same("opening with a calendar", (0, [0] * 8 + [5] * 3), (answer, words[:]))
    taken, pairs, reported, live = (size() for _ in range(4))
    answer = library.sw_calendar_step(state, byte(1), history, size(0), cells, size(4), report, size(2), words, size(11), ctypes.byref(reported),
                                      ctypes.byref(live))
    same("a step with a calendar", (0, 0), (answer, reported.value))
    answer = library.sw_calendar_steps(state, bytes([0, 129]), size(2), history, size(0), cells, size(4), report, size(2), words, size(11),
                                       ctypes.byref(taken), ctypes.byref(pairs), ctypes.byref(live))
    same("a batch with a calendar", (0, 1, 1, [1, 1]), (answer, taken.value, pairs.value, report[:]))
    library.sw_calendar_fill(words, size(11), number(2), bytes([129]), size(1))
    library.sw_calendar_fill(words, size(11), number(9), bytes([128]), size(1))
    same("words of the calendar", [5, 0, 0, 0, 0, 0, 0, 4 + 512] + [5] * 3, words[:])
    none = 2**64 - 1
    for flag, first, last, due in ((0, 0, none, (2, 0, 2)), (0, 1, 2, (1, 2, 2)), (7, 3, 8, (0, none, none)), (7, 3, none, (1, 9, 9))):
        asked = (words, size(11), byte(flag), number(first), number(last))
        questions = (library.sw_calendar_ups, library.sw_calendar_first, library.sw_calendar_last)
        same(f"flag {flag} from {first} to {last}", [(0, told) for told in due], [answered(question, *asked) for question in questions])
        asked = (words, size(11), byte(8), number(first), number(last))
        same("flag 8", [(7, 77)] * 3, [answered(question, *asked) for question in questions])
    for flag, tick, due in ((0, 1, (0, 0)), (7, 6, (0, 9)), (1, 6, (0, none)), (8, 6, (7, 77))):
        same(f"flag {flag} near {tick}", due, answered(library.sw_calendar_nearest, words, size(11), byte(flag), number(tick)))
    library.sw_calendar_clear(words, size(11))
    same("words that were cleared", [0] * 8 + [5] * 3, words[:])


def violation():
    """The header's violation: its two numbers."""
    declared = re.search(r"^typedef struct sw_violation \{\n(.*?)^\} sw_violation;$", HEADER, re.M | re.S).group(1)
    names = re.findall(r"^    uint64_t (\w+);$", declared, re.M)
    same("numbers of a violation", ["tick", "step"], names)
    return type("Violation", (ctypes.Structure,), {"_fields_": [(name, ctypes.c_uint64) for name in names]})


def reports():
    """The example over its flag bytes: violation 5 at 7. And for all Y from X to infinity, flag 0 at Y, which cannot be opened: each tick is false."""
    one, size = violation(), ctypes.c_size_t
    recording = bytes([0, 1, 1, 0, 1, 1, 1, 1, 0, 0])
    sheet = bytes.fromhex("02 09001100 1A000C00") + EXAMPLE + bytes.fromhex("05 02000000 01000000 010100")
    falls = [(0, 0), (1, 3), (2, 3), (3, 3), (4, 8), (5, 8), (6, 8), (7, 8), (8, 8), (9, 9)]
    kinds = {name: constant("SW_REPORT_" + name) for name in ("SAME", "DIFFERS", "ENDS")}
    for rule, due in ((0, [(5, 7)]), (1, falls)):
        report, written = (one * 11)(*[(77, 77)] * 11), size(55)
        answer = library.sw_complete_report(sheet, size(len(sheet)), size(rule), recording, size(10), report, size(11), ctypes.byref(written))
        seen = [(entry.tick, entry.step) for entry in report]
        same("a complete report", (0, len(due), due + [(77, 77)] * (11 - len(due))), (answer, written.value, seen))
        last = len(due) - 1
        lists = [(due, (kinds["SAME"], 0, 0, 0)), (due[:-1], (kinds["DIFFERS"], last, *due[-1])), (due + due[:1], (kinds["ENDS"], last + 1, 0, 0)),
                 (due[:-1] + [(due[-1][0], 2**64 - 1)], (kinds["DIFFERS"], last, *due[-1]))]
        for claimed, told in lists:
            same(f"the check of {claimed}", (0, *told), checked(one, sheet, rule, recording, claimed))
    same("rule 2", (3, 61, 62, 63, 64), checked(one, sheet, 2, recording, []))
    same("a recording that is too long", (16, 61, 62, 63, 64), checked(one, sheet, 0, bytes(65536), []))
    report, written = (one * 1)((77, 77)), size(55)
    answer = library.sw_complete_report(sheet, size(len(sheet)), size(1), recording, size(10), report, size(1), ctypes.byref(written))
    same("a list that is too short", (22, 55, 77, 77), (answer, written.value, report[0].tick, report[0].step))


def checked(one, sheet, rule, recording, claimed):
    """What sw_check_report answers, and what is told."""
    size = ctypes.c_size_t
    told = ctypes.c_uint32(61), size(62), ctypes.c_uint64(63), ctypes.c_uint64(64)
    lent = (one * (len(claimed) + 1))(*claimed)
    answer = library.sw_check_report(sheet, size(len(sheet)), size(rule), recording, size(len(recording)), lent, size(len(claimed)), *map(ctypes.byref, told))
    return (answer, *(number.value for number in told))


functions()
sentences()
figures()
texts()
sets()
calendars()
reports()
print("\n".join(failures) if failures else "header.py: ok")
sys.exit(bool(failures))
