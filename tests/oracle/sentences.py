"""The header include/station_watch.h, and the sentence of each refusal, which begins the comment above its constant there.

For the tests that compare sentences; tests/c/header.py holds these to the library's.
"""
import os
import re

with open(os.path.join(os.path.dirname(os.path.realpath(__file__)), "..", "..", "include", "station_watch.h"), encoding="ascii") as file:
    HEADER = file.read()


def plain(comment):
    """The words of a comment that goes over several lines."""
    return " ".join(re.sub(r"\n \*", " ", comment).split())


# By number, in the header's order.
SENTENCES = {
    int(number): plain(sentence)
    for sentence, number in re.findall(r'/\* "([^"]*)"(?:(?!\*/).)*\*/\n#define SW_\w+ (\d+)\n', HEADER, re.S)
}
