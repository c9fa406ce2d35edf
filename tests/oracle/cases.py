"""The cases of a file of crates/cases/data, for the programs beside it.

A line is a case: its name, and behind a bar each what the program asks for; a bar has a blank on each side. Bytes are two hexadecimal digits in small
letters, with blanks between them as one likes; `02*63` is 63 times the byte 02. A line that is empty or begins with `#` is no case.
"""
import re


def cases(path):
    """The fields of each case, its name first."""
    with open(path, encoding="ascii") as file:
        lines = file.read().split("\n")
    found = [line for line in lines if line and not line.startswith("#")]
    for line in found:
        if not re.match(r"[^|]+ \|", line):
            raise ValueError("malformed: " + line)
    return [[field.strip(" ") for field in line.split("|")] for line in found]


def bytes_of(field):
    if not re.fullmatch(r"(?: |[0-9a-f]{2}(?:\*[0-9]+)?)*", field):
        raise ValueError("malformed: " + field)
    return b"".join(bytes([int(byte, 16)]) * int(times or 1) for byte, times in re.findall(r"([0-9a-f]{2})(?:\*([0-9]+))?", field))
