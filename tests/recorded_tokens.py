#!/usr/bin/env python3
"""The tokens that a recorded list tells of a text.

It was written from the rule of docs/READING.md, 2.4, apart from the
program.  It reads a list of cases from standard input, each of the form

    NAME TEXT LIST

with one field for the text and one for the bytes of the list, in hexadecimal
as in docs/FORMATS.md, section 3, or `-` for no byte.  For each case it prints
the line `= NAME` and then, in the order of the places,

    T kind place end    for each place of the text at which a token is told

or `! not UTF-8`.
"""

import re
import struct
import sys

FIELD = re.compile(r"((?:[0-9A-F]{2})+)(?:\*([1-9][0-9]*))?\Z")


def spelt(field):
    if field == "-":
        return b""
    digits, times = FIELD.match(field).groups()
    assert int(times or 1) <= 40000
    return bytes.fromhex(digits) * int(times or 1)


def boundaries(text):
    """The places where a character begins, and the end."""
    places = {0}
    place = 0
    for char in text.decode("utf-8"):
        place += len(char.encode("utf-8"))
        places.add(place)
    assert place == len(text)
    return places


def told(text, recorded):
    """The kind and the end of the token at each place that has one."""
    cuts = boundaries(text)
    tokens = {}
    while len(recorded) >= 11:
        mark, kind, start, end = struct.unpack("<2sBII", recorded[:11])
        recorded = recorded[11:]
        counts = mark == b"T " and 4 <= kind <= 168 and start < end <= len(text) and start in cuts and end in cuts
        if counts and start not in tokens:
            tokens[start] = (kind, end)
    return tokens


def main():
    for line in sys.stdin:
        line = line.rstrip("\n")
        if line == "" or line.startswith("#"):
            continue
        name, text, recorded = line.split(" ")
        print("= " + name)
        try:
            tokens = told(spelt(text), spelt(recorded))
        except UnicodeDecodeError:
            print("! not UTF-8")
            continue
        for place in sorted(tokens):
            print("T %d %d %d" % (tokens[place][0], place, tokens[place][1]))


if __name__ == "__main__":
    main()
