#!/usr/bin/env python3
"""The JSON token at the beginning of a text, told by Python's own json library.

It reads a list of cases from standard input, in the form of docs/FORMATS.md,
section 3, and prints for each case the line `= NAME` and then

    T kind 0 end    if a token stands at place 0: the number of its kind, and
                    its end as a byte offset
    - 0             if none stands there

What the library decides, by its scanner in C:

    numbers     which of them is the longest, and whether it is a whole number;
                the sign of an exponent is read off the number it took
    names       true, false and null, in a text cut off after the run of ASCII
                letters, of which they must be the whole
    strings     where they end, and that a byte below 32 makes them none

What it does not decide:

    the six structural characters, which are a table here
    NaN, Infinity and -Infinity, which it takes, and which are no tokens
    strings with an escape that it rejects.  By the rule a backslash and the
    next byte go together, whatever it is.  Such a string is given to the
    library a second time, with two letters x in the place of each backslash
    and the character after it.  Where the library decides at first, the
    second way must agree, or the program stops.

How many strings were decided in the second way is told on standard error.
"""

import json
import json.decoder
import json.scanner
import re
import sys

from model import cases

# The scanner in Python takes digits beyond ASCII; only the one in C will do.
if json.scanner.c_make_scanner is None or json.decoder.c_scanstring is None:
    sys.exit("the json library has no scanner in C here")

STRUCTURAL = {"[": 108, "{": 109, "]": 131, "}": 132, ":": 99, ",": 100}
NAMES = {True: 89, False: 90, None: 91}
STRING = 160
DECIMAL = 149
FLOAT = 150
POSITIVE_EXPONENTIAL = 154
NEGATIVE_EXPONENTIAL = 155

BAD_ESCAPES = ("Invalid \\escape", "Invalid \\uXXXX escape")


def no_constant(name):
    raise ValueError("no token of JSON: " + name)


# Numbers are wanted as they are written.
DECODER = json.JSONDecoder(parse_int=str, parse_float=str, parse_constant=no_constant)

second_way = 0


def decoded(text):
    """What the library reads at the beginning: the value and its end, or None."""
    try:
        return DECODER.raw_decode(text)
    except ValueError:
        return None


def number(text):
    read = decoded(text)
    if read is None:
        return None
    written, end = read
    assert text[:end] == written
    exponent = re.search("[eE](.)", written)
    if exponent is not None:
        minus = exponent.group(1) == "-"
        return (NEGATIVE_EXPONENTIAL if minus else POSITIVE_EXPONENTIAL), end
    return (FLOAT if "." in written else DECIMAL), end


def name(text):
    run = re.match("[A-Za-z]+", text).group()
    read = decoded(run)
    if read is None or read[1] != len(run):
        return None
    return NAMES[read[0]], len(run)


def string_end(text):
    """Where the string ends, None if none stands there, or "?" if the library
    stops at an escape."""
    try:
        return json.decoder.c_scanstring(text, 1, True)[1]
    except json.JSONDecodeError as error:
        return "?" if error.msg.startswith(BAD_ESCAPES) else None


def string(text):
    global second_way
    end = string_end(text)
    pairs_gone = '"' + re.sub(r"\\.", "xx", text[1:], flags=re.DOTALL)
    second = string_end(pairs_gone)
    if end == "?":
        second_way += 1
        end = second
    assert end == second and end != "?", text
    return None if end is None else (STRING, end)


def token(text):
    """The token at the beginning of a text: its kind and its end, or None."""
    first = text[:1]
    if first == "":
        return None
    if first in STRUCTURAL:
        return STRUCTURAL[first], 1
    if first == '"':
        return string(text)
    if re.match("[A-Za-z]", first):
        return name(text)
    if first in "-0123456789":
        return number(text)
    # Anything else begins no token, and the library must say so too.
    assert decoded(text) is None, text
    return None


def printed(text):
    try:
        chars = text.decode("utf-8")
    except UnicodeDecodeError:
        return "! not UTF-8"
    told = token(chars)
    if told is None:
        return "- 0"
    kind, end = told
    return "T %d 0 %d" % (kind, len(chars[:end].encode("utf-8")))


def main():
    for case_name, text in cases(sys.stdin):
        print("= " + case_name)
        print(printed(text))
    print("strings with an escape that the library rejects: %d" % second_way, file=sys.stderr)


if __name__ == "__main__":
    main()
