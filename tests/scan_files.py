#!/usr/bin/env python3
"""Writes what scan_cases reads, or what it has to print.

    python3 tests/scan_files.py stdin > crates/scan_cases/stdin
    python3 tests/scan_files.py stdout > crates/scan_cases/stdout

The questions are `kinds`, the cases of gen_scan.py, and the lines below.  The
answers are those of the original's scanners and builder (oracle/, which must
be built first, see tests/README.md), of Python's json library
(json_tokens.py) and of the model of recorded lists (recorded_tokens.py).
Nothing here is printed by scan_cases itself.
"""

import os
import subprocess
import sys

TESTS = os.path.dirname(os.path.abspath(__file__))
ORACLE = os.path.join(TESTS, "..", "oracle", "target", "release", "oracle")
FAMILIES = ["pieces", "hashbang", "json", "recorded"]

MALFORMED = "! a field that is missing, not hexadecimal, or repeated too often"
NO_QUESTION = "! line %d is no question with the name of a case"

# Lines about fields, and lines that ask nothing: each with what is printed, told by hand from docs/FORMATS.md.
BY_HAND = [
    ("", []),
    ("# lines that ask nothing", []),
    ("kinds ", [NO_QUESTION]),
    ("kinds 1", [NO_QUESTION]),
    ("pieces", [NO_QUESTION]),
    ("pieces ", [NO_QUESTION]),
    ("pieces  20", [NO_QUESTION]),
    ("Pieces a 20", [NO_QUESTION]),
    ("tokens a 20", [NO_QUESTION]),
    (" json a 31", [NO_QUESTION]),
    ("json", [NO_QUESTION]),
    ("recorded", [NO_QUESTION]),
    ("\u20AC", [NO_QUESTION]),
    ("", []),
    ("# fields", []),
    ("pieces no_field", ["= no_field", "G 0 0 0"]),
    ("pieces three_fields 2F 2A 2A2F", ["= three_fields", "B 0 4", "G 4 0 0"]),
    ("pieces most 20*40000", ["= most", "G 40000 0 0"]),
    ("pieces too_often 20*40001", ["= too_often", MALFORMED]),
    ("pieces far_too_often 20*99999999999999999999", ["= far_too_often", MALFORMED]),
    ("pieces never 20*0", ["= never", MALFORMED]),
    ("pieces leading_zero 20*02", ["= leading_zero", MALFORMED]),
    ("pieces plus 20*+2", ["= plus", MALFORMED]),
    ("pieces no_number 20*", ["= no_number", MALFORMED]),
    ("pieces hexadecimal_number 20*A", ["= hexadecimal_number", MALFORMED]),
    ("pieces two_numbers 20*2*2", ["= two_numbers", MALFORMED]),
    ("pieces nothing_repeated *2", ["= nothing_repeated", MALFORMED]),
    ("pieces odd_digits 202", ["= odd_digits", MALFORMED]),
    ("pieces small_letters 2f2f", ["= small_letters", MALFORMED]),
    ("pieces no_digit 2G", ["= no_digit", MALFORMED]),
    ("pieces beyond_digits 3:", ["= beyond_digits", MALFORMED]),
    ("pieces before_letters @0", ["= before_letters", MALFORMED]),
    ("pieces dash -", ["= dash", MALFORMED]),
    ("pieces two_spaces 20  20", ["= two_spaces", MALFORMED]),
    ("pieces space_at_the_end 20 ", ["= space_at_the_end", MALFORMED]),
    ("pieces second_malformed 20 2", ["= second_malformed", MALFORMED]),
    ("hashbang odd_digits 3", ["= odd_digits", MALFORMED]),
    ("json odd_digits 3", ["= odd_digits", MALFORMED]),
    ("json two_fields 31*2 32", ["= two_fields", "T 149 0 3"]),
    ("recorded no_field", ["= no_field", MALFORMED]),
    ("recorded one_field 61", ["= one_field", MALFORMED]),
    ("recorded three_fields 61 - -", ["= three_fields", MALFORMED]),
    ("recorded two_dashes -- -", ["= two_dashes", MALFORMED]),
    ("recorded odd_text 6 -", ["= odd_text", MALFORMED]),
    ("recorded odd_list FF 5", ["= odd_list", MALFORMED]),
    ("recorded repeated 61*2 5420040000000001000000*2", ["= repeated", "T 4 0 1"]),
]


def made(*command, given=""):
    done = subprocess.run(command, input=given, stdout=subprocess.PIPE, stderr=subprocess.DEVNULL, check=True, text=True)
    return done.stdout


def script(name):
    return os.path.join(TESTS, name)


def cases(family):
    return made(sys.executable, script("gen_scan.py"), family)


def questions():
    """The lines before those by hand."""
    lines = ["# Questions for scan_cases, written by scan_files.py: do not edit by hand.", "", "kinds"]
    for family in FAMILIES:
        lines.append("")
        for line in cases(family).splitlines():
            lines.append(line if line.startswith("#") else family + " " + line)
    return lines


def answers():
    answer = made(ORACLE, "kinds")
    answer += made(ORACLE, "pieces", given=cases("pieces"))
    answer += made(ORACLE, "hashbang", given=cases("hashbang"))
    answer += made(sys.executable, script("json_tokens.py"), given=cases("json"))
    answer += made(sys.executable, script("recorded_tokens.py"), given=cases("recorded"))
    lines = answer.splitlines()
    for number, (_, printed) in enumerate(BY_HAND, len(questions()) + 1):
        lines += [line % number if line is NO_QUESTION else line for line in printed]
    return lines


def main():
    if sys.argv[1:] == ["stdin"]:
        lines = questions() + [line for line, _ in BY_HAND]
    elif sys.argv[1:] == ["stdout"]:
        lines = answers()
    else:
        sys.exit("usage: scan_files.py stdin|stdout")
    sys.stdout.write("".join(line + "\n" for line in lines))


if __name__ == "__main__":
    main()
