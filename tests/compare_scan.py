#!/usr/bin/env python3
"""Compares the expected pieces and tokens with the model of the rules.

    python3 compare_scan.py pieces CASES EXPECTED
    python3 compare_scan.py json CASES EXPECTED

The two were made apart: the pieces by the original's scanners, the tokens by
Python's json library.  The model takes each CR and LF for a piece of its own
and does not tell where a piece of white space ends, so newlines that follow
one another count as one here, and the places of comments, of irregular spaces
and of the gap's end are what is compared.  Where the text goes on after each
piece is looked at apart.  Of a token the model knows its end and its sort.
"""

import re
import sys

import model

SORTS = {108: "punctuation", 109: "punctuation", 131: "punctuation", 132: "punctuation", 100: "punctuation", 99: "colon",
         89: "word", 90: "word", 91: "word", 160: "string", 149: "number", 150: "number", 154: "number", 155: "number"}
COMMENTS = {"L": model.LINE, "B": model.SINGLE_LINE_BLOCK, "M": model.MULTI_LINE_BLOCK}


def answers(path):
    """The lines under each name."""
    under = {}
    with open(path) as file:
        for line in file:
            mark, *fields = line.split()
            if mark == "=":
                rows = under[fields[0]] = []
            else:
                rows.append((mark, fields))
    return under


def once(pieces):
    """Newlines that follow one another count as one."""
    return [piece for i, piece in enumerate(pieces) if i == 0 or piece != ("newline",) or pieces[i - 1] != piece]


def is_utf8(text):
    try:
        text.decode("utf-8")
        return True
    except UnicodeDecodeError:
        return False


def told_pieces(rows):
    if rows[0][0] == "!":
        return None
    pieces = []
    for mark, fields in rows[:-1]:
        places = [int(field) for field in fields]
        if mark in COMMENTS:
            pieces.append(("comment", places[0], places[1], COMMENTS[mark]))
        elif mark == "N":
            pieces.append(("newline",))
        elif mark == "I":
            pieces += [("newline",), ("space", *places)]
        else:
            pieces.append(("space", *places))
    end, newline, unterminated = [int(field) for field in rows[-1][1]]
    return once(pieces), end, bool(newline), bool(unterminated)


def model_pieces(text):
    if not is_utf8(text):
        return None
    pieces, end, unterminated = model.scan_gap(text, 0)
    # By the rules of reading: a line terminator before the token, or in it if it is the unterminated end.
    newline = model.LINE_TERMINATOR_BYTES.search(text if unterminated else text[:end]) is not None
    return once(pieces), end, newline, unterminated


PLAIN = re.compile(rb"[ \t]*")
BREAK = re.compile(rb"[\r\n][ \t\r\n]*")


def laid_wrong(rows, text):
    """Is there a piece that does not begin where the one before let the text go on, spaces and tabs apart, or a line
    break or a line comment after which the text goes on elsewhere than it should?"""
    place = 0
    for mark, fields in rows:
        if mark == "!":
            return False
        start, *ends = [int(field) for field in fields]
        if start != PLAIN.match(text, place).end():
            return True
        if mark == "N" and ends != [BREAK.match(text, start).end()]:
            return True
        if mark == "L":
            terminator = model.LINE_TERMINATOR_BYTES.match(text, ends[0])
            if ends[1] != (len(text) if terminator is None else terminator.end()):
                return True
        place = ends[-1]
    return False


def told_token(rows):
    mark, fields = rows[0]
    return (SORTS[int(fields[0])], int(fields[2])) if mark == "T" else None


def model_token(text):
    return model.token_at(text, 0)


def main():
    what, cases, expected = sys.argv[1:]
    told, modelled = {"pieces": (told_pieces, model_pieces), "json": (told_token, model_token)}[what]
    under = answers(expected)
    count = differ = 0
    with open(cases) as file:
        for name, text in model.cases(file):
            count += 1
            rows = under.pop(name)
            a, b = told(rows), modelled(text)
            if a != b or what == "pieces" and laid_wrong(rows, text):
                differ += 1
                print("%s %r: expected %s, model %s" % (name, text, a, b))
    print("%d cases, %d differ, %d answers without a case" % (count, differ, len(under)))
    sys.exit(differ != 0 or under != {})


if __name__ == "__main__":
    main()
