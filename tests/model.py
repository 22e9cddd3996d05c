#!/usr/bin/env python3
"""What `lock_comments` ought to print, told a second time.

This model was written from the rules alone, apart from the program that it
checks, and has nothing in common with it.  Where the two differ, one of them
has misread a rule.  It is meant to be easy to read and takes no care to be
fast.

It reads a list of cases from standard input and prints, for each case, the
line `= NAME` and then exactly the lines that the program prints for the
case's text.  A case is one line,

    NAME FIELD FIELD ...

NAME is made of a-z, 0-9 and _.  A FIELD is an even number of upper-case
hexadecimal digits, or those followed by *N, which repeats these bytes N times
(1 to 40000).  One space stands before each field.  The text is the bytes of
all the fields, one field after another; no field makes the empty text.  Blank
lines and lines that begin with # are skipped.

The program reads one text as JSON with comments, token by token up to its
end, and lists what it met between the tokens:

    C start end kind class position target newline-before newline-after
            each comment, in the order of the text
    W start end
            each irregular space, likewise
    U start end
            the rest of the text, if a block comment opens there and never ends
    E comments spaces bytes share
            how many comments and irregular spaces, how many bytes are in
            comments, and how many thousandths of the text that is, cut off

or, if it refuses the text, only

    R number

Places are byte offsets, 0 being the beginning of the text.
"""

import re
import sys

# ---------------------------------------------------------------------------
# Sizes and numbers

LONGEST_TEXT = 32768    # bytes
COMMENT_ROWS = 1024
SPACE_ROWS = 256
TOKEN_ROWS = 1024       # the end of the text takes one of them

# Why a text is refused.  The program then prints only `R ` and the number.
TEXT_TOO_LONG = 1
TEXT_NOT_UTF8 = 2
NO_TOKEN_THERE = 4
COMMENTS_DO_NOT_FIT = 5
SPACES_DO_NOT_FIT = 6
NO_TOKEN_ROW_FREE = 7

# What a comment looks like.
LINE = 0                # // up to the end of its line
SINGLE_LINE_BLOCK = 1   # /* */ with no line terminator in it
MULTI_LINE_BLOCK = 2    # /* */ with one

# What a comment is for.  The two numbers left out here, 4 and 6, say that
# somebody has made use of a remark 5 or 7.  Reading alone never gives them.
NONE = 0
LEGAL = 1
JSDOC = 2
JSDOC_LEGAL = 3
PURE_NOT_APPLIED = 5
NO_SIDE_EFFECTS_NOT_APPLIED = 7
PROPERTY_KEY = 8
WEBPACK = 9
VITE = 10
TURBOPACK = 11
COVERAGE_IGNORE = 12
COVERAGE_IGNORE_FILE = 13

# Comments of these classes speak about what follows them.
STAYS_LEADING = {
    LEGAL,
    JSDOC_LEGAL,
    PURE_NOT_APPLIED,
    NO_SIDE_EFFECTS_NOT_APPLIED,
    PROPERTY_KEY,
}

# Which way a comment is attached.
LEADING = 0
TRAILING = 1


class Refused(Exception):
    """The text is refused under this number."""

    def __init__(self, number):
        super().__init__(number)
        self.number = number


# ---------------------------------------------------------------------------
# Characters

LINE_TERMINATORS = {"\u000A", "\u000D", "\u2028", "\u2029"}

# Line terminators that are also recorded as irregular spaces.
IRREGULAR_LINE_TERMINATORS = {"\u2028", "\u2029"}

# White space other than space and tab.  U+0085, U+180E, U+200B and U+2060 are
# not among them, and neither are U+001C to U+001F.
IRREGULAR_SPACES = (
    {"\u000B", "\u000C", "\u00A0", "\u1680", "\u202F", "\u205F", "\u3000", "\uFEFF"}
    | {chr(c) for c in range(0x2000, 0x200B)}
)

# The characters with the Unicode property White_Space.  Unlike the set above
# these include U+0085 and leave out U+FEFF.
UNICODE_WHITE_SPACE = (
    {chr(c) for c in range(0x0009, 0x000E)}
    | {"\u0020", "\u0085", "\u00A0", "\u1680"}
    | {chr(c) for c in range(0x2000, 0x200B)}
    | {"\u2028", "\u2029", "\u202F", "\u205F", "\u3000"}
)

# What counts as blank inside a comment: space, tab, line feed, form feed and
# carriage return.  U+000B does not.
BLANKS = b" \t\n\x0c\r"


def char_at(text, place):
    """The character that begins at this place of a text known to be UTF-8."""
    first = text[place]
    if first < 0x80:
        size = 1
    elif first < 0xE0:
        size = 2
    elif first < 0xF0:
        size = 3
    else:
        size = 4
    return text[place:place + size].decode("utf-8")


# ---------------------------------------------------------------------------
# Classing a comment

def is_licensed(content):
    return b"@license" in content or b"@preserve" in content


def is_property_key(content):
    """Is the content, without white space at both ends, just the key word?"""
    chars = list(content.decode("utf-8"))
    while chars and chars[0] in UNICODE_WHITE_SPACE:
        chars.pop(0)
    while chars and chars[-1] in UNICODE_WHITE_SPACE:
        chars.pop()
    return "".join(chars) in ("@__KEY__", "#__KEY__")


def followed_by_capital(rest, word):
    after = rest[len(word):len(word) + 1]
    return rest.startswith(word) and b"A" <= after <= b"Z"


def followed_by_blank_or_end(rest, words):
    after = rest[len(words):len(words) + 1]
    return rest.startswith(words) and (after == b"" or after in BLANKS)


def class_of(kind, content):
    """The class of a comment.

    The content is what is left without the two opening bytes and, in a block,
    without the two closing bytes.  The first rule that fits decides.
    """
    # Nothing in it, or a remark that begins with an exclamation mark.
    if content == b"":
        return NONE
    if content.startswith(b"!"):
        return LEGAL

    # A block with a second star.  Nothing but stars is mere decoration.
    if kind != LINE and content.startswith(b"*"):
        if content.strip(b"*") == b"":
            return NONE
        return JSDOC_LEGAL if is_licensed(content) else JSDOC

    # Leading blanks don't matter from here on, except where the whole content
    # is looked at.
    rest = content.lstrip(BLANKS)
    if rest == b"":
        return NONE

    # The key word, with nothing but white space around it.  It is looked for
    # only if the rest begins with it, or with something beyond ASCII that may
    # turn out to be white space.
    if (rest.startswith(b"@__KEY__") or rest.startswith(b"#__KEY__") or rest[0] >= 128):
        if is_property_key(content):
            return PROPERTY_KEY

    # Words after an at sign.
    if rest == b"@":
        return NONE
    if rest.startswith(b"@vite"):
        return VITE
    if rest.startswith(b"@license") or rest.startswith(b"@preserve"):
        return LEGAL

    # Remarks for the packers, such as webpackIgnore.
    if followed_by_capital(rest, b"webpack"):
        return WEBPACK
    if followed_by_capital(rest, b"turbopack"):
        return TURBOPACK

    # Remarks for measuring coverage.  Only two of the four know a whole file.
    for words in (b"v8 ignore", b"c8 ignore", b"node:coverage", b"istanbul ignore"):
        if rest.startswith(words):
            for whole_file in (b"v8 ignore file", b"istanbul ignore file"):
                if followed_by_blank_or_end(rest, whole_file):
                    return COVERAGE_IGNORE_FILE
            return COVERAGE_IGNORE

    # Remarks about calls.
    if rest.startswith(b"@__PURE__") or rest.startswith(b"#__PURE__"):
        return PURE_NOT_APPLIED
    if rest.startswith(b"@__NO_SIDE_EFFECTS__") or rest.startswith(b"#__NO_SIDE_EFFECTS__"):
        return NO_SIDE_EFFECTS_NOT_APPLIED

    # A licence that is named further inside.
    return LEGAL if is_licensed(content) else NONE


# ---------------------------------------------------------------------------
# What stands between tokens

LINE_TERMINATOR_BYTES = re.compile(b"\n|\r|\xE2\x80\xA8|\xE2\x80\xA9")


def scan_gap(text, place):
    """The pieces from this place on, the place where they end, and whether an
    unterminated block begins there.

    A piece is one of
        ("comment", start, end, kind)
        ("newline",)
        ("space", start, end)
    in the order of the text.  Plain spaces and tabs leave no piece behind.
    A line comment takes the line terminator after it along, without a trace.
    """
    pieces = []
    while place < len(text):
        char = char_at(text, place)
        after = place + len(char.encode("utf-8"))

        if char in (" ", "\t"):
            place = after

        elif char in LINE_TERMINATORS:
            pieces.append(("newline",))
            if char in IRREGULAR_LINE_TERMINATORS:
                pieces.append(("space", place, after))
            place = after

        elif char in IRREGULAR_SPACES:
            pieces.append(("space", place, after))
            place = after

        elif text.startswith(b"//", place):
            terminator = LINE_TERMINATOR_BYTES.search(text, place + 2)
            if terminator is None:
                pieces.append(("comment", place, len(text), LINE))
                place = len(text)
            else:
                pieces.append(("comment", place, terminator.start(), LINE))
                place = terminator.end()

        elif text.startswith(b"/*", place):
            closing = text.find(b"*/", place + 2)
            if closing == -1:
                return pieces, place, True
            inside = text[place + 2:closing]
            many = LINE_TERMINATOR_BYTES.search(inside) is not None
            kind = MULTI_LINE_BLOCK if many else SINGLE_LINE_BLOCK
            pieces.append(("comment", place, closing + 2, kind))
            place = closing + 2

        else:
            break
    return pieces, place, False


# ---------------------------------------------------------------------------
# Tokens

# The longest number of JSON from a place.  A zero can't be followed by more
# digits of the whole part, and a point, or an e, needs digits after it.
NUMBER = re.compile(rb"-?(?:0|[1-9][0-9]*)(?:\.[0-9]+)?(?:[eE][+-]?[0-9]+)?")

LETTERS = re.compile(rb"[A-Za-z]+")


def string_end(text, place):
    """Where the string that opens at this place ends, or None."""
    here = place + 1
    while here < len(text):
        byte = text[here]
        if byte == ord('"'):
            return here + 1
        if byte == ord("\\"):
            here += 2           # whatever the next byte is
        elif byte < 32:
            return None
        else:
            here += 1
    return None


def token_at(text, place):
    """The token of JSON at this place: its kind and its end, or None.

    Of the kinds, attaching only ever asks for the colon and for the end of the
    text.  No other token of JSON continues an expression or opens a bracket
    or an assignment as JavaScript knows them.
    """
    here = text[place:place + 1]
    if here in (b"{", b"}", b"[", b"]", b","):
        return "punctuation", place + 1
    if here == b":":
        return "colon", place + 1
    if here == b'"':
        end = string_end(text, place)
        return None if end is None else ("string", end)
    letters = LETTERS.match(text, place)
    if letters is not None:
        if letters.group() in (b"true", b"false", b"null"):
            return "word", letters.end()
        return None
    number = NUMBER.match(text, place)
    if number is not None:
        return "number", number.end()
    return None


# ---------------------------------------------------------------------------
# Attaching comments to tokens

class Comment:
    def __init__(self, start, end, kind, content_class, newline_before):
        self.start = start
        self.end = end
        self.kind = kind
        self.content_class = content_class
        self.position = LEADING
        self.target = 0
        self.newline_before = newline_before
        self.newline_after = False

    def stays_leading(self):
        return self.content_class in STAYS_LEADING

    def attach(self, position, target):
        self.position = position
        self.target = target


class Builder:
    """Takes comments, newlines and tokens in the order of the text."""

    def __init__(self):
        self.comments = []
        self.attached = 0       # the comments before this one are attached
        self.newline_since_token = True
        self.newline_since_token_or_comment = True
        self.previous_kind = None       # no token yet
        self.previous_end = 0

    def pending(self):
        return self.comments[self.attached:]

    def attach_pending_to_previous(self):
        for comment in self.pending():
            comment.attach(TRAILING, self.previous_end)
        self.attached = len(self.comments)

    def on_comment(self, text, start, end, kind):
        content = text[start + 2:end] if kind == LINE else text[start + 2:end - 2]
        comment = Comment(start, end, kind, class_of(kind, content),
                          self.newline_since_token_or_comment)
        self.comments.append(comment)
        if kind == LINE:
            # A line ends after it, even at the end of the text.
            comment.newline_after = True
            follows_token = (not self.newline_since_token
                             and self.previous_kind != "colon"
                             and not comment.stays_leading())
            self.newline_since_token = True
            self.newline_since_token_or_comment = True
            if follows_token:
                # It takes along all comments waiting before it.
                self.attach_pending_to_previous()
        else:
            # A line terminator inside a block is no newline here.
            self.newline_since_token_or_comment = False

    def on_newline(self):
        waiting = self.pending()
        if waiting:
            last = waiting[-1]
            last.newline_after = True
            if not self.newline_since_token and not last.stays_leading():
                self.attach_pending_to_previous()
        self.newline_since_token = True
        self.newline_since_token_or_comment = True

    def on_token(self, kind, start, end):
        for comment in self.pending():
            # Only the end of the text lets comments look back: no token of
            # JSON continues the expression before it.
            if (kind == "end" and self.previous_kind is not None
                    and not comment.newline_before
                    and not comment.stays_leading()):
                comment.attach(TRAILING, self.previous_end)
            else:
                comment.attach(LEADING, start)
        self.attached = len(self.comments)
        self.newline_since_token = False
        self.newline_since_token_or_comment = False
        self.previous_kind = kind
        self.previous_end = end


# ---------------------------------------------------------------------------
# Reading a text to its end

def read_all(text):
    """The lines that the program prints for this text."""
    if len(text) > LONGEST_TEXT:
        raise Refused(TEXT_TOO_LONG)
    try:
        text.decode("utf-8", "strict")
    except UnicodeDecodeError:
        raise Refused(TEXT_NOT_UTF8) from None

    builder = Builder()
    spaces = []
    tokens = 0
    place = 0
    unterminated = None

    while True:
        # Look first, without writing anything down.
        pieces, gap_end, is_unterminated = scan_gap(text, place)
        if is_unterminated or gap_end == len(text):
            kind, end = "end", len(text)
        else:
            told = token_at(text, gap_end)
            if told is None:
                raise Refused(NO_TOKEN_THERE)
            kind, end = told
        new_comments = sum(piece[0] == "comment" for piece in pieces)
        new_spaces = sum(piece[0] == "space" for piece in pieces)
        if len(builder.comments) + new_comments > COMMENT_ROWS:
            raise Refused(COMMENTS_DO_NOT_FIT)
        if len(spaces) + new_spaces > SPACE_ROWS:
            raise Refused(SPACES_DO_NOT_FIT)
        if tokens == TOKEN_ROWS:
            raise Refused(NO_TOKEN_ROW_FREE)

        # Everything fits: write it down.
        for piece in pieces:
            if piece[0] == "comment":
                builder.on_comment(text, *piece[1:])
            elif piece[0] == "newline":
                builder.on_newline()
            else:
                spaces.append(piece[1:])
        builder.on_token(kind, gap_end, end)
        tokens += 1
        place = end
        if kind == "end":
            if is_unterminated:
                unterminated = (gap_end, end)
            break

    # The listing.
    lines = []
    for c in builder.comments:
        lines.append("C %d %d %d %d %d %d %d %d" % (
            c.start, c.end, c.kind, c.content_class, c.position, c.target,
            c.newline_before, c.newline_after))
    for start, end in spaces:
        lines.append("W %d %d" % (start, end))
    if unterminated is not None:
        lines.append("U %d %d" % unterminated)
    in_comments = sum(c.end - c.start for c in builder.comments)
    share = in_comments * 1000 // len(text) if text else 0
    lines.append("E %d %d %d %d" % (len(builder.comments), len(spaces), in_comments, share))
    return lines


def printed(text):
    try:
        return read_all(text)
    except Refused as refusal:
        return ["R %d" % refusal.number]


# ---------------------------------------------------------------------------
# The list of cases

NAME_FORM = re.compile(r"[a-z0-9_]+\Z")
FIELD_FORM = re.compile(r"((?:[0-9A-F]{2})+)(?:\*([1-9][0-9]*))?\Z")


def cases(lines):
    """The name and the text of each case."""
    for number, line in enumerate(lines, 1):
        line = line.rstrip("\n")
        if line == "" or line.startswith("#"):
            continue
        name, *fields = line.split(" ")
        if NAME_FORM.match(name) is None:
            sys.exit("line %d: not a name: %r" % (number, name))
        text = b""
        for field in fields:
            form = FIELD_FORM.match(field)
            times = int(form.group(2) or "1") if form is not None else 0
            if not 1 <= times <= 40000:
                sys.exit("line %d: not a field: %r" % (number, field))
            text += bytes.fromhex(form.group(1)) * times
        yield name, text


def main():
    out = []
    for name, text in cases(sys.stdin):
        out.append("= " + name)
        out.extend(printed(text))
    sys.stdout.write("".join(line + "\n" for line in out))


if __name__ == "__main__":
    main()
