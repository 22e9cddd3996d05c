#!/usr/bin/env python3
"""Writes the cases for the pieces of a gap, for hashbang lines, for the tokens
of JSON, or for recorded lists.

    python3 gen_scan.py pieces > FILE
    python3 gen_scan.py hashbang > FILE
    python3 gen_scan.py json > FILE
    python3 gen_scan.py recorded > FILE
    python3 gen_scan.py pieces SEED COUNT > FILE    (so many random texts alone; the others likewise)

All short texts over a small alphabet come first, then families that vary one
thing at a time, then random texts from a fixed seed, so that the files are the
same on every run.  The form of the files is that of docs/FORMATS.md, section 3;
a case of recorded lists has two fields, as section 4 there says.
"""

import itertools
import random
import sys

LS = "\u2028"
PS = "\u2029"
TERMINATORS = ["\n", "\r", LS, PS]
# Characters that begin with the byte E2 as LS and PS do, and are no line terminators.
NEAR_LS = ["\u2027", "\u202A", "\u20AC", "\u2068", "\u2000", "\u2FFF"]
WHITE = [" ", "\t", "\u00A0", "\uFEFF", "\u000B", "\u000C", "\u1680", "\u2003", "\u202F", "\u205F", "\u3000"]

seen = set()
lines = []


def group(title):
    lines.append("# " + title)


def to_bytes(part):
    return part.encode("utf-8") if isinstance(part, str) else part


def case(family, *parts):
    """A part is a string, bytes, or a pair of one of these and a count.  A text that was there before is left out."""
    fields = []
    text = b""
    for part in parts:
        made, times = part if isinstance(part, tuple) else (part, 1)
        made = to_bytes(made)
        if made == b"" or times == 0:
            continue
        text += made * times
        fields.append(made.hex().upper() + ("*%d" % times if times > 1 else ""))
    if text in seen:
        return
    seen.add(text)
    lines.append(" ".join(["%s%d" % (family, len(seen))] + fields))


def all_texts(alphabet, longest):
    for length in range(longest + 1):
        for chars in itertools.product(alphabet, repeat=length):
            yield "".join(chars)


# ---------------------------------------------------------------------------
# Pieces

GAP_ALPHABET = ["/", "*", "\n", "\r", LS, PS, " ", "\t", "\u00A0", "\uFEFF", "\u000B", "x", "\u2027", "\u20AC", "!"]
GAP_WEIGHTS = [6, 6, 2, 1, 1, 1, 2, 1, 1, 1, 1, 3, 2, 1, 1]


def pieces():
    # Past one batch of the search, which is 32 bytes, and around the end of the second.
    offsets = [*range(37), *range(60, 68)]
    # Around the beginnings and ends of batches alone.
    edges = [0, 1, 2, 3, 28, 29, 30, 31, 32, 33, 34, 61, 62, 63, 64, 65, 66]

    group("all texts of up to 3 characters")
    for text in all_texts(GAP_ALPHABET, 3):
        case("short", text)

    group("each character of ASCII, and others one by one")
    others = [chr(c) for c in range(0x2000, 0x2070)]
    others += ["\u0085", "\u00A0", "\u00A1", "\u00AD", "\u00C0", "\u1680", "\u1681", "\u180E", "\u2FFF", "\u3000", "\u3001",
               "\uFEFE", "\uFEFF", "\uFF00", "\uFFFD", "\uFFFE", "\uFFFF", "\U0001F511", "\U0010FFFF"]
    for char in [chr(c) for c in range(128)] + others:
        case("char", char, "1")
    for char in others:
        case("char", "//", char, "x")
        case("char", "/*", char, "*/")

    group("the end of a block at every offset")
    for filler in ["x", "*", "/", "\u20AC", "\u2027", "\n"]:
        for n in offsets:
            case("end", "/*", (filler, n), "*/", "1")
            case("end", "/*", (filler, n), "*")
            case("end", "/*", (filler, n), "/")

    group("a line terminator at every offset of a comment")
    for terminator in TERMINATORS:
        for n in offsets:
            case("line", "//", ("x", n), terminator, "1")
            case("break", "/*", ("x", n), terminator, ("y", 33), "*/", "1")
            case("open", "/*", ("x", n), terminator, "*")

    group("characters that look like a line terminator, at the edges of a batch")
    for char in NEAR_LS:
        for n in edges:
            case("near", "//", ("x", n), char, "y\n", "1")
            case("near", "/*", ("x", n), char, "*/", "1")

    group("runs of white space after a line break")
    for n in edges:
        for char in [" ", "\t", "\n", "\r\n"]:
            case("run", "\n", (char, n), "1")
            case("run", "\r", (char, n), LS, "\t", "1")
        case("run", (" ", n), "//")

    group("stars and slashes")
    for text in all_texts(["*", "/"], 5):
        case("star", "/*", text, "x")
        case("star", "/*", text, "\n*/x")

    group("texts that end in the middle of everything, also of a character")
    whole = [
        " //a\u20ac\r\n/*b*/\t/*c" + LS + "**/" + PS + "\u000b// d" + LS + "\ufeff/**/x",
        "/* /* // */ // /* */" + PS + "\r/*/ \u2027 */\u00a0\n\n  //" + LS,
        "// \U0001F511 \u2029/*\U0001F511*/\u3000/***//*\r*/ /",
    ]
    for text in whole:
        text = text.encode("utf-8")
        for length in range(len(text)):
            case("cut", text[:length])

    group("not UTF-8")
    for bad in [b"\xFF", b"\x80", b"\xC0\xAF", b"\xE2\x80", b"\xED\xA0\x80", b"\xF4\x90\x80\x80", b"\xE2\x28\xA8"]:
        case("bad", bad)
        case("bad", b"//", bad, b"\n")
        case("bad", b"/*", bad, b"*/")

    group("random texts")
    random_pieces(random.Random(6012), 1600)


def random_pieces(chance, count):
    for _ in range(count // 2):
        case("mixed", random_text(chance))
        case("gap", random_gap(chance))


def random_text(chance):
    """A comment's beginning, and then slashes, stars and all the rest."""
    text = chance.choice(["", "/*", "//", "/*", " /*", "\n//"])
    return text + "".join(chance.choices(GAP_ALPHABET, GAP_WEIGHTS, k=chance.randint(2, 57)))


def random_gap(chance):
    """Pieces one after another, then perhaps a blow to one character, and perhaps cut off."""
    text = ""
    limit = chance.randint(4, 60)
    while len(text) < limit:
        text += random_piece(chance)
    text = text[:60]
    at = chance.randrange(len(text))
    blow = chance.randrange(6)
    if blow == 0:
        text = text[:at] + text[at + 1:]
    elif blow == 1:
        text = text[:at] + chance.choice("/*x\n\r\u2028\u2029") + text[at + 1:]
    elif blow == 2:
        text = text[:at] + chance.choice("/*x\n\r\u2028\u2029") + text[at:]
    elif blow == 3:
        text = text[:at]
    return text


def random_piece(chance):
    inside = ["x", "!", "/", "*", " ", "\u00A0", "\uFEFF", "//", "/*", "**"] + NEAR_LS
    form = chance.randrange(8)
    if form < 2:
        return "//" + "".join(chance.choices(inside, k=chance.randint(0, 9))) + chance.choice(TERMINATORS)
    if form < 4:
        return "/*" + "".join(chance.choices(inside, k=chance.randint(0, 9))).replace("*/", "*x") + "*/"
    if form == 4:
        return "/*" + "".join(chance.choices(inside + TERMINATORS, k=chance.randint(1, 9))) + "*/"
    if form == 5:
        return chance.choice(TERMINATORS) + chance.choice(["", " ", "\t\r\n", "\n", "   "])
    if form == 6:
        return chance.choice(WHITE) * chance.randint(1, 3)
    return chance.choice([" ", "\t", "\n", LS])


# ---------------------------------------------------------------------------
# Tokens of JSON

JSON_ALPHABET = ["-", "0", "1", ".", "e", "E", "+", '"', "\\", "a", "\n", "t"]


def hashbangs():
    group("texts that begin with `#!`, and others")
    for opening in ["#!", "#", "!", "", "##!", " #!", "\uFEFF#!", "#\u00A0!"]:
        for tail in ["", "x", "!", "#!", "//x", "/*x*/"] + TERMINATORS + NEAR_LS + WHITE:
            for last in ["", "\n1", "1" + LS]:
                case("bang", opening + tail + last)
    for terminator in TERMINATORS:
        for near in NEAR_LS:
            case("bang", "#!" + near * 3 + terminator + near)
    for bad in [b"#!\xFF", b"#!\xE2\x80", b"\xFF#!"]:
        case("bang", bad)

    group("random texts")
    random_hashbangs(random.Random(2027), 300)


def random_hashbangs(chance, count):
    for _ in range(count):
        case("random", chance.choice(["#!", "#!", "#!", "#"]) + random_text(chance))


def json_tokens():
    chance = random.Random(8259)

    group("all texts of up to 3 characters, and some of 4")
    for text in all_texts(JSON_ALPHABET, 3):
        case("short", text)
    four = ["".join(chars) for chars in itertools.product(JSON_ALPHABET, repeat=4)]
    for text in chance.sample(four, 1500):
        case("four", text)

    group("each character of ASCII by itself, in a string, after a backslash, after a name and after a number")
    for code in range(128):
        char = chr(code)
        case("char", char)
        case("char", '"', char, '"')
        case("char", '"\\', char, '"')
        case("char", "true", char)
        case("char", "10", char, "5")
        case("char", char, "1")

    group("characters beyond ASCII")
    for char in ["\u0085", "\u00A0", "\u00E9", "\u00B2", "\u0131", "\u0661", "\u0967", "\u2028", "\u2029", "\u212A", "\u2212",
                 "\u3000", "\uFEFF", "\uFF11", "\uFF0D", "\uFF54", "\uFFFD", "\U0001D7CF", "\U0001F511", "\U0010FFFF"]:
        case("far", char)
        for before in ["true", "null", "1", "-", "-1", "0", "1.", "1.5", "1e", "1e+", "1e2"]:
            case("far", before, char)
            case("far", before, char, "1")
        case("far", '"', char, '"x')
        case("far", '"\\', char, '"x')
        case("far", '"\\', char)
        case("far", '"', (char, 5))

    group("names, their prefixes, and what looks like them")
    for word in ["true", "false", "null", "NaN", "Infinity", "-Infinity", "undefined", "truefalse", "nullnull"]:
        for length in range(1, len(word) + 1):
            case("name", word[:length])
        for at in range(len(word)):
            case("name", word[:at], word[at].swapcase(), word[at + 1:])
            case("name", word[:at], word[at + 1:])
        for after in ["x", "X", "1", "_", "$", ",", " ", '"', "-", ".", "\n", "@", "[", "`", "{", "\\"]:
            case("name", word, after)

    group("structural characters")
    for char in "[{]}:,":
        for after in ["[", "1", '"', " ", "\n", "\u00E9"]:
            case("struct", char, after)
            case("struct", after, char)

    group("long ones")
    for n in [10, 100, 300]:
        case("long", ("7", n), "x")
        case("long", "-0.", ("0", n), "e")
        case("long", "1e-", ("0", n))
        case("long", '"', ("a", n), '"', "a")
        case("long", '"', ("\u20AC", n))
        case("long", '"', ("\\\\", n), '"', "a")
        case("long", '"', ("\\", n + 1), '"', "a")
        case("long", '"', ('\\"', n), '"', "a")
        case("long", ("t", n))

    group("random numbers and strings")
    random_tokens(chance, 1500)


def random_tokens(chance, count):
    for _ in range(count // 3):
        case("number", random_number(chance))
        case("string", random_string(chance))
        case("string", random_string(chance))


def random_number(chance):
    def digits():
        return "".join(chance.choices("0123456789", k=chance.randint(1, 6)))

    text = chance.choice(["", "-"]) + chance.choice(["0", digits().lstrip("0") or "5"])
    if chance.random() < 0.5:
        text += "." + digits()
    if chance.random() < 0.6:
        text += chance.choice("eE") + chance.choice(["", "+", "-"]) + digits()
    text += chance.choice(["", "", "x", ".", "e", "e-", "-1", "E+x", ",", " ", "\n", '"', "\u0661"])
    return strike(chance, text, "-+.eE019x") if chance.random() < 0.5 else text


def random_string(chance):
    plain = ["a", "/", "'", " ", "\x7F", "\u00E9", "\u2028", "\u20AC", "\U0001F511", "{", "//"]
    good = ['\\"', "\\\\", "\\/", "\\b", "\\f", "\\n", "\\r", "\\t", "\\u0041", "\\uD83D\\uDD11", "\\uDEAD", "\\uaBcD"]
    bad = ["\\q", "\\u12", "\\u12G4", "\\x41", "\\0", "\\'", "\\\n", "\\\u00E9", "\\U0041", "\\u", "\\\x00"]
    control = ["\n", "\t", "\x00", "\x1F", "\r"]
    weights = [4] * len(plain) + [3] * len(good)
    parts = plain + good
    # A third each: only what the library takes, escapes that it rejects too, and control characters too.
    manner = chance.randrange(3)
    if manner == 1:
        parts, weights = parts + bad, weights + [2] * len(bad)
    elif manner == 2:
        parts, weights = parts + control, weights + [2] * len(control)
    text = '"' + "".join(chance.choices(parts, weights, k=chance.randint(0, 14)))
    text += chance.choice(['"', '"', '"', '"a', '""', "", "\\", '\\"', '"\\'])
    return strike(chance, text, '"\\n\n') if chance.random() < 0.2 else text


def strike(chance, text, chars):
    """One character left out, changed or put in."""
    at = chance.randrange(len(text))
    after = at + chance.randrange(2)
    return text[:at] + chance.choice(["", chance.choice(chars)]) + text[after:]


# ---------------------------------------------------------------------------
# Recorded lists

MARK = b"T "


def record(kind, start, end, mark=MARK):
    """A record of 11 bytes; places are cut off at 32 bits."""
    return mark + bytes([kind]) + b"".join((place % 2 ** 32).to_bytes(4, "little") for place in (start, end))


def field(bytes_):
    return bytes_.hex().upper() or "-"


def recorded_case(family, text, *records):
    """A text, or its field, and the parts of the list."""
    fields = text if isinstance(text, str) else field(text)
    fields += " " + field(b"".join(records))
    if fields not in seen:
        seen.add(fields)
        lines.append("%s%d %s" % (family, len(seen), fields))


def recorded():
    ab = b"ab cd"
    # One character of each length: it begins at 0, 1, 3 and 6, and the text ends at 10.
    wide = "a\u00E9\u20AC\U0001F511".encode("utf-8")

    group("no record")
    for text in [b"", b"a", wide]:
        recorded_case("none", text)
        for length in range(1, 11):
            recorded_case("none", text, record(4, 0, 1)[:length])

    group("the kind")
    for kind in [0, 1, 2, 3, 4, 5, 100, 127, 128, 160, 167, 168, 169, 170, 254, 255]:
        recorded_case("kind", ab, record(kind, 0, 2))
        recorded_case("kind", ab, record(kind, 0, 2), record(5, 0, 1))

    group("the mark")
    for mark in [b"T\t", b"t ", b" T", b"T\0", b"\0 ", b"TT", b"  ", b"T\xA0", b"\xD4 ", b"U ", b"T!"]:
        recorded_case("mark", ab, record(4, 0, 2, mark))
        recorded_case("mark", ab, record(4, 0, 2, mark), record(5, 0, 1), record(6, 3, 5))
        recorded_case("mark", ab, record(6, 3, 5), record(4, 0, 2, mark), record(5, 0, 1))

    group("start and end")
    for text in [b"", b"a", ab, wide]:
        places = range(len(text) + 2)
        for start in places:
            for end in places:
                recorded_case("places", text, record(4, start, end))
    for place in [255, 256, 257, 65536, 2 ** 24, 2 ** 24 + 1, 2 ** 31, 2 ** 31 + 1, 2 ** 32 - 2, 2 ** 32 - 1]:
        recorded_case("far", ab, record(4, place, place + 1), record(5, 0, 1))
        recorded_case("far", ab, record(4, 0, place), record(5, 0, 1))
        recorded_case("far", ab, record(4, place, 1), record(5, 0, 1))
        recorded_case("far", ab, record(4, place, place), record(5, 0, 1))
    for times in [254, 255, 256, 257, 600]:
        recorded_case("long", "61*%d" % times, *(record(7, at, at + 1) for at in [0, 1, 254, 255, 256, 511, 512, 599]))
    for times in [32767, 32768, 32769, 40000]:
        recorded_case("long", "6162*%d" % times, *(record(8, at, at + 2) for at in [65533, 65534, 65535, 65536, 65537, 79998]))
    recorded_case("long", "E282AC*30000", *(record(9, at, at + 3) for at in [0, 3, 65535, 65536, 65538, 89997, 89998]))

    group("records that start at one place, in both orders")
    several = [record(4, 0, 2), record(5, 0, 1), record(6, 0, 5), record(7, 3, 5), record(8, 3, 4),
               record(3, 0, 2), record(4, 0, 0), record(4, 0, 6), record(169, 3, 5), record(4, 0, 2, b"T\t")]
    for one in several:
        for other in several:
            recorded_case("order", ab, one, other)
    for three in itertools.permutations(several[3:6] + several[8:], 3):
        recorded_case("order", ab, *three)

    group("records that do not begin at a multiple of 11")
    good = [record(4, 0, 2), record(5, 3, 5), record(6, 1, 2)]
    for length in range(1, 12):
        recorded_case("shift", ab, bytes(length), *good)
        recorded_case("shift", ab, good[0], bytes(length), *good[1:])
        recorded_case("shift", ab, (b"T " * 6)[:length], *good)
        recorded_case("shift", ab, *good, record(7, 4, 5)[:length])
        recorded_case("shift", ab, good[0][length:], *good[1:])

    group("not UTF-8")
    for bad in [b"\xFF", b"a\x80", b"\xE2\x82", b"\xED\xA0\x80"]:
        recorded_case("bad", bad, record(4, 0, 1))

    group("random lists")
    random_lists(random.Random(1611), 300)


def random_lists(chance, count):
    chars = ["a", "b", " ", "\n", "\u00E9", "\u20AC", "\U0001F511"]
    for _ in range(count):
        text = "".join(chance.choices(chars, k=chance.randint(0, 7))).encode("utf-8")
        records = [random_record(chance, len(text)) for _ in range(chance.randint(0, 6))]
        if chance.random() < 0.2:
            at = chance.randint(0, len(records))
            records.insert(at, bytes(chance.choices(b"T \x04\0\1", k=chance.randint(1, 10))))
        recorded_case("random", text, *records)


def random_record(chance, length):
    start, end = chance.randint(0, length), chance.randint(0, length + 1)
    if chance.random() < 0.7 and end < start:
        start, end = end, start
    kind = chance.choice([3, 169]) if chance.random() < 0.1 else chance.randint(4, 168)
    made = record(kind, start, end)
    if chance.random() < 0.1:
        at = chance.randrange(11)
        made = made[:at] + bytes([chance.randrange(256)]) + made[at + 1:]
    return made


def main():
    families = {"pieces": (pieces, random_pieces), "hashbang": (hashbangs, random_hashbangs), "json": (json_tokens, random_tokens), "recorded": (recorded, random_lists)}
    if len(sys.argv) not in (2, 4) or sys.argv[1] not in families:
        sys.exit("usage: gen_scan.py pieces|hashbang|json|recorded [SEED COUNT]")
    whole, at_random = families[sys.argv[1]]
    if len(sys.argv) == 2:
        whole()
    else:
        at_random(random.Random(int(sys.argv[2])), int(sys.argv[3]))
    sys.stdout.write("".join(line + "\n" for line in lines))


if __name__ == "__main__":
    main()
