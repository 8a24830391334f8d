"""Prints the cases for the leaf scanners: the leaf, four numbers that it may take, and its text in hex ('-' for none)."""
import random

BLANKS = [0x9, 0xA, 0xB, 0xC, 0xD, 0x20, 0x85, 0xA0, 0x1680, *range(0x2000, 0x200B), 0x2028, 0x2029, 0x202F, 0x205F, 0x3000]
NEAR = sorted({c + d for c in BLANKS for d in (-1, 1)} | {0x180E, 0x200B, 0x2060, 0xFEFF} - set(BLANKS))
MONTHS = "January February March April May June July August September October November December".split()
DAYS = "Monday Tuesday Wednesday Thursday Friday Saturday Sunday".split()
ZONES = "UT GMT EDT EST CDT CST MDT MST PDT PST".split()
MINUS = "\u2212"

seen = set()


def case(leaf, text, *args):
    data = text if isinstance(text, bytes) else text.encode()
    row = f"{leaf} {' '.join(str(a) for a in (list(args) + [0] * 4)[:4])} {data.hex() or '-'}"
    if row not in seen:
        seen.add(row)
        print(row)


def limits():
    for leaf in ("text", "blanks", "non_blanks", "space", "colon_or_space", "nanosecond", "short_month0", "short_weekday",
                 "short_or_long_month0", "short_or_long_weekday", "timezone_offset_2822", "comment_2822"):
        for text in ("", " ", "a", "\u00e9", "\u3000"):
            case(leaf, text)
    for c in BLANKS + NEAR:
        for leaf in ("blanks", "non_blanks", "space", "colon_or_space"):
            for text in (chr(c), chr(c) + "x", "x" + chr(c), " " + chr(c) + ":", chr(c) * 2 + ": z"):
                case(leaf, text)
    for bad in (b"\x80", b"\xc0\x80", b"\xc1\xbf", b"\xc2", b"\xe0\x80\x80", b"\xe0\x9f\xbf", b"\xed\xa0\x80", b"\xed\xbf\xbf", b"\xf0\x80\x80\x80",
                b"\xf0\x8f\xbf\xbf", b"\xf4\x90\x80\x80", b"\xf5\x80\x80\x80", b"\xf8\x88\x80\x80\x80", b"\xff", b"\xe2\x88", b"\xf0\x9f\x98", b"\xc2\x41"):
        for front in ("", "a", "\u00e9\u20ac", "\U0001f600 "):
            case("text", front.encode() + bad)
            case("text", front.encode() + bad + b"abcd")
    for good in ("\x00", "\x7f", "\x80", "\u07ff", "\u0800", "\ud7ff", "\ue000", "\uffff", "\U00010000", "\U0010ffff"):
        case("text", good)
        case("text", "a" + good + "b")
    for c in ":x\u00e9":
        for text in ("", c, c + "z", "z" + c, "::"):
            case("char", text, ord(":"))
            case("char", text, ord("x"))


def digits():
    for n in list(range(0, 24)) + [40]:
        for d in "0159":
            for low, high in ((0, 0), (0, 4), (1, 1), (1, 2), (1, 4), (1, 9), (2, 2), (2, 2**64 - 1), (1, 2**64 - 1), (19, 20)):
                case("number", d * n, low, high)
                case("number", d * n + "x", low, high)
                case("number", d * n + "\u0663", low, high)
            for tail in ("", "x", " 7", "\u0663"):
                case("nanosecond", d * n + tail)
                for k in (3, 6, 9):
                    case("nanosecond_fixed", d * n + tail, k)
    for text in ("9223372036854775807", "9223372036854775808", "09223372036854775807", "92233720368547758070", "18446744073709551616", "922337203685477580x"):
        for low, high in ((1, 18), (1, 19), (1, 20), (1, 2**64 - 1), (20, 20), (21, 30)):
            case("number", text, low, high)
    for text in ("123456789", "1234567899", "000000001", "0000000001", "999999999", "9999999999", ".5", "-5", "1", "12", "123"):
        case("nanosecond", text)
        for k in (3, 6, 9):
            case("nanosecond_fixed", text, k)


def words():
    for name in MONTHS + DAYS + ["Foo", "Janx", "Mai", "Sept", "Tues", "Thurs"]:
        for text in (name, name.lower(), name.upper(), name.swapcase(), name + "s", name[:-1], name[:3], name[:2], name[:4], name[:3] + "\u00e9", name[:2] + "\u00e9", " " + name):
            for leaf in ("short_month0", "short_or_long_month0", "short_weekday", "short_or_long_weekday"):
                case(leaf, text)


def offsets():
    texts = ["", "Z", "z", "Zx", "+", "-", MINUS, "+0", "+09", "-09", MINUS + "09", "+0930", "-0930", MINUS + "0930", "+09:30", "-09:30", MINUS + "09:30", "+09 30", "+09: 30", "+09\u300030",
             "+09::30", "+9:30", "+09:3", "+09:", "+09 ", "+09 7", "+0959", "+0960", "+0969", "+0999", "+09a0", "+096a", "+095a", "+09:60", "+9999", "+9959", "-0000", "0930", " +0930", "+0930x",
             "+09:30:15", "\u00b10930", "+\u0660\u0669", "+0\u00e9", "+09\u00e9\u00e9", "+ 0930", "++0930", "utc", "+09:30 (a)", "\u2213", "\ufe63" + "0930", "+0 930"]
    for text in texts:
        for sep in range(3):
            for flags in range(8):
                case("timezone_offset", text, sep, flags >> 2 & 1, flags >> 1 & 1, flags & 1)
        case("timezone_offset_2822", text)
    for name in ZONES + [chr(c) for c in range(65, 91)] + ["CET", "ESTX", "UTC", "ES", "E ST"]:
        for text in (name, name.lower(), name.swapcase(), name + "1", name + " x", name + "\u00e9"):
            case("timezone_offset_2822", text)


def comments():
    for text in ("()", "(a)", "( a )", "(a (b))", "(a (b)) c", "((()))", "((())", "(a\\)b)", "(a\\(b)", "(\\\\)", "(\\", "(\\)", ")", "(", " (a)", "\u3000\t(a)", "(\u00e9)", "(\\\u00e9)", "()()",
                 "a()", "\\()", " ", "(a) (b)", "(\u20ac(\\\u20ac)\U0001f600)x"):
        case("comment_2822", text)


def damaged(count):
    rng = random.Random(2822)
    leaves = [("blanks",), ("non_blanks",), ("space",), ("colon_or_space",), ("nanosecond",), ("nanosecond_fixed", 3), ("nanosecond_fixed", 9), ("number", 1, 2), ("number", 2, 9),
              ("short_month0",), ("short_or_long_month0",), ("short_weekday",), ("short_or_long_weekday",), ("timezone_offset", 2, 1, 1, 1), ("timezone_offset", 1, 0, 0, 1),
              ("timezone_offset", 0, 0, 0, 0), ("timezone_offset_2822",), ("comment_2822",), ("text",), ("char", ord("+"))]
    good = ["+09:30", "-0700", MINUS + "08 15", "Z", "EST", "gmt (a)", "(a (b\\)) c)", "123456789012", "07", "Sep", "september", "Tue", "Wednesday", " \t\u3000: x", "abc \u2028", "(()(\\())"]
    alphabet = "+-:() \\Zz059aejnsu\u2212\u3000\u00e9\u0663"
    for _ in range(count):
        text = bytearray(rng.choice(good).encode())
        for _ in range(rng.randrange(3)):
            at = rng.randrange(len(text) + 1)
            kind = rng.randrange(4)
            if kind == 0:
                text[at:at] = rng.choice(alphabet).encode()
            elif kind == 1:
                del text[at:at + 1]
            elif kind == 2:
                text[at:at + 1] = rng.choice(alphabet).encode()
            else:
                del text[at:]
        leaf, *args = rng.choice(leaves)
        case(leaf, bytes(text), *args)


limits()
digits()
words()
offsets()
comments()
damaged(6000)
