#!/usr/bin/env python3
"""Writes crates/trials/data, the trials of the program orders, and crates/trials/stdout, what they must print.

The answers come from the rules as written here, apart from the Rattle and the Rust programs; those of the cases
made by hand are written beside their lines too, and the two must agree. Every run writes the same bytes.
"""
import re
from pathlib import Path

# ---- the rules ----

NUMBER = rb"(0|[1-9][0-9]{0,4})"
FORMS = re.compile(rb"(I)|(C) %b|([ESHR]) %b %b" % (NUMBER, NUMBER, NUMBER))


class Refused(Exception):
    pass


def require(holds, number):
    if not holds:
        raise Refused(number)


def read_book(data):
    require(len(data) >= 4, 14)
    n = int.from_bytes(data[0:2], "little")
    d = int.from_bytes(data[2:4], "little")
    require(1 <= n <= 1024, 1)
    require(d <= 2048, 15)
    require(len(data) == 4 + 4 * d, 14)
    numbers = [data[i] + 256 * data[i + 1] for i in range(4, len(data), 2)]
    before = (-1, -1)
    for u, v in zip(numbers[:d], numbers[d:]):
        require(u < n and v < n, 2)
        require(u != v, 3)
        require((u, v) > before, 16)
        before = (u, v)
    return n, set(zip(numbers[:d], numbers[d:]))


class Shop:
    def __init__(self, n, standing):
        self.n, self.standing, self.holds, self.current = n, set(standing), {}, False

    def enter(self, u, v):
        require(max(u, v) < self.n, 2)
        require(u != v, 3)
        require((u, v) not in self.standing, 4)
        require(len(self.standing) < 2048, 5)
        self.standing.add((u, v))
        self.current = False

    def strike(self, u, v):
        require(max(u, v) < self.n, 2)
        require((u, v) in self.standing, 6)
        self.standing.remove((u, v))
        self.current = False

    def hold(self, m, p):
        require(m < self.n, 2)
        require(m not in self.holds, 9)
        require(len(self.holds) < 64, 10)
        self.holds[m] = p

    def release(self, m, p):
        require(m < self.n, 2)
        require(m in self.holds, 11)
        require(self.holds[m] == p, 12)
        del self.holds[m]

    def order(self, m):
        """Every model that leads to m, found from m backwards; the lowest held one stops the order."""
        require(m < self.n, 2)
        require(self.current, 13)
        sources = {}
        for u, v in self.standing:
            sources.setdefault(v, []).append(u)
        leading, ahead = {m}, [m]
        while ahead:
            for u in sources.get(ahead.pop(), []):
                if u not in leading:
                    leading.add(u)
                    ahead.append(u)
        held = leading & self.holds.keys()
        return "stop %d" % min(held) if held else "carve"

    def answer(self, line):
        form = FORMS.fullmatch(line)
        words = [word for word in form.groups() if word] if form else []
        numbers = [int(word) for word in words[1:]]
        try:
            require(form and max(numbers, default=0) <= 65535, 18)
            if words[0] == b"I":
                self.current = True
                return "ok"
            call = {b"E": self.enter, b"S": self.strike, b"H": self.hold, b"R": self.release, b"C": self.order}
            return call[words[0]](*numbers) or "ok"
        except Refused as refused:
            return "no %d" % refused.args[0]


def lines_of(data):
    lines = data.split(b"\n")
    return lines[:-1] if lines[-1] == b"" else lines


def answers(book, orders):
    try:
        n, standing = read_book(book)
    except Refused as refused:
        return ["book %d" % refused.args[0]]
    if len(orders) > 32768:
        return ["no 19"]
    shop = Shop(n, standing)
    return [shop.answer(line) for line in lines_of(orders)]


# ---- the files ----


def hexadecimal(data):
    """The bytes in hexadecimal; eight or more of the same in a row as XX*N."""
    words, at = [], 0
    while at < len(data):
        end = at
        while end < len(data) and data[end] == data[at]:
            end += 1
        words += ["%02x*%d" % (data[at], end - at)] if end - at >= 8 else ["%02x" % data[at]] * (end - at)
        at = end
    return " ".join(words)


def told(name, lines):
    if len(lines) <= 40:
        return [name + ":"] + lines
    printed = "".join(line + "\n" for line in lines).encode()
    total = sum(byte * (1 + at % 251) for at, byte in enumerate(printed))
    counts = [sum(line.split()[0] == word for line in lines) for word in ("ok", "carve", "stop", "no")]
    return ["%s: %d lines, ok %d, carve %d, stop %d, no %d, sum %d" % (name, len(lines), *counts, total)]


CASES = []


def case(name, book, orders, expected=None):
    """A case; `expected`, if given, are its answers as written by hand."""
    assert not set(name) & set(":/\n") and name not in [c[0] for c in CASES], name
    lines = answers(book, orders)
    assert expected is None or lines == expected, (name, lines, expected)
    CASES.append((name, book, orders, lines))


def day(name, book, *pairs):
    """A case given as texts `LINE = ANSWER`."""
    split = [pair.split(" = ") for pair in pairs]
    case(name, book, "".join(line + "\n" for line, _ in split).encode(), [answer for _, answer in split])


def write():
    trials = Path(__file__).resolve().parent.parent / "crates" / "trials"
    (trials / "data").mkdir(parents=True, exist_ok=True)
    cases = ["%s: %s / %s" % (name, hexadecimal(book), hexadecimal(orders)) for name, book, orders, _ in CASES]
    cases = [" ".join(line.split()) for line in cases]
    (trials / "data" / "cases.txt").write_bytes("".join(line + "\n" for line in cases).encode())
    book, orders = bytes.fromhex("030002000000010001000200"), b"I\nC 2\nH 0 7\nC 2"
    (trials / "data" / "book.bin").write_bytes(book)
    (trials / "data" / "orders.txt").write_bytes(orders)
    long = b"C 0\n" * 2100  # longer than a book file is read
    (trials / "data" / "long.txt").write_bytes(long)
    folders = [
        ("files of the folder", book, orders),
        ("long order file", book, long),
        ("order file is missing", book, b""),
        ("book file is missing", b"", orders),
        ("both files are missing", b"", b""),
    ]
    stdout = [line for name, _, _, lines in CASES for line in told(name, lines)]
    stdout += [line for name, book, orders in folders for line in told(name, answers(book, orders))]
    (trials / "stdout").write_bytes("".join(line + "\n" for line in stdout).encode())


# ---- books ----


def sixteen(*numbers):
    return b"".join(number.to_bytes(2, "little") for number in numbers)


def raw(n, pairs):
    return sixteen(n, len(pairs), *[u for u, _ in pairs], *[v for _, v in pairs])


def book(n, *pairs):
    return raw(n, sorted(pairs))


ROW = book(3, (0, 1), (1, 2))
EIGHT = book(8, (0, 1), (0, 2), (1, 3), (2, 3), (2, 5), (3, 4), (4, 7), (5, 6), (6, 5), (6, 7))
CHAIN = book(1024, *[(m, m + 1) for m in range(1023)])
FULL_PAIRS = sorted((m, (m + step) % 1024) for m in range(1024) for step in (1, 2))
FULL = raw(1024, FULL_PAIRS)


# ---- cases made by hand ----


def whole_days():
    day("worked day", ROW, "C 2 = no 13", "I = ok", "C 2 = carve", "H 0 7 = ok", "C 2 = stop 0", "S 1 2 = ok",
        "C 2 = no 13", "I = ok", "C 2 = carve", "R 0 8 = no 12", "R 0 7 = ok", "C 3 = no 2", "C 02 = no 18")
    day("eight models", EIGHT, "I = ok", "H 5 1 = ok", "C 7 = stop 5", "C 6 = stop 5", "C 4 = carve", "H 2 1 = ok",
        "C 7 = stop 2")
    day("circle of three", book(4, (0, 1), (1, 2), (2, 0), (2, 3)), "I = ok", "H 1 9 = ok", "C 0 = stop 1",
        "C 1 = stop 1", "C 2 = stop 1", "C 3 = stop 1", "R 1 9 = ok", "H 3 9 = ok", "C 0 = carve", "C 2 = carve",
        "C 3 = stop 3")
    day("corrected against each other", book(3, (0, 1), (1, 0)), "I = ok", "H 1 9 = ok", "C 0 = stop 1",
        "C 1 = stop 1", "C 2 = carve", "H 0 9 = ok", "C 1 = stop 0", "S 0 1 = ok", "I = ok", "C 1 = stop 1",
        "C 0 = stop 0")
    day("two circles joined", book(6, (0, 1), (1, 0), (1, 3), (3, 4), (4, 3), (4, 5)), "I = ok", "H 4 0 = ok",
        "C 3 = stop 4", "C 0 = carve", "C 5 = stop 4", "H 0 0 = ok", "C 5 = stop 0", "C 2 = carve")
    day("against the arrow", ROW, "I = ok", "H 2 1 = ok", "C 0 = carve", "C 1 = carve", "C 2 = stop 2")
    day("two ways round", book(4, (0, 1), (0, 2), (1, 3), (2, 3)), "H 0 1 = ok", "I = ok", "C 3 = stop 0",
        "S 0 1 = ok", "I = ok", "C 3 = stop 0", "S 2 3 = ok", "I = ok", "C 3 = carve", "C 2 = stop 0")
    day("book filled from nothing", book(4), "E 0 1 = ok", "E 1 2 = ok", "I = ok", "H 0 5 = ok", "C 2 = stop 0",
        "C 3 = carve", "E 2 3 = ok", "I = ok", "C 3 = stop 0")
    day("derivations entered falling", book(5), "E 3 4 = ok", "E 2 3 = ok", "E 1 2 = ok", "E 0 1 = ok", "E 0 1 = no 4",
        "E 3 4 = no 4", "H 0 1 = ok", "I = ok", "C 4 = stop 0", "S 0 1 = ok", "S 3 4 = ok", "S 2 3 = ok", "S 1 2 = ok",
        "S 1 2 = no 6", "I = ok", "C 4 = carve", "C 0 = stop 0")


def currency():
    day("index never built", ROW, "C 0 = no 13", "H 0 1 = ok", "C 0 = no 13")
    day("indexed twice", ROW, "I = ok", "I = ok", "C 2 = carve")
    day("stale after an entry", ROW, "I = ok", "C 2 = carve", "E 0 2 = ok", "C 2 = no 13", "I = ok", "C 2 = carve")
    day("stale after a strike", ROW, "I = ok", "C 2 = carve", "S 0 1 = ok", "C 2 = no 13", "I = ok", "C 2 = carve")
    day("struck and entered again", ROW, "I = ok", "S 0 1 = ok", "E 0 1 = ok", "C 2 = no 13", "I = ok", "C 2 = carve")
    day("entered and struck again", ROW, "I = ok", "E 0 2 = ok", "S 0 2 = ok", "C 2 = no 13")
    day("refused entries leave the index current", ROW, "I = ok", "E 0 1 = no 4", "C 2 = carve", "E 1 1 = no 3",
        "C 2 = carve", "E 0 3 = no 2", "C 2 = carve")
    day("refused strikes leave the index current", ROW, "I = ok", "S 0 2 = no 6", "C 2 = carve", "S 3 0 = no 2",
        "C 2 = carve")
    day("holds leave the index current", ROW, "I = ok", "H 1 4 = ok", "C 2 = stop 1", "R 1 4 = ok", "C 2 = carve",
        "H 1 4 = ok", "H 1 4 = no 9", "R 1 5 = no 12", "R 2 4 = no 11", "C 2 = stop 1")
    day("bad lines leave the index current", ROW, "I = ok", "E 0 02 = no 18", "s 0 1 = no 18", "C 2 = carve")
    day("refused calls leave the index stale", ROW, "S 0 2 = no 6", "E 0 1 = no 4", "i = no 18", "C 2 = no 13")
    day("holds survive a strike", ROW, "I = ok", "H 0 7 = ok", "C 2 = stop 0", "S 0 1 = ok", "I = ok", "C 2 = carve",
        "C 0 = stop 0", "H 0 7 = no 9", "E 0 1 = ok", "I = ok", "C 2 = stop 0")
    day("holds survive an indexing", ROW, "H 0 7 = ok", "I = ok", "I = ok", "C 1 = stop 0", "R 0 7 = ok", "C 1 = carve")


def holding():
    day("lowest of holds placed falling", EIGHT, "I = ok", "H 6 1 = ok", "C 7 = stop 6", "H 5 1 = ok", "C 7 = stop 5",
        "H 3 1 = ok", "C 7 = stop 3", "H 2 1 = ok", "C 7 = stop 2", "H 0 1 = ok", "C 7 = stop 0", "C 0 = stop 0",
        "R 0 1 = ok", "C 7 = stop 2", "R 3 1 = ok", "R 2 1 = ok", "C 7 = stop 5", "C 4 = carve")
    day("lowest hold leads elsewhere", EIGHT, "I = ok", "H 1 1 = ok", "H 5 1 = ok", "C 6 = stop 5", "C 4 = stop 1",
        "C 7 = stop 1", "C 2 = carve")
    day("released by another", ROW, "H 1 7 = ok", "R 1 8 = no 12", "R 1 0 = no 12", "R 1 65535 = no 12", "R 1 7 = ok",
        "R 1 7 = no 11", "H 1 8 = ok", "R 1 7 = no 12", "R 1 8 = ok")
    day("held twice", ROW, "H 1 7 = ok", "H 1 7 = no 9", "H 1 8 = no 9", "R 1 8 = no 12", "R 1 7 = ok", "H 1 8 = ok")
    day("two models held by one", ROW, "H 1 7 = ok", "H 2 7 = ok", "R 1 7 = ok", "R 1 7 = no 11", "R 2 7 = ok")
    day("holders 0 and 65535", ROW, "H 0 0 = ok", "H 1 65535 = ok", "R 0 65535 = no 12", "R 1 0 = no 12", "R 0 0 = ok",
        "R 1 65535 = ok")
    hundred = book(100, (0, 99), (63, 98))
    lines = ["I"] + ["H %d 1" % m for m in range(64)]
    lines += ["H 64 1", "H 63 1", "H 100 1", "C 98", "R 63 1", "C 98", "H 64 2", "H 63 1", "C 64", "C 99", "R 0 1", "C 99"]
    told_so = ["ok"] * 65 + ["no 10", "no 9", "no 2", "stop 63", "ok", "carve", "ok", "no 10", "stop 64", "stop 0", "ok",
                             "carve"]
    case("64 holds and one more", hundred, "\n".join(lines).encode(), told_so)
    lines = ["H %d %d" % (m, m) for m in range(99, 35, -1)] + ["I", "C 99", "C 35", "H 35 1", "R 99 99", "H 35 1", "C 35"]
    told_so = ["ok"] * 65 + ["stop 99", "carve", "no 10", "ok", "ok", "stop 35"]
    case("64 holds placed falling", hundred, "\n".join(lines).encode(), told_so)


def refusals_in_order():
    day("entry refusals in order", ROW, "E 3 3 = no 2", "E 0 3 = no 2", "E 3 0 = no 2", "E 65535 65535 = no 2",
        "E 1 1 = no 3", "E 0 1 = no 4", "E 0 2 = ok", "E 0 2 = no 4", "E 2 0 = ok")
    day("entry refusals of a full book", FULL, "E 0 1024 = no 2", "E 1024 1024 = no 2", "E 5 5 = no 3", "E 0 1 = no 4",
        "E 0 3 = no 5", "E 3 0 = no 5")
    day("entry 2049 passes after a strike", FULL, "E 0 3 = no 5", "S 0 3 = no 6", "S 7 8 = ok", "E 0 3 = ok", "E 7 8 = no 5",
        "E 0 3 = no 4", "S 0 3 = ok", "E 7 8 = ok", "E 7 8 = no 4", "E 0 3 = no 5")
    day("orders in a full book", FULL, "I = ok", "C 5 = carve", "H 6 1 = ok", "C 5 = stop 6", "H 1023 1 = ok",
        "C 6 = stop 6", "C 1023 = stop 6", "H 0 1 = ok", "C 1023 = stop 0", "E 0 3 = no 5", "C 1023 = stop 0")
    day("strike refusals in order", ROW, "S 3 3 = no 2", "S 0 3 = no 2", "S 3 1 = no 2", "S 1 1 = no 6", "S 1 0 = no 6",
        "S 0 2 = no 6", "S 0 1 = ok", "S 0 1 = no 6")
    day("hold refusals in order", ROW, "H 3 0 = no 2", "H 65535 65535 = no 2", "H 2 9 = ok", "H 2 9 = no 9", "H 3 9 = no 2")
    day("release refusals in order", ROW, "R 3 0 = no 2", "R 65535 1 = no 2", "R 2 9 = no 11", "H 2 9 = ok", "R 2 8 = no 12",
        "R 1 9 = no 11", "R 3 9 = no 2", "R 2 9 = ok")
    day("order refusals in order", ROW, "C 3 = no 2", "C 0 = no 13", "C 65535 = no 2", "C 65536 = no 18", "I = ok",
        "C 3 = no 2", "C 2 = carve", "E 2 0 = ok", "C 3 = no 2", "C 2 = no 13")
    day("bad lines before every check", ROW, "E 3 03 = no 18", "S 9 65536 = no 18", "H 7 123456 = no 18", "R 7 = no 18",
        "C 9 9 = no 18", "I 9 = no 18")
    day("refused calls change nothing", ROW, "I = ok", "H 0 1 = ok", "E 0 1 = no 4", "S 1 0 = no 6", "H 0 2 = no 9",
        "R 0 2 = no 12", "R 1 1 = no 11", "C 3 = no 2", "x = no 18", "C 2 = stop 0", "S 0 1 = ok", "I = ok", "C 2 = carve",
        "R 0 1 = ok", "C 0 = carve")


def sizes():
    day("no models", sixteen(0, 0), "I = book 1")
    day("one model", book(1), "C 0 = no 13", "I = ok", "C 0 = carve", "H 0 3 = ok", "C 0 = stop 0", "C 1 = no 2",
        "E 0 0 = no 3", "E 0 1 = no 2", "S 0 0 = no 6", "R 0 3 = ok", "C 0 = carve")
    day("1024 models", book(1024), "E 0 1023 = ok", "E 1023 1024 = no 2", "I = ok", "C 1023 = carve", "C 1024 = no 2",
        "H 1023 1 = ok", "H 1024 1 = no 2", "C 1023 = stop 1023", "C 0 = carve", "H 0 1 = ok", "C 1023 = stop 0")
    day("1025 models", sixteen(1025, 0), "I = book 1")
    day("chain of 1024 models with the first held", CHAIN, "I = ok", "C 1023 = carve", "H 0 1 = ok", "C 1023 = stop 0",
        "C 1 = stop 0", "C 0 = stop 0", "S 511 512 = ok", "C 1023 = no 13", "I = ok", "C 1023 = carve", "C 511 = stop 0",
        "C 512 = carve", "E 1023 0 = ok", "I = ok", "H 600 1 = ok", "C 3 = stop 0", "R 0 1 = ok", "C 3 = stop 600",
        "C 599 = carve")
    day("chain of 1024 models closed to a circle", CHAIN, "E 1023 0 = ok", "I = ok", "H 1000 1 = ok", "C 999 = stop 1000",
        "C 1000 = stop 1000", "H 999 1 = ok", "C 1000 = stop 999", "C 998 = stop 999")
    day("numbers up to 65535", book(3), "C 65535 = no 2", "C 65536 = no 18", "C 65540 = no 18", "C 65600 = no 18",
        "C 66000 = no 18", "C 70000 = no 18", "C 99999 = no 18", "C 100000 = no 18", "H 0 65535 = ok", "H 1 65536 = no 18",
        "R 0 65536 = no 18", "R 0 131071 = no 18", "R 0 65535 = ok", "H 65536 0 = no 18", "E 65536 65537 = no 18",
        "S 0 65537 = no 18", "C 65537 = no 18")
    day("numbers of each length", book(1024), "I = ok", "C 0 = carve", "C 9 = carve", "C 10 = carve", "C 99 = carve",
        "C 100 = carve", "C 999 = carve", "C 1000 = carve", "C 1023 = carve", "C 9999 = no 2", "C 10000 = no 2",
        "C 59999 = no 2", "C 65529 = no 2")


def book_files():
    order = b"I\nC 0\n"
    for name, data, number in [
        ("missing", b"", 14), ("one byte", b"\x03", 14), ("three bytes", b"\x03\x00\x02", 14),
        ("three bytes of no models", b"\x00\x00\x00", 14), ("65535 models", sixteen(65535, 0), 1),
        ("no models and too many derivations", sixteen(0, 2049), 1), ("2049 derivations", sixteen(3, 2049), 15),
        ("2049 derivations all there", raw(1024, [(m, v) for m in range(3) for v in range(1024) if v != m][:2049]), 15),
        ("65535 derivations", sixteen(3, 65535), 15), ("2048 derivations and no more bytes", sixteen(3, 2048), 14),
        ("one byte short", ROW[:-1], 14), ("one byte long", ROW + b"\x00", 14),
        ("one derivation short", sixteen(3, 2, 0, 1), 14), ("one derivation long", sixteen(3, 1, 0, 1, 1, 2), 14),
        ("wrong length and unknown model", sixteen(3, 1, 9, 9, 9), 14),
        ("first model unknown", raw(3, [(3, 0)]), 2), ("second model unknown", raw(3, [(0, 3)]), 2),
        ("both models unknown and equal", raw(3, [(3, 3)]), 2), ("taken from itself", raw(3, [(1, 1)]), 3),
        ("taken from itself and not above", raw(3, [(1, 2), (1, 1)]), 3),
        ("unknown and not above", raw(3, [(1, 2), (0, 7)]), 2),
        ("not above by the first model", raw(3, [(1, 0), (0, 2)]), 16),
        ("not above by the second model", raw(3, [(0, 2), (0, 1)]), 16),
        ("twice the same derivation", raw(3, [(0, 1), (0, 1)]), 16),
        ("not above before unknown", raw(3, [(1, 2), (0, 1), (7, 1)]), 16),
        ("unknown before not above", raw(3, [(7, 1), (0, 1)]), 2),
        ("from itself before unknown", raw(3, [(0, 0), (7, 1)]), 3),
        ("not above at the last place of a full book", raw(1024, FULL_PAIRS[:-1] + FULL_PAIRS[-2:-1]), 16),
    ]:
        case("book, " + name, data, order, ["book %d" % number])
    case("book refused and no orders", b"", b"", ["book 14"])
    case("book refused and orders too long", raw(3, [(1, 1)]), b"I" * 40000, ["book 3"])
    case("missing book and orders too long", b"", b"\n" * 32769, ["book 14"])
    day("book of high bytes", book(1024, (257, 1023), (1023, 258)), "I = ok", "H 257 1 = ok", "C 258 = stop 257",
        "C 1023 = stop 257", "C 257 = stop 257", "C 1 = carve", "C 2 = carve")


BAD_LINES = [
    ("empty line", b""), ("lower case", b"c 2"), ("lower case entry", b"e 2 0"), ("unknown letter", b"X 2"),
    ("unknown letter alone", b"X"), ("digit in front", b"2"), ("number without a letter", b"0 2"),
    ("no space", b"C2"), ("no space between numbers", b"E 2,0"), ("two spaces", b"C  2"),
    ("two spaces between numbers", b"E 2  0"), ("three spaces", b"H 2   0"), ("tab", b"C\t2"),
    ("tab between numbers", b"E 2\t0"), ("tab behind", b"C 2\t"), ("trailing space", b"C 2 "),
    ("trailing space of an entry", b"E 2 0 "), ("trailing space of an indexing", b"I "), ("leading space", b" C 2"),
    ("leading space of an indexing", b" I"), ("space alone", b" "), ("missing number", b"C"),
    ("missing number behind a space", b"C "), ("missing second number", b"E 2"),
    ("missing second behind a space", b"E 2 "), ("missing first number", b"E  0"), ("missing numbers", b"H"),
    ("missing numbers of a release", b"R "), ("missing numbers of a strike", b"S"), ("extra number", b"C 2 2"),
    ("extra number of an entry", b"E 2 0 1"), ("extra number of a strike", b"S 0 1 2"),
    ("extra number of a hold", b"H 0 1 2"), ("extra number of a release", b"R 0 1 2"),
    ("indexing with a number", b"I 1"), ("indexing with a letter", b"II"), ("indexing with a zero behind", b"I0"),
    ("leading zero", b"C 02"), ("leading zero of a second number", b"E 2 00"), ("zero twice", b"C 00"),
    ("five zeros", b"C 00000"), ("leading zeros up to five digits", b"C 00002"), ("six digits", b"C 100000"),
    ("six digits with a zero", b"C 000002"), ("65536", b"C 65536"), ("99999", b"C 99999"),
    ("65536 as holder", b"H 0 65536"), ("minus", b"C -2"), ("minus zero", b"C -0"), ("plus", b"C +2"),
    ("dot", b"C 2."), ("comma", b"C 1,0"), ("hexadecimal", b"C 0x2"), ("letter for a number", b"C a"),
    ("letter behind a number", b"C 2a"), ("byte before the digits", b"C /"), ("byte behind the digits", b"C :"),
    ("underscore", b"C 1_0"), ("carriage return", b"C 2\r"), ("carriage return of an indexing", b"I\r"),
    ("carriage return alone", b"\r"), ("form feed for a space", b"C\x0c2"), ("NUL", b"C 2\x00"),
    ("NUL alone", b"\x00"), ("NUL for a space", b"C\x002"), ("NUL for a digit", b"C \x00"),
    ("bytes above 127", b"C \xb2"), ("byte 255", b"\xff"), ("letter with its high bit", b"\xc3 2"),
    ("space with its high bit", b"C\xa02"), ("digit with its high bit", b"C \xb0"),
    ("two-byte letter", "Č 2".encode()), ("wide digit", "C ２".encode()), ("no-break space", "C\u00a02".encode()),
    ("two calls in a line", b"C 2 I"), ("two calls joined", b"IC 2"), ("word", b"carve"), ("comment", b"# C 2"),
    ("quotes", b'"C 2"'), ("number of 17 bits past its end", b"C 65538"),
    ("number of 64 bits", b"C 18446744073709551618"),
]


def line_forms():
    """Each bad line stands between orders that show that nothing changed and that the next line is read from its start."""
    for name, line in BAD_LINES:
        case("bad line, " + name, ROW, b"I\nH 0 7\n" + line + b"\nC 2\n", ["ok", "ok", "no 18", "stop 0"])
    every = b"".join(line + b"\n" for _, line in BAD_LINES)
    expected = ["ok", "carve"] + ["no 18"] * len(BAD_LINES) + ["carve"]
    case("every bad line in one file", ROW, b"I\nC 2\n" + every + b"C 2\n", expected)
    end = b"\nC 2\n"
    seen = ["ok", "no 18", "carve"]
    case("bad line, 30000 digits", ROW, b"I\nC " + b"1" * 30000 + end, seen)
    case("bad line, 30000 zeros", ROW, b"I\nC " + b"0" * 30000 + end, seen)
    case("bad line, 30000 digits in the second number", ROW, b"I\nE 2 " + b"9" * 30000 + end, seen)
    case("bad line, 30000 spaces", ROW, b"I\n" + b" " * 30000 + end, seen)
    case("bad line, 30000 letters", ROW, b"I\n" + b"C" * 30000 + end, seen)
    case("bad line, 30000 NULs", ROW, b"I\n" + b"\x00" * 30000 + end, seen)
    case("empty order file", ROW, b"", [])
    case("only a newline", ROW, b"\n", ["no 18"])
    case("two newlines", ROW, b"\n\n", ["no 18", "no 18"])
    case("no final newline", ROW, b"I\nC 2", ["ok", "carve"])
    case("final newline", ROW, b"I\nC 2\n", ["ok", "carve"])
    case("empty line at the end", ROW, b"I\nC 2\n\n", ["ok", "carve", "no 18"])
    case("empty line at the start", ROW, b"\nI\nC 2\n", ["no 18", "ok", "carve"])
    case("one letter and no newline", ROW, b"I", ["ok"])
    case("one bad byte and no newline", ROW, b"C", ["no 18"])
    case("a carriage return on every line", ROW, b"I\r\nC 2\r\n", ["no 18", "no 18"])
    case("carriage returns for newlines", ROW, b"I\rC 2\r", ["no 18"])
    case("last line cut off", ROW, b"I\nH 0 7\nR 0 ", ["ok", "ok", "no 18"])


def order_files_of_32768_bytes():
    most = 32768
    case("32768 newlines", ROW, b"\n" * most, ["no 18"] * most)
    case("32769 newlines", ROW, b"\n" * (most + 1), ["no 19"])
    case("32768 bytes without a newline", ROW, b"1" * most, ["no 18"])
    case("32769 bytes without a newline", ROW, b"1" * (most + 1), ["no 19"])
    head, tail = b"I\nH 0 7\nC ", b"\nC 2\nR 0 7\nC 2\nC 1"
    for more, expected in [(0, ["ok", "ok", "no 18", "stop 0", "ok", "carve", "carve"]), (1, ["no 19"])]:
        fill = b"2" * (most + more - len(head) - len(tail))
        case("%d bytes with the last line cut" % (most + more), ROW, head + fill + tail, expected)
        case("%d bytes to the last newline" % (most + more), ROW, head + fill[1:] + tail + b"\n", expected)
    case("40000 bytes", ROW, b"I\n" + b"0" * 39998, ["no 19"])
    case("65536 bytes", ROW, b"\n" * 65536, ["no 19"])
    case("98304 bytes", ROW, b"\n" * 98304, ["no 19"])


# ---- mixed histories ----


class Draw:
    """A plain sequence of numbers, the same on every machine."""

    def __init__(self, seed):
        self.seed = seed

    def below(self, n):
        self.seed = (self.seed * 1664525 + 1013904223) % 2**32
        return (self.seed >> 16) % n

    def one_of(self, things):
        return things[self.below(len(things))]


def drawn_book(draw, n, many):
    pairs = set()
    for _ in range(many):
        u, v = draw.below(n), draw.below(n)
        if draw.below(4) and u > v:
            u, v = v, u
        if u != v:
            pairs.add((u, v))
    return book(n, *pairs)


def drawn_line(draw, shop, often):
    """A line for a shop as it stands: mostly calls that mean something, some refused ones, some bad lines."""
    model = lambda: draw.below(shop.n) if draw.below(25) else shop.n + draw.below(3)
    kind = draw.below(100)
    if kind < 2:
        return draw.one_of(BAD_LINES)[1]
    if not shop.current and draw.below(often) == 0:
        return b"I"
    if kind < 45:
        return b"C %d" % model()
    if kind < 60:
        return b"H %d %d" % (model(), draw.below(3))
    if kind < 76:
        if shop.holds and draw.below(4):
            held = draw.one_of(sorted(shop.holds))
            return b"R %d %d" % (held, shop.holds[held] if draw.below(3) else draw.below(3))
        return b"R %d %d" % (model(), draw.below(3))
    if kind < 87:
        return b"E %d %d" % (model(), model())
    if kind < 97:
        if shop.standing and draw.below(3):
            return b"S %d %d" % draw.one_of(sorted(shop.standing))
        return b"S %d %d" % (model(), model())
    return b"I"


def history(draw, data, many, often):
    shop = Shop(*read_book(data))
    lines = []
    for _ in range(many):
        lines.append(drawn_line(draw, shop, often))
        shop.answer(lines[-1])
    return b"\n".join(lines) + b"\n" * draw.below(2)


def histories():
    draw = Draw(20)
    for number in range(1, 61):
        n = 1 + draw.below(12)
        data = drawn_book(draw, n, draw.below(2 * n + 1))
        case("short history %d" % number, data, history(draw, data, 10 + draw.below(31), 2))
    for number, n in enumerate((300, 250, 120, 60, 30, 9), 1):
        data = drawn_book(draw, n, n + draw.below(n))
        case("long history %d" % number, data, history(draw, data, 1450 + draw.below(101), 3))


if __name__ == "__main__":
    whole_days()
    currency()
    holding()
    refusals_in_order()
    sizes()
    book_files()
    line_forms()
    order_files_of_32768_bytes()
    histories()
    write()
