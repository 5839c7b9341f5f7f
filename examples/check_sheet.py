#!/usr/bin/env python3
"""Opens and checks sheets, written from docs/FORMAT.md and docs/REFUSALS.md alone, to compare with:

    check_sheet.py SHEET...        says of each file what opening and checking answer
    check_sheet.py --cases FILE    compares with a file of cases, one a line: the sheet in hexadecimal, the
                                   answer of opening and that of checking (`ok`, or `number,place`)

It is plain and slow on purpose: every rule is a line, every question a look at all records.
"""
import sys

END, ADDED, NONE, START = 0, 254, 255, 64


class Refused(Exception):
    def __init__(self, number, place):
        super().__init__("%d,%d" % (number, place))
        self.number, self.place = number, place


def is_symbol(byte):
    return 1 <= byte <= 31 or 64 <= byte <= 95


def is_nonterminal(byte):
    return 64 <= byte <= 95


class Sheet:
    """Records by place and by key; the parts of a record by name."""

    def __init__(self, data):
        self.data = data
        self.rows = [data[i:i + 16] for i in range(0, len(data), 16)]
        self.by_key = {}
        for i, row in enumerate(self.rows):
            self.by_key.setdefault(row[:4], i)

    def row(self, letter, a, b=0, c=0):
        """The record with a key, or None."""
        i = self.by_key.get(bytes([ord(letter), a, b, c]))
        return None if i is None else self.rows[i]

    # The table.

    def production(self, p):
        """Left side and right symbols, or None."""
        row = self.row("P", p)
        return None if row is None else (row[4], list(row[8:8 + row[5]]))

    def productions(self):
        return [self.production(row[1]) for row in self.rows if row[0] == ord("P")]

    def right_side(self, p):
        return [START] if p == ADDED else self.production(p)[1]

    def incoming(self, s):
        row = self.row("S", s)
        return None if row is None or row[4] == NONE else row[4]

    def default(self, s):
        row = self.row("D", s)
        return None if row is None else row[4]

    def action(self, s, a):
        """A pair: ("shift", state), ("reduce", production), ("accept", 0) or ("reject", 0)."""
        if self.default(s) is not None:
            return "reduce", self.default(s)
        row = self.row("A", s, a)
        return ("reject", 0) if row is None else (["", "shift", "reduce", "accept"][row[4]], row[5])

    def goto(self, s, n):
        row = self.row("G", s, n)
        return None if row is None else row[4]

    # The hints.

    def trail(self, s):
        """Past symbols, then the incoming one."""
        return self.past_symbols(s) + ([] if self.incoming(s) is None else [self.incoming(s)])

    def past_symbols(self, s):
        row = self.row("S", s)
        return list(row[8:8 + row[5]])

    def past_sets(self, s):
        sets = []
        while len(sets) < 8 and self.row("K", s, len(sets)) is not None:
            sets.append(members(self.row("K", s, len(sets))))
        return sets

    def shadow(self, s):
        """The state itself, then its past sets, the nearest first."""
        return [{s}] + self.past_sets(s)

    def look_aheads(self, s, p, dot):
        row = self.row("I", s, p, dot)
        return set() if row is None else members(row)

    def nullable(self, symbol):
        return is_nonterminal(symbol) and self.row("N", symbol - 64)[4] == 1

    def first(self, symbol):
        return members(self.row("N", symbol - 64)) if is_nonterminal(symbol) else {symbol}

    def firsts(self, symbols):
        """The first terminals of a list of symbols, and whether all of it is nullable."""
        found = set()
        for symbol in symbols:
            found |= self.first(symbol)
            if not self.nullable(symbol):
                return found, False
        return found, True


def payload(row):
    return int.from_bytes(row[8:], "big")


def members(row):
    return {i for i in range(64) if payload(row) >> i & 1}


# OPENING

def opened(data):
    """The sheet of these bytes, if opening finds nothing."""
    if not data or len(data) % 16 or len(data) > 65520:
        raise Refused(1, 0)
    sheet = Sheet(data)
    for i, row in enumerate(sheet.rows):
        if i and row[:4] <= sheet.rows[i - 1][:4]:
            raise Refused(2, i)
        if not in_range(row):
            raise Refused(3, i)
    for i, row in enumerate(sheet.rows):
        if not (no_gap(sheet, row) and names_present(sheet, row)):
            raise Refused(4, i)
    if not {b"P", b"S", b"N"} <= {row[:1] for row in sheet.rows}:
        raise Refused(4, len(sheet.rows))
    for i, row in enumerate(sheet.rows):
        if not makes_sense(sheet, row):
            raise Refused(5, i)
    return sheet


def in_range(row):
    letter, a, b, c, f1, f2, f3, f4 = chr(row[0]), *row[1:8]
    value = payload(row)
    if f3 or f4:
        return False
    if letter == "A":
        target = {1: f2 < 64, 2: f2 < 64, 3: f2 == 0}.get(f1, False)
        return a < 64 and b < 32 and c == 0 and target and value == 0
    if letter == "D":
        return a < 64 and b == c == 0 and f1 < 64 and f2 == 0 and value == 0
    if letter == "G":
        return a < 64 and b < 32 and c == 0 and f1 < 64 and f2 == 0 and value == 0
    if letter == "I":
        return a < 64 and (b < 64 or b == ADDED) and f1 == f2 == 0 and 0 < value < 1 << 32
    if letter == "K":
        return a < 64 and b < 8 and c == 0 and f1 == f2 == 0 and value > 0
    if letter == "N":
        return a < 32 and b == c == 0 and f1 < 2 and f2 == 0 and value < 1 << 32 and not value & 1
    if letter == "P":
        return a < 64 and b == c == 0 and f1 < 32 and symbols_in_range(row)
    if letter == "S":
        return a < 64 and b == c == 0 and (f1 == NONE or is_symbol(f1)) and symbols_in_range(row)
    return False


def symbols_in_range(row):
    n = row[5]
    return n <= 8 and all(map(is_symbol, row[8:8 + n])) and all(x == NONE for x in row[8 + n:])


def no_gap(sheet, row):
    letter, a, b = chr(row[0]), row[1], row[2]
    if letter == "K":
        return b == 0 or sheet.row("K", a, b - 1) is not None
    if letter in "NPS":
        return a == 0 or sheet.row(letter, a - 1) is not None
    return True


def names_present(sheet, row):
    letter, a, b, f1, f2 = chr(row[0]), row[1], row[2], row[4], row[5]

    def state(s):
        return sheet.row("S", s) is not None

    def production(p):
        return sheet.row("P", p) is not None

    def symbol(x):
        return x == NONE or not is_nonterminal(x) or sheet.row("N", x - 64) is not None

    if letter == "A":
        return state(a) and {1: state(f2), 2: production(f2), 3: True}[f1]
    if letter == "D":
        return state(a) and production(f1)
    if letter == "G":
        return state(a) and symbol(64 + b) and state(f1)
    if letter == "I":
        return state(a) and (b == ADDED or production(b))
    if letter == "K":
        return state(a) and all(map(state, members(row)))
    if letter == "P":
        return symbol(64 + f1) and all(map(symbol, row[8:8 + f2]))
    if letter == "S":
        return symbol(f1) and all(map(symbol, row[8:8 + f2]))
    return True


def makes_sense(sheet, row):
    letter, a, b, c, f1, f2 = chr(row[0]), *row[1:6]
    if letter == "A":
        return {1: b != END and sheet.incoming(f2) == b, 2: True, 3: b == END}[f1]
    if letter == "D":
        return not any(other[0] == ord("A") and other[1] == a for other in sheet.rows)
    if letter == "G":
        return sheet.incoming(f1) == 64 + b
    if letter == "I":
        return c <= len(sheet.right_side(b))
    if letter == "K":
        return a != 0
    if letter == "S":
        return (f1 == NONE and f2 == 0) if a == 0 else f1 != NONE
    return True


# CHECKING

def checked(data):
    """The sheet of these bytes, if opening and checking find nothing."""
    sheet = opened(data)
    for i, row in enumerate(sheet.rows):
        if not safe(sheet, row):
            raise Refused(6, i)
    for i, row in enumerate(sheet.rows):
        if not complete(sheet, row):
            raise Refused(7, i)
    if END not in sheet.look_aheads(0, ADDED, 0):
        raise Refused(7, len(sheet.rows))
    return sheet


def safe(sheet, row):
    letter, s, f1, f2 = chr(row[0]), row[1], row[4], row[5]
    if letter == "A":
        return {1: edge_safe, 2: reduce_safe, 3: accept_safe}[f1](sheet, s, f2)
    if letter == "D":
        return reduce_safe(sheet, s, f1)
    if letter == "G":
        return edge_safe(sheet, s, f1)
    return True


def ends(short, long):
    return len(short) <= len(long) and long[len(long) - len(short):] == short


def edge_safe(sheet, s, t):
    """The past symbols of t end the trail of s, and its past sets contain the shadow of s, depth by depth."""
    sets, shadow = sheet.past_sets(t), sheet.shadow(s)
    return (ends(sheet.past_symbols(t), sheet.trail(s)) and len(sets) <= len(shadow)
            and all(below >= above for below, above in zip(sets, shadow)))


def reduce_safe(sheet, s, p):
    """The right side ends the trail of s, and every state that can lie below it has the goto."""
    left, right = sheet.production(p)
    shadow = sheet.shadow(s)
    return (ends(right, sheet.trail(s)) and len(shadow) > len(right)
            and all(sheet.goto(x, left) is not None for x in shadow[len(right)]))


def accept_safe(sheet, s, _):
    """The start stands alone on state 0."""
    return s != 0 and sheet.incoming(s) == START and sheet.past_sets(s) == [{0}]


def complete(sheet, row):
    if row[0] == ord("N"):
        return equations_hold(sheet, row[1])
    if row[0] == ord("I"):
        return item_complete(sheet, row[1], row[2], row[3])
    return True


def equations_hold(sheet, n):
    """Nullable and first are what the right sides give."""
    sides = [sheet.firsts(right) for left, right in sheet.productions() if left == n]
    nullable, first = any(empty for _, empty in sides), set().union(*(found for found, _ in sides))
    return sheet.nullable(64 + n) == nullable and sheet.first(64 + n) == first


def item_complete(sheet, s, p, dot):
    looks = sheet.look_aheads(s, p, dot)
    rest = sheet.right_side(p)[dot:]

    def goes_on(t):
        """State t has the item one dot on, with at least the same look-aheads."""
        return sheet.look_aheads(t, p, dot + 1) >= looks

    if not rest and p == ADDED:
        return END not in looks or sheet.action(s, END) == ("accept", 0)
    if not rest:
        return all(sheet.action(s, a) == ("reduce", p) for a in looks)
    if not is_nonterminal(rest[0]):
        kind, t = sheet.action(s, rest[0])
        return kind == "shift" and goes_on(t)
    wanted, empty = sheet.firsts(rest[1:])
    if empty:
        wanted = wanted | looks
    n = rest[0] - 64
    heads = [q for q in range(64) if sheet.production(q) is not None and sheet.production(q)[0] == n]
    closed = not wanted or all(sheet.look_aheads(s, q, 0) >= wanted for q in heads)
    t = sheet.goto(s, n)
    return closed and (t is None or goes_on(t))


# THE PROGRAM

def answer(pass_of, data):
    try:
        pass_of(data)
        return "ok"
    except Refused as refusal:
        return str(refusal)


def compare(path):
    """How many lines of a file of cases agree; the others are told."""
    agreed = total = 0
    with open(path) as cases:
        for total, line in enumerate(cases, 1):
            hexed, opening, checking = line.split()
            data = bytes.fromhex("" if hexed == "-" else hexed)
            found = answer(opened, data), answer(checked, data)
            if found == (opening, checking):
                agreed += 1
            else:
                print("line %d: the case has %s and %s, this has %s and %s" % (total, opening, checking, *found))
    print("%d of %d lines agree" % (agreed, total))
    return agreed == total


def main(words):
    if len(words) == 2 and words[0] == "--cases":
        sys.exit(0 if compare(words[1]) else 1)
    if not words or words[0].startswith("--"):
        sys.exit(__doc__)
    good = True
    for path in words:
        with open(path, "rb") as source:
            data = source.read()
        opening, checking = answer(opened, data), answer(checked, data)
        good = good and checking == "ok"
        print("%s: %d records, opening %s, checking %s" % (path, len(data) // 16, opening, checking))
    sys.exit(0 if good else 1)


if __name__ == "__main__":
    main(sys.argv[1:])
