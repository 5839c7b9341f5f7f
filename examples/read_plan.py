#!/usr/bin/env python3
"""Reads plans with a raw sheet, written from the rules alone, to compare with:

    read_plan.py SHEET PLAN [WORD=KIND]...      one turn after the other to the end: the records of a trace, then
                                                the outcome, the steps, the minutes, the span, the cells used
    read_plan.py --expected EXAMPLE...          compares with plans/EXPECTED of each example folder
    read_plan.py --lexing FILE                  compares with a file of cases of the lexer
    read_plan.py --readings FILE                compares with a file of cases of readings

A folder EXAMPLE holds EXAMPLE.grammar (of which the keywords are taken), EXAMPLE.sheet and plans/. A line of
plans/EXPECTED has a sheet, a plan and what must come of it, as `accepted STEPS`, `rejected PLACE STEPS` (`-` for
END) or `halted NUMBER PLACE STEPS`; `*` stands for steps that are not foretold. `#` begins a comment.
"""
import os
import sys

from check_sheet import END, START, Refused, opened

MOST_CELLS, MOST_STEPS, LARGEST = 128, 10 ** 12, 2 ** 64 - 1
CHARACTERS = "+-*/(),;:=<>{}"


class Token:
    def __init__(self, kind, place, length, value):
        self.kind, self.place, self.length, self.value = kind, place, length, value


# SOURCES. A source is the tokens still to come and its ending: None for END, or a fault (number, place, layer).

class Source:
    def __init__(self, tokens, ending=None, layer=0):
        self.tokens, self.ending, self.layer = list(tokens), ending, layer
        self.taken = 0

    def peek(self):
        """The next token, or None at the ending."""
        return self.tokens[self.taken] if self.taken < len(self.tokens) else None

    def take(self):
        self.taken += 1

    def left(self):
        return len(self.tokens) - self.taken


def lexer(plan):
    """The source of a plan's bytes."""
    if len(plan) > 65535:
        raise Refused(8, 0)
    tokens, at = [], 0
    while at < len(plan):
        byte = chr(plan[at])
        if byte in "\n ":
            at += 1
            continue
        run = run_of(plan, at, "a", "z") or run_of(plan, at, "0", "9")
        if not run and byte not in CHARACTERS:
            return Source(tokens, (9, at, 0))
        if not run:
            tokens.append(Token(3 + CHARACTERS.index(byte), at, 1, 0))
            at += 1
            continue
        if byte.isalpha():
            if len(run) > 8:
                return Source(tokens, (10, at, 0))
            tokens.append(Token(1, at, len(run), int.from_bytes(run, "big")))
        else:
            if int(run) > 4294967295:
                return Source(tokens, (11, at, 0))
            tokens.append(Token(2, at, len(run), int(run)))
        at += len(run)
    return Source(tokens)


def run_of(plan, at, low, high):
    """The longest run of bytes from low to high."""
    end = at
    while end < len(plan) and low <= chr(plan[end]) <= high:
        end += 1
    return plan[at:end]


def with_keywords(source, kinds):
    """The keyword layer: words of these spellings get these kinds."""
    def rekinded(t):
        return Token(kinds[t.value], t.place, t.length, t.value) if t.kind == 1 and t.value in kinds else t
    return Source([rekinded(t) for t in source.tokens], source.ending, source.layer + 1)


def with_limit(source, n):
    """The limit layer: n tokens pass, and a further one is a fault."""
    layer = source.layer + 1
    if len(source.tokens) <= n:
        return Source(source.tokens, source.ending, layer)
    return Source(source.tokens[:n], (13, source.tokens[n].place, layer), layer)


# SINKS. Records and cells count what is still free; None is endless.

class Sink:
    def __init__(self, records, cells):
        self.records, self.cells, self.list = records, cells, []

    def refuse(self, children):
        """The refusal of an event, as number and place, or None."""
        if children is not None and children > len(self.list):
            return 24, len(self.list)
        if self.records == 0 or (self.cells == 0 and not children):
            return 23, len(self.list)
        return None

    def send(self, value, children):
        """Replaces the last trees by one of this value."""
        if self.records is not None:
            self.records -= 1
        if self.cells is not None:
            self.cells += children - 1
        del self.list[len(self.list) - children:]
        self.list.append(value)

    def leaf(self, token):
        self.send(self.leaf_value(token), 0)

    def node(self, p, children):
        self.send(self.node_value(p, self.list[len(self.list) - children:]), children)


class Trace(Sink):
    """Records in the order of the events; a tree's value is its own records."""

    def __init__(self, size):
        super().__init__(size // 16, None)
        self.written = b""

    def leaf_value(self, t):
        row = b"L" + bytes([t.kind, 0, 0]) + t.place.to_bytes(4, "big") + t.value.to_bytes(8, "big")
        self.written += row
        return row

    def node_value(self, p, trees):
        row = b"N" + bytes([p, len(trees)]) + bytes(13)
        self.written += row
        return b"".join(trees) + row


class Minutes(Sink):
    """The values of numbers, added."""

    def __init__(self, cells):
        super().__init__(None, cells)

    def leaf_value(self, t):
        return t.value if t.kind == 2 else 0

    def node_value(self, p, trees):
        return min(sum(trees), LARGEST)


class Span(Sink):
    """The smallest place, and the largest place plus length."""

    def __init__(self, cells):
        super().__init__(None, cells)

    def leaf_value(self, t):
        return t.place, t.place + t.length

    def node_value(self, p, trees):
        return min([4294967295] + [x for x, _ in trees]), max([0] + [y for _, y in trees])


def with_quota(sink, n):
    """The quota layer: records are the smaller of n and those below."""
    sink.records = n if sink.records is None else min(n, sink.records)
    return sink


# THE READING

class Reading:
    def __init__(self, sheet, source, sink):
        self.sheet, self.source, self.sink = sheet, source, sink
        self.cells, self.steps, self.outcome, self.most = [], 0, ("more",), 0

    def ended(self):
        return self.outcome != ("more",)

    def turn(self, n):
        if self.ended():
            return "declined", 21, self.steps
        if self.steps + n > MOST_STEPS:
            return "declined", 19, self.steps
        spent = 0
        while not self.ended():
            action = self.found_action()
            if self.ended() or spent == n:
                break
            if action[0] == "shift":
                self.shift(action[1])
            else:
                self.reduce(action[1])
            spent += not self.ended()
        return self.outcome

    def stop(self):
        if self.ended():
            return "declined", 21, self.steps
        self.outcome = ("stopped",)
        return self.outcome

    def current(self):
        return self.cells[-1] if self.cells else 0

    def found_action(self):
        """The action of the current state; the outcome is set where that ends the reading."""
        default = self.sheet.default(self.current())
        if default is not None:
            return "reduce", default
        token = self.source.peek()
        if token is None and self.source.ending is not None:
            self.outcome = ("halted", "source") + self.source.ending
            return None
        action = self.sheet.action(self.current(), token.kind if token else END)
        if action[0] == "reject":
            self.outcome = ("rejected", token.place if token else "-")
        if action[0] == "accept":
            alone = len(self.cells) == 1 and self.sheet.incoming(self.cells[0]) == START
            self.outcome = ("accepted",) if alone else ("halted", "own", 25, 4)
        return action

    def halt(self, number, place):
        self.outcome = ("halted", "own", number, place)

    def push(self, below, state):
        self.cells = below + [state]
        self.most = max(self.most, len(self.cells))
        self.steps += 1

    def fits(self, below, children):
        """Room for one more cell, and in the sink; else the reading halts."""
        if len(below) + 1 > MOST_CELLS:
            self.halt(22, self.steps)
        elif self.sink.refuse(children):
            self.halt(*self.sink.refuse(children))
        return not self.ended()

    def shift(self, state):
        if self.fits(self.cells, None):
            self.sink.leaf(self.source.peek())
            self.source.take()
            self.push(self.cells, state)

    def reduce(self, p):
        left, right = self.sheet.production(p)
        k = len(right)
        if k > len(self.cells):
            return self.halt(25, 1)
        below, top = self.cells[:len(self.cells) - k], self.cells[len(self.cells) - k:]
        if [self.sheet.incoming(s) for s in top] != right:
            return self.halt(25, 2)
        state = self.sheet.goto(below[-1] if below else 0, left)
        if state is None:
            return self.halt(25, 3)
        if self.fits(below, k):
            self.sink.node(p, k)
            self.push(below, state)


# CASES

def split(text, by=";"):
    return [] if text in ("-", "none") else text.split(by)


def compare(path, tested):
    agreed = total = 0
    with open(path) as cases:
        for total, line in enumerate(cases, 1):
            expected, found = tested(line.split())
            agreed += expected == found
            if expected != found:
                print("line %d: the case has %s, this has %s" % (total, expected, found))
    print("%d of %d lines agree" % (agreed, total))
    return agreed == total


def lexing_case(fields):
    plan, tokens, ending = fields
    source = lexer(bytes.fromhex("" if plan == "-" else plan))
    found = ["%d,%d,%d,%d" % (t.kind, t.place, t.length, t.value) for t in source.tokens]
    told = "end" if source.ending is None else "fault,%d,%d,%d" % source.ending
    return (split(tokens), ending), (found, told)


def reading_case(fields):
    sheet, _, tokens, limit, quota, kind, size, calls, answers, left, written, totals = fields
    source = Source(Token(*map(int, t.split(","))) for t in split(tokens))
    if limit != "-":
        source = with_limit(source, int(limit))
    sink = {"trace": Trace, "minutes": Minutes, "span": Span}[kind](int(size))
    if quota != "-":
        sink = with_quota(sink, int(quota))
    reading = Reading(opened(bytes.fromhex(sheet)), source, sink)
    told = []
    for call in split(calls, ","):
        answer = reading.stop() if call == "stop" else reading.turn(int(call))
        told.append(",".join(map(str, answer + (reading.steps,))))
    if kind == "trace":
        kept = sink.written.hex() or "none", "-"
    else:
        kept = "-", ";".join("%d,%d" % x if kind == "span" else str(x) for x in sink.list) or "none"
    return (answers, left, written, totals), (";".join(told), str(source.left())) + kept


# PLANS

def keywords_of(path):
    """The keywords of a grammar file, by spelling."""
    with open(path) as source:
        lines = [line.split() for line in source]
    return dict((spelled(w[1]), int(w[2])) for w in lines if w[:1] == ["keyword"] and len(w) == 3)


def spelled(word):
    return int.from_bytes(word.encode(), "big")


def reading_of(sheet, plan, kinds, sink):
    with open(sheet, "rb") as source:
        table = opened(source.read())
    with open(plan, "rb") as source:
        reading = Reading(table, with_keywords(lexer(source.read()), kinds), sink)
    while not reading.ended():
        reading.turn(65535)
    return reading


def result(reading):
    """Outcome and steps in the words of plans/EXPECTED."""
    words = [str(x) for x in reading.outcome if x not in ("own", "source")]
    if reading.outcome[:2] == ("halted", "source"):
        words = words[:3]                            # without the layer
    return words + [str(reading.steps)]


def expected(folder):
    """Compares the plans of an example with what must come of them."""
    name = os.path.basename(folder.rstrip("/"))
    kinds = keywords_of(os.path.join(folder, name + ".grammar"))
    good, count = True, 0
    with open(os.path.join(folder, "plans", "EXPECTED")) as table:
        for line in table:
            words = line.split("#")[0].split()
            if not words:
                continue
            count += 1
            sheet, plan, must = words[0], words[1], words[2:]
            files = os.path.join(folder, sheet), os.path.join(folder, "plans", plan)
            found = result(reading_of(*files, kinds, Trace(1 << 24)))
            if len(must) != len(found) or any(m not in ("*", f) for m, f in zip(must, found)):
                good = False
                print("%s, %s: must be %s, is %s" % (name, plan, " ".join(must), " ".join(found)))
    print("%s: %d plans compared" % (name, count))
    return good


def show(sheet, plan, words):
    kinds = {spelled(word): int(kind) for word, kind in (w.split("=") for w in words)}
    reading = reading_of(sheet, plan, kinds, Trace(1 << 24))
    written = reading.sink.written
    for row in (written[i:i + 16] for i in range(0, len(written), 16)):
        if row[:1] == b"L":
            print("L %d %d, value %d" % (row[1], int.from_bytes(row[4:8], "big"), int.from_bytes(row[8:], "big")))
        else:
            print("N %d %d" % (row[1], row[2]))
    print(" ".join(result(reading)))
    for name, sink in ("minutes", Minutes(MOST_CELLS)), ("span", Span(MOST_CELLS)):
        print("%s: %s" % (name, reading_of(sheet, plan, kinds, sink).sink.list))
    print("cells: %d" % reading.most)


def main(words):
    if len(words) == 2 and words[0] in ("--lexing", "--readings"):
        sys.exit(0 if compare(words[1], lexing_case if words[0] == "--lexing" else reading_case) else 1)
    if len(words) > 1 and words[0] == "--expected":
        sys.exit(0 if all([expected(folder) for folder in words[1:]]) else 1)
    if len(words) < 2 or words[0].startswith("--"):
        sys.exit(__doc__)
    show(words[0], words[1], words[2:])


if __name__ == "__main__":
    main(sys.argv[1:])
