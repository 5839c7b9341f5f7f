#!/usr/bin/env python3
"""Writes the sheet of a grammar: make_sheet.py GRAMMAR SHEET [--no-defaults] [--text] [--leave-out=RECORDS]

For use on a desk, and trusted by nobody: whether a sheet is good is for the checker to say.

A grammar file has one production a line, `LEFT -> SYMBOL SYMBOL ...`, with nothing behind the arrow for an
empty right side; productions are numbered in the order of their lines. A name that stands on a left side is
a nonterminal, numbered in the order of first appearance there; the first is the start. Every other symbol
is a terminal of the lexer: `word`, `number`, one of the characters + - * / ( ) , ; : = < > { }, or a keyword
that a line `keyword SPELLING KIND` gives a kind of 17 to 31. `#` begins a comment line.

The table is the canonical LR(1) automaton. Where that has more than 64 states, states with equal cores
(items without their look-aheads) are merged where no conflict comes of it. A state whose only actions are
reductions of one production gets a default reduction instead, unless --no-defaults is given. The hints are
the strongest that are sound: the longest past symbols that all ways into a state share (8 at most), and the
smallest past sets, as deep as the shortest way into a state (8 at most).

--text lists the records in words on standard output. --leave-out=A.20.0 leaves out the records with
these keys, as a maker would who forgot them.
"""
import sys

END = 0                      # the terminal at the end of a plan
ADDED = 254                  # the number of the added production, whose right side is the start
NONE = 255                   # the symbol byte for no symbol
CHARACTERS = "+-*/(),;:=<>{}"
STATES, PRODUCTIONS, SYMBOLS, DEEPEST = 64, 64, 32, 8


class GrammarError(Exception):
    """A grammar that has no sheet, in words."""


# The grammar. A symbol is its byte on a sheet: a terminal 1 to 31, or 64 plus a nonterminal.

def is_nonterminal(symbol):
    return symbol >= 64


class Grammar:
    """Productions as pairs of a left side (a symbol) and a list of right symbols, with names for people."""

    def __init__(self, text):
        self.terminals = {"word": 1, "number": 2}
        self.terminals.update((c, 3 + i) for i, c in enumerate(CHARACTERS))
        lines = [line.split() for line in text.splitlines()]
        lines = [words for words in lines if words and not words[0].startswith("#")]
        for words in lines:
            if words[0] == "keyword" and words[1:2] != ["->"]:
                self.add_keyword(words)
        rules = [words for words in lines if words[1:2] == ["->"]]
        if len(rules) + sum(words[0] == "keyword" and words[1:2] != ["->"] for words in lines) != len(lines):
            raise GrammarError("a line is neither a production nor a keyword")
        self.nonterminals = {}
        for words in rules:
            self.nonterminals.setdefault(words[0], 64 + len(self.nonterminals))
        both = self.nonterminals.keys() & self.terminals.keys()
        if both:
            raise GrammarError("both a terminal and a nonterminal: %s" % ", ".join(sorted(both)))
        self.productions = [(self.nonterminals[words[0]], [self.symbol(w) for w in words[2:]]) for words in rules]
        self.check_limits()
        self.names = {symbol: name for name, symbol in {**self.terminals, **self.nonterminals}.items()}
        self.names[END] = "END"

    def add_keyword(self, words):
        if len(words) != 3 or not words[2].isdigit() or not 17 <= int(words[2]) <= 31:
            raise GrammarError("a keyword has a spelling and a kind of 17 to 31")
        self.terminals[words[1]] = int(words[2])

    def symbol(self, name):
        for table in (self.nonterminals, self.terminals):
            if name in table:
                return table[name]
        raise GrammarError("a symbol that is no left side and no terminal: %s" % name)

    def check_limits(self):
        if not self.productions:
            raise GrammarError("no production")
        if len(self.productions) > PRODUCTIONS or len(self.nonterminals) > SYMBOLS:
            raise GrammarError("more than 64 productions or 32 nonterminals")
        if any(len(right) > DEEPEST for _, right in self.productions):
            raise GrammarError("a right side of more than 8 symbols")

    def right(self, p):
        return [64] if p == ADDED else self.productions[p][1]

    def of(self, nonterminal):
        """The numbers of its productions."""
        return [p for p, (left, _) in enumerate(self.productions) if left == nonterminal]


class Firsts:
    """Which nonterminals are nullable, and the first terminals of each: the least solution of the equations."""

    def __init__(self, grammar):
        self.nullable = set()
        self.first = {n: set() for n in grammar.nonterminals.values()}
        changed = True
        while changed:
            changed = False
            for left, right in grammar.productions:
                terminals, empty = self.of(right)
                if not terminals <= self.first[left] or (empty and left not in self.nullable):
                    self.first[left] |= terminals
                    if empty:
                        self.nullable.add(left)
                    changed = True

    def of(self, symbols):
        """The first terminals of a list of symbols, and whether all of it is nullable."""
        terminals = set()
        for symbol in symbols:
            terminals |= self.first[symbol] if is_nonterminal(symbol) else {symbol}
            if symbol not in self.nullable:
                return terminals, False
        return terminals, True


# The automaton. A state is a dictionary from items (production, dot) to sets of look-aheads.

class Automaton:
    def __init__(self, grammar):
        self.grammar = grammar
        self.firsts = Firsts(grammar)
        self.states = []       # dictionaries of items
        self.incoming = []     # symbols, NONE for state 0
        self.edges = []        # dictionaries from symbols to states

    def closed(self, items):
        """The items with those that they bring along."""
        items = {item: set(looks) for item, looks in items.items()}
        todo = list(items)
        while todo:
            p, dot = todo.pop()
            rest = self.grammar.right(p)[dot:]
            if not rest or not is_nonterminal(rest[0]):
                continue
            wanted, empty = self.firsts.of(rest[1:])
            if empty:
                wanted = wanted | items[p, dot]
            for q in self.grammar.of(rest[0]):
                looks = items.setdefault((q, 0), set())
                if wanted and not wanted <= looks:
                    looks |= wanted
                    todo.append((q, 0))
        return {item: looks for item, looks in items.items() if looks}

    def moves(self, items):
        """From each symbol behind a dot to the items one dot on."""
        moved = {}
        for (p, dot), looks in items.items():
            right = self.grammar.right(p)
            if dot < len(right):
                moved.setdefault(right[dot], {})[p, dot + 1] = looks
        return moved

    def build(self):
        """All states that can be reached, numbered in the order of discovery."""
        numbers = {}

        def number(items, symbol):
            items = self.closed(items)
            frozen = frozenset((item, frozenset(looks)) for item, looks in items.items())
            if frozen not in numbers:
                numbers[frozen] = len(self.states)
                self.states.append(items)
                self.incoming.append(symbol)
                self.edges.append({})
            return numbers[frozen]

        number({(ADDED, 0): {END}}, NONE)
        for s, items in enumerate(self.states):      # the list grows while it is walked
            for symbol, moved in sorted(self.moves(items).items()):
                self.edges[s][symbol] = number(moved, symbol)
        return self

    def merged(self, groups):
        """The automaton whose states are groups of states that go on alike, given as a group for each state."""
        small = Automaton(self.grammar)
        for s, group in enumerate(groups):
            if group == len(small.states):
                small.states.append({})
                small.incoming.append(self.incoming[s])
                small.edges.append({symbol: groups[t] for symbol, t in self.edges[s].items()})
            for item, looks in self.states[s].items():
                small.states[group].setdefault(item, set()).update(looks)
        return small

    def consistent(self, groups):
        """Groups split until all states of one go on alike."""
        while True:
            finer = numbered((group, tuple(sorted((symbol, groups[t]) for symbol, t in self.edges[s].items())))
                             for s, group in enumerate(groups))
            if max(finer) == max(groups):
                return groups
            groups = finer

    def shrunk(self):
        """States with equal cores merged, but for those whose merging makes a conflict."""
        groups = numbered(frozenset(items) for items in self.states)
        while True:
            groups = self.consistent(groups)
            small = self.merged(groups)
            bad = {s for s, _, _ in small.conflicts()}
            if not bad:
                return small
            groups = numbered((group, s if group in bad else None) for s, group in enumerate(groups))

    def actions(self, s):
        """From terminals to the sets of actions that the items of a state ask for, as pairs of two bytes."""
        asked = {}
        for (p, dot), looks in self.states[s].items():
            rest = self.grammar.right(p)[dot:]
            if not rest and p == ADDED:
                asked.setdefault(END, set()).add((3, 0))
            elif not rest:
                for a in looks:
                    asked.setdefault(a, set()).add((2, p))
            elif not is_nonterminal(rest[0]):
                asked.setdefault(rest[0], set()).add((1, self.edges[s][rest[0]]))
        return asked

    def conflicts(self):
        """States and terminals with more than one action."""
        return [(s, a, sorted(asked)) for s in range(len(self.states))
                for a, asked in sorted(self.actions(s).items()) if len(asked) > 1]

    def default(self, s):
        """The production that a state reduces whatever comes, if all its actions are that."""
        asked = {action for actions in self.actions(s).values() for action in actions}
        if len(asked) == 1:
            kind, p = asked.pop()
            return p if kind == 2 else None
        return None

    # The hints: what lies below a state whatever way leads to it.

    def ways_in(self):
        """For each state those from which an edge leads to it."""
        ways = [set() for _ in self.states]
        for s, edges in enumerate(self.edges):
            for t in edges.values():
                ways[t].add(s)
        return ways

    def past_symbols(self):
        """For each state the longest list that ends the trails of all states before it."""
        past = [[]] + [None] * (len(self.states) - 1)
        ways = self.ways_in()
        changed = True
        while changed:
            changed = False
            for t in range(1, len(self.states)):
                trails = [past[s] + [self.incoming[s]] if s else [] for s in ways[t] if past[s] is not None]
                if trails:
                    common = common_end(trails)[-DEEPEST:]
                    changed = changed or common != past[t]
                    past[t] = common
        return past

    def past_sets(self):
        """For each state the sets of states below it, the nearest first, as deep as the shortest way into it."""
        ways = self.ways_in()
        depth = [0] + [len(self.states)] * (len(self.states) - 1)
        for _ in self.states:
            for s, edges in enumerate(self.edges):
                for t in edges.values():
                    depth[t] = min(depth[t], depth[s] + 1)
        sets = [[set() for _ in range(min(d, DEEPEST))] for d in depth]
        for _ in range(DEEPEST):                     # a set at depth d is settled after d + 1 rounds
            for t in range(1, len(self.states)):
                for s in ways[t]:
                    for below, shadow in zip(sets[t], [{s}] + sets[s]):
                        below |= shadow
        return sets


def numbered(things):
    """The things as numbers in the order of first appearance."""
    order = {}
    return [order.setdefault(thing, len(order)) for thing in things]


def common_end(lists):
    """The longest list with which all end."""
    shared = lists[0]
    for other in lists[1:]:
        n = 0
        while n < min(len(shared), len(other)) and shared[-1 - n] == other[-1 - n]:
            n += 1
        shared = shared[len(shared) - n:]
    return shared


# The sheet.

def record(letter, a=0, b=0, c=0, fields=(), payload=bytes(8)):
    return bytes([ord(letter), a, b, c]) + bytes(fields).ljust(4, b"\0") + payload


def as_set(members):
    return sum(1 << i for i in members).to_bytes(8, "big")


def as_symbols(symbols):
    return bytes(symbols).ljust(8, bytes([NONE]))


def records(automaton, defaults):
    """The records of the sheet of an automaton, in the order of their keys."""
    grammar, firsts = automaton.grammar, automaton.firsts
    past, sets = automaton.past_symbols(), automaton.past_sets()
    found = []
    for s, items in enumerate(automaton.states):
        default = automaton.default(s) if defaults else None
        if default is not None:
            found.append(record("D", s, fields=[default]))
        else:
            found += [record("A", s, a, fields=action) for a, asked in automaton.actions(s).items() for action in asked]
        found += [record("G", s, x - 64, fields=[t]) for x, t in automaton.edges[s].items() if is_nonterminal(x)]
        found += [record("I", s, p, dot, payload=as_set(looks)) for (p, dot), looks in items.items()]
        found += [record("K", s, d, payload=as_set(states)) for d, states in enumerate(sets[s])]
        found.append(record("S", s, fields=[automaton.incoming[s], len(past[s])], payload=as_symbols(past[s])))
    for n in grammar.nonterminals.values():
        found.append(record("N", n - 64, fields=[int(n in firsts.nullable)], payload=as_set(firsts.first[n])))
    for p, (left, right) in enumerate(grammar.productions):
        found.append(record("P", p, fields=[left - 64, len(right)], payload=as_symbols(right)))
    return sorted(found)


def automaton_of(grammar):
    """An automaton without conflicts that fits a sheet."""
    automaton = Automaton(grammar).build()
    for s, a, asked in automaton.conflicts():
        raise GrammarError("state %d has more than one action before %s: %s" % (s, grammar.names[a], asked))
    if len(automaton.states) > STATES:
        automaton = automaton.shrunk()
    if len(automaton.states) > STATES:
        raise GrammarError("%d states, and a sheet has room for 64" % len(automaton.states))
    return automaton


# In words, for people.

def in_words(row, grammar):
    letter, a, b, c, f1, f2 = chr(row[0]), *row[1:6]
    members = [i for i in range(64) if int.from_bytes(row[8:], "big") >> i & 1]
    names = [grammar.names.get(x, str(x)) for x in row[8:8 + f2]] if letter in "PS" else []
    state = "state %d" % a
    if letter == "A":
        what = ["", "shift to state %d" % f2, "reduce production %d" % f2, "accept"][f1]
        return "%s before %s: %s" % (state, grammar.names[b], what)
    if letter == "D":
        return "%s: reduce production %d without a look" % (state, f1)
    if letter == "G":
        return "%s on %s: state %d" % (state, grammar.names[64 + b], f1)
    if letter == "I":
        return "%s has production %d, dot %d, before %s" % (state, b, c, " ".join(grammar.names[i] for i in members))
    if letter == "K":
        return "%s, depth %d: states %s" % (state, b, " ".join(map(str, members)))
    if letter == "N":
        return "%s: %snullable, begins with %s" % (grammar.names[64 + a], "" if f1 else "not ",
                                                   " ".join(grammar.names[i] for i in members))
    if letter == "P":
        return "%s -> %s" % (grammar.names[64 + f1], " ".join(names))
    return "%s: incoming %s, past %s" % (state, grammar.names.get(f1, "none"), " ".join(names) or "none")


def without(rows, keys):
    """The records without those of some keys, each of which must be there."""
    for key in keys:
        letter, *numbers = key.split(".")
        wanted = bytes([ord(letter)] + [int(n) for n in numbers]).ljust(4, b"\0")
        kept = [row for row in rows if row[:4] != wanted]
        if len(kept) == len(rows):
            raise GrammarError("no record %s to leave out" % key)
        rows = kept
    return rows


def main(words):
    options = {word for word in words if word.startswith("--")}
    files = [word for word in words if word not in options]
    left_out = [key for word in options if word.startswith("--leave-out=") for key in word[12:].split(",")]
    known = {"--no-defaults", "--text"} | {word for word in options if word.startswith("--leave-out=")}
    if len(files) != 2 or options - known:
        sys.exit(__doc__)
    with open(files[0]) as source:
        text = source.read()
    try:
        grammar = Grammar(text)
        rows = without(records(automaton_of(grammar), "--no-defaults" not in options), left_out)
    except GrammarError as error:
        sys.exit("%s: %s" % (files[0], error))
    with open(files[1], "wb") as out:
        out.write(b"".join(rows))
    if "--text" in options:
        for i, row in enumerate(rows):
            key = "%c %s" % (row[0], " ".join(map(str, row[1:4])))
            print("%4d  %-12s %s" % (i, key, in_words(row, grammar)))


if __name__ == "__main__":
    main(sys.argv[1:])
