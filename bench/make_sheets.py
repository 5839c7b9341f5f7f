#!/usr/bin/env python3
"""Writes well-formed sheets of a given number of records, for measuring: make_sheets.py FOLDER."""
import os
import sys


def record(letter, a=0, b=0, c=0, fields=(0, 0, 0, 0), payload=bytes(8)):
    return bytes([ord(letter), a, b, c]) + bytes(fields) + payload


def sheet(total, states, productions, nonterminals, depths, gotos):
    """Every state but the first is entered by a nonterminal; items fill up to the total."""
    none = b"\xff" * 8
    records = [record("S", s, fields=(255 if s == 0 else 64 + (s - 1) % nonterminals, 0, 0, 0), payload=none)
               for s in range(states)]
    for p in range(productions):
        right = bytes(64 + (p + k) % nonterminals if k % 2 else 1 + (p + k) % 31 for k in range(8))
        records.append(record("P", p, fields=(p % nonterminals, 8, 0, 0), payload=right))
    for n in range(nonterminals):
        records.append(record("N", n, fields=(n % 2, 0, 0, 0), payload=(2 + 4 * n).to_bytes(8, "big")))
    every_state = ((1 << states) - 1).to_bytes(8, "big")
    records += [record("K", s, d, payload=every_state) for s in range(1, states) for d in range(depths)]
    records += [record("G", s, n, fields=(n + 1, 0, 0, 0)) for s in range(states) for n in range(gotos)]
    items = [(s, p, d) for s in range(states) for p in range(productions) for d in range(9)]
    records += [record("I", s, p, d, payload=(7).to_bytes(8, "big")) for s, p, d in items[:total - len(records)]]
    records.sort()
    return b"".join(records)


def main():
    folder = sys.argv[1]
    os.makedirs(folder, exist_ok=True)
    for name, parts in [("records_400", (400, 24, 20, 8, 2, 4)), ("records_4000", (4000, 64, 64, 32, 8, 10))]:
        with open(os.path.join(folder, name + ".sheet"), "wb") as out:
            out.write(sheet(*parts))


main()
