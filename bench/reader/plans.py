"""Writes plans of the items language: plans.py FOLDER SIZE..., each of exactly so many bytes, the same every time."""
import random
import sys

WORDS = ["lamp", "fan", "charge", "pack", "dock", "rest", "heat", "pump", "x", "overnite"]
DEEPEST = 6


def plan(size):
    """Items a few to a line, brackets opened and closed at random, and blanks up to the size."""
    rng = random.Random(size)
    text, depth = "", 0
    while True:
        roll = rng.random()
        if roll < 0.1 and depth < DEEPEST:
            piece, step = "( ", 1
        elif roll < 0.2 and depth > 0:
            piece, step = ") ", -1
        else:
            piece, step = "%s %d%s" % (rng.choice(WORDS), rng.randint(0, 600), rng.choice([" ", " ", "\n"])), 0
        if len(text) + len(piece) + 2 * (depth + step) > size:
            return (text + ") " * depth).ljust(size)
        text, depth = text + piece, depth + step


for size in map(int, sys.argv[2:]):
    with open(f"{sys.argv[1]}/{size}.txt", "w") as file:
        file.write(plan(size))
