"""Writes plans of 65,000 bytes: a plan's own mix of words, numbers and marks, each kind alone, and one long number."""
import random
import sys

LENGTH = 65_000
MARKS = "+-*/(),;:=<>{}"
WORDS = ["on", "off", "charge", "until", "at", "if", "then", "dock", "pack", "watt", "hour", "full", "rest", "x"]


def filled(pieces):
    text = ""
    while len(text) < LENGTH:
        text += next(pieces)
    return text[:LENGTH]


def mixed(rng):
    while True:
        yield rng.choice(WORDS) + " "
        if rng.random() < 0.4:
            yield str(rng.randint(0, 9999)) + " "
        if rng.random() < 0.5:
            yield rng.choice(MARKS) + rng.choice(["", " ", "\n    "])


def words(rng):
    while True:
        yield rng.choice(WORDS) + " "


def numbers(rng):
    while True:
        yield str(rng.randint(0, 4_294_967_295)) + " "


def marks(rng):
    while True:
        yield rng.choice(MARKS)


def digits(rng):
    while True:
        yield "0"


def large(rng):
    yield "0" * (LENGTH - 20)
    yield "9" * 20


PLANS = {"text": mixed, "words": words, "numbers": numbers, "marks": marks, "digits": digits, "large": large}
for name, pieces in PLANS.items():
    with open(f"{sys.argv[1]}/{name}.txt", "w") as file:
        file.write(filled(pieces(random.Random(1))))
