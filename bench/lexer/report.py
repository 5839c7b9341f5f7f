"""Prints the instructions per byte of the four functions of one run."""
import re
import sys

plan, peeks, path, costs = sys.argv[1:]
size = len(open(path, "rb").read())
spent = {}
for line in open(costs):
    found = re.match(r"\s*([\d,]+) (?:\(\s*[\d.]+%\) )?.*[:>](lexer_sum_peeked|lexer_sum|c_sum_peeked|c_sum)\b", line)
    if found:
        spent.setdefault(found[2], int(found[1].replace(",", "")))
for kind, ours, theirs in [("0", "lexer_sum", "c_sum"), (peeks, "lexer_sum_peeked", "c_sum_peeked")]:
    if kind == "0" and peeks != "1":
        continue
    a, b = spent[ours] / size, spent[theirs] / size
    print(f"{plan:12} {kind:>5} {a:22.2f} {b:22.2f} {a / b:6.2f}")
