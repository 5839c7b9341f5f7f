"""Prints the instructions per byte of one run: report.py PLAN COSTS TIME."""
import re
import sys

path, costs, time = sys.argv[1:]
with open(path, "rb") as file:
    text = file.read()
tokens = len(re.findall(rb"[a-z]+|[0-9]+|[^a-z0-9 \n]", text))
spent = {}
with open(costs) as lines:
    for line in lines:
        found = re.match(r"\s*([\d,]+) (?:\(\s*[\d.]+%\) )?.*[:>](bison_minutes|c_sum)\b", line)
        if found:
            spent.setdefault(found[2], int(found[1].replace(",", "")))
whole, lexing = spent["bison_minutes"], spent["c_sum"]
print(f"{len(text):8} {tokens:8} {whole:14} {whole / len(text):10.2f} {lexing / len(text):12.2f} "
      f"{(whole - lexing) / tokens:16.1f} {time:>10}")
