#!/usr/bin/env bash
# Makes every example's sheet anew and compares it with the one that stands here, checks it, and reads its plans.
# Wants python3 only. With a folder of cases as its argument it compares with those too.
set -eu
cd "$(dirname "$0")"
export PYTHONDONTWRITEBYTECODE=1
new=$(mktemp)
trap 'rm -f "$new"' EXIT
for name in list conditions expressions items right; do
    python3 make_sheet.py "$name/$name.grammar" "$new"
    cmp "$new" "$name/$name.sheet"
    python3 check_sheet.py "$name/$name.sheet"
done
cmp list/list.sheet ../crates/checksheet/data/practice.sheet
# Forgotten: what a plan that ends inside a nested condition is reduced by.
python3 make_sheet.py conditions/conditions.grammar "$new" --leave-out=A.20.0
cmp "$new" conditions/conditions_flawed.sheet
python3 check_sheet.py conditions/conditions_flawed.sheet | tee "$new" || true
grep -q 'opening ok, checking 7,92$' "$new"
python3 read_plan.py --expected list conditions expressions items right
if [ $# -gt 0 ]; then
    python3 check_sheet.py --cases "$1/sheets.txt"
    python3 read_plan.py --lexing "$1/lexing.txt"
    python3 read_plan.py --readings "$1/readings.txt"
fi
