#!/usr/bin/env bash
# Instructions that opening takes, by callgrind, above those of the practice sheet. Needs valgrind and python3.
set -eu
cd "$(dirname "$0")/.."
(cd crates/checksheet && rt run -- data/practice.sheet > /dev/null)
work=$(mktemp -d)
trap 'rm -rf "$work"' EXIT
python3 bench/make_sheets.py "$work"
cp crates/checksheet/data/practice.sheet "$work/records_20.sheet"
for n in 20 400 4000; do
    total=$(valgrind --tool=callgrind --callgrind-out-file=/dev/null crates/checksheet/out/checksheet "$work/records_$n.sheet" 2>&1 \
        | sed -n 's/.*Collected : //p')
    [ "$n" = 20 ] && base=$total
    echo "$n records: $total instructions, $(((total - base) / n)) per record above the practice sheet"
done
