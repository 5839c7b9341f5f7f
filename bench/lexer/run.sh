#!/usr/bin/env bash
# Instructions per byte of the lexer and of one in C at -O2, in one run under callgrind.
# Wants gcc, valgrind and python3 beside the toolchain.
set -eu
cd "$(dirname "$0")/../.."
(cd crates/lexer_c && rt lib > /dev/null)
out=out/bench/lexer
mkdir -p "$out"
gcc -O2 -g -c bench/lexer/lexer.c -o "$out/lexer.o"
gcc -O2 -g -c bench/lexer/main.c -o "$out/main.o"
gcc "$out/main.o" "$out/lexer.o" crates/lexer_c/out/liblexer_c.a -o "$out/bench"
python3 bench/lexer/plans.py "$out"
printf '%-12s %5s %22s %22s %6s\n' plan peeks library/byte C/byte ratio
for plan in text words numbers marks digits large; do
    for peeks in 1 10; do
        valgrind --tool=callgrind --callgrind-out-file="$out/callgrind.out" "$out/bench" "$out/$plan.txt" "$peeks" \
            > "$out/bench.log" 2> "$out/valgrind.log"
        callgrind_annotate --inclusive=yes --threshold=100 "$out/callgrind.out" > "$out/costs.txt"
        python3 bench/lexer/report.py "$plan" "$peeks" "$out/$plan.txt" "$out/costs.txt"
    done
done
