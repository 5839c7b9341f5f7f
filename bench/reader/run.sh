#!/usr/bin/env bash
# Instructions per byte of the parser that bison makes for the items language, with a lexer in C at -O2, summing the
# minutes. Wants bison, gcc, valgrind and python3.
set -eu
cd "$(dirname "$0")/../.."
out=out/bench/reader
mkdir -p "$out"
bison -o "$out/items.c" bench/reader/items.y
gcc -O2 -g -Ibench/lexer -c "$out/items.c" -o "$out/items.o"
gcc -O2 -g -c bench/reader/main.c -o "$out/main.o"
gcc "$out/main.o" "$out/items.o" -o "$out/bench"
python3 bench/reader/plans.py "$out" 1000 4000 16000 65000
printf '%8s %8s %14s %10s %12s %16s %10s\n' bytes tokens instructions per-byte lexing/byte parsing/token ns/byte
for size in 1000 4000 16000 65000; do
    valgrind --tool=callgrind --callgrind-out-file="$out/callgrind.out" "$out/bench" "$out/$size.txt" 1 \
        > "$out/bench.log" 2> "$out/valgrind.log"
    callgrind_annotate --inclusive=yes --threshold=100 "$out/callgrind.out" > "$out/costs.txt"
    time=$("$out/bench" "$out/$size.txt" 500 | sed 's/.*per byte \([0-9.]*\).*/\1/')
    python3 bench/reader/report.py "$out/$size.txt" "$out/costs.txt" "$time"
done
