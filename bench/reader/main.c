/* Reads one plan with the parser that bison makes, and the lexer alone, as often as is told. */
#include <stddef.h>
#include <stdint.h>
#include <stdio.h>
#include <stdlib.h>
#include <time.h>

int bison_minutes(const uint8_t *plan, size_t length, uint64_t *minutes);
uint64_t c_sum(const uint8_t *plan, size_t length);

static uint8_t plan[65536];

static double nanoseconds(struct timespec from, struct timespec to) {
    return (to.tv_sec - from.tv_sec) * 1e9 + (to.tv_nsec - from.tv_nsec);
}

int main(int argc, char **argv) {
    if (argc != 3) {
        fprintf(stderr, "usage: %s PLAN TIMES\n", argv[0]);
        return 2;
    }
    FILE *file = fopen(argv[1], "rb");
    if (!file) {
        perror(argv[1]);
        return 2;
    }
    size_t length = fread(plan, 1, sizeof plan, file);
    fclose(file);
    long times = atol(argv[2]);
    uint64_t minutes = 0;
    uint64_t lexed = 0;
    struct timespec start, end;
    clock_gettime(CLOCK_MONOTONIC, &start);
    for (long i = 0; i < times; i++) {
        if (bison_minutes(plan, length, &minutes) != 0) {
            printf("the plan is refused\n");
            return 1;
        }
    }
    clock_gettime(CLOCK_MONOTONIC, &end);
    for (long i = 0; i < times; i++) {
        lexed += c_sum(plan, length);
    }
    printf("minutes %llu, nanoseconds per byte %.2f, lexed %llu\n", (unsigned long long)minutes,
           nanoseconds(start, end) / times / length, (unsigned long long)lexed);
    return 0;
}
