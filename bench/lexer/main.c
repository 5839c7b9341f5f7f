/* Lexes one plan with the lexer of the library and with the one in C, and tells whether they come to the same. */
#include <stddef.h>
#include <stdint.h>
#include <stdio.h>
#include <stdlib.h>

uint64_t lexer_sum(const uint8_t *plan, size_t length);
uint64_t lexer_sum_peeked(const uint8_t *plan, size_t length, uint32_t peeks);
uint64_t c_sum(const uint8_t *plan, size_t length);
uint64_t c_sum_peeked(const uint8_t *plan, size_t length, uint32_t peeks);

static uint8_t plan[65536];

int main(int argc, char **argv) {
    if (argc != 3) {
        fprintf(stderr, "usage: %s PLAN PEEKS\n", argv[0]);
        return 2;
    }
    FILE *file = fopen(argv[1], "rb");
    if (!file) {
        perror(argv[1]);
        return 2;
    }
    size_t length = fread(plan, 1, sizeof plan, file);
    fclose(file);
    uint32_t peeks = (uint32_t)atoi(argv[2]);
    uint64_t ours = lexer_sum(plan, length);
    uint64_t theirs = c_sum(plan, length);
    uint64_t ours_peeked = lexer_sum_peeked(plan, length, peeks);
    uint64_t theirs_peeked = c_sum_peeked(plan, length, peeks);
    printf("%zu bytes, sum %llu\n", length, (unsigned long long)ours);
    if (ours != theirs || ours_peeked != ours || theirs_peeked != ours) {
        printf("the lexers differ\n");
        return 1;
    }
    return 0;
}
