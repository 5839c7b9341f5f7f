#include "lexer.h"

void lexer_open(struct lexer *lexer, const uint8_t *plan, size_t length) {
    lexer->plan = plan;
    lexer->at = plan;
    lexer->end = plan + length;
    lexer->ahead = 0;
}

static uint8_t mark_kind(uint8_t byte) {
    switch (byte) {
    case '+': return 3;
    case '-': return 4;
    case '*': return 5;
    case '/': return 6;
    case '(': return 7;
    case ')': return 8;
    case ',': return 9;
    case ';': return 10;
    case ':': return 11;
    case '=': return 12;
    case '<': return 13;
    case '>': return 14;
    case '{': return 15;
    case '}': return 16;
    default: return 0;
    }
}

static enum answer scan(struct lexer *lexer, struct token *token) {
    const uint8_t *at = lexer->at;
    const uint8_t *end = lexer->end;
    while (at != end && (*at == ' ' || *at == '\n')) {
        at++;
    }
    lexer->at = at;
    if (at == end) {
        return END;
    }
    const uint8_t *start = at;
    uint8_t byte = *at;
    uint64_t value = 0;
    if (byte >= 'a' && byte <= 'z') {
        token->kind = 1;
        do {
            if (at - start == 8) {
                return LONG_WORD;
            }
            value = value << 8 | byte;
            at++;
        } while (at != end && (byte = *at) >= 'a' && byte <= 'z');
    } else if (byte >= '0' && byte <= '9') {
        uint8_t digit;
        token->kind = 2;
        for (; at != end && (digit = *at - '0') < 10; at++) {
            value = value * 10 + digit;
            if (value > 4294967295u) {
                return LARGE_NUMBER;
            }
        }
    } else {
        uint8_t kind = mark_kind(byte);
        if (kind == 0) {
            return UNKNOWN_BYTE;
        }
        token->kind = kind;
        at++;
    }
    lexer->at = at;
    token->place = (uint32_t)(start - lexer->plan);
    token->length = (uint32_t)(at - start);
    token->value = value;
    return TOKEN;
}

enum answer lexer_peek(struct lexer *lexer, struct token *token) {
    if (!lexer->ahead) {
        lexer->answer = scan(lexer, &lexer->next);
        lexer->ahead = 1;
    }
    *token = lexer->next;
    return lexer->answer;
}

enum answer lexer_take(struct lexer *lexer, struct token *token) {
    if (lexer->ahead) {
        if (lexer->answer == TOKEN) {
            lexer->ahead = 0;
        }
        *token = lexer->next;
        return lexer->answer;
    }
    return scan(lexer, token);
}

uint64_t c_sum(const uint8_t *plan, size_t length) {
    struct lexer lexer;
    struct token token;
    uint64_t all = 0;
    lexer_open(&lexer, plan, length);
    while (lexer_take(&lexer, &token) == TOKEN) {
        all += (uint64_t)token.kind + token.place + token.length + token.value;
    }
    return all;
}

uint64_t c_sum_peeked(const uint8_t *plan, size_t length, uint32_t peeks) {
    struct lexer lexer;
    struct token token;
    uint64_t all = 0;
    lexer_open(&lexer, plan, length);
    for (;;) {
        for (uint32_t i = 0; i < peeks; i++) {
            lexer_peek(&lexer, &token);
        }
        if (lexer_take(&lexer, &token) != TOKEN) {
            return all;
        }
        all += (uint64_t)token.kind + token.place + token.length + token.value;
    }
}
