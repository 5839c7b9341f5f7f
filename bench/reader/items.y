/* The language of examples/items: items of a word and a number, and bracketed lists of them. The value of a list is the
   sum of its numbers. The tokens are the kinds of the lexer. */
%define api.pure full
%define api.prefix {items_}
%define api.value.type {uint64_t}
%param {struct lexer *lexer}
%parse-param {uint64_t *minutes}
%token WORD 1 NUMBER 2 OPEN 7 CLOSE 8

%code requires {
/* In one file with the parser, so that the compiler may inline it. */
#include "lexer.c"
}

%code {
static int items_lex(ITEMS_STYPE *value, struct lexer *lexer);
static void items_error(struct lexer *lexer, uint64_t *minutes, const char *message);
}

%%

plan: list              { *minutes = $1; }
    ;

list: %empty            { $$ = 0; }
    | list item         { $$ = $1 + $2; }
    ;

item: WORD NUMBER       { $$ = $2; }
    | OPEN list CLOSE   { $$ = $2; }
    ;

%%

static int items_lex(ITEMS_STYPE *value, struct lexer *lexer) {
    struct token token;
    switch (lexer_take(lexer, &token)) {
    case TOKEN:
        *value = token.value;
        return token.kind;
    case END:
        return ITEMS_EOF;
    default:
        return ITEMS_UNDEF;
    }
}

static void items_error(struct lexer *lexer, uint64_t *minutes, const char *message) {
    (void)lexer;
    (void)minutes;
    (void)message;
}

/* The minutes of a plan: 0 if it is accepted, else another number. */
int bison_minutes(const uint8_t *plan, size_t length, uint64_t *minutes) {
    struct lexer lexer;
    lexer_open(&lexer, plan, length);
    return items_parse(&lexer, minutes);
}
