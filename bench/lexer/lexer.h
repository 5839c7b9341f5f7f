#include <stddef.h>
#include <stdint.h>

/* A lexer as one writes it in C: bytes 10 and 32 separate, longest runs of a to z are words of at most 8 letters, longest
   runs of digits are numbers of 32 bits, and fourteen characters are tokens of their own. */
struct token {
    uint8_t kind;
    uint32_t place;
    uint32_t length;
    uint64_t value;
};

enum answer { TOKEN, END, UNKNOWN_BYTE, LONG_WORD, LARGE_NUMBER };

struct lexer {
    const uint8_t *plan;
    const uint8_t *at;
    const uint8_t *end;
    int ahead; /* whether `next` and `answer` stand for what comes next */
    enum answer answer;
    struct token next;
};

void lexer_open(struct lexer *lexer, const uint8_t *plan, size_t length);
enum answer lexer_peek(struct lexer *lexer, struct token *token);
enum answer lexer_take(struct lexer *lexer, struct token *token);
