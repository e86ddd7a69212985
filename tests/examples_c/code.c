/* The code of a tree, and the text of that code; a tree without a code, a code without a text, and
 * too few out bytes. tests/lazvorn/examples/code.rs does the same and derives the line. */
#include "lazvorn.h"
#include <stdio.h>
#include <stdlib.h>
#include <string.h>

static uint32_t table[64], stack[96];
static uint8_t out[LAZVORN_CODE_DIGITS];

/* Asks for the code of a text's tree. */
static void ask(const char *text, size_t *answer) {
    size_t r[5];
    lazvorn_read(table, 64, 0, stack, 96, (const uint8_t *)text, strlen(text), r);
    if (r[LAZVORN_REFUSAL] != 0) exit(1);
    lazvorn_code(table, 64, r[LAZVORN_USED], r[LAZVORN_NODE], answer);
    if (answer[LAZVORN_REFUSAL] != 0) exit(1);
}

int main(void) {
    size_t c[LAZVORN_CODED], t[LAZVORN_CODED];
    ask("21010", c);
    if (!c[LAZVORN_FOUND]) return 1;
    printf("21010: code %zu, ", c[LAZVORN_CODE]);
    lazvorn_code_text(c[LAZVORN_CODE], out, sizeof out, t);
    if (t[LAZVORN_REFUSAL] != 0 || !t[LAZVORN_FOUND]) return 1;
    printf("code %zu: %.*s, ", c[LAZVORN_CODE], (int)t[LAZVORN_CODE_WRITTEN], (const char *)out);
    ask("22101021010", t);
    printf("22101021010: %s, ", t[LAZVORN_FOUND] ? "some" : "none");
    lazvorn_code_text(LAZVORN_CODES, out, sizeof out, t);
    if (t[LAZVORN_REFUSAL] != 0) return 1;
    printf("code %d: %s, ", LAZVORN_CODES, t[LAZVORN_FOUND] ? "some" : "none");
    lazvorn_code_text(c[LAZVORN_CODE], out, 4, t);
    printf("4 bytes: refusal %zu\n", t[LAZVORN_REFUSAL]);
    return 0;
}
