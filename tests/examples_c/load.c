/* A load of nine digits from the seed 12, read into a table, written back, and made a second time.
 * tests/lazvorn/examples/load.rs does the same and derives the line. */
#include "lazvorn.h"
#include <stdio.h>

static uint32_t table[64], stack[96];
static uint8_t load[LAZVORN_LOAD_DIGITS], back[9], again[9];

/* Prints a text of so many digits. */
static void print_text(const char *before, const uint8_t *text, size_t digits) {
    printf("%s%.*s, ", before, (int)digits, (const char *)text);
}

int main(void) {
    size_t g[2], r[5], w[5];
    lazvorn_generate(12, 9, load, sizeof load, g);
    if (g[LAZVORN_REFUSAL] != 0) return 1;
    print_text("seed 12: ", load, g[LAZVORN_GENERATED]);
    lazvorn_read(table, 64, 0, stack, 96, load, g[LAZVORN_GENERATED], r);
    if (r[LAZVORN_REFUSAL] != 0) return 1;
    printf("%zu nodes, ", r[LAZVORN_USED]);
    lazvorn_write(table, 64, r[LAZVORN_USED], stack, 96, r[LAZVORN_NODE], back, sizeof back, w);
    if (w[LAZVORN_REFUSAL] != 0) return 1;
    print_text("written ", back, w[LAZVORN_DIGITS]);
    lazvorn_generate(12, 9, again, sizeof again, g);
    if (g[LAZVORN_REFUSAL] != 0) return 1;
    print_text("again ", again, g[LAZVORN_GENERATED]);
    lazvorn_generate(12, 4096, load, sizeof load, g);
    if (g[LAZVORN_REFUSAL] != 0) return 1;
    printf("4096 digits: %zu, ", g[LAZVORN_GENERATED]);
    lazvorn_generate(12, 9, load, 8, g);
    printf("8 bytes: refusal %zu\n", g[LAZVORN_REFUSAL]);
    return 0;
}
