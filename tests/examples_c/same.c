/* Whether a rule's tree is the one of a text: \x. x x beside 212101021010 and beside 21010. */
#include "lazvorn.h"
#include <stdio.h>

static uint32_t table[64], stack[96];

/* The node of a text's tree, and the used nodes after it. */
static size_t node_of(const char *text, size_t digits, size_t *used) {
    size_t r[5];
    lazvorn_read(table, 64, *used, stack, 96, (const uint8_t *)text, digits, r);
    *used = r[LAZVORN_USED];
    return r[LAZVORN_NODE];
}

int main(void) {
    static const uint8_t rule[] = {2, 1, 3, 0, 3, 0};
    size_t t[5], s[2], used, nodes[2];
    lazvorn_translate(table, 64, 0, stack, 96, rule, sizeof rule, t);
    if (t[LAZVORN_REFUSAL] != 0) return 1;
    used = t[LAZVORN_USED];
    nodes[0] = node_of("212101021010", 12, &used);
    nodes[1] = node_of("21010", 5, &used);
    for (int i = 0; i < 2; i++) {
        lazvorn_same(table, 64, used, t[LAZVORN_NODE], nodes[i], s);
        if (s[LAZVORN_REFUSAL] != 0) return 1;
        printf("%zu and %zu: %zu, ", t[LAZVORN_NODE], nodes[i], s[LAZVORN_EQUAL]);
    }
    printf("%zu used\n", used);
    return 0;
}
