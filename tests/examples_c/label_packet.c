/* A packet's rule labelled with its label, and both out of the labelled tree's text again. */
#include "lazvorn.h"
#include <stdio.h>

static uint32_t table[16384], stack[12288];
static uint8_t labelled[16384], out[16384];

/* The text of a node, in out. */
static int written(size_t used, size_t node) {
    size_t w[5];
    lazvorn_write(table, 16384, used, stack, 12288, node, out, sizeof out, w);
    return (int)w[LAZVORN_DIGITS];
}

int main(void) {
    static const uint8_t packet[] = {1, 0, 6, 2, 1, 3, 0, 3, 0, 2, 0, 1, '0', 4, 0, 2, '1', '0'};
    size_t a[5], r[5], p[LAZVORN_PARTS];
    lazvorn_label_packet(table, 16384, stack, 12288, labelled, sizeof labelled, packet,
                         sizeof packet, a);
    if (a[LAZVORN_REFUSAL] != 0) return 1;
    lazvorn_read(table, 16384, 0, stack, 12288, labelled, a[LAZVORN_DIGITS], r);
    if (r[LAZVORN_REFUSAL] != 0) return 1;
    lazvorn_unlabel(table, 16384, r[LAZVORN_USED], r[LAZVORN_NODE], p);
    if (p[LAZVORN_REFUSAL] != 0) return 1;
    printf("%.*s:", (int)a[LAZVORN_DIGITS], (char *)labelled);
    printf(" rule %.*s,", written(p[LAZVORN_USED], p[LAZVORN_NODE]), (char *)out);
    printf(" label %.*s\n", written(p[LAZVORN_USED], p[LAZVORN_LABEL]), (char *)out);
    return 0;
}
