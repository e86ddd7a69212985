/* Runs document 01's packet: the rule \x. x x on the leaf. */
#include "lazvorn.h"
#include <stdio.h>

static uint32_t table[16384], stack[12288];
static uint8_t out[16384];

int main(void) {
    static const uint8_t packet[] = {1, 0, 6, 2, 1, 3, 0, 3, 0, 2, 0, 1, '0'};
    size_t a[LAZVORN_COUNTED];
    lazvorn_run(table, 16384, stack, 12288, out, sizeof out, packet, sizeof packet, a);
    printf("%zu %zu %zu %.*s\n", a[0], a[3], a[2], (int)a[4], (char *)out);
    return a[0] != 0;
}
