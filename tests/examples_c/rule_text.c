/* A rule from text to bytes to packet to line: p and not q, on true (K, 10) and false (KI, 2021010). */
#include "lazvorn.h"
#include <stdio.h>
#include <string.h>

static uint32_t table[16384], stack[12288];
static uint8_t rule[4096], packet[16384], out[16384];

static size_t field(size_t at, uint8_t tag, const void *value, size_t n) {
    packet[at] = tag;
    packet[at + 1] = (uint8_t)(n >> 8);
    packet[at + 2] = (uint8_t)n;
    memcpy(packet + at + 3, value, n);
    return at + 3 + n;
}

int main(void) {
    static const char text[] = "\\p.\\q.p & !q";
    size_t r[2], a[LAZVORN_COUNTED];
    lazvorn_rule_text((const uint8_t *)text, sizeof text - 1, rule, sizeof rule, r);
    if (r[0] != 0) return 1;
    size_t n = field(field(field(0, 1, rule, r[1]), 2, "10", 2), 2, "2021010", 7);
    lazvorn_run(table, 16384, stack, 12288, out, sizeof out, packet, n, a);
    printf("%zu %zu %zu %.*s\n", a[0], a[3], a[2], (int)a[4], (char *)out);
    return a[0] != 0;
}
