/* A packet run in too little room, with one more of what each stop names until it completes.
 * tests/lazvorn/examples/stopped.rs runs the same packet and derives the line. */
#include "lazvorn.h"
#include <stdio.h>
#include <string.h>

static uint32_t table[131072], stack[65536];
static uint8_t out[9], packet[54];

/* \x. x on eleven times 210 over a leaf, and on the leaf; the step limit is the last byte. */
static void make_packet(uint8_t limit) {
    static const uint8_t head[] = {1, 0, 3, 2, 3, 0, 2, 0, 34};
    static const uint8_t tail[] = {'0', 2, 0, 1, '0', 3, 0, 4, 0, 0, 0};
    memcpy(packet, head, 9);
    for (size_t i = 0; i < 11; i++) memcpy(packet + 9 + 3 * i, "210", 3);
    memcpy(packet + 42, tail, 11);
    packet[53] = limit;
}

int main(void) {
    static const char *const rules[] = {"leaf", "stem", "drop", "spread", "triage"};
    size_t words = 32, frame_words = 30, s[LAZVORN_STOPPED], a[LAZVORN_COUNTED];
    uint8_t limit = 37;
    for (;;) {
        make_packet(limit);
        lazvorn_stopped(table, words, stack, frame_words, out, 9, packet, sizeof packet, s);
        if (s[LAZVORN_WANTED] == 0) break;
        printf("%zu %zu %zu ", s[LAZVORN_REFUSAL], s[LAZVORN_PLACE], s[LAZVORN_TAKEN]);
        printf("%s, ", rules[s[LAZVORN_WANTED] - LAZVORN_WANTED_LEAF]);
        switch (s[LAZVORN_REFUSAL]) {
        case LAZVORN_NO_STEPS: limit += 1; break;
        case LAZVORN_NO_NODES: words += 2; break;
        default: frame_words += 3;
        }
    }
    lazvorn_run(table, words, stack, frame_words, out, 9, packet, sizeof packet, a);
    printf("%zu %zu %zu %.*s\n", a[0], a[3], a[2], (int)a[4], (char *)out);
    return s[LAZVORN_REFUSAL] != 0;
}
