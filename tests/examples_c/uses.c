/* What sort of work document 01's packet is: how often each rule was used. */
#include "lazvorn.h"
#include <stdio.h>

static uint32_t table[16384], stack[12288];
static uint8_t out[16384];

int main(void) {
    static const uint8_t packet[] = {1, 0, 6, 2, 1, 3, 0, 3, 0, 2, 0, 1, '0'};
    static const char *const rules[] = {"leaf", "stem", "drop", "spread", "triage"};
    size_t a[LAZVORN_COUNTED];
    lazvorn_run(table, 16384, stack, 12288, out, sizeof out, packet, sizeof packet, a);
    printf("%zu steps:", a[LAZVORN_STEPS]);
    for (int rule = LAZVORN_LEAF; rule <= LAZVORN_TRIAGE; rule++)
        printf(" %s %zu", rules[rule - LAZVORN_LEAF], a[rule]);
    printf("\n");
    return a[LAZVORN_REFUSAL] != 0;
}
