/* Which packet is run at a minute of a week, and how many minutes it is until the next window begins.
 * tests/lazvorn/examples/week.rs asks the same of the same week and derives the line. */
#include "lazvorn.h"
#include <stdio.h>

static uint32_t week[LAZVORN_WEEK_NUMBERS];

/* Puts a window into a place of a day. */
static void put(size_t day, size_t place, uint32_t first, uint32_t end, uint32_t packet) {
    uint32_t *window = week + 12 * day + 3 * place;
    window[0] = first;
    window[1] = end;
    window[2] = packet;
}

/* Prints the number of an answer, or a dash where there is none. */
static void print_number(const size_t *answer, size_t place, const char *after) {
    if (answer[LAZVORN_FOUND]) printf("%zu%s", answer[place], after);
    else printf("-%s", after);
}

int main(void) {
    static const size_t asked[][2] = {{0, 719}, {0, 720}, {0, 1080}, {4, 601}};
    size_t w[LAZVORN_WINDOW], n[LAZVORN_WINDOW];
    put(0, 0, 480, 720, 3);
    put(0, 1, 720, 1080, 7);
    put(4, 0, 600, 1440, 28);
    for (size_t i = 0; i < sizeof asked / sizeof *asked; i++) {
        lazvorn_window(week, LAZVORN_WEEK_NUMBERS, asked[i][0], asked[i][1], w);
        lazvorn_next_window(week, LAZVORN_WEEK_NUMBERS, asked[i][0], asked[i][1], n);
        if (w[LAZVORN_REFUSAL] != 0 || n[LAZVORN_REFUSAL] != 0) return 1;
        printf("%zu %zu: ", asked[i][0], asked[i][1]);
        print_number(w, LAZVORN_PACKET_NUMBER, " ");
        print_number(n, LAZVORN_MINUTES, ", ");
    }
    put(0, 0, 480, 721, 3);
    lazvorn_window(week, LAZVORN_WEEK_NUMBERS, 4, 601, w);
    printf("refusal %zu\n", w[LAZVORN_REFUSAL]);
    return 0;
}
