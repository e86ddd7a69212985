/*
 * What lazvorn_rule_text costs on several texts: the bytes of stack that a call touches, and the best
 * nanoseconds a call of nine rows of calls. Linked with a build of the library, and run in turns with
 * one of another build, it compares the two.
 */
#define _GNU_SOURCE
#include "lazvorn.h"
#include <pthread.h>
#include <stdio.h>
#include <string.h>
#include <sys/mman.h>
#include <time.h>

enum { STACK = 4 << 20, PAINT = 0xA5, ROWS = 9, CALLS = 1000 };

static uint8_t text[8192], out[4096];
static size_t len, answer[2];

static void *call(void *unused) {
    lazvorn_rule_text(text, len, out, sizeof out, answer);
    return unused;
}

/* How much of a painted stack a thread with one call touches, its own beginnings included. */
static size_t touched(void) {
    uint8_t *stack = mmap(NULL, STACK, PROT_READ | PROT_WRITE, MAP_PRIVATE | MAP_ANONYMOUS, -1, 0);
    if (stack == MAP_FAILED) return 0;
    memset(stack, PAINT, STACK);
    pthread_attr_t attributes;
    pthread_t thread;
    pthread_attr_init(&attributes);
    pthread_attr_setstack(&attributes, stack, STACK);
    if (pthread_create(&thread, &attributes, call, NULL) == 0) pthread_join(thread, NULL);
    size_t left = 0;
    while (left < STACK && stack[left] == PAINT) left++;
    munmap(stack, STACK);
    return STACK - left;
}

static double now(void) {
    struct timespec t;
    clock_gettime(CLOCK_MONOTONIC, &t);
    return 1e9 * (double)t.tv_sec + (double)t.tv_nsec;
}

static double best(void) {
    double least = 1e18;
    for (int row = 0; row < ROWS; row++) {
        double start = now();
        for (int i = 0; i < CALLS; i++) call(NULL);
        double each = (now() - start) / CALLS;
        if (each < least) least = each;
    }
    return least;
}

/* A text of a beginning, a part so many times, and an end, filled with spaces up to a length. */
static void show(const char *start, const char *part, size_t times, const char *end, size_t length) {
    len = 0;
    for (const char *c = start; *c; c++) text[len++] = (uint8_t)*c;
    for (size_t i = 0; i < times; i++)
        for (const char *c = part; *c; c++) text[len++] = (uint8_t)*c;
    for (const char *c = end; *c; c++) text[len++] = (uint8_t)*c;
    while (len < length) text[len++] = ' ';
    size_t stack = touched();
    double ns = best();
    printf("%-14s %5zu times %-10s %5zu bytes: %zu, %4zu bytes, stack %7zu, %.0f ns\n", start, times, part, len,
           answer[0], answer[1], stack, ns);
}

int main(void) {
    static const size_t lengths[] = {500, 2000, 8000};
    show("\\x.^", "", 0, "", 5);
    for (size_t i = 0; i < 3; i++) show("\\abcdefgh.", "abcdefgh ", (lengths[i] - 9) / 9, "", lengths[i]);
    show("", "\\x.", 2730, "x", 0);
    show("", "\\x.!", 2047, "x", 0);
    show("\\x.", "^", 8188, "", 0);
    return 0;
}
