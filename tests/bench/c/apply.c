/*
 * Apply's machine as a C programmer would write it who trusts the table: words, frames in an array,
 * an index by which each tree is made once, the limits on steps, nodes and frames, the uses of each
 * rule, and what a call leaves in memory. It checks neither the table nor the node numbers, unless
 * CHECKED is defined: then it makes every check that the paper asks for. Where SPLIT is defined leaf
 * and stem are two branches.
 *
 * The index is of the engine's kind: open addressing without wrap-around, an entry of 16 bits, 0 if it
 * is empty, else a node's number. The leaf, node 0, needs none. Its length goes by the table's.
 */
#include <stddef.h>
#include <stdint.h>
#include <string.h>

/* The nodes that an index has room for, by the nodes of the table. */
static size_t class_of(size_t nodes) {
    return nodes <= 64 ? 64 : nodes <= 1024 ? 1024 : nodes <= 8192 ? 8192 : 65536;
}

/* Where the search for a node with these words begins. */
static inline size_t home(uint32_t a, uint32_t b, size_t slots) {
    return (size_t)(a * UINT64_C(2122696415) + b * UINT64_C(735350203)) & (slots - 1);
}

/* The place of the entry with these words, or the empty one where the search ends. */
static inline size_t place(const uint32_t *table, const uint16_t *index, size_t slots, uint32_t a,
                           uint32_t b) {
    size_t at = home(a, b, slots);
    while (index[at] != 0) {
        const uint32_t *node = table + 2 * (size_t)index[at];
        if (node[0] == a && node[1] == b)
            break;
        at++;
    }
    return at;
}

/* Enters the used nodes; 0 where CHECKED is defined and one is broken or equal to one before it. Only
 * node 0 may be a leaf: to enter it writes the 0 that is there. */
static inline int enter(const uint32_t *table, size_t used, uint16_t *index, size_t slots) {
    for (size_t i = 0; i < used; i++) {
        const uint32_t a = table[2 * i], b = table[2 * i + 1];
#ifdef CHECKED
        if (a > i || b > i || (a == 0 && i != 0))
            return 0;
#endif
        const size_t at = place(table, index, slots, a, b);
#ifdef CHECKED
        if (index[at] != 0)
            return 0;
#endif
        index[at] = (uint16_t)i;
    }
    return 1;
}

/* Takes the node with these words, makes it, or ends the loop with 8. */
#define WANT(first, second)                                       \
    {                                                             \
        const uint32_t x = (uint32_t)(first), y = (uint32_t)(second); \
        const size_t at = place(table, index, slots, x, y);       \
        if (index[at] != 0) {                                     \
            v = index[at];                                        \
        } else {                                                  \
            if (made == nodes) {                                  \
                refusal = 8;                                      \
                break;                                            \
            }                                                     \
            table[2 * made] = x;                                  \
            table[2 * made + 1] = y;                              \
            index[at] = (uint16_t)made;                           \
            v = made++;                                           \
        }                                                         \
    }

void APPLY(uint32_t *table, size_t table_len, size_t used, uint32_t *stack, size_t stack_len,
           size_t function, size_t argument, size_t limit, size_t answer[10]);

void APPLY(uint32_t *table, size_t table_len, size_t used, uint32_t *stack, size_t stack_len,
           size_t function, size_t argument, size_t limit, size_t answer[10]) {
    const size_t nodes = table_len / 2, frames = stack_len / 3;
    size_t refused = 0;
#ifdef CHECKED
    if (table_len > 131072 || stack_len > 65536 || used > nodes || limit > 1000000)
        refused = 1;
#endif
    const size_t slots = 2 * class_of(nodes);
    uint16_t index[slots + slots / 2];
    memset(index, 0, sizeof index);
    if (refused == 0 && !enter(table, used, index, slots))
        refused = 2;
#ifdef CHECKED
    if (refused == 0 && (function >= used || argument >= used))
        refused = 3;
#endif
    if (refused != 0) {
        memset(answer, 0, 10 * sizeof *answer);
        answer[0] = refused;
        answer[2] = used;
        return;
    }
    size_t made = used, held = 0, steps = 0, refusal = 0;
    size_t f = function, n = argument, v = 0;
    size_t leaf = 0, stem = 0, drop = 0, spread = 0, triage = 0;
    for (;;) {
        if (steps == limit) {
            refusal = 7;
            break;
        }
        const size_t a = table[2 * f], b = table[2 * f + 1];
#ifdef SPLIT
        if (a == 0) { /* leaf: the stem of n */
            WANT(n + 1, 0)
            leaf++;
        } else if (b == 0) { /* stem: the fork of p and n */
            WANT(a, n + 1)
            stem++;
        } else {
#else
        if (a == 0 || b == 0) {
            /* leaf: the stem of n; stem: the fork of p and n */
            WANT(a == 0 ? n + 1 : a, a == 0 ? 0 : n + 1)
            if (a == 0)
                leaf++;
            else
                stem++;
        } else {
#endif
            const size_t p = table[2 * (a - 1)], q = table[2 * (a - 1) + 1];
            if (p == 0) {
                drop++;
                v = b - 1;
            } else {
                if (held == frames) {
                    refusal = 9;
                    break;
                }
                uint32_t *s = stack + 3 * held++;
                steps++;
                if (q == 0) { /* spread: y to n first */
                    spread++;
                    s[0] = 0;
                    s[1] = (uint32_t)(p - 1);
                    s[2] = (uint32_t)n;
                    f = b - 1;
                } else { /* triage: n to p first */
                    triage++;
                    s[0] = 2;
                    s[1] = (uint32_t)(q - 1);
                    f = n;
                    n = p - 1;
                }
                continue;
            }
        }
        steps++;
        if (held == 0)
            break;
        uint32_t *s = stack + 3 * (held - 1);
        if (s[0] == 0) { /* then p to n */
            f = s[1];
            n = s[2];
            s[0] = 1;
            s[1] = (uint32_t)v;
        } else if (s[0] == 1) { /* then v to w */
            held--;
            f = s[1];
            n = v;
        } else { /* then v to q */
            held--;
            f = v;
            n = s[1];
        }
    }
    memset(stack, 0, stack_len * sizeof *stack);
    memset(answer, 0, 10 * sizeof *answer);
    if (refusal != 0) {
        memset(table + 2 * used, 0, 2 * (made - used) * sizeof *table);
        answer[0] = refusal;
        answer[2] = used;
        return;
    }
    answer[1] = v;
    answer[2] = made;
    answer[3] = steps;
    answer[5] = leaf;
    answer[6] = stem;
    answer[7] = drop;
    answer[8] = spread;
    answer[9] = triage;
}
