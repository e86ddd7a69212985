/*
 * The operations of the branch-first tree engine for C.
 *
 * A caller lends all memory: a table of 32-bit words, two a node; a stack of 32-bit words, three a
 * frame; out bytes. The library keeps nothing between calls and allocates nothing. A length that
 * follows a pointer counts elements: words for the table and the stack, numbers for a week, bytes
 * elsewhere. Where a length is 0 the pointer may be any that is not NULL.
 *
 * Each tree is in the table once: a node that is wanted and is there already is taken, and no two
 * used nodes are equal. So two node numbers are equal exactly when their trees are (lazvorn_same),
 * and used is the count of different trees. To find equal nodes a call keeps an index in its own
 * stack frame, which the caller does not lend. Its size goes by the table's length:
 *   words of the table    nodes           bytes of the thread's stack that a call needs
 *   up to 2,048           up to 1,024     12 KiB
 *   up to 16,384          up to 8,192     64 KiB
 *   up to 131,072         up to 65,536    400 KiB
 * lazvorn_translate, lazvorn_run, lazvorn_stopped and lazvorn_label_packet go into a rule as deep
 * as it nests, and need up to 1 MiB more for the deepest, some 512 bytes for each application
 * within another. lazvorn_rule_text, lazvorn_generate, lazvorn_window and lazvorn_next_window,
 * which have no table, need none of this; lazvorn_code_text, which has none either, needs 8 KiB.
 *
 * What a caller owes is what C itself asks: a pointer reaches as many elements as its length says,
 * and what the call writes (the table but for lazvorn_write, lazvorn_unlabel, lazvorn_same,
 * lazvorn_code, lazvorn_grams and lazvorn_compare_weights, the stack, out, answer) overlaps nothing
 * else that is lent to it. There is no other condition: counts, node numbers and contents that do
 * not fit are refused by number, but for lazvorn_generate's count of digits, for which the load is
 * empty, and lazvorn_code_text's code, which then has no text.
 *
 * Each call writes its numbers to answer, and the caller lends room for as many:
 *   lazvorn_apply and lazvorn_run write ten: refusal, node, used, steps, digits, and the uses of
 *     leaf, stem, drop, spread and triage, whose sum is the steps;
 *   lazvorn_stopped writes four: refusal, the argument's place, the steps, and the rule wanted;
 *   lazvorn_unlabel writes six: the first five of the ten, and the label's node;
 *   lazvorn_same writes two: refusal, and 1 if the trees are equal, else 0;
 *   lazvorn_rule_text writes two: refusal, and bytes written;
 *   lazvorn_generate writes two: refusal, and digits written;
 *   lazvorn_window and lazvorn_next_window write three: refusal, 1 or 0 whether there is a window,
 *     and the packet number or the minutes, 0 where there is none;
 *   lazvorn_code and lazvorn_code_text write three: refusal, 1 or 0 whether there is a code or a
 *     text, and the code or the digits written, 0 where there is none;
 *   lazvorn_grams writes two: refusal, and the grams;
 *   lazvorn_compare_weights writes two: refusal, and 0 for less, 1 for equal, 2 for greater;
 *   every other call writes the first five of the ten.
 * A refusal gives its number, used as at entry (0 for lazvorn_run and lazvorn_label_packet), and 0
 * for the others; lazvorn_stopped alone tells more of a refusal. Refusals 1 to 6 and 11 to 14 leave
 * all lent memory as found. Refusals 7 to 10 set the stack and the words of the nodes made in the
 * call to 0 and leave out as found. Success sets the stack to 0.
 *
 * A packet is a run of fields: a one-byte tag, a two-byte length (high byte first), the value.
 * First tag 1, a rule; then none to eight of tag 2, an argument's text; then at most one of tag 3,
 * the step limit, four bytes, high first, at most 1,000,000; then at most one of tag 4, a label's
 * text. Anything else, or more than 16,384 bytes, is a broken packet.
 *
 * A week is 84 numbers: seven days of four places of first, end and packet, so that place p (0 to
 * 3) of day d (0 to 6) is the numbers 12 * d + 3 * p and the two after it. A window has the minutes
 * of its day from first on, up to end and without end; first is below end, end is at most 1,440,
 * and packet is a number from 1 to 28. The windows of a day ascend and do not overlap; the end of
 * one may be the first of the next. An unused place is three zeros, after the used ones. Anything
 * else, or another count of numbers, is a broken week.
 *
 * A weight is a whole number of grams, 0 to 999,999,999, as a tree: the list of its nine decimal
 * digits, lowest first. The empty list is the leaf, and an item before a list is their fork. Digit
 * 0 is the leaf, and each next digit the fork of a leaf and the digit before it. No other tree is a
 * weight, and different grams have different trees.
 */
#ifndef LAZVORN_H
#define LAZVORN_H

#include <stddef.h>
#include <stdint.h>

#ifdef __cplusplus
extern "C" {
#endif

/* Places in answer. */
enum {
    LAZVORN_REFUSAL = 0, /* 0 for success, else one of the numbers below */
    LAZVORN_NODE = 1,    /* the node that was made or found */
    LAZVORN_USED = 2,    /* the count of used nodes after the call */
    LAZVORN_STEPS = 3,   /* the uses of the five rules */
    LAZVORN_DIGITS = 4,  /* the digits written to out */
    LAZVORN_LEAF = 5,    /* the uses of leaf; from here on of lazvorn_apply and lazvorn_run alone */
    LAZVORN_STEM = 6,    /* the uses of stem; with leaf's, at least the nodes that applying made */
    LAZVORN_DROP = 7,    /* the uses of drop */
    LAZVORN_SPREAD = 8,  /* the uses of spread */
    LAZVORN_TRIAGE = 9   /* the uses of triage */
};

/* How many numbers lazvorn_apply and lazvorn_run write. */
enum { LAZVORN_COUNTED = 10 };

/* The label's node in lazvorn_unlabel's answer, in which LAZVORN_NODE is the rule's node. */
enum { LAZVORN_LABEL = 5 };

/* How many numbers lazvorn_unlabel writes. */
enum { LAZVORN_PARTS = 6 };

/* In lazvorn_same's answer, 1 if the trees are equal. */
enum { LAZVORN_EQUAL = 1 };

/* In lazvorn_stopped's answer; 0 for every outcome that is no stop while applying. */
enum {
    LAZVORN_PLACE = 1, /* the place of the argument that was applied to, from 1 to 8 */
    LAZVORN_TAKEN = 2, /* the steps taken in the whole run */
    LAZVORN_WANTED = 3 /* the rule that was wanted next, one of the numbers below */
};

/* How many numbers lazvorn_stopped writes. */
enum { LAZVORN_STOPPED = 4 };

/* In the answers of lazvorn_window, lazvorn_next_window, lazvorn_code and lazvorn_code_text. */
enum {
    LAZVORN_FOUND = 1,         /* 1 if there is a window, a code or a text, else 0 */
    LAZVORN_PACKET_NUMBER = 2, /* of lazvorn_window, the window's packet number */
    LAZVORN_MINUTES = 2,       /* of lazvorn_next_window, the minutes until it begins */
    LAZVORN_CODE = 2,          /* of lazvorn_code, the code */
    LAZVORN_CODE_WRITTEN = 2   /* of lazvorn_code_text, the digits written to out */
};

/* How many numbers lazvorn_window and lazvorn_next_window write, and how many a week has. */
enum { LAZVORN_WINDOW = 3, LAZVORN_WEEK_NUMBERS = 84 };

/* In lazvorn_generate's answer, the digits written to out. */
enum { LAZVORN_GENERATED = 1 };

/* The most digits that a load has. */
enum { LAZVORN_LOAD_DIGITS = 4095 };

/* How many numbers lazvorn_code and lazvorn_code_text write. */
enum { LAZVORN_CODED = 3 };

/* How many codes there are, and the most digits that the text of one has. */
enum { LAZVORN_CODES = 1374, LAZVORN_CODE_DIGITS = 10 };

/* In lazvorn_grams's answer, the grams. */
enum { LAZVORN_GRAMS = 1 };

/* In lazvorn_compare_weights's answer, where there is no refusal, one of the numbers below. */
enum { LAZVORN_ORDER = 1 };

/* What the first weight is beside the second. */
enum { LAZVORN_ORDER_LESS = 0, LAZVORN_ORDER_EQUAL = 1, LAZVORN_ORDER_GREATER = 2 };

/* The most grams of a weight, the most digits of its text, and the most new nodes that it wants. */
enum { LAZVORN_MOST_GRAMS = 999999999, LAZVORN_WEIGHT_DIGITS = 181, LAZVORN_WEIGHT_NODES = 19 };

/* The rule that was wanted. */
enum {
    LAZVORN_WANTED_LEAF = 1,
    LAZVORN_WANTED_STEM = 2,
    LAZVORN_WANTED_DROP = 3,
    LAZVORN_WANTED_SPREAD = 4,
    LAZVORN_WANTED_TRIAGE = 5
};

/* Refusals. */
enum {
    LAZVORN_LIMITS = 1, /* table, stack or out too long, used above the capacity, limit too large */
    LAZVORN_BROKEN = 2, /* a used node is broken, or two used nodes are equal */
    LAZVORN_BAD_NODE = 3, /* a node number is not below used */
    LAZVORN_TEXT = 4,   /* a text is not one whole tree, or too long */
    LAZVORN_RULE = 5,   /* bytes are not a rule */
    LAZVORN_PACKET = 6, /* a packet is broken */
    LAZVORN_NO_STEPS = 7,  /* the step limit is reached */
    LAZVORN_NO_NODES = 8,  /* a node that is not in the table is wanted, and the table is full */
    LAZVORN_NO_FRAMES = 9, /* every frame is held */
    LAZVORN_NO_OUT = 10,   /* the out bytes are full, or too few */
    LAZVORN_NOT_LABELLED = 11, /* a tree is not of the labelled form */
    LAZVORN_RULE_TEXT = 12,    /* a rule text has no reading, or is too long or too deep */
    LAZVORN_BAD_WEEK = 13,     /* a week is broken, a day above 6 or a minute above 1,439 */
    LAZVORN_BAD_WEIGHT = 14    /* a tree is not a weight, or grams or a sum above 999,999,999 */
};

/* Reads a text into the table. Gives node and used. Refusals 1, 2, 4, 9, 8, in this order. */
void lazvorn_read(
    uint32_t *table,     /* the table's words, at most 131,072 of them */
    size_t table_len,    /* how many words */
    size_t used,         /* nodes in use: the words from 2 * used on are free */
    uint32_t *stack,     /* the stack's words, at most 65,536 of them */
    size_t stack_len,    /* how many words */
    const uint8_t *text, /* digits '0', '1', '2', parent before branches, at most 65,535 of them */
    size_t text_len,     /* how many bytes */
    size_t answer[5]);   /* the five numbers */

/* Writes a node's tree as text. Gives used as at entry and digits. Refusals 1, 2, 3, 9, 10. */
void lazvorn_write(
    const uint32_t *table, /* the table's words; they are read only */
    size_t table_len,      /* how many words */
    size_t used,           /* nodes in use */
    uint32_t *stack,       /* the stack's words */
    size_t stack_len,      /* how many words */
    size_t node,           /* the node whose tree is written */
    uint8_t *out,          /* the out bytes, at most 65,535; those past the text stay */
    size_t out_len,        /* how many bytes */
    size_t answer[5]);     /* the five numbers */

/* Translates a rule into the table. Gives node and used. Refusals 1, 2, 5, 9, 8, in this order. */
void lazvorn_translate(
    uint32_t *table,      /* the table's words */
    size_t table_len,     /* how many words */
    size_t used,          /* nodes in use */
    uint32_t *stack,      /* the stack's words: two frames for each digit of its tree's text */
    size_t stack_len,     /* how many words */
    const uint8_t *bytes, /* the rule's bytes, at most 4,096 of them */
    size_t bytes_len,     /* how many bytes */
    size_t answer[5]);    /* the five numbers */

/* Applies one node to another. Gives node, used, steps and uses. Refusals 1, 2, 3, 7, 8, 9. */
void lazvorn_apply(
    uint32_t *table,    /* the table's words */
    size_t table_len,   /* how many words */
    size_t used,        /* nodes in use */
    uint32_t *stack,    /* the stack's words */
    size_t stack_len,   /* how many words */
    size_t function,    /* the node applied */
    size_t argument,    /* the node it is applied to */
    size_t limit,       /* the step limit, at most 1,000,000 */
    size_t answer[10]); /* the ten numbers */

/*
 * Labels a rule with a tree: at most seven new nodes. Gives node and used. Refusals 1, 2, 3, 8. On
 * any argument the labelled tree gives the rule's tree in six more steps; the label is not run.
 */
void lazvorn_label(
    uint32_t *table,   /* the table's words */
    size_t table_len,  /* how many words */
    size_t used,       /* nodes in use */
    size_t rule,       /* the rule's node */
    size_t label,      /* the label's node */
    size_t answer[5]); /* the five numbers */

/*
 * Takes a labelled tree apart, wherever its nodes lie. Gives the rule's node (LAZVORN_NODE), used
 * as at entry, and the label's node (LAZVORN_LABEL). Refusals 1, 2, 3, 11. A tree that was labelled
 * without K before the label is 11 (unless that label is Kx for some x, which is then the label);
 * lazvorn_label_packet makes it again from its packet.
 */
void lazvorn_unlabel(
    const uint32_t *table, /* the table's words; they are read only */
    size_t table_len,      /* how many words */
    size_t used,           /* nodes in use */
    size_t node,           /* the labelled tree's node */
    size_t answer[6]);     /* the six numbers */

/*
 * Tells whether two nodes have the same tree, however large it is. Gives the refusal, and 1 if the
 * trees are equal, else 0 (LAZVORN_EQUAL). Refusals 1, 2, 3 for either node.
 */
void lazvorn_same(
    const uint32_t *table, /* the table's words; they are read only */
    size_t table_len,      /* how many words */
    size_t used,           /* nodes in use */
    size_t a,              /* a node */
    size_t b,              /* a node */
    size_t answer[2]);     /* refusal, and 1 if the trees are equal */

/*
 * Runs a packet with the table taken as empty. Gives used, steps, digits and uses. Refusals 1, 4
 * to 10.
 * The step limit of a packet that names none (by tag 3) is 100,000. A label (tag 4) is passed over,
 * but its text is checked after the arguments' texts.
 */
void lazvorn_run(
    uint32_t *table,       /* the table's words */
    size_t table_len,      /* how many words */
    uint32_t *stack,       /* the stack's words */
    size_t stack_len,      /* how many words */
    uint8_t *out,          /* the out bytes for the outcome's text */
    size_t out_len,        /* how many bytes */
    const uint8_t *packet, /* the packet, at most 16,384 bytes */
    size_t packet_len,     /* how many bytes */
    size_t answer[10]);    /* the ten numbers */

/*
 * Runs a packet as lazvorn_run does and leaves the same in table, stack and out. Gives the refusal
 * of lazvorn_run, and for 7, 8 or 9 met while applying where that was: the argument's place
 * (LAZVORN_PLACE), the steps of the whole run (LAZVORN_TAKEN) and the rule that was wanted
 * (LAZVORN_WANTED). A refusal alone, these three 0, was met elsewhere: 8 or 9 by Translate or Read,
 * 9 or 10 by Write. Where the run completes, lazvorn_run tells how many digits out has. Refusals 1,
 * 4 to 10.
 * A stop names what the wanted use lacked first, in the order 7, 8, 9. One more of it is for
 *   7  a step limit of one step more, by tag 3, up to 1,000,000; a packet without tag 3 has the
 *      limit 100,000, and the field adds seven bytes to it, before tag 4 where there is one
 *   8  a table of one node more, two words, up to 131,072 words
 *   9  a stack of one frame more, three words, up to 65,536 words
 * With this alone the run goes at least one use further, or that use lacks something later in the
 * order.
 */
void lazvorn_stopped(
    uint32_t *table,       /* the table's words */
    size_t table_len,      /* how many words */
    uint32_t *stack,       /* the stack's words */
    size_t stack_len,      /* how many words */
    uint8_t *out,          /* the out bytes for the outcome's text */
    size_t out_len,        /* how many bytes */
    const uint8_t *packet, /* the packet, at most 16,384 bytes */
    size_t packet_len,     /* how many bytes */
    size_t answer[4]);     /* the four numbers */

/*
 * Labels a packet's rule with its label, the table taken as empty, and writes the labelled tree as
 * text. The packet is checked as lazvorn_run does, and one without a label (tag 4) is broken;
 * arguments and step limit are passed over. Gives used and digits. Refusals 1, 4, 5, 6, 8, 9, 10.
 */
void lazvorn_label_packet(
    uint32_t *table,       /* the table's words: the nodes of rule and label, at most seven more */
    size_t table_len,      /* how many words */
    uint32_t *stack,       /* the stack's words */
    size_t stack_len,      /* how many words */
    uint8_t *out,          /* the out bytes for the labelled tree's text; those past it stay */
    size_t out_len,        /* how many bytes */
    const uint8_t *packet, /* the packet, at most 16,384 bytes */
    size_t packet_len,     /* how many bytes */
    size_t answer[5]);     /* the five numbers */

/*
 * Reads a rule text and writes the bytes of its term to out. Gives the refusal and how many bytes
 * were written. Refusals 12, 5, 10, in this order; each leaves out as found. At most 1 MiB of stack
 * is used, and that only where thousands of abstractions nest.
 */
void lazvorn_rule_text(
    const uint8_t *text, /* the text, at most 8,192 bytes */
    size_t text_len,     /* how many bytes */
    uint8_t *out,        /* the out bytes; 4,096 are enough for any rule, and those past it stay */
    size_t out_len,      /* how many bytes */
    size_t answer[2]);   /* refusal, and bytes written */

/*
 * Makes a load from a seed: the text of a whole tree of so many digits, the same for the same seed
 * and count. A state of 32 bits begins as the seed. For each digit, left to right, it becomes
 * state * 1,664,525 + 1,013,904,223, kept to 32 bits, and the draw is the state divided by 65,536,
 * rounded down. A digit is allowed if the text can still become a whole tree of exactly so many
 * digits. The draw's remainder by the number of digits allowed there is the place, from 0, of the
 * one that is taken, in ascending order. There is a draw for each digit, also where only one is
 * allowed.
 * Gives the refusal and how many digits were written. For a count outside 1 to 4,095 the load is
 * empty: no refusal and no digits, and out, whatever it is, stays as found. Else refusal 10 if out
 * has fewer bytes than digits, which leaves out as found. lazvorn_read takes each load that is not
 * empty, given a table that passes 1 and 2, nodes and frames: a free node for each digit and a
 * frame for each two of them, rounded up, are enough.
 */
void lazvorn_generate(
    uint32_t seed,     /* the seed, any number of 32 bits */
    size_t digits,     /* how many digits: 1 to 4,095, or the load is empty */
    uint8_t *out,      /* the out bytes; those past the load stay */
    size_t out_len,    /* how many bytes, of which there is no most */
    size_t answer[2]); /* refusal, and digits written */

/*
 * Gives the code of a node's tree, or none exactly where its text has more than ten digits, however
 * many these are. A text read as a number in base 3 is its value. The values of all trees of at
 * most ten nodes, 1,374 of them, ascend from 0, which is the leaf's, to 58,563; a tree's code is
 * the place of its value among them, from 0. Two trees with one code are equal. Refusals 1, 2, 3.
 */
void lazvorn_code(
    const uint32_t *table, /* the table's words; they are read only */
    size_t table_len,      /* how many words */
    size_t used,           /* nodes in use */
    size_t node,           /* the node whose tree is asked about */
    size_t answer[3]);     /* refusal, 1 or 0, and the code, at most 1,373 */

/*
 * Writes the text of the tree that has a code. Gives how many digits were written, from 1 to 10. A
 * code from 1,374 on has no text: no refusal, and out, whatever it is, stays as found. Else refusal
 * 10 if out has fewer bytes than the text digits, which leaves out as found.
 */
void lazvorn_code_text(
    size_t code,       /* the code: 0 to 1,373, or there is no text */
    uint8_t *out,      /* the out bytes; ten are enough for any code; those past the text stay */
    size_t out_len,    /* how many bytes, of which there is no most */
    size_t answer[3]); /* refusal, 1 or 0, and digits written */

/*
 * Turns grams into a tree: at most 19 new nodes, which are those that lazvorn_read would make of
 * the weight's text, in the same order. Gives node and used. Refusals 1, 2, 14, 8, in this order.
 */
void lazvorn_weight(
    uint32_t *table,   /* the table's words */
    size_t table_len,  /* how many words */
    size_t used,       /* nodes in use */
    size_t grams,      /* the grams, at most 999,999,999 */
    size_t answer[5]); /* the five numbers */

/* Turns a node's tree, which is a weight, back into grams. Refusals 1, 2, 3, 14. */
void lazvorn_grams(
    const uint32_t *table, /* the table's words; they are read only */
    size_t table_len,      /* how many words */
    size_t used,           /* nodes in use */
    size_t node,           /* the weight's node */
    size_t answer[2]);     /* refusal, and the grams */

/*
 * Adds two weights: makes the tree that lazvorn_weight makes of the sum of their grams. Gives node
 * and used. Refusals 1, 2, 3 for either node, 14 where either is not a weight or the sum is above
 * 999,999,999, then 8.
 */
void lazvorn_add_weights(
    uint32_t *table,   /* the table's words */
    size_t table_len,  /* how many words */
    size_t used,       /* nodes in use */
    size_t a,          /* a weight's node */
    size_t b,          /* a weight's node, which may be the same */
    size_t answer[5]); /* the five numbers */

/*
 * Compares two weights by their grams. Gives the refusal, and what the first is beside the second
 * (LAZVORN_ORDER): 0 less, 1 equal, 2 greater. Refusals 1, 2, 3 for either node, 14 for either. A
 * refusal has 0 there, so it is looked at first.
 */
void lazvorn_compare_weights(
    const uint32_t *table, /* the table's words; they are read only */
    size_t table_len,      /* how many words */
    size_t used,           /* nodes in use */
    size_t a,              /* a weight's node */
    size_t b,              /* a weight's node */
    size_t answer[2]);     /* refusal, and 0, 1 or 2 */

/*
 * Gives the packet number of the window that holds a minute, or none where no window does. Refusal
 * 13, whichever day of the week is broken.
 */
void lazvorn_window(
    const uint32_t *week, /* the week's numbers; they are read only */
    size_t week_len,      /* how many numbers: 84, or the week is broken */
    size_t day,           /* the day, 0 to 6 */
    size_t minute,        /* the minute of the day, 0 to 1,439 */
    size_t answer[3]);    /* refusal, 1 or 0, and the packet number */

/*
 * Gives the minutes until the next window begins: 0 where one begins at this minute. After the
 * week's end come the windows of its days again, up to those of this day that began earlier. A week
 * without windows has none. Refusal 13.
 */
void lazvorn_next_window(
    const uint32_t *week, /* the week's numbers; they are read only */
    size_t week_len,      /* how many numbers: 84, or the week is broken */
    size_t day,           /* the day, 0 to 6 */
    size_t minute,        /* the minute of the day, 0 to 1,439 */
    size_t answer[3]);    /* refusal, 1 or 0, and the minutes, at most 10,079 */

#ifdef __cplusplus
}
#endif

#endif
