/*
 * The library of plans for C and C++: link with libplans_c.a (`./staticlib plans_c`). It needs memcpy and the like, nothing else.
 *
 * Parcels carry codes, and a plan swaps the fronts of codes. A shape has n ways at every switch (arity) and r belts (roots). A word is
 * a belt, a digit from 1 to r, and then ways, digits from 1 to n. A plan is 1 to 128 pairs (from, to) of words of at most 16 digits,
 * such that each column is a basis: no word of it begins or equals another, and every belt is covered. A code that begins with a
 * from-word goes to the paired to-word followed by the rest of the code. A *kept* plan is reduced (no n pairs can be joined into
 * one) and has its from-words in order, so two kept plans of a shape act alike exactly if their bytes agree outside the padding.
 *
 * Calls keep nothing: plans go in and out by value, any number of threads may call at once, and no call allocates, prints or ends
 * the program. No call asks anything of the plan that it is handed: any bytes may stand there, and what is no plan is refused with
 * REFUSED_VALUE (15) before anything else is looked at. Every answer but those of plans_is_plan and plans_unmatched, which refuse
 * nothing, begins with a number, 0 for a job done and else that of the first refusal, in the order given at each call, that holds.
 *
 * Bytes are lent as a pointer and a length. The pointer isn't null, even where the length is 0; it points to that many bytes, which
 * stay as they are during the call; and what is written doesn't lie over what is read. After a refusal a lent buffer holds what it
 * held before; otherwise only its first `length` bytes have changed. No byte 0 is put behind them.
 */
#ifndef YOTHRILDI_PLANS_H
#define YOTHRILDI_PLANS_H

#include <stdbool.h>
#include <stddef.h>
#include <stdint.h>

#include "refusals.h"

#ifdef __cplusplus
extern "C" {
#endif

enum {
    PLANS_PLACES = 128,          /* the places of a column */
    PLANS_LONGEST_IMAGE = 1039,  /* no image has more digits: a to-word of 16 and the 1,023 behind the belt of a code */
    PLANS_LONGEST_LISTING = 4618 /* no listing has more bytes: 128 lines with two words of 16 digits each, and two lines */
};

/*
 * A draft or a plan. The words stand at the first `pairs` places of both columns and zeros behind them. A word is packed with four
 * bits a digit, its last digit lowest and zeros above: the word 1122 is 0x1122.
 *
 * It is a draft if arity is 2 to 9, roots 1 to 9, pairs 0 to 128, the words are words of that shape, and the places behind are zero.
 * It is a plan if moreover both columns are bases, no join is possible and the from-words are in order.
 */
struct plan {
    uint8_t arity; /* n */
    uint8_t roots; /* r */
    size_t pairs;
    uint64_t from[PLANS_PLACES];
    uint64_t to[PLANS_PLACES];
};

/* 0, or REFUSED_VALUE, or REFUSED_OVERLAP or REFUSED_GAP with the column 'F' or 'T'. */
struct plan_verdict {
    uint8_t number;
    uint8_t column;
};

/* A verdict, and the plan that is kept where it is 0; else the plan is all zeros. */
struct plan_kept {
    uint8_t number;
    uint8_t column;
    struct plan plan;
};

/* The plan that is made where the number is 0; else it is all zeros. */
struct plan_made {
    uint8_t number;
    struct plan plan;
};

/* Whether two plans act alike where the number is 0; else false. */
struct plan_compared {
    uint8_t number;
    bool alike;
};

/* How many bytes were written to the front of the lent buffer where the number is 0; else 0. */
struct plan_written {
    uint8_t number;
    size_t length;
};

/*
 * The match of a code: how many of its digits are left, and the place of the pair whose from-word begins it. Places are counted from
 * 1 in the order of the listing: the words of the pair are from[place - 1] and to[place - 1], and its M line is the place-th.
 */
struct plan_matched {
    size_t tail;
    size_t place; /* 0 where there is no match */
};

/* How many digits were written to the front of the lent buffer, and the place of the pair, where the number is 0; else both are 0. */
struct plan_routed {
    uint8_t number;
    size_t length;
    size_t place;
};

/* Whether a draft can be kept. Refused: 15, no draft; 6 and 7 of the from column; 6 and 7 of the to column. */
struct plan_verdict plans_verdict(struct plan draft);

/* The reduced plan, in order, that acts as the draft does. Refused as plans_verdict is. */
struct plan_kept plans_keep(struct plan draft);

/* Whether the value is a kept plan, which every call below takes. */
bool plans_is_plan(struct plan p);

/* *a then b*: the plan that applies a first. Refused: 15; 10, shapes differ; 11, the result is too large. */
struct plan_made plans_follow(struct plan a, struct plan b);

/* The inverse. Refused: 15. */
struct plan_made plans_inverse(struct plan a);

/*
 * The power k: k times in a row, the plan that moves nothing for 0, the power -k of the inverse below 0.
 * Refused: 15; 12, k outside -1,000 to 1,000; 11, some power from 1 to the size of k is too large.
 */
struct plan_made plans_power(struct plan a, int32_t k);

/* Whether two plans send every code to the same place. Refused: 15; 10, shapes differ. */
struct plan_compared plans_same(struct plan a, struct plan b);

/*
 * How many digits of the code are left behind the from-word that begins it, and the place of its pair. The whole length and place 0
 * where no from-word does, where p is no plan, and where the code is empty, over 1,024 digits or has a wrong digit.
 */
struct plan_matched plans_unmatched(struct plan p, const uint8_t *code, size_t code_length);

/*
 * Writes the image of a code, digits '1' to '9' as bytes, and answers with the place of the pair that routed it. PLANS_LONGEST_IMAGE
 * bytes are enough for every image.
 * Refused: 15; 4, the code is empty, over 1,024 digits or has a wrong one; 13, it is too short for the plan; 14.
 */
struct plan_routed plans_route(struct plan p, const uint8_t *code, size_t code_length, uint8_t *out, size_t out_length);

/*
 * Writes the plan as lines that a desk reads, for this slot: P, one M a pair, E, fields parted by tabs, each line ended by byte 10.
 * PLANS_LONGEST_LISTING bytes are enough for every listing. Refused: 15; 8, slot outside 'A' to 'H'; 14.
 */
struct plan_written plans_list(struct plan p, uint8_t slot, uint8_t *out, size_t out_length);

#ifdef __cplusplus
}
#endif

#endif
