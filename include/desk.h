/*
 * The sort plan desk for C and C++: link with libdesk_c.a (`./staticlib desk_c`). It needs memcpy and the like, nothing else. A
 * program may link libplans_c.a beside it and use plans.h too: block i of a desk and its words are a `struct plan`, part by part.
 *
 * A desk has eight slots 'A' to 'H' for plans (plans.h says what a plan is), at most one open plan, the sum of the pairs in its slots,
 * and for each of eight stations, 0 to 7, a count of the changes done while that station was named and its rights on the slots. It is a
 * value of the caller's: the library keeps nothing, allocates nothing and prints nothing. Calls on different desks may run at the same
 * time, calls on one desk may not. A desk may be copied and stored like any other struct. A call needs up to 205 KB of stack.
 *
 * desk_line takes the records that the desk program reads, one line a call, desk_feed as many lines as a piece of its input has, and
 * desk_do those that have no text, by number:
 *
 *     P  opens a plan for a slot, of n ways and r belts      F  keeps *a then b* (a first) in c
 *     M  adds a pair (from, to) to the open plan             I  keeps the inverse of a in c
 *     E  closes it: reduces and keeps it                     K  keeps the power k of a in c
 *     S  whether a and b act alike, 1 or 0                   W  the image of a code under a, or its block
 *     L  lists a as P, M and E records                       C  empties a
 *     T  the count of the named station's changes            U  lists the readable held slots: slot, n, r, pairs
 *     X  makes a plan of n ways and r belts from s splits and a seed, and keeps it in a slot
 *     Z  names a station for the records after it; before the first Z it is station 0
 *     G  gives a station from 1 to 7 a right on a slot: 0 nothing, 1 read, 2 read and write; station 0 alone may
 *     H  the number of pairs in all slots, which is kept and not added up afresh; station 0 alone may ask
 *
 * Every station starts with the right 2 on every slot, and station 0 always has it. The named station needs 1 on a slot that is read,
 * and 2 on the slot of P, X or C and on a target; G and H need none. U lists the readable slots alone.
 *
 * W's reply to a code that a from-word begins is "ok", the image and the place of that pair in the listing, counted from 1: the place-th
 * M line of L is the pair's. A block is W's reply to any other code: for each pair whose from-word extends the code, in the order of
 * the from-words, a line of "B", the from-word, the to-word and the place, and last of all "ok" and how many they are.
 *
 * U's lines come with the most pairs first, and equal ones by slot letter; last of all comes "ok" and how many they are.
 *
 * X's plan is fixed by n, r, s and the seed alone. A draw is 16807 times the last one modulo 2147483647, and the seed stands before
 * the first. The from column starts from the r belts; s times a draw modulo the number of words gives a place in digit order, from 0,
 * and the n parts of the word there take its stead. The to column is made in the same way, drawing on. Then for i from the last place
 * down to 1, to-words i and draw modulo (i + 1) are swapped. The pairs are reduced and kept at once: X opens no plan.
 *
 * Every answer begins with a number, 0 for a job done and else that of the first refusal that holds (refusals.h). First of all comes
 * REFUSED_VALUE (15): the struct is no desk; then no field of it is changed. Any other refusal drops the open plan, if there is one,
 * and changes nothing else; but 14 in the answer of desk_feed, which comes before any line is read, leaves the open plan too. The order
 * behind 15 is
 *
 *     every record: 1, not a record; 2, M or E with no plan open, or any other record while one is open; and then
 *     P: 8, 20, 3      M: 4, 5      E: 6 and 7 of the from column, 6 and 7 of the to column, 16      F: 8, 20, 9, 10, 11, 16
 *     I: 8, 20, 9, 16  C: 8, 20, 9, 16  K: 8, 20, 12, 9, 11, 16    S: 8, 20, 9, 10    L: 8, 20, 9    W: 8, 20, 9, 4    T, U: no more
 *     X: 8, 20, 3, 17, 5, 4, 16, of which 5 and 4 are those of the pairs before they are reduced      Z: 18      G: 18, 8, 19
 *     H: 19
 *
 * and last of all, in desk_line, 14.
 */
#ifndef YOTHRILDI_DESK_H
#define YOTHRILDI_DESK_H

#include <stdbool.h>
#include <stddef.h>
#include <stdint.h>

#include "refusals.h"

#ifdef __cplusplus
extern "C" {
#endif

enum {
    DESK_SLOTS = 8,
    DESK_STATIONS = 8,
    DESK_BLOCKS = 9,          /* the slots and the open plan */
    DESK_PLACES = 128,        /* the places of a column */
    DESK_WORDS = 2304,        /* two columns for each block */
    DESK_LONGEST_LINE = 1100, /* the bytes of a line; a longer one is refused with 1 */
    DESK_LONGEST_REPLY = 5127 /* no reply has more bytes: a block of 128 lines with two words of 16 digits and a place each, and a line */
};

#define DESK_MOST_CHANGES 4000000000u

/* The rights of a station on a slot. */
enum desk_right {
    DESK_NO_RIGHT = 0,
    DESK_READ = 1,
    DESK_READ_WRITE = 2
};

/* The shape of a plan and the number of its pairs; all zero for a slot that is empty and where no plan is open. */
struct desk_block {
    uint8_t arity; /* n, 2 to 9 */
    uint8_t roots; /* r, 1 to 9 */
    size_t pairs;  /* 1 to 128, of the open plan 0 to 128 */
};

/* The named station, the changes of each station, the rights of stations 1 to 7, and the pairs in all slots. A station that has
 * DESK_MOST_CHANGES is refused further ones with 16; the others are not. The right of station s, from 1 on, on slot 'A' + i is the two
 * bits `rights[s - 1] >> 2 * i & 3`, and never 3. The open plan's pairs are not in the sum. */
struct desk_control {
    uint32_t station;                   /* 0 to 7 */
    uint32_t changes[DESK_STATIONS];    /* 0 to DESK_MOST_CHANGES each; E, F, I, K, X and C raise the named station's by one */
    uint16_t rights[DESK_STATIONS - 1]; /* of stations 1 to 7, two bits for each slot; all are 2 at first, which is 0xAAAA */
    uint16_t pairs;                     /* the sum of the pairs of blocks 0 to 7, 0 to 1024; with any other the struct is no desk */
};

/*
 * The desk. Block i has its from-words at columns[256 * i] and on, its to-words at columns[256 * i + 128] and on, packed with four
 * bits a digit, the last digit lowest; zeros stand behind the pairs, and everywhere in a block that is all zero. Slots hold kept
 * plans. The open plan holds its pairs as they were added, in any order and perhaps no plan yet. Two desks are the same exactly if
 * all fields agree; padding bytes don't matter, so compare fields and not the memory of the struct.
 */
struct desk {
    struct desk_block blocks[DESK_BLOCKS]; /* slots 'A' to 'H', then the open plan */
    uint8_t opened;                        /* the slot that the open plan is meant for, 'A' to 'H'; 0 if no plan is open */
    struct desk_control control;
    uint64_t columns[DESK_WORDS];
};

/* A record without text: its letter, its slots or numbers in the order in which a line has them, the exponent k of K, and the seed and
 * the number of splits of X. */
struct desk_job {
    uint8_t letter;
    uint8_t a;
    uint8_t b;
    uint8_t c;
    int32_t k;
    uint64_t seed;
    uint8_t splits;
};

/* Number 0: `length` bytes of reply stand at the front of the lent buffer. Else the column is 'F' or 'T' for 6 and 7, else 0, and
 * the length is 0. */
struct desk_written {
    uint8_t number;
    uint8_t column;
    size_t length;
};

/* Number 0: the value is the number that the reply has, and 0 where it has none. Else the column is 'F' or 'T' for 6 and 7, else 0,
 * and the value is 0. */
struct desk_done {
    uint8_t number;
    uint8_t column;
    uint32_t value;
};

/* What desk_feed did. Number 0: the first `taken` bytes of the input were read, and `length` bytes of replies stand at the front of the
 * lent buffer; `overlong` says that a line has begun that is too long already. Else taken and length are 0, and overlong is as it was
 * handed in. */
struct desk_fed {
    uint8_t number;
    bool overlong;
    size_t taken;
    size_t length;
};

/* A desk with empty slots and no open plan, station 0 named, all counts 0, all rights 2 and no pairs. */
struct desk desk_fresh(void);

/* The size of the struct as the library has it. Compare it with sizeof (struct desk) where the two might have been compiled apart. It
 * doesn't tell a program that was compiled when the struct had no `pairs` yet: that has the same size, and has to be compiled anew. */
size_t desk_size(void);

/* Whether the struct is a desk, as described above; if it isn't, desk_line, desk_feed and desk_do refuse it with 15. */
bool desk_is_desk(struct desk d);

/*
 * Does what one line says, given without its byte 10, and writes the lines of the reply as the desk program writes them, each ended
 * by byte 10: "ok\t3\n", a listing, a block, or nothing for P and M. A refusal writes nothing; its number is in the answer. If the
 * buffer is shorter than the reply, the job is refused with 14 and not done; DESK_LONGEST_REPLY bytes are enough for every reply.
 *
 * d points to a desk of the caller's. Neither pointer is null, even where the length is 0; line points to line_length bytes and out
 * to out_length bytes; and neither the desk, nor the line, nor the buffer lies over another. Only the bytes of the reply, at the
 * front of out, change; after a refusal, none. No byte 0 is put behind them.
 */
struct desk_written desk_line(struct desk *d, const uint8_t *line, size_t line_length, uint8_t *out, size_t out_length);

/*
 * Does what the lines of a piece of input say, one after the other, and writes the lines of all replies as the desk program writes them,
 * refusals included ("no\t13\n"; after one the open plan is dropped, and the next line is answered). The desk is checked once a call, and
 * not once a line; with all slots full that takes as long as some two hundred lines of W, so hand in large pieces.
 *
 * The piece may be cut anywhere. A line is answered when its byte 10 is in the piece; the bytes behind the last byte 10 are not taken,
 * and the caller hands them in again, in front of what comes next. Of a line that has more than DESK_LONGEST_LINE bytes before its byte
 * 10 nothing need be kept: where that many and one more stand in the piece with no byte 10, all of them are taken and overlong is set;
 * while it is set every byte up to and with the next byte 10 is taken, and that byte 10 writes the refusal with 1. Hand in `overlong` as
 * the call before gave it, false at first. So a buffer for input of DESK_LONGEST_LINE + 1 bytes is enough.
 *
 * Lines are answered as long as DESK_LONGEST_REPLY bytes of the buffer for replies are left. Where fewer are, the call stops at the
 * beginning of a line, and the caller calls again with the bytes that were not taken. At the end of input hand in what was not taken
 * with a byte 10 behind it, if there is anything or overlong is set. (The desk program also drops an open plan then.)
 *
 * Refused with 15 where the struct is no desk, and then with 14 where the buffer has fewer bytes than DESK_LONGEST_REPLY, whatever the
 * input; these two leave desk and buffer as they were, an open plan too. The pointers are as for desk_line.
 */
struct desk_fed desk_feed(struct desk *d, bool overlong, const uint8_t *input, size_t input_length, uint8_t *out, size_t out_length);

/*
 * Does a record without text. The letter says which fields it has; the others are ignored.
 *
 *     'P'  a slot, b = n, c = r (numbers, not digits)        value 0
 *     'E'                                                    value: the pairs kept
 *     'F'  a, b, and the target c                            value: the pairs kept
 *     'I'  a, and the target in b                            value: the pairs kept
 *     'K'  a, k, and the target in b; k may be any number    value: the pairs kept
 *     'S'  a, b                                              value: 1 if they act alike, else 0
 *     'C'  a                                                 value 0
 *     'T'                                                    value: the count of the named station's changes
 *     'X'  a slot, b = n, c = r (numbers), splits up to      value: the pairs kept
 *          99 and seed, which may be any number
 *     'Z'  a = station (a number, not a digit)               value 0
 *     'G'  a = station (a number), b slot, c = right         value 0
 *          (a number)
 *     'H'                                                    value: the pairs in all slots
 *
 * Every other letter is refused with 1, those of records with text or a listing (M, W, L, U) too, and so is X with more splits than 99,
 * which no line has digits for, and G with a right above 2: a job that is done does what a line does. No 14 here: nothing is written.
 */
struct desk_done desk_do(struct desk *d, struct desk_job job);

#ifdef __cplusplus
}
#endif

#endif
