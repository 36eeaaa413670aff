/*
 * The refusals of the sort plan desk and of its library of plans: their numbers, by name, and the reason of each in a few words.
 * Every answer of plans.h and desk.h begins with such a number, and 0 is a job done.
 */
#ifndef YOTHRILDI_REFUSALS_H
#define YOTHRILDI_REFUSALS_H

enum refusal {
    NOT_REFUSED = 0,            /* the job is done */
    REFUSED_FORM = 1,           /* a line: unknown letter, wrong number of fields, a field's form, or more than 1,100 bytes */
    REFUSED_TURN = 2,           /* a pair or an end with no plan open, or any other record while one is open */
    REFUSED_SHAPE = 3,          /* n outside 2 to 9, or r outside 1 to 9 */
    REFUSED_WORD = 4,           /* a word or code that is empty, too long (16 and 1,024 digits) or has a wrong digit; X: too long */
    REFUSED_PAIR = 5,           /* a 129th pair; X: over 128 pairs before reduction */
    REFUSED_OVERLAP = 6,        /* in a column one word begins or equals another; the answer names the column */
    REFUSED_GAP = 7,            /* in a column a belt isn't covered; the answer names the column */
    REFUSED_SLOT = 8,           /* a slot byte outside 'A' to 'H' */
    REFUSED_EMPTY = 9,          /* a slot that is read holds no plan */
    REFUSED_SHAPES_DIFFER = 10, /* two plans of different shapes */
    REFUSED_LIMIT = 11,         /* the reduced result, or a power on the way to it, has over 128 pairs or a word over 16 digits */
    REFUSED_EXPONENT = 12,      /* k outside -1,000 to 1,000 */
    REFUSED_TOO_SHORT = 13,     /* the code is a proper beginning of a from-word; plans_route alone, a desk has a block for it */
    REFUSED_BUFFER = 14,        /* the lent buffer is shorter than the output; looked for last */
    REFUSED_VALUE = 15,         /* what was handed in is no draft, no plan or no desk; looked for first */
    REFUSED_COUNT = 16,         /* the named station's count of changes is at its limit, 4,000,000,000 */
    REFUSED_SEED = 17,          /* a seed outside 1 to 2,147,483,646 */
    REFUSED_STATION = 18,       /* a station above 7 */
    REFUSED_GRANT = 19,         /* a right given, or the pairs held asked for, by another station than 0; or a right given to it */
    REFUSED_RIGHT = 20          /* the named station lacks the right that the record needs on a slot */
};

/* The column that an answer names beside REFUSED_OVERLAP and REFUSED_GAP; 0 beside every other number. */
enum refused_column {
    NO_COLUMN = 0,
    FROM_COLUMN = 'F',
    TO_COLUMN = 'T'
};

/* A few words on a number, for people to read. */
static inline const char *refusal_reason(unsigned number)
{
    static const char *const reasons[] = {
        "done",
        "not a record",
        "no plan is open, or one is",
        "n or r is out of range",
        "a word or code is empty, too long or has a wrong digit",
        "a plan has at most 128 pairs",
        "one word begins another",
        "a belt is not covered",
        "no such slot",
        "the slot is empty",
        "the shapes differ",
        "the result is too large for a plan",
        "the exponent is out of range",
        "the code is too short for the plan",
        "the buffer is too short",
        "not a plan or desk",
        "the count of changes is at its limit",
        "the seed is out of range",
        "no such station",
        "station 0 alone gives rights, only to others, and asks for the pairs held",
        "the station has no such right on the slot",
    };
    return number < sizeof reasons / sizeof reasons[0] ? reasons[number] : "no such refusal";
}

#endif
