/*
 * The session of document 01 in full by the functions of desk.h, the slots in their order, and the plans of X.
 */
#include "checks.h"

/* The slots of the session and the inverse of its plan in H: the most pairs first, and equal ones by slot letter. */
static void check_survey(struct desk *d)
{
    static const char survey[] = "B\t2\t1\t4\nA\t2\t1\t3\nH\t2\t1\t3\nok\t3\n";
    uint8_t out[DESK_LONGEST_REPLY];
    struct desk_written written = say(d, "U", out, sizeof out);

    check("desk_line lists the held slots in their order", written.number == 0 && written.length == strlen(survey)
                                                               && holds_text(out, sizeof out, survey));
}

void check_desk(void)
{
    static const char block[] = "B\t111\t11\t1\nB\t112\t121\t2\nok\t2\n";
    static const char *const session[][2] = {
        {"P\tA\t2\t1", ""},
        {"M\t111\t11", ""},
        {"M\t112\t121", ""},
        {"M\t12\t122", ""},
        {"E", "ok\t3\n"},
        {"W\tA\t1122", "ok\t1212\t2\n"},
        {"K\tA\t2\tB", "ok\t4\n"},
        {"L\tB", "P\tB\t2\t1\nM\t1111\t11\nM\t1112\t121\nM\t112\t1221\nM\t12\t1222\nE\n"},
        {"W\tA\t11", block},
        {"T", "ok\t2\n"},
    };
    uint8_t out[DESK_LONGEST_REPLY];
    char what[64];
    struct desk d = desk_fresh();
    struct desk_job job = {'I', 'A', 'H', 0, 0, 0, 0};
    struct desk_written written;
    struct desk_done done;
    struct plan p = psi();
    static const uint32_t none[DESK_STATIONS] = {0};
    size_t i;

    check("desk_size", desk_size() == sizeof(struct desk) && desk_size() == 18632);
    check("desk_fresh", d.opened == 0 && d.blocks[0].pairs == 0 && has_counts(&d, 0, none) && desk_is_desk(d));
    for (i = 0; i < sizeof session / sizeof session[0]; i++) {
        written = say(&d, session[i][0], out, sizeof out);
        snprintf(what, sizeof what, "desk_line, record %d of the session", (int)i + 1);
        check(what, written.number == 0 && written.column == 0 && written.length == strlen(session[i][1])
                        && holds_text(out, sizeof out, session[i][1]));
    }
    written = say(&d, "W\tA\t11", out, strlen(block) - 1);
    check("desk_line refuses a buffer shorter than a block", written.number == REFUSED_BUFFER && holds_text(out, sizeof out, ""));
    written = say(&d, "T", out, 4);
    check("desk_line refuses a short buffer", written.number == REFUSED_BUFFER && holds_text(out, sizeof out, ""));
    check("slot A holds what plans.h calls a plan", d.blocks[0].pairs == p.pairs && !memcmp(d.columns, p.from, sizeof p.from)
                                                        && !memcmp(d.columns + DESK_PLACES, p.to, sizeof p.to));
    done = desk_do(&d, job);
    check("desk_do", done.number == 0 && done.value == 3 && d.blocks[7].pairs == 3 && d.control.changes[0] == 3);
    check_survey(&d);
    job.letter = 'L';
    done = desk_do(&d, job);
    check("desk_do refuses a listing", done.number == REFUSED_FORM && done.value == 0);
    job.letter = 'P';
    job.b = 2;
    job.c = 1;
    done = desk_do(&d, job);
    check("desk_do opens a plan", done.number == 0 && d.opened == 'A');
    job.letter = 'E';
    done = desk_do(&d, job);
    check("desk_do names the column", done.number == REFUSED_GAP && done.column == FROM_COLUMN && d.opened == 0);
    d.control.changes[0] = DESK_MOST_CHANGES;
    check("desk_is_desk at the limit", desk_is_desk(d));
    written = say(&d, "C\tA", out, sizeof out);
    check("desk_line refuses a change at the limit", written.number == REFUSED_COUNT);
    d.control.changes[0]++;
    written = say(&d, "T", out, sizeof out);
    check("desk_line refuses what is no desk", written.number == REFUSED_VALUE && !desk_is_desk(d));
}

/* Whether block i has these words behind its front, and zeros behind them. */
static bool holds_words(const struct desk *d, size_t block, size_t pairs, const uint64_t *from, const uint64_t *to)
{
    const uint64_t *column = d->columns + 2 * DESK_PLACES * block;
    return d->blocks[block].pairs == pairs && !memcmp(column, from, pairs * sizeof *from) && column[pairs] == 0
        && !memcmp(column + DESK_PLACES, to, pairs * sizeof *to) && column[DESK_PLACES + pairs] == 0;
}

/* The two plans of X that tests/cases/README.md works by hand, one by its line and one by number; then its refusals in their order. */
void check_exercises(void)
{
    static const uint64_t from[] = {0x11, 0x12}, to[] = {0x12, 0x11}, from_b[] = {0x111, 0x112, 0x12}, to_b[] = {0x121, 0x11, 0x122};
    static const struct {
        struct desk_job job;
        uint8_t number;
    } refused[] = {
        {{'X', '@', 1, 0, 0, 0, 100}, REFUSED_FORM},
        {{'X', 'A', 1, 1, 0, 0, 255}, REFUSED_FORM},
        {{'X', 'A', 9, 9, 0, 0, 128}, REFUSED_FORM},
        {{'X', 'A', 2, 1, 0, 87, 100}, REFUSED_FORM},
        {{'X', '@', 1, 0, 0, 0, 99}, REFUSED_SLOT},
        {{'X', 'A', 1, 1, 0, 0, 99}, REFUSED_SHAPE},
        {{'X', 'A', 9, 9, 0, 0, 99}, REFUSED_SEED},
        {{'X', 'A', 2, 1, 0, 2147483647u, 2}, REFUSED_SEED},
        {{'X', 'A', 2, 1, 0, UINT64_MAX, 2}, REFUSED_SEED},
        {{'X', 'A', 3, 1, 0, 22, 99}, REFUSED_PAIR},
        {{'X', 'A', 2, 1, 0, 5, 99}, REFUSED_WORD},
        {{'X', 'A', 2, 1, 0, 1, 2}, REFUSED_COUNT},
    };
    uint8_t out[DESK_LONGEST_REPLY];
    char what[64];
    struct desk d = desk_fresh();
    struct desk_job job = {'X', 'B', 2, 1, 0, 2147483646u, 3};
    struct desk_written written = say(&d, "X\tA\t2\t1\t2\t1", out, sizeof out);
    struct desk_done done = desk_do(&d, job);
    size_t i;

    check("desk_job has its members at their places", sizeof(struct desk_job) == 24 && offsetof(struct desk_job, k) == 4
                                                          && offsetof(struct desk_job, seed) == 8
                                                          && offsetof(struct desk_job, splits) == 16);
    check("desk_line makes a plan from a seed", written.number == 0 && holds_text(out, sizeof out, "ok\t2\n")
                                                    && holds_words(&d, 0, 2, from, to));
    check("desk_do makes a plan from a seed", done.number == 0 && done.value == 3 && holds_words(&d, 1, 3, from_b, to_b));
    check("a plan from a seed is a change and opens none", d.control.changes[0] == 2 && d.opened == 0);
    written = say(&d, "X\tA\t2\t1\t2\t01", out, sizeof out);
    check("desk_line refuses the form of a seed", written.number == REFUSED_FORM && holds_text(out, sizeof out, ""));
    d.control.changes[0] = DESK_MOST_CHANGES;
    for (i = 0; i < sizeof refused / sizeof refused[0]; i++) {
        done = desk_do(&d, refused[i].job);
        snprintf(what, sizeof what, "desk_do refuses a plan from a seed with %d", refused[i].number);
        check(what, done.number == refused[i].number && done.column == 0 && done.value == 0 && holds_words(&d, 0, 2, from, to));
    }
}

/* Every number of splits that a job can have. Seed 87 gives a plan for each up to 99; X with more is no record, as it is in a line. */
void check_splits(void)
{
    bool kept = true, refused = true, dropped = true, left = true;
    struct desk fresh = desk_fresh();
    struct desk open = fresh, no_desk;
    struct desk_job opening = {'P', 'A', 2, 1, 0, 0, 0};
    struct desk_done done = desk_do(&open, opening);
    int splits;

    check("desk_do opens a plan that X drops", done.number == 0 && open.opened == 'A');
    no_desk = open;
    no_desk.control.changes[0] = DESK_MOST_CHANGES + 1;
    for (splits = 0; splits <= UINT8_MAX; splits++) {
        struct desk_job job = {'X', 'B', 2, 1, 0, 87, (uint8_t)splits};
        if (splits <= 99) {
            struct desk d = fresh;
            done = desk_do(&d, job);
            kept = kept && done.number == 0 && done.value == d.blocks[1].pairs && d.blocks[1].pairs > 0
                && d.control.changes[0] == 1;
            dropped = dropped && refuses(open, job, 2, &fresh);
        } else {
            refused = refused && refuses(fresh, job, REFUSED_FORM, &fresh);
            dropped = dropped && refuses(open, job, REFUSED_FORM, &fresh);
        }
        left = left && refuses(no_desk, job, REFUSED_VALUE, &no_desk);
    }
    check("desk_do makes a plan of 0 to 99 splits", kept);
    check("desk_do refuses 100 splits and more as no record", refused);
    check("desk_do with any splits drops an open plan, with 2 up to 99 and else with 1", dropped);
    check("desk_do with any splits leaves what is no desk", left);
}
