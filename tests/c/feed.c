/*
 * Pieces of input by desk_feed: the session of document 01 whole and cut everywhere, a line that is too long, room for some replies, and
 * what the call refuses.
 */
#include "checks.h"

static const char session[] = "P\tA\t2\t1\nM\t111\t11\nM\t112\t121\nM\t12\t122\nE\nW\tA\t1122\nW\tA\t11\nQ\nT\n";
static const char replies[] = "ok\t3\nok\t1212\t2\nB\t111\t11\t1\nB\t112\t121\t2\nok\t2\nno\t1\nok\t1\n";

/* The answer to a piece, with dots in the buffer before it. */
static struct desk_fed feed(struct desk *d, bool overlong, const char *input, size_t length, uint8_t *out, size_t out_length)
{
    memset(out, '.', out_length);
    return desk_feed(d, overlong, (const uint8_t *)input, length, out, out_length);
}

static bool is(struct desk_fed fed, uint8_t number, bool overlong, size_t taken, size_t length)
{
    return fed.number == number && fed.overlong == overlong && fed.taken == taken && fed.length == length;
}

/* Whether the session in two pieces, the second with what was not taken of the first, is answered as in one. */
static bool answers_cut(size_t cut, const struct desk *after)
{
    uint8_t out[2 * DESK_LONGEST_REPLY];
    char said[sizeof replies];
    struct desk d = desk_fresh();
    struct desk_fed fed = feed(&d, false, session, cut, out, sizeof out);
    size_t taken = fed.taken, length = fed.length;

    if (fed.number != NOT_REFUSED || taken > cut || memchr(session + taken, '\n', cut - taken) || length >= sizeof said)
        return false;
    memcpy(said, out, length);
    fed = feed(&d, false, session + taken, strlen(session) - taken, out, sizeof out);
    if (!is(fed, NOT_REFUSED, false, strlen(session) - taken, strlen(replies) - length))
        return false;
    memcpy(said + length, out, fed.length);
    return !memcmp(said, replies, strlen(replies)) && same_desks(&d, after);
}

static void check_session(void)
{
    uint8_t out[2 * DESK_LONGEST_REPLY];
    struct desk d = desk_fresh();
    struct desk_fed fed = feed(&d, false, session, strlen(session), out, sizeof out);
    bool alike = true;
    size_t cut;

    check("desk_feed, the session in one piece", is(fed, NOT_REFUSED, false, strlen(session), strlen(replies))
                                                     && holds_text(out, sizeof out, replies) && d.control.changes[0] == 1);
    for (cut = 0; cut <= strlen(session); cut++)
        alike = alike && answers_cut(cut, &d);
    check("desk_feed, the session cut everywhere", alike);
}

/* A line of more than DESK_LONGEST_LINE bytes, over three pieces, in an open plan. */
static void check_long_line(void)
{
    char line[DESK_LONGEST_LINE + 1];
    uint8_t out[DESK_LONGEST_REPLY];
    struct desk d = desk_fresh(), fresh = d;
    struct desk_fed fed = feed(&d, false, "P\tA\t2\t1\n", 8, out, sizeof out);

    check("desk_feed opens a plan", is(fed, NOT_REFUSED, false, 8, 0) && d.opened == 'A');
    memset(line, 'x', sizeof line);
    fed = feed(&d, false, line, DESK_LONGEST_LINE, out, sizeof out);
    check("desk_feed leaves a line that may be one yet", is(fed, NOT_REFUSED, false, 0, 0) && holds_text(out, sizeof out, ""));
    fed = feed(&d, false, line, sizeof line, out, sizeof out);
    check("desk_feed takes a line that is too long", is(fed, NOT_REFUSED, true, sizeof line, 0) && d.opened == 'A');
    fed = feed(&d, true, "E", 1, out, sizeof out);
    check("desk_feed goes on in it", is(fed, NOT_REFUSED, true, 1, 0) && d.opened == 'A');
    fed = feed(&d, true, "E\nT", 3, out, sizeof out);
    check("desk_feed refuses it at its end", is(fed, NOT_REFUSED, false, 2, 5) && holds_text(out, sizeof out, "no\t1\n")
                                                 && same_desks(&d, &fresh));
}

static void check_room(void)
{
    uint8_t out[DESK_LONGEST_REPLY + 5];
    struct desk d = desk_fresh(), open, no_desk;
    struct desk_fed fed = feed(&d, false, "T\nT\nT\n", 6, out, sizeof out);

    check("desk_feed stops where room is short", is(fed, NOT_REFUSED, false, 4, 10) && holds_text(out, sizeof out, "ok\t0\nok\t0\n"));
    fed = feed(&d, false, "T\nT\n", 4, out, DESK_LONGEST_REPLY);
    check("desk_feed answers a line with the least room", is(fed, NOT_REFUSED, false, 2, 5));
    feed(&d, false, "P\tA\t2\t1\n", 8, out, sizeof out);
    open = d;
    fed = feed(&d, true, "T\n", 2, out, DESK_LONGEST_REPLY - 1);
    check("desk_feed refuses a short buffer and leaves the plan open", is(fed, REFUSED_BUFFER, true, 0, 0)
                                                                           && holds_text(out, DESK_LONGEST_REPLY - 1, "")
                                                                           && same_desks(&d, &open));
    d.control.changes[0] = DESK_MOST_CHANGES + 1;
    no_desk = d;
    fed = feed(&d, true, "T\n", 2, out, 1);
    check("desk_feed refuses what is no desk first", is(fed, REFUSED_VALUE, true, 0, 0) && holds_text(out, 1, "")
                                                         && same_desks(&d, &no_desk));
}

void check_feed(void)
{
    check("desk_fed has its members at their places", sizeof(struct desk_fed) == 3 * sizeof(size_t)
                                                          && offsetof(struct desk_fed, number) == 0
                                                          && offsetof(struct desk_fed, overlong) == 1
                                                          && offsetof(struct desk_fed, taken) == sizeof(size_t)
                                                          && offsetof(struct desk_fed, length) == 2 * sizeof(size_t));
    check_session();
    check_long_line();
    check_room();
}
