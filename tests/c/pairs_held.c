/*
 * The pairs in all slots: what moves their sum and what doesn't, who may ask for it, by H in a line and by number, and what is no desk.
 */
#include "checks.h"

static const struct desk_job asking = {'H', 3, 'B', 2, 1001, 7, 100};

/* Whether H tells this sum by a line and by number and leaves the desk, in which it is stored and which its slots come to. */
static bool tells(const struct desk *d, unsigned sum)
{
    uint8_t out[DESK_LONGEST_REPLY];
    char text[16];
    size_t slots = 0, i;
    struct desk by_line = *d, by_number = *d;
    struct desk_written written = say(&by_line, "H", out, sizeof out);
    struct desk_done done = desk_do(&by_number, asking);

    snprintf(text, sizeof text, "ok\t%u\n", sum);
    for (i = 0; i < DESK_SLOTS; i++)
        slots += d->blocks[i].pairs;
    return written.number == 0 && written.length == strlen(text) && holds_text(out, sizeof out, text) && done.number == 0
        && done.column == NO_COLUMN && done.value == sum && d->control.pairs == sum && slots == sum && same_desks(&by_line, d)
        && same_desks(&by_number, d) && desk_is_desk(*d);
}

/* Whether H by a line is refused with this number and leaves the second desk. */
static bool refuses_line(struct desk d, const char *line, uint8_t number, const struct desk *after)
{
    uint8_t out[DESK_LONGEST_REPLY];
    struct desk_written written = say(&d, line, out, sizeof out);
    return written.number == number && written.length == 0 && holds_text(out, sizeof out, "") && same_desks(&d, after);
}

/* A session with the sum behind each record; the desk behind it has 3 pairs in A, 4 in B and 2 in C. */
static struct desk check_moves(void)
{
    static const struct {
        const char *line, *reply;
        unsigned sum;
    } session[] = {
        {"X\tA\t9\t9\t0\t1", "ok\t9\n", 9},
        {"X\tB\t2\t1\t3\t2147483646", "ok\t3\n", 12},
        {"I\tB\tA", "ok\t3\n", 6},
        {"K\tA\t1\tA", "ok\t3\n", 6},
        {"F\tA\tB\tB", "ok\t1\n", 4},
        {"K\tA\t0\tA", "ok\t1\n", 2},
        {"C\tB", "ok\n", 1},
        {"C\tA", "ok\n", 0},
    };
    static const char *const lines[] = {"P\tA\t2\t1", "M\t111\t11", "M\t112\t121", "M\t12\t122", "E", "K\tA\t2\tB", "X\tC\t2\t1\t2\t1"};
    uint8_t out[DESK_LONGEST_REPLY];
    char what[64];
    struct desk d = desk_fresh();
    struct desk_written written;
    size_t i;

    check("desk_control has the sum behind the rights", offsetof(struct desk_control, rights) == 36
                                                            && offsetof(struct desk_control, pairs) == 50
                                                            && sizeof(struct desk_control) == 52
                                                            && sizeof d.control.pairs == 2);
    check("desk_fresh holds no pairs", tells(&d, 0));
    for (i = 0; i < sizeof session / sizeof session[0]; i++) {
        written = say(&d, session[i].line, out, sizeof out);
        snprintf(what, sizeof what, "the sum behind change %d", (int)i + 1);
        check(what, written.number == 0 && holds_text(out, sizeof out, session[i].reply) && tells(&d, session[i].sum));
    }
    for (i = 0; i < sizeof lines / sizeof lines[0]; i++)
        say(&d, lines[i], out, sizeof out);
    check("the sum behind a plan that is typed, a power and one from a seed", tells(&d, 9) && d.control.changes[0] == 11);
    return d;
}

/* Each refusal of a change leaves the sum; 16 and 14 come when the result is there. */
static void check_refused(const struct desk *d)
{
    static const char *const changes[] = {"F\tA\tA\tB", "I\tB\tA", "K\tA\t0\tB", "C\tB", "X\tA\t2\t1\t2\t1"};
    uint8_t out[DESK_LONGEST_REPLY];
    bool at_the_limit = true, without_room = true;
    struct desk full = *d, other;
    struct desk_written written;
    size_t i;

    full.control.changes[0] = DESK_MOST_CHANGES;
    for (i = 0; i < sizeof changes / sizeof changes[0]; i++) {
        at_the_limit = at_the_limit && refuses_line(full, changes[i], REFUSED_COUNT, &full);
        other = *d;
        written = say(&other, changes[i], out, 2);
        without_room = without_room && written.number == REFUSED_BUFFER && same_desks(&other, d);
    }
    check("a change at the limit leaves the sum", at_the_limit);
    check("a change without room for its reply leaves the sum", without_room);
    check("H isn't refused at the limit", tells(&full, 9));
    check("a result that is refused leaves the sum", refuses_line(*d, "K\tA\t15\tB", REFUSED_LIMIT, d)
                                                         && refuses_line(*d, "F\tA\tH\tB", REFUSED_EMPTY, d));
    other = *d;
    written = say(&other, "H", out, 4);
    check("desk_line refuses H a short buffer", written.number == REFUSED_BUFFER && holds_text(out, sizeof out, "")
                                                    && same_desks(&other, d));
}

/* 1, then 2, then 19. */
static void check_asking(const struct desk *d)
{
    static const char *const lines[] = {"H\t", "H\t0", "h", "HH"};
    uint8_t out[DESK_LONGEST_REPLY];
    bool form = true, turn = true, station = true;
    struct desk named = *d, open;
    uint32_t s;
    size_t i;

    for (s = 0; s < DESK_STATIONS; s++) {
        named.control.station = s;
        open = named;
        say(&open, "P\tH\t2\t1", out, sizeof out);
        say(&open, "M\t1\t1", out, sizeof out);
        turn = turn && open.opened == 'H' && open.control.pairs == 9 && refuses(open, asking, REFUSED_TURN, &named)
            && refuses_line(open, "H", REFUSED_TURN, &named);
        if (s)
            station = station && refuses(named, asking, REFUSED_GRANT, &named) && refuses_line(named, "H", REFUSED_GRANT, &named);
        for (i = 0; i < sizeof lines / sizeof lines[0]; i++)
            form = form && refuses_line(named, lines[i], REFUSED_FORM, &named) && refuses_line(open, lines[i], REFUSED_FORM, &named);
    }
    check("H with fields or other letters is refused with 1", form);
    check("H in an open plan is refused with 2 and drops it", turn);
    check("H from stations 1 to 7 is refused with 19", station);
}

/* Any other sum makes no desk, with a plan open too, and counts that add up to it in sixteen bits or in sixty-four don't help. */
static void check_sums(const struct desk *d)
{
    uint8_t out[DESK_LONGEST_REPLY];
    bool left = true, opened = true, counts = true;
    struct desk open = *d, other;
    uint32_t sum;
    size_t i;

    say(&open, "P\tH\t2\t1", out, sizeof out);
    say(&open, "M\t1\t1", out, sizeof out);
    for (sum = 0; sum <= UINT16_MAX; sum = sum < 1100 ? sum + 1 : sum + 257) {
        if (sum == d->control.pairs)
            continue;
        other = *d;
        other.control.pairs = (uint16_t)sum;
        left = left && !desk_is_desk(other) && refuses(other, asking, REFUSED_VALUE, &other)
            && refuses_line(other, "C\tA", REFUSED_VALUE, &other);
        other = open;
        other.control.pairs = (uint16_t)sum;
        opened = opened && !desk_is_desk(other) && refuses(other, asking, REFUSED_VALUE, &other);
    }
    for (i = 16; i < 64; i++) {
        other = *d;
        other.blocks[0].pairs += (size_t)1 << i;
        counts = counts && !desk_is_desk(other) && refuses(other, asking, REFUSED_VALUE, &other);
        other.blocks[7].pairs -= (size_t)1 << i;
        counts = counts && !desk_is_desk(other) && refuses(other, asking, REFUSED_VALUE, &other);
    }
    check("a sum that is off makes no desk", left);
    check("a sum that is off makes no desk where a plan is open, with its pairs or without", opened && desk_is_desk(open));
    check("counts that come to the sum by their lowest bits make no desk", counts);
}

void check_pairs_held(void)
{
    struct desk d = check_moves();
    check_refused(&d);
    check_asking(&d);
    check_sums(&d);
}
