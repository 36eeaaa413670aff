/*
 * Calls every function that plans.h and desk.h declare and checks what it answers: the cases of document 01 for plans, its session in
 * full for the desk. tests/headers builds the files of this folder with both static libraries, runs the program and counts its lines.
 */
#include "checks.h"

static int failures;

void check(const char *what, bool holds)
{
    printf("%s: %s\n", holds ? "ok" : "failed", what);
    failures += !holds;
}

struct plan psi(void)
{
    struct plan p;
    memset(&p, 0, sizeof p);
    p.arity = 2;
    p.roots = 1;
    p.pairs = 3;
    p.from[0] = 0x111;
    p.to[0] = 0x11;
    p.from[1] = 0x112;
    p.to[1] = 0x121;
    p.from[2] = 0x12;
    p.to[2] = 0x122;
    return p;
}

bool holds_text(const uint8_t *out, size_t length, const char *text)
{
    size_t written = strlen(text);
    size_t i;
    if (length < written || memcmp(out, text, written))
        return false;
    for (i = written; i < length; i++)
        if (out[i] != '.')
            return false;
    return true;
}

struct desk_written say(struct desk *d, const char *line, uint8_t *out, size_t out_length)
{
    memset(out, '.', DESK_LONGEST_REPLY);
    return desk_line(d, (const uint8_t *)line, strlen(line), out, out_length);
}

bool same_desks(const struct desk *a, const struct desk *b)
{
    size_t i;
    for (i = 0; i < DESK_BLOCKS; i++) {
        const struct desk_block *one = &a->blocks[i], *other = &b->blocks[i];
        if (one->arity != other->arity || one->roots != other->roots || one->pairs != other->pairs)
            return false;
    }
    return a->opened == b->opened && a->control.station == b->control.station
        && !memcmp(a->control.changes, b->control.changes, sizeof a->control.changes)
        && !memcmp(a->control.rights, b->control.rights, sizeof a->control.rights) && a->control.pairs == b->control.pairs
        && !memcmp(a->columns, b->columns, sizeof a->columns);
}

bool refuses(struct desk d, struct desk_job job, uint8_t number, const struct desk *after)
{
    struct desk_done done = desk_do(&d, job);
    return done.number == number && done.column == NO_COLUMN && done.value == 0 && same_desks(&d, after);
}

bool has_counts(const struct desk *d, uint32_t station, const uint32_t *counts)
{
    return d->control.station == station && !memcmp(d->control.changes, counts, sizeof d->control.changes);
}

int main(void)
{
    check("refusal_reason", !strcmp(refusal_reason(REFUSED_EMPTY), "the slot is empty")
                                && !strcmp(refusal_reason(REFUSED_STATION), "no such station") && refusal_reason(99) != NULL);
    check("refusal_reason of rights",
        !strcmp(refusal_reason(REFUSED_GRANT), "station 0 alone gives rights, only to others, and asks for the pairs held")
                                          && !strcmp(refusal_reason(REFUSED_RIGHT), "the station has no such right on the slot"));
    check("refusal_reason beyond the last", !strcmp(refusal_reason(REFUSED_RIGHT + 1), refusal_reason(99)));
    check_layouts();
    check_plans();
    check_desk();
    check_exercises();
    check_splits();
    check_stations();
    check_rights();
    check_pairs_held();
    check_feed();
    return failures ? EXIT_FAILURE : EXIT_SUCCESS;
}
