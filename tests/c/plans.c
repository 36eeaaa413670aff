/*
 * The layouts of the structs that are handed back with places, and every function of plans.h.
 */
#include "checks.h"

void check_layouts(void)
{
    check("plan_matched has its members at their places", sizeof(struct plan_matched) == 2 * sizeof(size_t)
                                                              && offsetof(struct plan_matched, tail) == 0
                                                              && offsetof(struct plan_matched, place) == sizeof(size_t));
    check("plan_routed has its members at their places", sizeof(struct plan_routed) == 3 * sizeof(size_t)
                                                             && offsetof(struct plan_routed, number) == 0
                                                             && offsetof(struct plan_routed, length) == sizeof(size_t)
                                                             && offsetof(struct plan_routed, place) == 2 * sizeof(size_t));
    check("the longest listing and the longest reply", PLANS_LONGEST_LISTING == 128 * 36 + 10 && DESK_LONGEST_REPLY == 128 * 40 + 7);
}

static bool same_fields(const struct plan *a, const struct plan *b)
{
    return a->arity == b->arity && a->roots == b->roots && a->pairs == b->pairs && !memcmp(a->from, b->from, sizeof a->from)
        && !memcmp(a->to, b->to, sizeof a->to);
}

/* The match of so many digits of this code has this tail and this place. */
static bool matches(struct plan p, const char *code, size_t length, size_t tail, size_t place)
{
    struct plan_matched matched = plans_unmatched(p, (const uint8_t *)code, length);
    return matched.tail == tail && matched.place == place;
}

/* The route of a code by psi is this image by the pair at this place, in a buffer that it fills. */
static bool routes(const char *code, const char *image, size_t place)
{
    uint8_t out[PLANS_LONGEST_IMAGE];
    struct plan_routed routed;
    memset(out, '.', sizeof out);
    routed = plans_route(psi(), (const uint8_t *)code, strlen(code), out, strlen(image));
    return routed.number == NOT_REFUSED && routed.length == strlen(image) && routed.place == place && holds_text(out, sizeof out, image);
}

/* The route is refused with this number, without a length and a place, and leaves the buffer. */
static bool refuses_route(struct plan p, const char *code, size_t room, uint8_t number)
{
    uint8_t out[PLANS_LONGEST_IMAGE];
    struct plan_routed routed;
    memset(out, '.', sizeof out);
    routed = plans_route(p, (const uint8_t *)code, strlen(code), out, room);
    return routed.number == number && routed.length == 0 && routed.place == 0 && holds_text(out, sizeof out, "");
}

/* Codes through psi: each of its three places, and what has none. */
static void check_routes(void)
{
    struct plan p = psi(), no_plan = psi();

    /* its rows are all there, and a word behind them */
    no_plan.to[127] = 0x1;
    check("plans_unmatched tells tail and place", matches(p, "111", 3, 0, 1) && matches(p, "1122", 4, 1, 2) && matches(p, "12121", 5, 3, 3));
    check("plans_unmatched of a short code", matches(p, "1122", 2, 2, 0) && matches(p, "1", 1, 1, 0));
    check("plans_unmatched of a wrong code", matches(p, "1123", 4, 4, 0) && matches(p, "", 0, 0, 0));
    check("plans_unmatched by what is no plan", matches(no_plan, "1122", 4, 4, 0));
    check("plans_route tells image and place", routes("111", "11", 1) && routes("1122", "1212", 2) && routes("12121", "122121", 3));
    check("plans_route refuses a short code", refuses_route(p, "11", PLANS_LONGEST_IMAGE, REFUSED_TOO_SHORT));
    check("plans_route refuses a wrong code", refuses_route(p, "1123", PLANS_LONGEST_IMAGE, REFUSED_WORD));
    check("plans_route refuses a short buffer", refuses_route(p, "1122", 3, REFUSED_BUFFER) && refuses_route(p, "1122", 0, REFUSED_BUFFER));
    check("plans_route refuses what is no plan", refuses_route(no_plan, "1122", 0, REFUSED_VALUE));
}

void check_plans(void)
{
    static const char listing[] = "P\tB\t2\t1\nM\t1111\t11\nM\t1112\t121\nM\t112\t1221\nM\t12\t1222\nE\n";
    uint8_t out[PLANS_LONGEST_LISTING];
    struct plan p = psi();
    struct plan short_of_a_pair = psi();
    struct plan nothing;
    struct plan_verdict verdict;
    struct plan_kept kept;
    struct plan_made inverse, followed, squared, refused;
    struct plan_compared compared;
    struct plan_written written;

    memset(&nothing, 0, sizeof nothing);
    short_of_a_pair.pairs = 2;
    short_of_a_pair.from[2] = short_of_a_pair.to[2] = 0;

    verdict = plans_verdict(p);
    check("plans_verdict accepts", verdict.number == NOT_REFUSED && verdict.column == NO_COLUMN);
    verdict = plans_verdict(short_of_a_pair);
    check("plans_verdict names the column and the gap", verdict.number == REFUSED_GAP && verdict.column == FROM_COLUMN);
    kept = plans_keep(p);
    check("plans_keep keeps", kept.number == 0 && kept.column == 0 && same_fields(&kept.plan, &p));
    kept = plans_keep(short_of_a_pair);
    check("plans_keep refuses with zeros", kept.number == 7 && kept.column == 'F' && same_fields(&kept.plan, &nothing));
    check("plans_is_plan", plans_is_plan(p) && !plans_is_plan(short_of_a_pair) && !plans_is_plan(nothing));

    inverse = plans_inverse(p);
    followed = plans_follow(p, inverse.plan);
    check("plans_inverse", inverse.number == 0 && inverse.plan.pairs == 3 && inverse.plan.from[0] == 0x11);
    check("plans_follow", followed.number == 0 && followed.plan.pairs == 1 && followed.plan.from[0] == 1 && followed.plan.to[0] == 1);
    squared = plans_power(p, 2);
    check("plans_power", squared.number == 0 && squared.plan.pairs == 4);
    refused = plans_power(p, 15);
    check("plans_power refuses what is too large", refused.number == REFUSED_LIMIT && same_fields(&refused.plan, &nothing));
    refused = plans_power(p, INT32_MIN);
    check("plans_power refuses a far exponent", refused.number == REFUSED_EXPONENT);
    compared = plans_same(p, p);
    check("plans_same of one plan", compared.number == 0 && compared.alike);
    compared = plans_same(p, squared.plan);
    check("plans_same of two", compared.number == 0 && !compared.alike);
    compared = plans_same(p, nothing);
    check("plans_same refuses what is no plan", compared.number == REFUSED_VALUE && !compared.alike);

    check_routes();
    memset(out, '.', sizeof out);
    written = plans_list(squared.plan, 'B', out, sizeof out);
    check("plans_list", written.number == 0 && written.length == strlen(listing) && holds_text(out, sizeof out, listing));
    memset(out, '.', sizeof out);
    written = plans_list(squared.plan, 'B', out, strlen(listing) - 1);
    check("plans_list refuses a short buffer", written.number == REFUSED_BUFFER && holds_text(out, sizeof out, ""));
}
