/*
 * Stations with their counts and rights, by lines and by number.
 */
#include "checks.h"

/* Stations and their counts by lines and by number, each station at its limit while the others work, and what is no desk. */
void check_stations(void)
{
    static const uint32_t counts[DESK_STATIONS] = {1, 0, 0, 2, 0, 0, 0, 1};
    static const uint32_t wide[] = {256, 259, 263, 264, 512, 65536, 65539, 16777216, 2147483648u, 2147483651u, UINT32_MAX};
    static const char *const session[][2] = {
        {"X\tA\t2\t1\t2\t1", "ok\t2\n"},
        {"Z\t3", "ok\n"},
        {"T", "ok\t0\n"},
        {"I\tA\tB", "ok\t2\n"},
        {"I\tA\tC", "ok\t2\n"},
        {"T", "ok\t2\n"},
        {"Z\t7", "ok\n"},
        {"C\tC", "ok\n"},
        {"Z\t0", "ok\n"},
        {"T", "ok\t1\n"},
    };
    uint8_t out[DESK_LONGEST_REPLY];
    bool named = true, refused = true, dropped = true, limited = true, free_to_work = true, left = true, left_wide = true,
         told = true;
    struct desk d = desk_fresh(), open, other;
    struct desk_job naming = {'Z', 0, 0, 0, 0, 0, 0}, telling = {'T', 0, 0, 0, 0, 0, 0}, inverse = {'I', 'A', 'H', 0, 0, 0, 0};
    struct desk_written written;
    struct desk_done done;
    size_t i;
    int station;

    for (i = 0; i < sizeof session / sizeof session[0]; i++) {
        written = say(&d, session[i][0], out, sizeof out);
        told = told && written.number == 0 && holds_text(out, sizeof out, session[i][1]);
    }
    check("desk_line counts for the named station", told && has_counts(&d, 0, counts));
    open = d;
    written = say(&open, "P\tH\t2\t1", out, sizeof out);
    check("desk_line opens a plan that Z drops", written.number == 0 && open.opened == 'H');
    for (station = 0; station <= UINT8_MAX; station++) {
        naming.a = (uint8_t)station;
        dropped = dropped && refuses(open, naming, REFUSED_TURN, &d);
        if (station >= DESK_STATIONS) {
            refused = refused && refuses(d, naming, REFUSED_STATION, &d);
            other = d;
            other.control.station = (uint32_t)station;
            left = left && !desk_is_desk(other) && refuses(other, telling, REFUSED_VALUE, &other);
            continue;
        }
        other = d;
        done = desk_do(&other, naming);
        named = named && done.number == 0 && done.value == 0 && has_counts(&other, naming.a, counts);
        done = desk_do(&other, telling);
        named = named && done.number == 0 && done.value == counts[station];
        other.control.changes[station] = DESK_MOST_CHANGES;
        limited = limited && refuses(other, inverse, REFUSED_COUNT, &other);
        other.control.station = (uint32_t)((station + 1) % DESK_STATIONS);
        done = desk_do(&other, inverse);
        free_to_work = free_to_work && done.number == 0 && done.value == 2
            && other.control.changes[other.control.station] == counts[other.control.station] + 1;
        other.control.changes[station]++;
        left = left && !desk_is_desk(other) && refuses(other, telling, REFUSED_VALUE, &other);
        other.control.station = (uint32_t)station;
        left = left && !desk_is_desk(other) && refuses(other, telling, REFUSED_VALUE, &other);
    }
    for (i = 0; i < sizeof wide / sizeof wide[0]; i++) {
        other = d;
        other.control.station = wide[i];
        left_wide = left_wide && !desk_is_desk(other) && refuses(other, telling, REFUSED_VALUE, &other);
        left_wide = left_wide && refuses(other, naming, REFUSED_VALUE, &other);
    }
    check("desk_do names stations 0 to 7 and tells their counts", named);
    check("desk_do refuses a station above 7", refused);
    check("desk_do with any station drops an open plan", dropped);
    check("a station at its limit is refused a change", limited);
    check("a station at its limit leaves the next one free", free_to_work);
    check("a station above 7 or a count above its limit, named or not, makes no desk", left);
    check("a station of more than 8 bits makes no desk, whatever its lowest 8 are", left_wide);
    written = say(&d, "Z\t8", out, sizeof out);
    check("desk_line refuses a digit above 7", written.number == REFUSED_STATION && holds_text(out, sizeof out, ""));
    written = say(&d, "Z\t10", out, sizeof out);
    check("desk_line refuses two digits for a station", written.number == REFUSED_FORM && has_counts(&d, 0, counts));
    written = say(&d, "Z\t1", out, 2);
    check("desk_line names no station without room for its reply", written.number == REFUSED_BUFFER && has_counts(&d, 0, counts));
}

/* The right of a station from 1 on, on slot 'A' + slot, as desk.h has it. */
static unsigned right_of(const struct desk *d, int station, int slot)
{
    return d->control.rights[station - 1] >> 2 * slot & 3;
}

static void put_right(struct desk *d, int station, int slot, unsigned right)
{
    uint16_t *rights = &d->control.rights[station - 1];
    *rights = (uint16_t)((*rights & ~(3u << 2 * slot)) | right << 2 * slot);
}

/* Rights by lines and by number, what they keep a station from, and what is no desk. */
void check_rights(void)
{
    static const char *const session[][2] = {
        {"X\tA\t2\t1\t2\t1", "ok\t2\n"},
        {"G\t1\tA\t0", "ok\n"},
        {"G\t2\tA\t1", "ok\n"},
        {"G\t7\tH\t0", "ok\n"},
        {"T", "ok\t1\n"},
        {"Z\t1", "ok\n"},
        {"U", "ok\t0\n"},
        {"Z\t2", "ok\n"},
        {"U", "A\t2\t1\t2\nok\t1\n"},
        {"W\tA\t112", "ok\t122\t1\n"},
    };
    static const struct {
        struct desk_job job;
        uint8_t number;
    } refused[] = {
        {{'G', 1, 'A', 3, 0, 0, 0}, REFUSED_FORM},
        {{'G', 9, '@', 255, 0, 0, 0}, REFUSED_FORM},
        {{'G', 8, '@', 2, 0, 0, 0}, REFUSED_STATION},
        {{'G', 0, '@', 2, 0, 0, 0}, REFUSED_SLOT},
        {{'G', 1, 'A', 2, 0, 0, 0}, REFUSED_GRANT},
        {{'I', 'A', 'A', 0, 0, 0, 0}, REFUSED_RIGHT},
        {{'C', 'A', 0, 0, 0, 0, 0}, REFUSED_RIGHT},
        {{'S', 'A', '@', 0, 0, 0, 0}, REFUSED_SLOT},
        {{'P', 'A', 0, 0, 0, 0, 0}, REFUSED_RIGHT},
        {{'X', 'A', 9, 9, 0, 0, 99}, REFUSED_RIGHT},
    };
    uint8_t out[DESK_LONGEST_REPLY];
    char what[64];
    bool told = true, all = true, given = true, left = true, sound = true;
    struct desk d = desk_fresh(), other, after;
    struct desk_job gift = {'G', 0, 'A', 0, 0, 0, 0}, telling = {'T', 0, 0, 0, 0, 0, 0};
    struct desk_written written;
    struct desk_done done;
    size_t i;
    int station, slot;
    unsigned right;

    for (station = 1; station < DESK_STATIONS; station++)
        for (slot = 0; slot < DESK_SLOTS; slot++)
            all = all && right_of(&d, station, slot) == DESK_READ_WRITE;
    check("desk_fresh gives everyone all rights", all);
    for (i = 0; i < sizeof session / sizeof session[0]; i++) {
        written = say(&d, session[i][0], out, sizeof out);
        told = told && written.number == 0 && holds_text(out, sizeof out, session[i][1]);
    }
    check("desk_line gives rights and goes by them", told && right_of(&d, 1, 0) == DESK_NO_RIGHT && right_of(&d, 2, 0) == DESK_READ
                                                         && right_of(&d, 7, 7) == DESK_NO_RIGHT && right_of(&d, 7, 0) == DESK_READ_WRITE);
    for (i = 0; i < sizeof refused / sizeof refused[0]; i++) {
        snprintf(what, sizeof what, "desk_do refuses for rights with %d", refused[i].number);
        check(what, refuses(d, refused[i].job, refused[i].number, &d));
    }
    other = d;
    other.control.station = 0;
    for (station = 1; station < DESK_STATIONS; station++)
        for (slot = 0; slot < DESK_SLOTS; slot++)
            for (right = 0; right <= 3; right++) {
                struct desk changed = other;
                after = other;
                put_right(&after, station, slot, right);
                if (right > DESK_READ_WRITE) {
                    left = left && !desk_is_desk(after) && refuses(after, telling, REFUSED_VALUE, &after);
                    left = left && refuses(after, gift, REFUSED_VALUE, &after);
                    continue;
                }
                sound = sound && desk_is_desk(after);
                gift.a = (uint8_t)station;
                gift.b = (uint8_t)('A' + slot);
                gift.c = (uint8_t)right;
                done = desk_do(&changed, gift);
                given = given && done.number == 0 && done.value == 0 && same_desks(&changed, &after);
            }
    check("desk_do gives each right in its own place", given);
    check("a right of 0, 1 or 2 in any place makes a desk", sound);
    check("a right of 3 in any place makes no desk", left);
    written = say(&other, "G\t1\tA\t2", out, 2);
    check("desk_line gives no right without room for its reply", written.number == REFUSED_BUFFER && right_of(&other, 1, 0) == 0);
    written = say(&other, "G\t1\tA\t3", out, sizeof out);
    check("desk_line refuses a right above 2", written.number == REFUSED_FORM && right_of(&other, 1, 0) == 0);
    written = say(&other, "G\t0\tA\t2", out, sizeof out);
    check("desk_line refuses a right for station 0", written.number == REFUSED_GRANT);
}
