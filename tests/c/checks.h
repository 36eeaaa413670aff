/*
 * What the checks in C share: one for each subject, in a file of its own, and what they look at answers with. main.c runs them.
 */
#ifndef YOTHRILDI_CHECKS_H
#define YOTHRILDI_CHECKS_H

#include <stdio.h>
#include <stdlib.h>
#include <string.h>

#include "desk.h"
#include "plans.h"

/* Says whether this holds, and counts it where it doesn't. */
void check(const char *what, bool holds);

/* psi of document 01: 111 to 11, 112 to 121, 12 to 122, of shape (2,1). */
struct plan psi(void);

/* Whether the bytes at the front are this text, and those behind it the dots that were there before. */
bool holds_text(const uint8_t *out, size_t length, const char *text);

/* The answer to a line, with dots in the buffer before it. */
struct desk_written say(struct desk *d, const char *line, uint8_t *out, size_t out_length);

/* Whether a copy of the first desk refuses the job with this number and is the second one then. */
bool refuses(struct desk d, struct desk_job job, uint8_t number, const struct desk *after);

bool same_desks(const struct desk *a, const struct desk *b);

/* Whether this station is named and the stations have these counts. */
bool has_counts(const struct desk *d, uint32_t station, const uint32_t *counts);

void check_layouts(void);
void check_plans(void);
void check_desk(void);
void check_exercises(void);
void check_splits(void);
void check_stations(void);
void check_rights(void);
void check_pairs_held(void);
void check_feed(void);

#endif
