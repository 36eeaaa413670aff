/*
 * Routes the codes that it is given by the plan of document 01, those that are too short part by part, and says of every other why
 * not. It ends with 1 if a code was refused.
 *
 *     cc -std=c99 -Iinclude examples/c/route.c target/staticlib/libdesk_c.a -o route && ./route 1122 11 13
 */
#include <stdio.h>
#include <stdlib.h>
#include <string.h>

#include "desk.h"

static const char *const plan[] = {"P\tA\t2\t1", "M\t111\t11", "M\t112\t121", "M\t12\t122", "E"};

/* Does what a line says. The reply is ended by a byte 0, which the library leaves to us; so it has room for one more byte. */
static struct desk_written say(struct desk *d, const char *line, char reply[DESK_LONGEST_REPLY + 1])
{
    struct desk_written w = desk_line(d, (const uint8_t *)line, strlen(line), (uint8_t *)reply, DESK_LONGEST_REPLY);
    reply[w.length] = '\0';
    return w;
}

/* Where a code or word goes, and which pair of the plan sends it there: the image and the place of the pair, separated by a tab. */
static void print_image(const char *code, size_t length, const char *image)
{
    const char *place = strchr(image, '\t');

    printf("%.*s -> %.*s, pair %d\n", (int)length, code, (int)(place - image), image, atoi(place + 1));
}

/* Lines of "B", a from-word, a to-word and a place, separated by tabs, and then one of "ok". */
static void print_block(const char *code, char *lines)
{
    char *from, *to;

    printf("%s, part by part:\n", code);
    for (lines = strtok(lines, "\n"); lines != NULL && *lines == 'B'; lines = strtok(NULL, "\n")) {
        from = lines + strlen("B\t");
        to = strchr(from, '\t');
        printf("  ");
        print_image(from, (size_t)(to - from), to + 1);
    }
}

static int route(struct desk *d, const char *code)
{
    char line[DESK_LONGEST_LINE + 2];
    char reply[DESK_LONGEST_REPLY + 1];
    struct desk_written w;

    /* a longer code is cut to a line that is too long, and refused as such */
    snprintf(line, sizeof line, "W\tA\t%s", code);
    w = say(d, line, reply);
    if (w.number != NOT_REFUSED) {
        printf("%s: refused with %d, %s\n", code, w.number, refusal_reason(w.number));
        return EXIT_FAILURE;
    }
    if (*reply == 'B')
        print_block(code, reply);
    else /* "ok", the image and the place, separated by tabs, and byte 10 */
        print_image(code, strlen(code), reply + strlen("ok\t"));
    return EXIT_SUCCESS;
}

int main(int argc, char **argv)
{
    char reply[DESK_LONGEST_REPLY + 1];
    struct desk d = desk_fresh();
    int status = EXIT_SUCCESS;
    size_t i;
    int code;

    for (i = 0; i < sizeof plan / sizeof plan[0]; i++) {
        struct desk_written w = say(&d, plan[i], reply);
        if (w.number != NOT_REFUSED) {
            fprintf(stderr, "the plan is refused with %d, %s\n", w.number, refusal_reason(w.number));
            return EXIT_FAILURE;
        }
    }
    for (code = 1; code < argc; code++)
        if (route(&d, argv[code]) != EXIT_SUCCESS)
            status = EXIT_FAILURE;
    return status;
}
