/*
 * The desk program by desk_feed: records from standard input, replies to standard output. It reads into a buffer of its own, has the
 * lines in it answered, and moves what was not taken to the front. It ends with 1 where it can't read or write.
 *
 *     cc -std=c99 -D_POSIX_C_SOURCE=200809L -Iinclude examples/c/feed.c target/staticlib/libdesk_c.a -o feed
 *     printf 'X\tA\t2\t1\t3\t7\nL\tA\n' | ./feed
 */
#include <errno.h>
#include <stdio.h>
#include <stdlib.h>
#include <string.h>
#include <unistd.h>

#include "desk.h"

/* One byte more than a line, and one for the byte 10 that the last line may lack, are enough. More are faster. */
static uint8_t input[65536];
static uint8_t replies[65536];

/* Has the whole lines at the front of the input answered, as many calls as that takes. Gives the bytes that are left. */
static size_t answer(struct desk *d, bool *overlong, size_t length)
{
    struct desk_fed fed;

    do {
        fed = desk_feed(d, *overlong, input, length, replies, sizeof replies);
        if (fed.number != NOT_REFUSED || fwrite(replies, 1, fed.length, stdout) != fed.length)
            exit(EXIT_FAILURE);
        *overlong = fed.overlong;
        length -= fed.taken;
        memmove(input, input + fed.taken, length);
    } while (memchr(input, '\n', length) != NULL);
    /* before it waits for more input, a person at a terminal sees the replies */
    if (fflush(stdout) != 0)
        exit(EXIT_FAILURE);
    return length;
}

/* Reads what there is behind the bytes that are left, with room for one more; 0 is the end. */
static size_t read_some(size_t left)
{
    ssize_t count;

    do
        count = read(STDIN_FILENO, input + left, sizeof input - 1 - left);
    while (count < 0 && errno == EINTR);
    if (count < 0)
        exit(EXIT_FAILURE);
    return (size_t)count;
}

int main(void)
{
    static struct desk d;
    bool overlong = false;
    size_t left = 0, count;

    d = desk_fresh();
    while ((count = read_some(left)) > 0)
        left = answer(&d, &overlong, left + count);
    if (left > 0 || overlong) {
        input[left] = '\n';
        answer(&d, &overlong, left + 1);
    }
    return EXIT_SUCCESS;
}
