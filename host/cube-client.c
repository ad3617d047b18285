/* cube-client SOCKET: reads a log on standard input and prints what the log
 * program prints, with the calls made by a daemon. The daemon was started on a
 * fresh cube of the set-up's n; the set-up is the one frame that isn't sent. */
#include <stdbool.h>
#include <stdio.h>

#include "fail.h"
#include "link.h"

struct tally {
    uint32_t total, setup, done, granted, refused;
};

enum next { END, BROKEN, WHOLE };

/* What the input has next, and its bytes. */
static enum next read_frame(uint8_t *bytes, size_t *size)
{
    *size = fread(bytes, 1, 2, stdin);
    if (*size < 2)
        return *size == 0 ? END : BROKEN;
    size_t length = field(bytes, 0);
    if (length < 4)
        return BROKEN;
    *size += fread(bytes + 2, 1, length - 2, stdin);
    return *size == length ? WHOLE : BROKEN;
}

static void count(uint32_t *counter)
{
    if (*counter < UINT32_MAX)
        ++*counter;
}

static void print_refused(struct tally *tally, uint32_t place, unsigned number, unsigned tried)
{
    count(&tally->refused);
    printf("%u refused %u %u\n", place, number, tried);
}

/* The first frame; whether it is a right set-up. */
static bool print_first(struct tally *tally, const uint8_t *frame, size_t size, enum next next)
{
    unsigned refused = next == BROKEN ? 3 : kind(frame) != SETUP ? 4 : size != 6 ? 5 : field(frame, 4) > 10 ? 7 : 0;
    count(&tally->total);
    if (refused != 0) {
        print_refused(tally, 1, refused, 0);
        return false;
    }
    count(&tally->setup);
    printf("1 setup %u\n", field(frame, 4));
    return true;
}

static void print_reply(struct tally *tally, uint32_t place, const uint8_t *reply)
{
    count(&tally->total);
    if (kind(reply) == GRANTED) {
        count(&tally->granted);
        printf("%u granted %u %u %u %u\n", place, field(reply, 4), field(reply, 6), field(reply, 8), field(reply, 10));
    } else if (kind(reply) == DONE) {
        count(&tally->done);
        printf("%u done %u\n", place, field(reply, 4));
    } else {
        print_refused(tally, place, field(reply, 4), field(reply, 6));
    }
}

/* The later frames. Bytes that end a log are sent too: the daemon refuses them
 * with 3, as a frame whose length field isn't its size. */
static void make_calls(struct tally *tally, const char *path, uint8_t *frame)
{
    struct link link;
    uint8_t reply[REPLY_SIZE];
    size_t size;
    enum next next = WHOLE;
    link_open(&link, path);
    for (uint32_t place = 2; next == WHOLE && place != 0; place++) {
        next = read_frame(frame, &size);
        if (next == END)
            break;
        link_call(&link, frame, size, reply);
        print_reply(tally, place, reply);
    }
    link_close(&link);
}

int main(int words, char **word)
{
    static uint8_t frame[LONGEST_FRAME];
    struct tally tally = {0};
    size_t size;
    if (words != 2)
        fail(WRONG_ARGUMENTS, "usage", "cube-client SOCKET");
    enum next next = read_frame(frame, &size);
    if (next != END && print_first(&tally, frame, size, next))
        make_calls(&tally, word[1], frame);
    printf("total %u setup %u done %u granted %u refused %u\n", tally.total, tally.setup, tally.done, tally.granted, tally.refused);
    if (ferror(stdin))
        fail_errno("standard input", "read");
    if (fclose(stdout) != 0)
        fail_errno("standard output", "write");
    return 0;
}
