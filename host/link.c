#include "link.h"

#include <string.h>
#include <time.h>
#include <unistd.h>

#include "fail.h"
#include "packet.h"

enum { TRIES = 10000, PAUSE = 1000000 }; /* a pause in ns */

/* Takes a packet, which is never empty; false if the daemon has gone. */
static bool take(int daemon, uint8_t *bytes, size_t size)
{
    struct iovec part = {.iov_base = bytes, .iov_len = size};
    struct msghdr message = {.msg_iov = &part, .msg_iovlen = 1};
    return take_packet(daemon, &message) > 0;
}

/* One try to connect and to be greeted. */
static bool greeted(struct link *link)
{
    const struct sockaddr_un address = address_of(link->path);
    link->socket = new_socket(link->path, 0);
    if (connect(link->socket, (const struct sockaddr *)&address, sizeof address) == 0 && take(link->socket, link->greeting, GREETING_SIZE))
        return true;
    close(link->socket);
    return false;
}

static void join(struct link *link)
{
    const struct timespec pause = {.tv_nsec = PAUSE};
    for (int i = 0; i < TRIES; i++) {
        if (greeted(link))
            return;
        nanosleep(&pause, NULL);
    }
    fail(SYSTEM_ERROR, link->path, "no daemon answers");
}

void link_open(struct link *link, const char *path)
{
    link->path = path;
    join(link);
    link->accepted = number(link->greeting);
}

/* What the greeting says of the call that was in flight: it was accepted, and
 * the reply is written; or it was not made. */
static bool was_accepted(const struct link *link, uint8_t reply[REPLY_SIZE])
{
    uint64_t accepted = number(link->greeting);
    if (accepted == link->accepted)
        return false;
    if (accepted != link->accepted + 1)
        fail(SYSTEM_ERROR, link->path, "the daemon has %llu calls where %llu were made", (unsigned long long)accepted,
             (unsigned long long)link->accepted);
    memcpy(reply, link->greeting + COUNT_SIZE, REPLY_SIZE);
    return true;
}

void link_call(struct link *link, const uint8_t *frame, size_t size, uint8_t reply[REPLY_SIZE])
{
    bool answered = false;
    while (!answered) {
        answered = send_packet(link->socket, frame, size, 0) && take(link->socket, reply, REPLY_SIZE);
        if (!answered) {
            close(link->socket);
            join(link);
            answered = was_accepted(link, reply);
        }
    }
    if (kind(reply) != REFUSED)
        link->accepted++;
}

void link_close(struct link *link)
{
    close(link->socket);
}
