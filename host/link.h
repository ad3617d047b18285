/* A client's connection to the daemon, on which each call is made exactly
 * once, also if the daemon is killed and started again meanwhile. It wants to
 * be the daemon's only client from its first call to its last. */
#ifndef LINK_H
#define LINK_H

#include <stdint.h>

#include "wire.h"

struct link {
    const char *path;
    int socket;
    uint8_t greeting[GREETING_SIZE];
    uint64_t accepted; /* calls, by the first greeting and the replies since */
};

/* Connects and takes the greeting; waits some seconds for a daemon. */
void link_open(struct link *link, const char *path);

/* Makes one call and writes its reply. */
void link_call(struct link *link, const uint8_t *frame, size_t size, uint8_t reply[REPLY_SIZE]);

void link_close(struct link *link);

#endif
