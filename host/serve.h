/* The socket and its clients: frames in, replies out. */
#ifndef SERVE_H
#define SERVE_H

#include "store.h"

/* Takes SIGTERM and SIGINT: from here on they only end `serve`, between two
 * calls and never within one. */
void take_signals(void);

/* Listens at a path of the file system. A socket that a dead daemon left there
 * is replaced; anything else ends the program. */
int listen_at(const char *path);

/* Serves one client after another until a signal comes. */
void serve(int listener, struct store *store);

#endif
