/* Sockets of the Unix domain on which a packet stays whole: what daemon and
 * client both do with them. */
#ifndef PACKET_H
#define PACKET_H

#include <stdbool.h>
#include <stddef.h>
#include <stdint.h>
#include <sys/socket.h>
#include <sys/un.h>

/* The address of a path; ends the program if the path is too long for one. */
struct sockaddr_un address_of(const char *path);

/* A new socket, meant for a path; `flags` go with its type. */
int new_socket(const char *path, int flags);

/* Sends a packet; false if it can't be, the other side having gone. */
bool send_packet(int to, const uint8_t *bytes, size_t size, int flags);

/* Takes a packet and gives its size: -1 if that failed. */
ssize_t take_packet(int from, struct msghdr *message);

#endif
