/* odd-clients SOCKET PID: clients that do what they shouldn't, on a fresh cube
 * of dimension 1. The daemon answers by document 01 and outlives them; then it
 * is ended by SIGTERM while a client sits there. Silent if all is right. */
#include <signal.h>
#include <stdio.h>
#include <stdlib.h>
#include <string.h>
#include <sys/socket.h>
#include <unistd.h>

#include "fail.h"
#include "link.h"

static const uint8_t good_0[] = {6, 0, 0x01, 0x01, 0, 0};
static const uint8_t fault_1[] = {6, 0, 0x02, 0x01, 1, 0};
static const uint8_t request_7[] = {8, 0, 0x01, 0x02, 7, 0, 0, 0};

static void same(const char *what, const uint8_t *got, const uint8_t *expected, size_t size)
{
    if (memcmp(got, expected, size) != 0)
        fail(SYSTEM_ERROR, what, "the reply is another");
}

/* A call and the refusal that it gets. */
static void refused(struct link *link, const char *what, const uint8_t *frame, size_t size, uint8_t number)
{
    uint8_t reply[REPLY_SIZE];
    link_call(link, frame, size, reply);
    same(what, reply, (const uint8_t[]){8, 0, 0x02, 0x80, number, 0, 0, 0}, 8);
}

/* Packets of every size: nothing, one byte, and on both sides of the longest
 * length that a frame can say. 131078 says 6 in its length field. */
static void odd_sizes(const char *path)
{
    static uint8_t long_frame[131078] = {0xff, 0xff, 0x01, 0x01};
    struct link link;
    link_open(&link, path);
    refused(&link, "an empty packet", good_0, 0, 3);
    refused(&link, "a packet of one byte", good_0, 1, 3);
    refused(&link, "a frame cut short", good_0, 5, 3);
    refused(&link, "a frame of 65535 bytes", long_frame, 65535, 5);
    refused(&link, "65536 bytes that say 65535", long_frame, 65536, 3);
    memcpy(long_frame, good_0, sizeof good_0);
    refused(&link, "131078 bytes that say 6", long_frame, sizeof long_frame, 3);
    link_close(&link);
}

/* Sends a call and goes away; the next greeting has its reply. */
static void goes_away(const char *path)
{
    struct link link;
    link_open(&link, path);
    if (send(link.socket, fault_1, sizeof fault_1, 0) != sizeof fault_1)
        fail_errno("fault and away", "send");
    link_close(&link);
    link_open(&link, path);
    same("fault and away", link.greeting, (const uint8_t[GREETING_SIZE]){1, 0, 0, 0, 0, 0, 0, 0, 6, 0, 0x03, 0x80}, GREETING_SIZE);
    link_close(&link);
}

/* Sends calls without reading a reply until the daemon parts with it. */
static void never_reads(const char *path)
{
    struct link link;
    link_open(&link, path);
    for (int i = 0; i < 100000; i++)
        if (send(link.socket, good_0, sizeof good_0, MSG_NOSIGNAL) < 0) {
            link_close(&link);
            return;
        }
    fail(SYSTEM_ERROR, "a client that never reads", "is still served");
}

/* The daemon serves on: what a good node is granted is right, and SIGTERM ends
 * it, which this client sees as the end of its connection. */
static void at_the_end(const char *path, pid_t daemon)
{
    struct link link;
    uint8_t reply[REPLY_SIZE];
    link_open(&link, path);
    link_call(&link, request_7, sizeof request_7, reply);
    same("a request", reply, (const uint8_t[]){12, 0, 0x01, 0x80, 7, 0, 0, 0, 0, 0, 1, 0}, REPLY_SIZE);
    if (kill(daemon, SIGTERM) != 0)
        fail_errno("the daemon", "end");
    if (recv(link.socket, reply, sizeof reply, 0) != 0)
        fail(SYSTEM_ERROR, "a client that sits there", "was sent something");
    link_close(&link);
}

int main(int words, char **word)
{
    if (words != 3)
        fail(WRONG_ARGUMENTS, "usage", "odd-clients SOCKET PID");
    odd_sizes(word[1]);
    goes_away(word[1]);
    never_reads(word[1]);
    at_the_end(word[1], (pid_t)atol(word[2]));
    return 0;
}
