#include "packet.h"

#include <errno.h>
#include <string.h>

#include "fail.h"

struct sockaddr_un address_of(const char *path)
{
    struct sockaddr_un address = {.sun_family = AF_UNIX};
    if (strlen(path) >= sizeof address.sun_path)
        fail(WRONG_ARGUMENTS, path, "the path is too long for a socket");
    strcpy(address.sun_path, path);
    return address;
}

int new_socket(const char *path, int flags)
{
    int made = socket(AF_UNIX, SOCK_SEQPACKET | SOCK_CLOEXEC | flags, 0);
    if (made < 0)
        fail_errno(path, "socket");
    return made;
}

bool send_packet(int to, const uint8_t *bytes, size_t size, int flags)
{
    ssize_t sent;
    do
        sent = send(to, bytes, size, MSG_NOSIGNAL | flags);
    while (sent < 0 && errno == EINTR);
    return sent >= 0;
}

ssize_t take_packet(int from, struct msghdr *message)
{
    ssize_t taken;
    do
        taken = recvmsg(from, message, MSG_CMSG_CLOEXEC);
    while (taken < 0 && errno == EINTR);
    return taken;
}
