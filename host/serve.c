#include "serve.h"

#include <errno.h>
#include <poll.h>
#include <signal.h>
#include <stdbool.h>
#include <sys/stat.h>
#include <unistd.h>

#include "fail.h"
#include "packet.h"

static volatile sig_atomic_t stopped;
static sigset_t while_waiting; /* the signals blocked in `wait_for` alone */

static void stop(int signal)
{
    (void)signal;
    stopped = 1;
}

void take_signals(void)
{
    struct sigaction action = {.sa_handler = stop};
    sigset_t ours;
    sigemptyset(&ours);
    sigaddset(&ours, SIGTERM);
    sigaddset(&ours, SIGINT);
    if (sigprocmask(SIG_BLOCK, &ours, &while_waiting) != 0 || sigaction(SIGTERM, &action, NULL) != 0 || sigaction(SIGINT, &action, NULL) != 0)
        fail_errno("signals", "take");
    sigdelset(&while_waiting, SIGTERM);
    sigdelset(&while_waiting, SIGINT);
}

/* Frees the path of a socket that nobody listens at. */
static void remove_dead(const char *path, const struct sockaddr_un *address)
{
    struct stat found;
    if (lstat(path, &found) != 0)
        return;
    if (!S_ISSOCK(found.st_mode))
        fail(SYSTEM_ERROR, path, "this is there and is no socket");
    int probe = new_socket(path, SOCK_NONBLOCK);
    bool dead = connect(probe, (const struct sockaddr *)address, sizeof *address) != 0 && errno == ECONNREFUSED;
    close(probe);
    if (!dead)
        fail(SYSTEM_ERROR, path, "another program listens there");
    if (unlink(path) != 0)
        fail_errno(path, "remove");
}

/* Senders' credentials are asked for because they tell an empty packet, which
 * has them, from the end of a connection. */
int listen_at(const char *path)
{
    const struct sockaddr_un address = address_of(path);
    const int yes = 1;
    remove_dead(path, &address);
    int listener = new_socket(path, SOCK_NONBLOCK);
    if (setsockopt(listener, SOL_SOCKET, SO_PASSCRED, &yes, sizeof yes) != 0)
        fail_errno(path, "ask for credentials");
    if (bind(listener, (const struct sockaddr *)&address, sizeof address) != 0 || listen(listener, 16) != 0)
        fail_errno(path, "listen");
    return listener;
}

/* Waits until there is something to take; false once a signal has come. */
static bool wait_for(int socket)
{
    struct pollfd waited = {.fd = socket, .events = POLLIN};
    while (!stopped) {
        if (ppoll(&waited, 1, NULL, &while_waiting) > 0)
            return true;
        if (errno != EINTR)
            fail_errno("clients", "wait");
    }
    return false;
}

/* Sends a packet; false if the client has gone, or lets its replies lie. */
static bool tell(int client, const uint8_t *bytes, size_t size)
{
    return send_packet(client, bytes, size, MSG_DONTWAIT);
}

/* Takes a packet and gives its size, or -1 if the client has gone. Of a packet
 * that is longer than the buffer the rest is dropped. */
static ssize_t take(int client, uint8_t *bytes, size_t size)
{
    char control[CMSG_SPACE(sizeof(struct ucred))];
    struct iovec part = {.iov_base = bytes, .iov_len = size};
    struct msghdr message = {.msg_iov = &part, .msg_iovlen = 1, .msg_control = control, .msg_controllen = sizeof control};
    ssize_t taken = take_packet(client, &message);
    bool ended = taken == 0 && message.msg_controllen == 0;
    return ended ? -1 : taken;
}

/* The calls of one client. The buffer has a byte more than the longest frame:
 * whatever is cut to fill it is refused 3, as it would be uncut. */
static void serve_one(int client, struct store *store)
{
    static uint8_t frame[LONGEST_FRAME + 1];
    uint8_t reply[REPLY_SIZE];
    bool goes_on = tell(client, store->bytes + COUNT_AT, GREETING_SIZE);
    while (goes_on && wait_for(client)) {
        ssize_t size = take(client, frame, sizeof frame);
        goes_on = size >= 0 && tell(client, reply, store_call(store, frame, (size_t)size, reply));
    }
}

void serve(int listener, struct store *store)
{
    while (wait_for(listener)) {
        int client = accept4(listener, NULL, NULL, SOCK_CLOEXEC);
        if (client >= 0) {
            serve_one(client, store);
            close(client);
        } else if (errno != EINTR && errno != EAGAIN && errno != ECONNABORTED) {
            fail_errno("clients", "accept");
        }
    }
}
