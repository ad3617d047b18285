/* A power cut for a program that it is preloaded into. The program's writes,
 * syncs, renames and sends are its steps; at step CUT_AT it is killed, half-way
 * through if that is a write, and the disk is left with no more than was synced:
 * a file written since its last sync is emptied, a rename since the folder's
 * last sync is undone. For programs that write one file at a time. */
#include <dlfcn.h>
#include <limits.h>
#include <signal.h>
#include <stdbool.h>
#include <stdio.h>
#include <stdlib.h>
#include <sys/socket.h>
#include <sys/stat.h>
#include <unistd.h>

static int unsynced = -1;        /* the file written since its last sync */
static char renamed[PATH_MAX];   /* the path that a rename gave another file; empty if the folder was synced since */
static char previous[PATH_MAX];  /* that path's file before, if it had one */

static void *real(const char *name)
{
    void *found = dlsym(RTLD_NEXT, name);
    if (found == NULL)
        abort();
    return found;
}

static void cut(void)
{
    if (unsynced >= 0 && ftruncate(unsynced, 0) != 0)
        abort();
    if (renamed[0] != '\0') {
        int (*real_rename)(const char *, const char *) = real("rename");
        if (real_rename(previous, renamed) != 0)
            unlink(renamed);
    }
    kill(getpid(), SIGKILL);
}

static bool last_step(void)
{
    static long steps;
    return ++steps == atol(getenv("CUT_AT"));
}

ssize_t write(int file, const void *bytes, size_t size)
{
    ssize_t (*real_write)(int, const void *, size_t) = real("write");
    bool last = last_step();
    ssize_t written = real_write(file, bytes, last ? size / 2 : size);
    if (unsynced >= 0)
        close(unsynced);
    unsynced = dup(file);
    if (last)
        cut();
    return written;
}

int fsync(int file)
{
    int (*real_fsync)(int) = real("fsync");
    struct stat found;
    if (last_step())
        cut();
    if (fstat(file, &found) != 0)
        abort();
    if (S_ISDIR(found.st_mode)) {
        unlink(previous);
        renamed[0] = '\0';
    } else {
        close(unsynced);
        unsynced = -1;
    }
    return real_fsync(file);
}

int rename(const char *from, const char *to)
{
    int (*real_rename)(const char *, const char *) = real("rename");
    if (last_step())
        cut();
    snprintf(renamed, sizeof renamed, "%s", to);
    snprintf(previous, sizeof previous, "%s.previous", to);
    unlink(previous);
    if (link(to, previous) != 0)
        unlink(previous);
    return real_rename(from, to);
}

ssize_t send(int socket, const void *bytes, size_t size, int flags)
{
    ssize_t (*real_send)(int, const void *, size_t, int) = real("send");
    if (last_step())
        cut();
    return real_send(socket, bytes, size, flags);
}
