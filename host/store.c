#include "store.h"

#include <errno.h>
#include <fcntl.h>
#include <libgen.h>
#include <stdbool.h>
#include <stdio.h>
#include <string.h>
#include <sys/file.h>
#include <unistd.h>

#include "fail.h"

/* What to do about a file that is refused: one that no daemon leaves so, and one of another release. */
#define OR_A_FRESH_CUBE "or move the file away and start with N for a fresh cube; the file is left as it is"
#define IF_DAMAGED "put a copy back that a daemon left, " OR_A_FRESH_CUBE
#define IF_OTHER "run the daemon that wrote it, " OR_A_FRESH_CUBE

/* FNV-1a over all that stands before the checksum. It sees every change of a
 * single byte, also of a condition or of a job's number, where other bytes make
 * a record too. */
static uint64_t checksum(const uint8_t *bytes)
{
    uint64_t sum = 0xcbf29ce484222325;
    for (size_t i = 0; i < CHECKSUM_AT; i++)
        sum = (sum ^ bytes[i]) * 0x100000001b3;
    return sum;
}

static void name(char path[PATH_MAX], const char *file, const char *end)
{
    if (snprintf(path, PATH_MAX, "%s%s", file, end) >= PATH_MAX)
        fail(WRONG_ARGUMENTS, file, "the path is too long");
}

static int open_folder(const char *file)
{
    char path[PATH_MAX];
    name(path, file, "");
    const char *folder = dirname(path);
    int opened = open(folder, O_RDONLY | O_DIRECTORY | O_CLOEXEC);
    if (opened < 0)
        fail_errno(folder, "open");
    return opened;
}

/* One daemon for each file. The lock goes with the process, however it ends;
 * it has a file of its own because the machine's is replaced. */
static int take_lock(const char *file)
{
    char path[PATH_MAX];
    name(path, file, ".lock");
    int lock = open(path, O_RDWR | O_CREAT | O_CLOEXEC, 0600);
    if (lock < 0)
        fail_errno(path, "open");
    if (flock(lock, LOCK_EX | LOCK_NB) == 0)
        return lock;
    if (errno == EWOULDBLOCK)
        fail(SYSTEM_ERROR, file, "another cube-host has it");
    fail_errno(path, "lock");
}

/* Reads until the buffer is full or the file ends; gives how many bytes. */
static size_t read_all(int file, uint8_t *bytes, size_t size, const char *path)
{
    size_t filled = 0;
    while (filled < size) {
        ssize_t count = read(file, bytes + filled, size - filled);
        if (count == 0)
            break;
        if (count > 0)
            filled += (size_t)count;
        else if (errno != EINTR)
            fail_errno(path, "read");
    }
    return filled;
}

/* Ends the program if the file's record is of another size or kind, as that of
 * another release is. Every record begins with its length and its kind; the
 * file is the record alone, or goes on behind it with as many bytes as here. */
static void refuse_other_record(const char *path, const uint8_t *bytes, size_t size)
{
    size_t length = field(bytes, 0);
    bool whole = length >= 4 && (size == length || size == length + AFTER_RECORD);
    if (!whole || (length == CUBE_RECORD_SIZE && kind(bytes) == CUBE_RECORD_KIND))
        return;
    fail(REFUSED_BY_NUMBER, path,
         "refused 1: the file holds a record of %u bytes, kind 0x%04x; "
         "this daemon keeps records of %d bytes, kind 0x%04x; " IF_OTHER,
         field(bytes, 0), kind(bytes), CUBE_RECORD_SIZE, (unsigned)CUBE_RECORD_KIND);
}

/* Ends the program if the file isn't as a daemon leaves it: its size, its
 * checksum, and then, which is the library's to judge, whether calls may begin
 * at its record. */
static void refuse_damaged(const char *path, const uint8_t *bytes, size_t size)
{
    if (size != STORED_SIZE)
        fail(REFUSED_BY_NUMBER, path, "refused 1: the file hasn't %d bytes; " IF_DAMAGED, STORED_SIZE);
    if (number(bytes + CHECKSUM_AT) != checksum(bytes))
        fail(REFUSED_BY_NUMBER, path, "refused 1: the checksum is not that of the file; " IF_DAMAGED);
    uint32_t refused = cube_load(bytes, CUBE_RECORD_SIZE);
    if (refused == 18)
        fail(REFUSED_BY_NUMBER, path, "refused 18: the nodes and star bits of a job don't form a subcube; " IF_DAMAGED);
    if (refused != 0)
        fail(REFUSED_BY_NUMBER, path, "refused %u: what the file holds is not a record; " IF_DAMAGED, (unsigned)refused);
}

/* Whether there is a file; if so its bytes are taken, all tests passed. */
static bool load(struct store *store)
{
    static uint8_t bytes[LONGEST_STORED + 1];
    int file = open(store->file, O_RDONLY | O_CLOEXEC);
    if (file < 0 && errno == ENOENT)
        return false;
    if (file < 0)
        fail_errno(store->file, "open");
    size_t size = read_all(file, bytes, sizeof bytes, store->file);
    close(file);
    refuse_other_record(store->file, bytes, size);
    refuse_damaged(store->file, bytes, size);
    memcpy(store->bytes, bytes, STORED_SIZE);
    return true;
}

static bool write_all(int file, const uint8_t *bytes, size_t size)
{
    size_t written = 0;
    while (written < size) {
        ssize_t count = write(file, bytes + written, size - written);
        if (count < 0 && errno != EINTR)
            return false;
        if (count > 0)
            written += (size_t)count;
    }
    return true;
}

/* Replaces the file whole: written beside, synced, renamed, the folder synced. */
static void save(struct store *store)
{
    put_number(store->bytes + CHECKSUM_AT, checksum(store->bytes));
    int file = open(store->beside, O_WRONLY | O_CREAT | O_TRUNC | O_CLOEXEC, 0600);
    if (file < 0)
        fail_errno(store->beside, "open");
    if (!write_all(file, store->bytes, STORED_SIZE) || fsync(file) != 0) {
        int reason = errno;
        unlink(store->beside);
        errno = reason;
        fail_errno(store->beside, "write");
    }
    close(file);
    if (rename(store->beside, store->file) != 0)
        fail_errno(store->file, "replace");
    if (fsync(store->folder) != 0)
        fail_errno(store->file, "sync its folder");
}

static void set_up(struct store *store, uint32_t n)
{
    memset(store->bytes, 0, STORED_SIZE);
    uint32_t refused = cube_setup(store->bytes, CUBE_RECORD_SIZE, n);
    if (refused != 0)
        fail(REFUSED_BY_NUMBER, store->file, "refused %u: no cube of dimension %u", (unsigned)refused, (unsigned)n);
    save(store);
}

void store_open(struct store *store, const char *file, const uint32_t *n)
{
    name(store->file, file, "");
    name(store->beside, file, ".new");
    store->folder = open_folder(file);
    store->lock = take_lock(file);
    bool found = load(store);
    if (found && n != NULL)
        fail(WRONG_ARGUMENTS, file, "there is a record already, which N does not replace");
    if (!found && n == NULL)
        fail(WRONG_ARGUMENTS, file, "there is no such file, and no N to set up a fresh cube");
    if (!found)
        set_up(store, *n);
}

size_t store_call(struct store *store, const uint8_t *frame, size_t size, uint8_t reply[REPLY_SIZE])
{
    memset(reply, 0, REPLY_SIZE);
    uint32_t refused = cube_call(store->bytes, CUBE_RECORD_SIZE, frame, size, reply, REPLY_SIZE);
    if (refused == 1 || refused == 2)
        fail(REFUSED_BY_NUMBER, store->file, "refused %u while running; the file is that of the last accepted call", (unsigned)refused);
    if (refused == 0) {
        put_number(store->bytes + COUNT_AT, number(store->bytes + COUNT_AT) + 1);
        memcpy(store->bytes + REPLY_AT, reply, REPLY_SIZE);
        save(store);
    }
    return field(reply, 0);
}

void store_close(struct store *store)
{
    close(store->folder);
    close(store->lock);
}
