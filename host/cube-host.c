/* cube-host RECORD SOCKET [N]: the daemon of one machine. See README.md. */
#include <errno.h>
#include <stdbool.h>
#include <stdlib.h>
#include <sys/stat.h>
#include <unistd.h>

#include "fail.h"
#include "serve.h"
#include "store.h"

/* Reads a whole number; false if the word is none or is too large. */
static bool read_number(const char *word, uint32_t *value)
{
    char *end;
    errno = 0;
    unsigned long long parsed = strtoull(word, &end, 10);
    *value = (uint32_t)parsed;
    return word[0] >= '0' && word[0] <= '9' && *end == '\0' && errno == 0 && parsed <= UINT32_MAX;
}

int main(int count, char **words)
{
    static struct store store;
    uint32_t n = 0;
    if (count < 3 || count > 4 || (count == 4 && !read_number(words[3], &n)))
        fail(WRONG_ARGUMENTS, "usage", "cube-host RECORD SOCKET [N]");
    umask(077);
    take_signals();
    store_open(&store, words[1], count == 4 ? &n : NULL);
    int listener = listen_at(words[2]);
    serve(listener, &store);
    unlink(words[2]);
    close(listener);
    store_close(&store);
    return 0;
}
