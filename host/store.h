/* The machine's file: the record, how many calls were accepted and what the
 * last of them was told. It is replaced whole, so that at every moment it
 * holds the fresh cube, or the cube after an accepted call and its reply. */
#ifndef STORE_H
#define STORE_H

#include <limits.h>
#include <stddef.h>
#include <stdint.h>

#include "cube.h"
#include "wire.h"

/* The file's parts, by their first byte. Count and reply are the greeting. */
enum {
    COUNT_AT = CUBE_RECORD_SIZE,
    REPLY_AT = COUNT_AT + COUNT_SIZE,
    CHECKSUM_AT = REPLY_AT + REPLY_SIZE,
    STORED_SIZE = CHECKSUM_AT + 8,
    AFTER_RECORD = STORED_SIZE - CUBE_RECORD_SIZE,
    LONGEST_STORED = UINT16_MAX + AFTER_RECORD, /* with the longest record that a length field can say */
};

struct store {
    char file[PATH_MAX];
    char beside[PATH_MAX]; /* the next file, until it is renamed */
    int folder;            /* open, to be synced after a rename */
    int lock;              /* open and locked while the daemon lives */
    uint8_t bytes[STORED_SIZE];
};

/* Opens the file of a machine, or where none is and n isn't null sets up a
 * fresh cube. Ends the program if the file is damaged, if its record is of
 * another size or kind or doesn't load, if another daemon has it, or if n isn't
 * given just when it is needed. */
void store_open(struct store *store, const char *file, const uint32_t *n);

/* Makes one call, writes its reply and gives the reply's size. What the call
 * changes is in the file by then; if that fails the program ends. */
size_t store_call(struct store *store, const uint8_t *frame, size_t size, uint8_t reply[REPLY_SIZE]);

void store_close(struct store *store);

#endif
