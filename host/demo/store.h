/* The state folder: the stored table in the file "table", each private key in a file named by its KeyID, the attestation
 * key and certificate. What a function here has written is on disk when it returns. A crash at any moment leaves each file
 * as it was or as it was to become. */
#ifndef DEMO_STORE_H
#define DEMO_STORE_H

#include "records.h"

struct store {
    int folder;
    int lock;
};

/* A key file's name: 64 hexadecimal digits and ".key". */
struct file_name {
    char letters[64 + sizeof ".key"];
};
struct file_name key_file(struct bytes key_id);

/* Opens the folder, which is made where it is missing, and locks it: the table has one writer at a time. */
void store_open(struct store *store, const char *path);
void store_close(struct store *store);

/* The whole file into *at. False where there is none. */
bool store_read(const struct store *store, const char *name, uint8_t *at, size_t room, size_t *size);

/* The file holds these bytes from now on. */
void store_replace(const struct store *store, const char *name, struct bytes bytes);

/* Removes files; on disk after store_flush, so that several can share one. */
void store_remove(const struct store *store, const char *name);
void store_flush(const struct store *store);

/* Removes what a crash left behind: new files that were never put in place, and keys of records that the table does not
 * have. Gives their number. */
size_t store_sweep(const struct store *store, const struct table *table);

#endif
