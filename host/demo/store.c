#define _POSIX_C_SOURCE 200809L

#include "store.h"

#include <dirent.h>
#include <errno.h>
#include <fcntl.h>
#include <stdio.h>
#include <sys/stat.h>
#include <unistd.h>

#include "fail.h"

static const char new_file[] = ".new";

static void flush(int file)
{
    if (fsync(file) != 0)
        fail("fsync");
}

static void shut(int file)
{
    if (close(file) != 0)
        fail("close");
}

/* A new folder's name stands in the folder above it, so that one is flushed. */
static void flush_parent(int folder)
{
    int parent = openat(folder, "..", O_RDONLY | O_DIRECTORY);
    if (parent < 0)
        fail("the folder above the state folder");
    flush(parent);
    shut(parent);
}

/* The kernel gives the lock back when the process ends, however it ends. */
static void lock_whole(int file)
{
    struct flock whole = {.l_type = F_WRLCK, .l_whence = SEEK_SET};
    if (fcntl(file, F_SETLK, &whole) == 0)
        return;
    if (errno == EACCES || errno == EAGAIN)
        fail_because("state folder", "in use by another process");
    fail("lock");
}

void store_open(struct store *store, const char *path)
{
    bool made = mkdir(path, 0700) == 0;
    if (!made && errno != EEXIST)
        fail(path);
    store->folder = open(path, O_RDONLY | O_DIRECTORY);
    if (store->folder < 0)
        fail(path);
    if (made)
        flush_parent(store->folder);
    store->lock = openat(store->folder, "lock", O_RDWR | O_CREAT, 0600);
    if (store->lock < 0)
        fail("lock");
    lock_whole(store->lock);
}

void store_close(struct store *store)
{
    shut(store->lock);
    shut(store->folder);
}

bool store_read(const struct store *store, const char *name, uint8_t *at, size_t room, size_t *size)
{
    int file = openat(store->folder, name, O_RDONLY);
    if (file < 0 && errno == ENOENT)
        return false;
    if (file < 0)
        fail(name);
    *size = 0;
    for (;;) {
        uint8_t beyond; /* where the room is used up, one byte more tells whether the file ends there */
        bool full = *size == room;
        ssize_t got = full ? read(file, &beyond, 1) : read(file, at + *size, room - *size);
        if (got < 0)
            fail(name);
        if (got == 0)
            break;
        if (full)
            fail_because(name, "longer than it can be");
        *size += (size_t)got;
    }
    shut(file);
    return true;
}

static void write_all(int file, struct bytes bytes)
{
    while (bytes.size > 0) {
        ssize_t put = write(file, bytes.at, bytes.size);
        if (put < 0)
            fail("write");
        bytes.at += put;
        bytes.size -= (size_t)put;
    }
}

/* Written beside it and flushed, then renamed over it: whoever opens the name finds all of the old file or all of the new.
 * The folder is flushed last, for the name is in it. */
void store_replace(const struct store *store, const char *name, struct bytes bytes)
{
    char beside[128];
    int length = snprintf(beside, sizeof beside, "%s%s", name, new_file);
    if (length < 0 || (size_t)length >= sizeof beside)
        fail_because(name, "too long a name");
    int file = openat(store->folder, beside, O_WRONLY | O_CREAT | O_EXCL, 0600);
    if (file < 0)
        fail(beside);
    write_all(file, bytes);
    flush(file);
    shut(file);
    if (renameat(store->folder, beside, store->folder, name) != 0)
        fail(name);
    store_flush(store);
}

void store_remove(const struct store *store, const char *name)
{
    if (unlinkat(store->folder, name, 0) != 0)
        fail(name);
}

void store_flush(const struct store *store)
{
    flush(store->folder);
}

struct file_name key_file(struct bytes key_id)
{
    struct file_name name;
    size_t at = 0;
    for (size_t i = 0; i < key_id.size && i < sizeof(struct hash); i++)
        at += (size_t)snprintf(name.letters + at, sizeof name.letters - at, "%02x", key_id.at[i]);
    snprintf(name.letters + at, sizeof name.letters - at, ".key");
    return name;
}

static bool has_record(const struct table *table, const char *name)
{
    struct record record;
    for (struct bytes rest = FILLED(*table); record_next(&rest, &record);)
        if (strcmp(key_file(record.key_id).letters, name) == 0)
            return true;
    return false;
}

static bool ends_with(const char *name, const char *end)
{
    return strlen(name) >= strlen(end) && strcmp(name + strlen(name) - strlen(end), end) == 0;
}

static bool is_leftover(const struct table *table, const char *name)
{
    if (ends_with(name, new_file))
        return true;
    bool is_key_file = strlen(name) == sizeof(struct file_name) - 1 && ends_with(name, ".key");
    return is_key_file && !has_record(table, name);
}

size_t store_sweep(const struct store *store, const struct table *table)
{
    size_t swept = 0;
    int again = openat(store->folder, ".", O_RDONLY | O_DIRECTORY);
    DIR *names = again < 0 ? NULL : fdopendir(again);
    if (names == NULL)
        fail("state folder");
    for (;;) {
        errno = 0;
        struct dirent *entry = readdir(names);
        if (entry == NULL && errno != 0)
            fail("state folder");
        if (entry == NULL)
            break;
        if (is_leftover(table, entry->d_name)) {
            store_remove(store, entry->d_name);
            swept++;
        }
    }
    if (closedir(names) != 0)
        fail("state folder");
    if (swept > 0)
        store_flush(store);
    return swept;
}
