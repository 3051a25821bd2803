/* For the crash test: loaded before the C library (LD_PRELOAD), it counts the calls by which the demonstration changes
 * files, and ends the process with SIGKILL at one of them.
 *
 *     KILL_AT=N KILL_HOW=before|half|after    at the Nth call; half: a write that wrote only the first half
 *     KILL_LOG=FILE                           a line for each call, with a tab between: the length of standard output (a
 *                                             file) by then, the call ("failed" where it did), its path or paths, and the
 *                                             bytes that a write wrote */
#define _GNU_SOURCE
#include <dlfcn.h>
#include <fcntl.h>
#include <signal.h>
#include <stdarg.h>
#include <stdbool.h>
#include <stdio.h>
#include <stdlib.h>
#include <string.h>
#include <sys/stat.h>
#include <unistd.h>

/* The C library's own function of a name, into a pointer of its type; memcpy, since C has no cast from a data pointer. */
#define REAL(name, pointer)                                \
    do {                                                   \
        void *found = dlsym(RTLD_NEXT, name);              \
        if (found == NULL)                                 \
            abort();                                       \
        memcpy(&(pointer), &found, sizeof(pointer));       \
    } while (0)

static bool is_set(const char *name, const char *value)
{
    const char *set = getenv(name);
    return set != NULL && strcmp(set, value) == 0;
}

/* Counts a call. True where it is the one to end at, if not ended already. */
static bool begin(void)
{
    static long calls;
    const char *at = getenv("KILL_AT");
    bool last = at != NULL && ++calls == atol(at);
    if (last && is_set("KILL_HOW", "before"))
        raise(SIGKILL);
    return last;
}

static void end(bool last)
{
    if (last)
        raise(SIGKILL);
}

static FILE *log_file(void)
{
    static FILE *file;
    const char *name = getenv("KILL_LOG");
    if (file == NULL && name != NULL)
        file = fopen(name, "w");
    return file;
}

/* Begins a line; NULL where no log is wanted. */
static FILE *log_call(const char *call, bool succeeded)
{
    struct stat out;
    FILE *file = log_file();
    if (file != NULL)
        fprintf(file, "%ld\t%s", fstat(STDOUT_FILENO, &out) == 0 ? (long)out.st_size : -1L, succeeded ? call : "failed");
    return file;
}

/* The path of what is open as a descriptor, and a name in it. */
static void log_path(FILE *file, int descriptor, const char *name)
{
    char link[64], path[4096];
    if (descriptor == AT_FDCWD) {
        fprintf(file, "\t%s", name);
        return;
    }
    snprintf(link, sizeof link, "/proc/self/fd/%d", descriptor);
    ssize_t length = readlink(link, path, sizeof path - 1);
    fprintf(file, "\t%.*s", length < 0 ? 0 : (int)length, path);
    if (name != NULL)
        fprintf(file, "/%s", name);
}

static void log_end(FILE *file)
{
    putc('\n', file);
    fflush(file);
}

/* A call on one path. */
static void log_one(const char *call, bool succeeded, int descriptor, const char *name)
{
    FILE *file = log_call(call, succeeded);
    if (file == NULL)
        return;
    log_path(file, descriptor, name);
    log_end(file);
}

static void log_write(int descriptor, const unsigned char *bytes, ssize_t size)
{
    FILE *file = log_call("write", size >= 0);
    if (file == NULL)
        return;
    log_path(file, descriptor, NULL);
    putc('\t', file);
    for (ssize_t i = 0; i < size; i++)
        fprintf(file, "%02x", bytes[i]);
    log_end(file);
}

static void log_rename(bool succeeded, int from_folder, const char *from, int to_folder, const char *to)
{
    FILE *file = log_call("rename", succeeded);
    if (file == NULL)
        return;
    log_path(file, from_folder, from);
    log_path(file, to_folder, to);
    log_end(file);
}

int openat(int folder, const char *name, int flags, ...)
{
    int (*real)(int, const char *, int, ...);
    REAL("openat", real);
    va_list rest;
    va_start(rest, flags);
    mode_t mode = (flags & O_CREAT) != 0 ? va_arg(rest, mode_t) : 0;
    va_end(rest);
    if ((flags & O_CREAT) == 0)
        return real(folder, name, flags);
    bool last = begin();
    int made = real(folder, name, flags, mode);
    log_one("create", made >= 0, folder, name);
    end(last);
    return made;
}

ssize_t write(int descriptor, const void *bytes, size_t size)
{
    ssize_t (*real)(int, const void *, size_t);
    REAL("write", real);
    bool last = begin();
    ssize_t put = real(descriptor, bytes, last && is_set("KILL_HOW", "half") ? size / 2 : size);
    log_write(descriptor, bytes, put);
    end(last);
    return put;
}

int fsync(int descriptor)
{
    int (*real)(int);
    REAL("fsync", real);
    bool last = begin();
    int result = real(descriptor);
    log_one("fsync", result == 0, descriptor, NULL);
    end(last);
    return result;
}

int renameat(int from_folder, const char *from, int to_folder, const char *to)
{
    int (*real)(int, const char *, int, const char *);
    REAL("renameat", real);
    bool last = begin();
    int result = real(from_folder, from, to_folder, to);
    log_rename(result == 0, from_folder, from, to_folder, to);
    end(last);
    return result;
}

int unlinkat(int folder, const char *name, int flags)
{
    int (*real)(int, const char *, int);
    REAL("unlinkat", real);
    bool last = begin();
    int result = real(folder, name, flags);
    log_one("unlink", result == 0, folder, name);
    end(last);
    return result;
}

int mkdir(const char *path, mode_t mode)
{
    int (*real)(const char *, mode_t);
    REAL("mkdir", real);
    bool last = begin();
    int result = real(path, mode);
    log_one("mkdir", result == 0, AT_FDCWD, path);
    end(last);
    return result;
}

int mkdirat(int folder, const char *name, mode_t mode)
{
    int (*real)(int, const char *, mode_t);
    REAL("mkdirat", real);
    bool last = begin();
    int result = real(folder, name, mode);
    log_one("mkdir", result == 0, folder, name);
    end(last);
    return result;
}
