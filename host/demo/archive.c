#define _POSIX_C_SOURCE 200809L

#include "archive.h"

#include <errno.h>
#include <fcntl.h>
#include <sys/stat.h>
#include <unistd.h>

#include "fail.h"

static FILE *create(const struct archive *archive, const char *name)
{
    int descriptor = openat(archive->folder, name, O_WRONLY | O_CREAT | O_TRUNC, 0600);
    FILE *file = descriptor < 0 ? NULL : fdopen(descriptor, "wb");
    if (file == NULL)
        fail(name);
    return file;
}

static void finish(FILE *file, const char *name)
{
    if (fclose(file) != 0)
        fail(name);
}

void archive_open(struct archive *archive, const struct store *store)
{
    if (mkdirat(store->folder, "responses", 0700) != 0 && errno != EEXIST)
        fail("responses");
    archive->folder = openat(store->folder, "responses", O_RDONLY | O_DIRECTORY);
    if (archive->folder < 0)
        fail("responses");
    archive->manifest = create(archive, "manifest");
}

void archive_close(struct archive *archive)
{
    finish(archive->manifest, "manifest");
    if (close(archive->folder) != 0)
        fail("responses");
}

static const char *kind_of(const struct response *response)
{
    if (field_of(response, UAF_TAG_PUB_KEY).size == 0)
        return "sign";
    return field_of(response, UAF_TAG_CERT).size > 0 ? "full" : "surrogate";
}

static void write_line(FILE *manifest, const char *name, const struct asked *asked, const struct response *response)
{
    struct caller caller = asked->caller;
    fprintf(manifest, "%s\t%s\t%zu\t%zu\t%s\t%.*s\t", name, kind_of(response), response->signed_place,
            response->signed_length, asked->challenge, (int)caller.app_id.size, (const char *)caller.app_id.at);
    for (size_t i = 0; i < caller.access_token.size; i++)
        fprintf(manifest, "%02x", caller.access_token.at[i]);
    fprintf(manifest, "\t%s\n", asked->content);
    if (fflush(manifest) != 0 || ferror(manifest))
        fail("manifest");
}

void archive_file(struct archive *archive, const char *name, struct bytes bytes)
{
    FILE *file = create(archive, name);
    if (fwrite(bytes.at, 1, bytes.size, file) != bytes.size)
        fail(name);
    finish(file, name);
}

void archive_add(struct archive *archive, const char *name, const struct asked *asked, const struct response *response)
{
    char file_name[64];
    int length = snprintf(file_name, sizeof file_name, "%s.bin", name);
    if (length < 0 || (size_t)length >= sizeof file_name)
        fail_because(name, "too long a name");
    archive_file(archive, file_name, FILLED(*response));
    write_line(archive->manifest, file_name, asked, response);
}
