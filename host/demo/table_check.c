/* Looks at a state folder without touching it, for the crash test.
 *
 *     table_check STATE_FOLDER
 *
 * The token must accept the table (no file is the table without records), and each record's key file must hold the private
 * key whose public key hashes to the KeyID. Prints KeyID and SignCounter of each record, oldest first. */
#include <errno.h>
#include <stdio.h>
#include <stdlib.h>

#include "commands.h"
#include "fail.h"
#include "keys.h"
#include "store.h"
#include "token.h"

/* False where there is no such file. */
static bool read_file(const char *folder, const char *name, uint8_t *at, size_t room, size_t *size)
{
    char path[4096];
    int length = snprintf(path, sizeof path, "%s/%s", folder, name);
    if (length < 0 || (size_t)length >= sizeof path)
        fail_because(name, "too long a path");
    FILE *file = fopen(path, "rb");
    if (file == NULL && errno == ENOENT)
        return false;
    if (file == NULL)
        fail(path);
    *size = fread(at, 1, room, file);
    if (ferror(file) || fgetc(file) != EOF)
        fail_because(path, "unreadable, or longer than it can be");
    if (fclose(file) != 0)
        fail(path);
    return true;
}

static void check_table(const struct table *table)
{
    struct command command;
    struct answer answer;
    const struct bytes none = nothing();
    const struct lent lent = {0, 0, none, none, none};
    require_written(write_get_info(&command));
    if (token_command(FILLED(command), &lent, table, &answer) != 0)
        fail_because("table", "the token refuses it");
}

static void check_key(const char *folder, struct bytes key_id)
{
    struct file_name name = key_file(key_id);
    struct blob der, public_key;
    if (!read_file(folder, name.letters, der.bytes, sizeof der.bytes, &der.size))
        fail_because(name.letters, "missing");
    EVP_PKEY *key = key_read(FILLED(der));
    if (key == NULL)
        fail_because(name.letters, "no private key");
    public_key_write(key, &public_key);
    EVP_PKEY_free(key);
    struct hash hash = sha256(FILLED(public_key));
    if (!same(WHOLE(hash.bytes), key_id))
        fail_because(name.letters, "another key");
}

int main(int argc, char **argv)
{
    static struct table table;
    struct record record;
    if (argc != 2)
        fail_because("usage", "table_check STATE_FOLDER");
    if (!read_file(argv[1], "table", table.bytes, sizeof table.bytes, &table.size))
        table.size = 0;
    check_table(&table);
    for (struct bytes rest = FILLED(table); record_next(&rest, &record);) {
        check_key(argv[1], record.key_id);
        struct file_name name = key_file(record.key_id);
        printf("%.64s %u\n", name.letters, (unsigned)record.count);
    }
    return fflush(stdout) == 0 ? EXIT_SUCCESS : EXIT_FAILURE;
}
