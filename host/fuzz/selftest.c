/* Shows that the guard pages see one byte: each stretch that an entry is lent is placed one byte short, once at its end and once at its
 * start, with its size as if it were whole. Every such call must fault, and the same call told truly must not. */
#include <signal.h>
#include <stdio.h>
#include <stdlib.h>
#include <string.h>
#include <sys/wait.h>
#include <unistd.h>

#include "harness.h"
#include "uaf_token.h"

/* The stretch that is short in this process, if any, and where. */
static const char *short_one;
static bool short_front;

static bool is_short(const char *name)
{
    return short_one != NULL && strcmp(short_one, name) == 0;
}

/* A place for the first `touched` bytes of a stretch. */
static uint8_t *lend(const char *name, size_t touched)
{
    struct pages pages = open_pages(touched);
    if (!is_short(name))
        return place(&pages, touched, short_front);
    return short_front ? pages.first - 1 : place(&pages, touched - 1, false);
}

static const uint8_t *lend_bytes(const char *name, const uint8_t *bytes, size_t size)
{
    uint8_t *at = lend(name, size);
    size_t from = is_short(name) && short_front ? 1 : 0;
    size_t missing = is_short(name) && !short_front ? 1 : 0;
    memcpy(at + from, bytes + from, size - from - missing);
    return at;
}

/* An access token, with its header. */
#define EIGHT 0xAA, 0xAA, 0xAA, 0xAA, 0xAA, 0xAA, 0xAA, 0xAA
#define TOKEN 0x05, 0x28, 32, 0, EIGHT, EIGHT, EIGHT, EIGHT

/* Either the index or, as it is hashed, the access token comes last, for their values are looked at. */
static const uint8_t GET_INFO[] = {0x01, 0x34, 0, 0};
static const uint8_t REGISTER[] = {
    0x02, 0x34, 57, 0, 0x0A, 0x2E, 1, 0, 0xAA, 0x06, 0x28, 1, 0, 'A', 0x07, 0x28, 2, 0, 0x07, 0x3E, TOKEN, 0x0D, 0x28, 1, 0, 0,
};
static const uint8_t SIGN[] = {
    0x03, 0x34, 51, 0, 0x0A, 0x2E, 1, 0, 0xAA, 0x10, 0x28, 1, 0, 0xAA, 0x0D, 0x28, 1, 0, 0, TOKEN,
};

/* What a call left, for the calls after it. */
struct left {
    uint8_t bytes[UAF_LEAST_TABLE];
    size_t size;
};

static struct left table, answered;

static void keep(struct left *left, const uint8_t *bytes, size_t size)
{
    memcpy(left->bytes, bytes, size);
    left->size = size;
}

/* A command on the table, which writes so many bytes of response and table. The outputs have room for no more than that, whatever is said. */
static bool command(const uint8_t *bytes, size_t size, size_t touched, size_t touched_table)
{
    static const uint8_t same[512];
    uint8_t *response_at = lend("response", touched), *table_at = lend("table_out", touched_table);
    uint32_t *answer = (uint32_t *)lend("answer", sizeof *answer);
    size_t *response_length = (size_t *)lend("response_length", sizeof *response_length);
    size_t *table_length = (size_t *)lend("table_length", sizeof *table_length);
    uint32_t refusal = uaf_command(
        lend_bytes("command", bytes, size), size, lend_bytes("aaid", same, 9), 9, 1, 2, 3,
        lend_bytes("metadata", same, 15), 15, UAF_VERIFIED, UAF_SHOWN_CONFIRMED, lend_bytes("key_id", same, 32), 32,
        lend_bytes("public_key", same, 512), 512, lend_bytes("nonce", same, 32), 32, lend_bytes("table", table.bytes, table.size), table.size,
        response_at, UAF_LEAST_RESPONSE, table_at, UAF_LEAST_TABLE, answer, response_length, table_length);
    if (refusal != 0 || *response_length != touched || *table_length != touched_table)
        return false;
    keep(&table, table_at, touched_table);
    keep(&answered, response_at, touched);
    return true;
}

enum { RECORD = 4 + 36 + 36 + 5 + 8, INFO = 94, KRD = 4 + 13 + 11 + 5 + 36 + 12 + 516, SIGNED_DATA = 4 + 13 + 9 + 36 + 5 + 36 + 36 + 8 };

static bool run_get_info(void)
{
    return command(GET_INFO, sizeof GET_INFO, INFO, table.size);
}

static bool run_register(void)
{
    table.size = 0;
    return command(REGISTER, sizeof REGISTER, KRD, RECORD);
}

static bool run_sign(void)
{
    return command(SIGN, sizeof SIGN, SIGNED_DATA, RECORD);
}

/* The registered record behind one like it of another holder, which stays: what is written has its length. */
static bool run_withdraw(void)
{
    enum { LAST_OF_KEY_ID = 4 + 36 - 1, LAST_OF_MIXED = 4 + 36 + 36 - 1 };
    static const uint8_t key_id[UAF_KEY_ID_SIZE], token[UAF_ACCESS_TOKEN_SIZE] = {EIGHT, EIGHT, EIGHT, EIGHT};
    uint8_t both[2 * RECORD], mixed[UAF_MIXED_SIZE];
    memcpy(both, table.bytes, RECORD);
    both[LAST_OF_KEY_ID] ^= 1;
    both[LAST_OF_MIXED] ^= 1;
    memcpy(both + RECORD, table.bytes, RECORD);
    uaf_hash(token, sizeof token, NULL, 0, mixed);
    uint8_t *table_at = lend("table_out", RECORD);
    size_t *table_length = (size_t *)lend("table_length", sizeof *table_length);
    uint32_t refusal = uaf_withdraw(
        lend_bytes("mixed", mixed, sizeof mixed), sizeof mixed, lend_bytes("key_id", key_id, sizeof key_id), sizeof key_id,
        lend_bytes("table", both, sizeof both), sizeof both, table_at, UAF_LEAST_TABLE, table_length);
    return refusal == 0 && *table_length == RECORD && memcmp(table_at, both, RECORD) == 0;
}

/* Of a length that fills no block. */
static bool run_hash(void)
{
    static const uint8_t same[100];
    uint8_t *at = lend("hash", UAF_HASH_SIZE);
    memset(at, 0, UAF_HASH_SIZE);
    uaf_hash(lend_bytes("first", same, 32), 32, lend_bytes("second", same, 100), 100, at);
    return memcmp(at, same, UAF_HASH_SIZE) != 0;
}

enum { COMPLETED = 4 + 6 + 4 + 4 + KRD + 4 + 516 + 2052 };

/* The completion of a Register. */
static bool run_complete(void)
{
    static const uint8_t same[2048];
    uint8_t *at = lend("response", COMPLETED);
    size_t *length = (size_t *)lend("response_length", sizeof *length);
    uint32_t refusal = uaf_complete(
        UAF_COMPLETE_REGISTRATION, lend_bytes("draft", answered.bytes, answered.size), answered.size, UAF_BASIC_FULL,
        lend_bytes("signature", same, 512), 512, lend_bytes("certificate", same, 2048), 2048, at, UAF_LEAST_RESPONSE, length);
    return refusal == 0 && *length == COMPLETED;
}

/* The reading of GetInfo's response, whose last byte is looked at; that of a signature or a certificate is not. */
static bool run_signed_part(void)
{
    size_t *at = (size_t *)lend("place", sizeof *at), *length = (size_t *)lend("length", sizeof *length);
    return uaf_signed_part(lend_bytes("response", answered.bytes, answered.size), answered.size, at, length) == 0 && *length == 0;
}

static bool run_read_fields(void)
{
    enum { ROW = UAF_MOST_FIELDS * sizeof(size_t) };
    size_t *count = (size_t *)lend("count", sizeof *count);
    uint32_t refusal = uaf_read_fields(
        lend_bytes("response", answered.bytes, answered.size), answered.size, (size_t *)lend("tag", sizeof(size_t)),
        (size_t *)lend("status", sizeof(size_t)), count, (size_t *)lend("tags", ROW), (size_t *)lend("places", ROW),
        (size_t *)lend("lengths", ROW));
    return refusal == 0 && *count == 9;
}

/* The writers, each with all that it can be given. The output has room for the command and no more. */
enum {
    WRITTEN_REGISTER = 4 + 5 + 13 + 36 + 7 + 6 + 36 + 11,
    WRITTEN_SIGN = 4 + 5 + 13 + 36 + 54 + 36 + 11 + 2 * 36,
    WRITTEN_DEREGISTER = 4 + 5 + 13 + 36 + 36,
};

static const uint8_t SAME[64];

/* A field that the writer copies and does not look into. */
#define FIELD(name, size) lend_bytes(name, SAME, size), size
#define APP_ID UAF_GIVEN, FIELD("app_id", 9)
#define ACCESS_TOKEN FIELD("access_token", 32)
#define VERIFY_TOKEN UAF_GIVEN, FIELD("verify_token", 7)

static bool run_write_get_info(void)
{
    size_t *length = (size_t *)lend("command_length", sizeof *length);
    return uaf_write_get_info(lend("command", 4), 4, length) == 0 && *length == 4;
}

static bool run_write_register(void)
{
    size_t *length = (size_t *)lend("command_length", sizeof *length);
    uint32_t refusal = uaf_write_register(
        APP_ID, FIELD("challenge", 32), lend_bytes("username", (const uint8_t *)"Ann", 3), 3, UAF_BASIC_FULL, ACCESS_TOKEN, VERIFY_TOKEN,
        lend("command", WRITTEN_REGISTER), WRITTEN_REGISTER, length);
    return refusal == 0 && *length == WRITTEN_REGISTER;
}

static bool run_write_sign(void)
{
    static const size_t sizes[2] = {32, 32};
    size_t *length = (size_t *)lend("command_length", sizeof *length);
    uint32_t refusal = uaf_write_sign(
        APP_ID, FIELD("challenge", 32), UAF_GIVEN, FIELD("content", 50), ACCESS_TOKEN, VERIFY_TOKEN, FIELD("handles", 64),
        (const size_t *)lend_bytes("handle_sizes", (const uint8_t *)sizes, sizeof sizes), 2, lend("command", WRITTEN_SIGN), WRITTEN_SIGN, length);
    return refusal == 0 && *length == WRITTEN_SIGN;
}

static bool run_write_deregister(void)
{
    size_t *length = (size_t *)lend("command_length", sizeof *length);
    uint32_t refusal = uaf_write_deregister(
        APP_ID, FIELD("key_id", 32), ACCESS_TOKEN, lend("command", WRITTEN_DEREGISTER), WRITTEN_DEREGISTER, length);
    return refusal == 0 && *length == WRITTEN_DEREGISTER;
}

static bool run_write_open_settings(void)
{
    size_t *length = (size_t *)lend("command_length", sizeof *length);
    return uaf_write_open_settings(lend("command", 9), 9, length) == 0 && *length == 9;
}

/* Whether the call in a process of its own faults. */
static bool faults(bool (*run)(void), const char *name, bool front)
{
    fflush(NULL);
    pid_t child = fork();
    if (child == 0) {
        short_one = name;
        short_front = front;
        _exit(run() ? 0 : 2);
    }
    int status = 0;
    if (child < 0 || waitpid(child, &status, 0) != child) {
        perror("fork");
        exit(1);
    }
    return WIFSIGNALED(status) && WTERMSIG(status) == SIGSEGV;
}

static int tried, seen;

/* The call told truly, at either end of the pages, then with each stretch short. It leaves what the next needs. */
static void try_each(const char *entry, bool (*run)(void), const char *const *names)
{
    struct left before[] = {table, answered};
    for (; *names != NULL; names++)
        for (int front = 0; front < 2; front++) {
            table = before[0];
            answered = before[1];
            bool fault = faults(run, *names, front != 0);
            tried++;
            seen += fault;
            if (!fault)
                printf("not seen: %s, %s short at its %s\n", entry, *names, front != 0 ? "start" : "end");
        }
    for (int front = 0; front < 2; front++) {
        table = before[0];
        answered = before[1];
        short_front = front != 0;
        if (!run()) {
            printf("%s: the true call failed\n", entry);
            exit(1);
        }
    }
}

#define NAMES(...) ((const char *const[]){__VA_ARGS__, NULL})

int main(void)
{
    try_each("Register", run_register, NAMES("command", "aaid", "key_id", "public_key", "response", "table_out", "answer", "response_length",
                                             "table_length"));
    try_each("Complete", run_complete, NAMES("draft", "signature", "certificate", "response", "response_length"));
    try_each("withdraw", run_withdraw, NAMES("mixed", "key_id", "table", "table_out", "table_length"));
    try_each("Sign", run_sign, NAMES("command", "nonce", "table", "response", "table_out"));
    try_each("hash", run_hash, NAMES("first", "second", "hash"));
    try_each("GetInfo", run_get_info, NAMES("command", "aaid", "metadata", "table", "response", "table_out"));
    try_each("signed_part", run_signed_part, NAMES("response", "place", "length"));
    try_each("read_fields", run_read_fields, NAMES("response", "tag", "status", "count", "tags", "places", "lengths"));
    try_each("write_get_info", run_write_get_info, NAMES("command", "command_length"));
    try_each("write_register", run_write_register, NAMES("app_id", "challenge", "username", "access_token", "verify_token", "command",
                                                         "command_length"));
    try_each("write_sign", run_write_sign, NAMES("app_id", "challenge", "content", "access_token", "verify_token", "handles", "handle_sizes",
                                                 "command", "command_length"));
    try_each("write_deregister", run_write_deregister, NAMES("app_id", "key_id", "access_token", "command", "command_length"));
    try_each("write_open_settings", run_write_open_settings, NAMES("command", "command_length"));
    printf("guard pages: %d calls with a stretch one byte short, %d faults\n", tried, seen);
    return seen == tried ? 0 : 1;
}
