/* Fuzzes uaf_command and uaf_withdraw: one to four calls, the first on a table that the input has, each later one on the table that the last one
 * left.
 *
 *     8   flags: 1 buffers stand after the front guard page, 2 the table is given by records; 4, 8, 16, 32 the first, second, third, fourth call is a
 *         withdrawal
 *     16  size of the table's part, then the part: the stored form or, by records, 8 bytes for each: number of the KeyID, number of the
 *         holder, size of the name, its letter as put_name has it, the counter (32)
 *     then each call:
 *     8   flags: 1 the command's outer length is put right; 2 the verdict, 4 the display's result, 8 the version, 16 the signature
 *         algorithm, 32 the key algorithm is changed in 32 bits; 64 the holder's access token, 128 its AppID is put behind the command's children
 *     8   verdict, display's result, number of the holder, number of the KeyID, a byte that fills the other lent stretches and makes the
 *         profile's numbers
 *     32  for each flag of a number, in that order: its bits that are changed. So a number has 8 or 16 bits as a rule, and one that is out of
 *         range keeps its low bits where these are 0
 *     8   sizes of AAID, metadata, KeyID, nonce, public key and access token, where it is put behind the children, as take_size has them (a token at
 *         most 64)
 *     8   by how much (signed) response and table output are longer than their least; -128 makes them empty
 *     8   0, or up to which size a skipped child fills the command: 8,188 and 1 to 16 more, or else so many times 256
 *     16  size of the command, then the command
 *
 * A command meets the records of the holder whose access token and AppID it has.
 *
 * A withdrawal has the same layout, so that one flag makes a withdrawal of a command. It is lent the KeyID in its size, the table output and a
 * mixed token: the holder's, as put_mixed has it, in the access token's size or, where the outer length is not put right, the command as it
 * stands. With flag 64 it is not the holder's but a record's of the table, and with flag 128 the KeyID is a record's too: the numbers of holder and
 * KeyID say which, by their remainders. The verdict and the display's result, where not 0, say which bit of mixed token and KeyID is changed.
 *
 * Every Register that makes a draft is taken back as well, on the side, which must give the table that it was given. */
#include <string.h>

#include "harness.h"
#include "peer.h"

enum {
    MOST_CALLS = 4,
    MOST_TOKEN = 64,
    MOST_TABLE = UINT16_MAX,
    MOST_COMMAND = 1 << 17,
    RECORD_PART = 8,
    MOST_RECORD = 4 + 36 + 36 + 4 + UINT8_MAX + 8,
};

/* The input's flags from the second on, and a call's. */
enum { BY_RECORDS = 2, FIRST_IS_WITHDRAWAL = 4 };
enum {
    MEND_OUTER = 1, CHANGE_VERDICT = 2, CHANGE_DISPLAY = 4, CHANGE_VERSION = 8, CHANGE_SIGNATURE = 16, CHANGE_KEY = 32,
    PUT_TOKEN = 64, PUT_APP_ID = 128,
};

static struct {
    struct input command, aaid, metadata, key_id, public_key, nonce, table, mixed;
    struct output response, table_out, answer, response_length, table_length;
} lent;

static void open_all(void)
{
    static bool open;
    if (open)
        return;
    lent.command = open_input(MOST_COMMAND);
    lent.aaid = open_input(MOST_SIZE);
    lent.metadata = open_input(MOST_SIZE);
    lent.key_id = open_input(MOST_SIZE);
    lent.public_key = open_input(MOST_SIZE);
    lent.nonce = open_input(MOST_SIZE);
    lent.table = open_input(MOST_TABLE);
    lent.mixed = open_input(MOST_COMMAND);
    lent.response = open_output(UAF_LEAST_RESPONSE + INT8_MAX);
    lent.table_out = open_output(UAF_LEAST_TABLE + INT8_MAX);
    lent.answer = open_output(sizeof(uint32_t));
    lent.response_length = open_output(sizeof(size_t));
    lent.table_length = open_output(sizeof(size_t));
    open = true;
}

/* KeyIDs have numbers, so that they meet again: sixteen of one repeated byte, and of each fifteen that differ from it in one place. */
static void numbered(uint8_t *bytes, size_t size, unsigned number)
{
    memset(bytes, (int)(number & 0x0F), size);
    size_t differs = 2 * (number >> 4) + 1;
    if (number >> 4 != 0 && differs < size)
        bytes[differs] ^= 0x10;
}

/* Holders have numbers too. The low four bits choose the access token, which is one repeated byte, the others the AppID: none, or letters up to some
 * length at which with the token a block ends, or which is the least or the greatest. */
struct holder {
    uint8_t token[MOST_TOKEN], app_id[UAF_MOST_APP_ID];
    size_t app_id_size;
};

static struct holder holder_by(unsigned number)
{
    static const uint16_t sizes[] = {0, 1, 2, 23, 24, 31, 32, 33, 87, 88, 95, 96, 511, 512};
    struct holder holder = {.app_id_size = sizes[(number >> 4) % (sizeof sizes / sizeof *sizes)]};
    memset(holder.token, (int)(number & 0x0F), sizeof holder.token);
    for (size_t i = 0; i < holder.app_id_size; i++)
        holder.app_id[i] = (uint8_t)('a' + i % 26);
    return holder;
}

/* A record's mixed token. Those of the greatest numbers are nearly a holder's: its hash but for one bit, and its AppID hashed before its token. */
static void put_mixed(uint8_t *at, unsigned number)
{
    struct holder holder = holder_by(number);
    if (number >> 4 == 0x0F)
        peer_hash(holder.app_id, holder.app_id_size, holder.token, UAF_ACCESS_TOKEN_SIZE, at);
    else
        peer_hash(holder.token, UAF_ACCESS_TOKEN_SIZE, holder.app_id, holder.app_id_size, at);
    if (number >> 4 == 0x0E)
        at[UAF_MIXED_SIZE - 1] ^= 1;
}

static uint8_t *put_header(uint8_t *at, unsigned tag, size_t size)
{
    *at++ = (uint8_t)tag;
    *at++ = (uint8_t)(tag >> 8);
    *at++ = (uint8_t)size;
    *at++ = (uint8_t)(size >> 8);
    return at;
}

/* A name of one letter. A code below 0x80 is the letter itself. In one from there on the low four bits choose a letter of two to four bytes, and the
 * three above them say how many times `a` stands before it; what is left over at the end is `a` too. Seven stands for none before it, and for a
 * name that is cut inside its last letter: so most names are UTF-8, and one code in sixteen gives one that is not. */
static void put_name(uint8_t *at, size_t size, unsigned code)
{
    static const char *const letters[16] = {
        "\xC2\x80", "\xC3\xA9", "\xD0\x96", "\xDF\xBF",
        "\xE0\xA0\x80", "\xE1\x80\x80", "\xE3\x81\x8B", "\xEC\xBF\xBF", "\xED\x80\x80", "\xED\x9F\xBF", "\xEE\x80\x80", "\xEF\xBF\xBF",
        "\xF0\x90\x80\x80", "\xF0\x9F\x90\x8E", "\xF3\xBF\xBF\xBF", "\xF4\x8F\xBF\xBF",
    };
    if (code < 0x80) {
        memset(at, (int)code, size);
        return;
    }
    const char *letter = letters[code & 0x0F];
    size_t length = strlen(letter), before = code >> 4 & 7;
    bool cut = before == 7;
    memset(at, 'a', size);
    for (size_t i = cut ? 0 : before; i + length <= size; i += length)
        memcpy(at + i, letter, length);
    if (cut && size > 0)
        at[size - 1] = (uint8_t)letter[0];
}

/* The stored form of one record. */
static uint8_t *put_record(uint8_t *at, struct source *part)
{
    unsigned key = take8(part), holder = take8(part);
    size_t name_size = take8(part);
    unsigned letter = take8(part);
    at = put_header(at, 0x3802, 36 + 36 + 4 + name_size + 8);
    at = put_header(at, 0x2E09, 32);
    numbered(at, 32, key);
    at = put_header(at + 32, 0x2805, 32);
    put_mixed(at, holder);
    at = put_header(at + 32, 0x2806, name_size);
    put_name(at, name_size, letter);
    at = put_header(at + name_size, 0x2E0D, 4);
    for (int i = 0; i < 4; i++)
        *at++ = take8(part);
    return at;
}

/* The first call's table. */
static size_t take_table(struct source *source, bool by_records)
{
    uint8_t *table = lent.table.peer;
    size_t size = take16(source);
    const uint8_t *bytes = take(source, &size);
    if (!by_records) {
        memcpy(table, bytes, size);
        return size;
    }
    struct source part = {bytes, size};
    uint8_t *end = table;
    while (part.left >= RECORD_PART && (size_t)(end - table) + MOST_RECORD <= MOST_TABLE)
        end = put_record(end, &part);
    return (size_t)(end - table);
}

/* What a call is, beside its command and what stands in the stretches. */
struct caller {
    unsigned flags, number, key;
    struct holder holder;
    size_t token_size;
    uint32_t verdict, display, version, signature_algorithm, key_algorithm;
};

/* The size that a command is filled up to, mostly about the greatest. */
static size_t take_goal(struct source *source)
{
    size_t code = take8(source);
    return code > 0 && code <= 16 ? 8188 + code : 256 * code;
}

static size_t put_child(uint8_t *at, unsigned tag, const uint8_t *value, size_t size)
{
    memcpy(put_header(at, tag, size), value, size);
    return 4 + size;
}

static size_t take_command(struct source *source, const struct caller *caller)
{
    uint8_t *command = lent.command.peer;
    unsigned flags = caller->flags;
    size_t goal = take_goal(source);
    size_t size = take16(source);
    const uint8_t *bytes = take(source, &size);
    memcpy(command, bytes, size);
    if ((flags & PUT_TOKEN) != 0)
        size += put_child(command + size, 0x2805, caller->holder.token, caller->token_size);
    if ((flags & PUT_APP_ID) != 0 && caller->holder.app_id_size > 0)
        size += put_child(command + size, 0x2804, caller->holder.app_id, caller->holder.app_id_size);
    if (size + 4 <= goal) {
        size_t filler = goal - size - 4;
        memset(put_header(command + size, 0x0FFF, filler), 0xA5, filler);
        size = goal;
    }
    if ((flags & MEND_OUTER) != 0 && size >= 4) {
        command[2] = (uint8_t)(size - 4);
        command[3] = (uint8_t)((size - 4) >> 8);
    }
    return size;
}

static void lend_numbered(struct input *input, size_t size, unsigned number, bool front)
{
    numbered(input->peer, size, number);
    lend_input(input, size, front);
}

/* The bits in which a number is changed. */
static uint32_t take_change(struct source *source, unsigned flags, unsigned flag)
{
    return (flags & flag) != 0 ? take32(source) : 0;
}

static struct caller take_results(struct source *source, bool front)
{
    unsigned flags = take8(source);
    uint8_t verdict = take8(source), display = take8(source), holder = take8(source), key = take8(source), fill = take8(source);
    uint32_t version = fill * 257u;
    struct caller caller = {flags, holder, key, holder_by(holder), 0, verdict, display, version, version ^ 0x1234, version ^ 0xFFFF};
    caller.verdict ^= take_change(source, flags, CHANGE_VERDICT);
    caller.display ^= take_change(source, flags, CHANGE_DISPLAY);
    caller.version ^= take_change(source, flags, CHANGE_VERSION);
    caller.signature_algorithm ^= take_change(source, flags, CHANGE_SIGNATURE);
    caller.key_algorithm ^= take_change(source, flags, CHANGE_KEY);
    lend_filled(&lent.aaid, take_size(source), fill, front);
    lend_filled(&lent.metadata, take_size(source), fill + 1u, front);
    lend_numbered(&lent.key_id, take_size(source), key, front);
    lend_filled(&lent.nonce, take_size(source), fill + 2u, front);
    lend_filled(&lent.public_key, take_size(source), fill + 4u, front);
    size_t token_size = take_size(source);
    caller.token_size = token_size < MOST_TOKEN ? token_size : MOST_TOKEN;
    return caller;
}

static void lend_outputs(struct source *source, bool front)
{
    lend_output(&lent.response, take_size_near(source, UAF_LEAST_RESPONSE), front);
    lend_output(&lent.table_out, take_size_near(source, UAF_LEAST_TABLE), front);
    lend_output(&lent.answer, sizeof(uint32_t), front);
    lend_output(&lent.response_length, sizeof(size_t), front);
    lend_output(&lent.table_length, sizeof(size_t), front);
}

static void check_inputs(void)
{
    check_input(&lent.command, "command");
    check_input(&lent.aaid, "aaid");
    check_input(&lent.metadata, "metadata");
    check_input(&lent.key_id, "key_id");
    check_input(&lent.public_key, "public_key");
    check_input(&lent.nonce, "nonce");
    check_input(&lent.table, "table");
}

/* Refusal, status or draft; by command; by how much of a table is left. */
static void cover_answer(uint32_t refusal, uint32_t answer, size_t table_length)
{
    size_t kind = lent.command.size > 0 ? lent.command.peer[0] & 7 : 7;
    size_t outcome = 32 + refusal;
    if (refusal == 0) {
        const uint8_t *response = lent.response.token;
        /* A status is below 17, and byte 2 of a draft's ASSERTION_INFO is its mode. */
        outcome = answer == UAF_DRAFT ? 24u + (response[23] & 7u) : response[8] + (response[2] > 6 ? 40u : 0u);
    }
    size_t filled = table_length == 0 ? 0 : 1 + table_length / 1000;
    cover((outcome * 8 + kind) * 8 + filled % 8);
}

/* What a call that was served left is the table from now on. Gives its size. */
static size_t hand_on(bool served, size_t table_length)
{
    cover_names(lent.table.peer, lent.table.size, served);
    if (!served)
        return lent.table.size;
    memcpy(lent.table.peer, lent.table_out.token, table_length);
    return table_length;
}

/* Both make the call; gives the size of the table left, which is then the table's. */
static size_t call(const struct caller *c)
{
    uint32_t refusal = uaf_command(
        lent.command.token, lent.command.size, lent.aaid.token, lent.aaid.size, c->version, c->signature_algorithm,
        c->key_algorithm, lent.metadata.token, lent.metadata.size, c->verdict, c->display, lent.key_id.token, lent.key_id.size,
        lent.public_key.token, lent.public_key.size, lent.nonce.token, lent.nonce.size, lent.table.token, lent.table.size,
        lent.response.token, lent.response.size, lent.table_out.token, lent.table_out.size, (uint32_t *)lent.answer.token,
        (size_t *)lent.response_length.token, (size_t *)lent.table_length.token);
    uint32_t peers = peer_command(
        lent.command.peer, lent.command.size, lent.aaid.peer, lent.aaid.size, c->version, c->signature_algorithm,
        c->key_algorithm, lent.metadata.peer, lent.metadata.size, c->verdict, c->display, lent.key_id.peer, lent.key_id.size,
        lent.public_key.peer, lent.public_key.size, lent.nonce.peer, lent.nonce.size, lent.table.peer, lent.table.size,
        lent.response.peer, lent.response.size, lent.table_out.peer, lent.table_out.size, (uint32_t *)lent.answer.peer,
        (size_t *)lent.response_length.peer, (size_t *)lent.table_length.peer);
    check_returned(refusal, peers);

    bool served = refusal == 0;
    uint32_t answer = 0;
    size_t response_length = 0, table_length = 0;
    if (served) {
        memcpy(&answer, lent.answer.token, sizeof answer);
        memcpy(&response_length, lent.response_length.token, sizeof response_length);
        memcpy(&table_length, lent.table_length.token, sizeof table_length);
    }
    check_output(&lent.answer, served ? sizeof answer : 0, "answer");
    check_output(&lent.response_length, served ? sizeof response_length : 0, "response_length");
    check_output(&lent.table_length, served ? sizeof table_length : 0, "table_length");
    check_output(&lent.response, response_length, "response");
    check_output(&lent.table_out, table_length, "table_out");
    check_inputs();
    cover_names(lent.command.peer, lent.command.size, answer == UAF_DRAFT);
    table_length = hand_on(served, table_length);
    cover_answer(refusal, answer, table_length);
    return table_length;
}

/* Where in a stored record KeyID and mixed token stand, and where from its end the counter; and what every record has at least. */
enum { KEY_ID_PLACE = 4 + 4, MIXED_PLACE = 4 + 36 + 4, COUNTER_FROM_END = 4, LEAST_RECORD = 4 + 36 + 36 + 4 + 8 };

/* A record of the table that is lent, from its first byte to behind its last. */
struct record {
    const uint8_t *at, *end;
};

/* The table may be any bytes: what looks like a record counts. Gives their number. */
static size_t find_records(struct record records[UAF_MOST_RECORDS])
{
    const uint8_t *at = lent.table.peer, *end = at + lent.table.size;
    size_t count = 0;
    while (count < UAF_MOST_RECORDS && end - at >= LEAST_RECORD) {
        ptrdiff_t whole = 4 + (at[2] | at[3] << 8);
        if (whole < LEAST_RECORD || whole > end - at)
            break;
        records[count++] = (struct record){at, at + whole};
        at += whole;
    }
    return count;
}

/* A record by its number; NULL where there is none. */
static const uint8_t *record_by(unsigned number)
{
    struct record records[UAF_MOST_RECORDS];
    size_t count = find_records(records);
    return count == 0 ? NULL : records[number % count].at;
}

static void flip(struct input *input, size_t size, uint32_t bit)
{
    if (bit != 0 && bit / 8 < size)
        input->peer[bit / 8] ^= (uint8_t)(1 << bit % 8);
}

/* The KeyID is there by its number already. */
static void lend_key_id(const struct caller *caller, bool front)
{
    const uint8_t *record = (caller->flags & PUT_APP_ID) != 0 ? record_by(caller->key) : NULL;
    size_t size = lent.key_id.size;
    if (record != NULL)
        memcpy(lent.key_id.peer, record + KEY_ID_PLACE, UAF_KEY_ID_SIZE);
    flip(&lent.key_id, size, caller->display);
    lend_input(&lent.key_id, size, front);
}

/* The mixed token of a withdrawal, or in its place a command of this size. */
static void lend_mixed(const struct caller *caller, size_t command_size, bool front)
{
    const uint8_t *record = (caller->flags & PUT_TOKEN) != 0 ? record_by(caller->number) : NULL;
    bool by_number = (caller->flags & MEND_OUTER) != 0;
    size_t size = by_number ? caller->token_size : command_size;
    memset(lent.mixed.peer, 0, MOST_TOKEN);
    if (!by_number)
        memcpy(lent.mixed.peer, lent.command.peer, size);
    else if (record != NULL)
        memcpy(lent.mixed.peer, record + MIXED_PLACE, UAF_MIXED_SIZE);
    else
        put_mixed(lent.mixed.peer, caller->number);
    flip(&lent.mixed, size, caller->verdict);
    lend_input(&lent.mixed, size, front);
}

/* How the two values meet a table that breaks no rule: the KeyID is nobody's, another holder's, the holder's but not of the newest, or of the newest, and
 * then which bytes of its counter are 0; by whether records stand before it and behind it. */
static size_t meeting(void)
{
    enum { NOBODYS, OTHERS, OLDER, NEWEST };
    struct record records[UAF_MOST_RECORDS];
    size_t count = find_records(records), kind = NOBODYS, place = 0, counted = 0;
    for (size_t i = 0; i < count; i++) {
        bool own = memcmp(records[i].at + MIXED_PLACE, lent.mixed.peer, UAF_MIXED_SIZE) == 0;
        if (memcmp(records[i].at + KEY_ID_PLACE, lent.key_id.peer, UAF_KEY_ID_SIZE) == 0) {
            kind = own ? NEWEST : OTHERS;
            place = (i > 0) + 2 * (i + 1 < count);
            for (size_t k = 0; k < COUNTER_FROM_END; k++)
                counted |= (size_t)(records[i].end[k - COUNTER_FROM_END] != 0) << k;
        } else if (own && kind == NEWEST) {
            kind = OLDER;
        }
    }
    return (kind == NEWEST ? NEWEST + counted : kind) * 4 + place;
}

/* The withdrawal's refusals, behind the answers of commands; done, and refused with 7, by how the values meet the table. */
static void cover_withdrawal(uint32_t refusal)
{
    enum { OF_WITHDRAWALS = 4096, MOST_MEETINGS = 128 };
    bool meets = refusal == 0 || refusal == UAF_REFUSED_WITHDRAWAL;
    cover(OF_WITHDRAWALS + refusal * MOST_MEETINGS + (meets ? meeting() : 0));
}

/* Both take back; gives the size of the table left, which is then the table's. */
static size_t withdraw(void)
{
    uint32_t refusal = uaf_withdraw(
        lent.mixed.token, lent.mixed.size, lent.key_id.token, lent.key_id.size, lent.table.token, lent.table.size, lent.table_out.token,
        lent.table_out.size, (size_t *)lent.table_length.token);
    uint32_t peers = peer_withdraw(
        lent.mixed.peer, lent.mixed.size, lent.key_id.peer, lent.key_id.size, lent.table.peer, lent.table.size, lent.table_out.peer,
        lent.table_out.size, (size_t *)lent.table_length.peer);
    check_returned(refusal, peers);

    bool served = refusal == 0;
    size_t table_length = 0;
    if (served)
        memcpy(&table_length, lent.table_length.token, sizeof table_length);
    check_output(&lent.table_length, served ? sizeof table_length : 0, "table_length");
    check_output(&lent.table_out, table_length, "table_out");
    check_input(&lent.mixed, "mixed");
    check_input(&lent.key_id, "key_id");
    check_input(&lent.table, "table");
    cover_withdrawal(refusal);
    return hand_on(served, table_length);
}

/* Whether the last call, which left so much of a table, was a Register that made a draft: a record more, and only a Register makes one. */
static bool has_registered(size_t left)
{
    return left > lent.table.size;
}

/* Takes the last call's registration back, by the mixed token in its record, and puts the table back that the call left. */
static void take_back(size_t left, bool front)
{
    static uint8_t former[MOST_TABLE];
    size_t former_size = lent.table.size;
    memcpy(former, lent.table.token, former_size);
    memcpy(lent.mixed.peer, lent.table.peer + former_size + MIXED_PLACE, UAF_MIXED_SIZE);
    lend_input(&lent.mixed, UAF_MIXED_SIZE, front);
    lend_input(&lent.table, left, front);
    lend_output(&lent.table_out, UAF_LEAST_TABLE, front);
    lend_output(&lent.table_length, sizeof(size_t), front);
    size_t again = withdraw();
    check(again == former_size && memcmp(lent.table.peer, former, former_size) == 0, "withdrawal", "not the table before the Register");
    memcpy(lent.table.peer, lent.table.token, left);
}

int LLVMFuzzerTestOneInput(const uint8_t *data, size_t size)
{
    struct source source = {data, size};
    open_all();
    unsigned flags = take8(&source);
    bool front = (flags & FRONT) != 0;
    size_t table_size = take_table(&source, (flags & BY_RECORDS) != 0);
    for (int calls = 0; calls < MOST_CALLS && (calls == 0 || source.left > 0); calls++) {
        struct caller caller = take_results(&source, front);
        lend_outputs(&source, front);
        size_t command_size = take_command(&source, &caller);
        lend_input(&lent.table, table_size, front);
        if ((flags & FIRST_IS_WITHDRAWAL << calls) != 0) {
            lend_mixed(&caller, command_size, front);
            lend_key_id(&caller, front);
            table_size = withdraw();
            continue;
        }
        lend_input(&lent.command, command_size, front);
        table_size = call(&caller);
        if (has_registered(table_size))
            take_back(table_size, front);
    }
    return 0;
}
