#include "edges.h"

#include "fail.h"
#include "show.h"
#include "tlv.h"

/* Sets a record's SignCounter: COUNTERS is the last child of a stored record, so these are its last 4 bytes. */
static void set_count(struct table *table, struct bytes key_id, uint32_t count)
{
    struct record record;
    for (struct bytes rest = FILLED(*table); record_next(&rest, &record);) {
        if (!same(record.key_id, key_id))
            continue;
        uint8_t *counter = table->bytes + (rest.at - table->bytes) - 4;
        for (size_t i = 0; i < 4; i++)
            counter[i] = (uint8_t)(count >> (8 * i));
        return;
    }
    fail_because("record", "none with this KeyID");
}

/* Runs a command on a table, without a terminal around it. */
static void run_on(const struct command *command, const struct table *table, struct answer *answer)
{
    const uint8_t nonce[8] = {0};
    const struct hash any = sha256(text("any"));
    const struct lent lent = {UAF_VERIFIED, UAF_SHOWN_CONFIRMED, WHOLE(any.bytes), WHOLE(any.bytes), WHOLE(nonce)};
    if (token_command(FILLED(*command), &lent, table, answer) != 0)
        fail_because("command", "refused");
}

/* An answer that must be a response with this status. */
static void show_status(const struct answer *answer, size_t status)
{
    struct response response;
    memcpy(response.bytes, answer->bytes, answer->size);
    response.size = answer->size;
    if (answer->kind != UAF_RESPONSE || token_read(&response) != 0 || response.status != status)
        fail_because("command", "another answer than it must get");
    show_response(&response);
}

static void require_same(const struct table *left, const struct table *before)
{
    if (!same(FILLED(*left), FILLED(*before)))
        fail_because("table", "changed");
}

static void sign_on(struct caller caller, struct bytes key_handles, const struct table *table, struct answer *answer)
{
    const struct hash any = sha256(nothing());
    struct command command;
    require_written(write_sign(&command, caller, WHOLE(any.bytes), NULL, key_handles));
    run_on(&command, table, answer);
}

void last_count(const struct afternoon *a)
{
    static struct answer last, beyond;
    const struct caller northgate = caller_of(&a->firms[NORTHGATE]);
    const struct hash ann = key_id_of(a, NORTHGATE, "Ann");
    struct table copy = a->terminal.table;
    struct record record;
    show("\n10. The last count, on a copy of the table in which Ann's is 4294967294\n");
    set_count(&copy, WHOLE(ann.bytes), UINT32_MAX - 1);

    show("  > Northgate: Sign with Ann's key handle\n");
    sign_on(northgate, WHOLE(ann.bytes), &copy, &last);
    if (last.kind != UAF_DRAFT || !record_find(&last.left, WHOLE(ann.bytes), &record) || record.count != UINT32_MAX)
        fail_because("Sign", "the last count is not given");
    show("  < a draft to sign, %zu bytes; Ann's SignCounter is %u\n", last.size, (unsigned)record.count);

    show("  > Northgate: the same again\n");
    sign_on(northgate, WHOLE(ann.bytes), &last.left, &beyond);
    show_status(&beyond, UAF_STATUS_ERR_UNKNOWN);
    require_same(&beyond.left, &last.left);
    show("  = no count comes twice\n");
}

/* ---- refusals */

enum { MARK = 0xA5 };

/* A refusal must have its number, and must leave each byte that was lent for the outcome as it was marked before. */
static void show_refusal(const char *asked, uint32_t refusal, uint32_t expected, const void *outputs, size_t size)
{
    const uint8_t *at = outputs;
    if (refusal != expected)
        fail_because(asked, "another number than expected");
    for (size_t i = 0; i < size; i++)
        if (at[i] != MARK)
            fail_because(asked, "a refusal that wrote");
    show("  > %-52s < refusal %u\n", asked, (unsigned)refusal);
}

static void refuse_command(
    const char *asked, struct bytes command, uint32_t verdict, struct bytes nonce, const struct table *table, uint32_t expected)
{
    struct hash any = sha256(nothing());
    struct lent lent = {verdict, UAF_SHOWN_CONFIRMED, WHOLE(any.bytes), WHOLE(any.bytes), nonce};
    struct answer answer;
    memset(&answer, MARK, sizeof answer);
    uint32_t refusal = token_command(command, &lent, table, &answer);
    show_refusal(asked, refusal, expected, &answer, sizeof answer);
}

/* A response output that is one byte short, or long enough, for a draft that is none. */
static void refuse_completion(const char *asked, size_t shortage, uint32_t expected)
{
    const struct bytes draft = text("no draft"), signature = text("any"), none = nothing();
    struct response response;
    memset(&response, MARK, sizeof response);
    uint32_t refusal = uaf_complete(
        UAF_COMPLETE_SIGN, draft.at, draft.size, 0, signature.at, signature.size, none.at, none.size, response.bytes,
        sizeof response.bytes - shortage, &response.size);
    show_refusal(asked, refusal, expected, &response, sizeof response);
}

/* Commands that are to be written: one with a name that breaks the rule, and one that is a byte longer than its output. */
static void refuse_writing(struct caller caller)
{
    const struct hash any = sha256(nothing());
    struct command command;
    memset(&command, MARK, sizeof command);
    uint32_t cut = write_register(&command, caller, WHOLE(any.bytes), text(ZOE_CUT), UAF_BASIC_FULL);
    show_refusal("a Register to write with a name cut inside a letter", cut, UAF_REFUSED_FIELD, &command, sizeof command);
    uint32_t tight = uaf_write_get_info(command.bytes, 3, &command.size);
    show_refusal("a GetInfo to write, 4 bytes, into an output of 3", tight, UAF_REFUSED_OUTPUT, &command, sizeof command);
}

/* A registration to take back. */
static void refuse_withdrawal(
    const char *asked, struct bytes mixed, struct bytes key_id, const struct table *table, uint32_t expected)
{
    struct table left;
    memset(&left, MARK, sizeof left);
    uint32_t refusal = token_withdraw(mixed, key_id, table, &left);
    show_refusal(asked, refusal, expected, &left, sizeof left);
}

/* Takes the last byte off a record's name. */
static void cut_name(struct table *table, struct bytes key_id)
{
    struct bytes rest = FILLED(*table), children, met, name;
    struct record record;
    uint16_t tag;
    while (tlv_next(&rest, &tag, &children))
        if (tlv_find(children, UAF_TAG_KEYID, &met) && same(met, key_id) && tlv_find(children, UAF_TAG_USERNAME, &name)) {
            tlv_cut(table->bytes, &table->size, children, name);
            break;
        }
    if (!record_find(table, key_id, &record) || !same(record.username, text(ZOE_CUT)))
        fail_because(ZOE, "not cut as it should be");
}

void refusals(const struct afternoon *a)
{
    const uint8_t nonce[8] = {0};
    const struct caller northgate = caller_of(&a->firms[NORTHGATE]);
    const struct table *table = &a->terminal.table;
    struct command info, sign;
    require_written(write_get_info(&info));
    require_written(write_sign(&sign, northgate, WHOLE(nonce), NULL, nothing()));
    const struct bytes three = {info.bytes, 3}, seven = {nonce, 7};
    struct table damaged = *table;
    damaged.size -= 1;
    struct table cut = *table;
    const struct hash zoe = key_id_of(a, NORTHGATE, ZOE), nobody = sha256(text("nobody"));
    const struct bytes mixed = WHOLE(a->firms[NORTHGATE].mixed.bytes), short_mixed = {mixed.at, mixed.size - 1};
    cut_name(&cut, WHOLE(zoe.bytes));
    show("\n11. Whatever reaches the port: a number from 1 to 7, and no lent byte is changed\n");
    refuse_completion("an output of 4,095 bytes", 1, UAF_REFUSED_OUTPUT);
    refuse_command("a stored table that lost its last byte", FILLED(info), UAF_VERIFIED, WHOLE(nonce), &damaged, UAF_REFUSED_TABLE);
    refuse_command("a stored table with a name cut inside a letter", FILLED(info), UAF_VERIFIED, WHOLE(nonce), &cut, UAF_REFUSED_TABLE);
    refuse_command("a command of 3 bytes", three, UAF_VERIFIED, WHOLE(nonce), table, UAF_REFUSED_COMMAND);
    refuse_command("a Sign that is lent a nonce of 7 bytes", FILLED(sign), UAF_VERIFIED, seven, table, UAF_REFUSED_LENT);
    refuse_command("a Sign with a verdict of 256, whose low byte is 0", FILLED(sign), 256, WHOLE(nonce), table, UAF_REFUSED_LENT);
    refuse_completion("a draft to complete that is none", 0, UAF_REFUSED_BYTES);
    refuse_writing(northgate);
    refuse_withdrawal("a mixed token of 31 bytes to take back by", short_mixed, WHOLE(zoe.bytes), table, UAF_REFUSED_LENT);
    refuse_withdrawal("a KeyID to take back that no record has", mixed, WHOLE(nobody.bytes), table, UAF_REFUSED_WITHDRAWAL);
}

/* ---- whose command it is */

/* Takes the last byte off the access token in a Sign. */
static void cut_access_token(struct command *command)
{
    struct bytes rest = FILLED(*command), children, token;
    uint16_t tag;
    if (!tlv_next(&rest, &tag, &children) || !tlv_find(children, UAF_TAG_KEYHANDLE_ACCESS_TOKEN, &token))
        fail_because("command", "no access token");
    tlv_cut(command->bytes, &command->size, children, token);
}

/* The same bytes cut elsewhere: what the access token loses at its end stands in front of the AppID. */
static void shifted_cut(struct caller northgate, struct bytes mixed, const struct table *table)
{
    static struct answer answer;
    const struct hash any = sha256(nothing());
    struct command command;
    struct blob app_id = {.size = 1 + northgate.app_id.size};
    app_id.bytes[0] = northgate.access_token.at[UAF_ACCESS_TOKEN_SIZE - 1];
    copy(app_id.bytes + 1, northgate.app_id);
    const struct caller whole = {FILLED(app_id), northgate.access_token};
    const struct caller shifted = {FILLED(app_id), {northgate.access_token.at, UAF_ACCESS_TOKEN_SIZE - 1}};
    struct hash hash = token_hash(shifted.access_token, shifted.app_id);
    if (!same(WHOLE(hash.bytes), mixed))
        fail_because("uaf_hash", "depends on where its bytes are cut");
    show("  = 31 bytes of Northgate's access token, and the last one before its AppID, have the same hash\n");

    memset(&command, MARK, sizeof command);
    uint32_t refusal = write_sign(&command, shifted, WHOLE(any.bytes), NULL, nothing());
    show_refusal("a Sign of these to write", refusal, UAF_REFUSED_FIELD, &command, sizeof command);
    show("  > a Sign of these, whose access token was cut after it was written\n");
    require_written(write_sign(&command, whole, WHOLE(any.bytes), NULL, nothing()));
    cut_access_token(&command);
    run_on(&command, table, &answer);
    show_status(&answer, UAF_STATUS_PARAMS_INVALID);
    require_same(&answer.left, table);
    show("  = an access token has 32 bytes, so nobody is Northgate by another cut\n");
}

/* Northgate's access token without an AppID: its hash is another one, and so is the holder. */
static void without_app_id(const struct afternoon *a, const struct table *table)
{
    static struct answer answer, registered;
    const struct caller alone = {nothing(), WHOLE(a->firms[NORTHGATE].access_token.bytes)};
    const struct hash ann = key_id_of(a, NORTHGATE, "Ann"), any = sha256(text("any"));
    struct command command;
    struct record record;
    show("  > Northgate's access token and no AppID: Sign with Ann's key handle\n");
    sign_on(alone, WHOLE(ann.bytes), table, &answer);
    show_status(&answer, UAF_STATUS_ACCESS_DENIED);
    require_same(&answer.left, table);

    show("  > the same: Register Ann\n");
    require_written(write_register(&command, alone, WHOLE(any.bytes), text("Ann"), UAF_BASIC_SURROGATE));
    run_on(&command, table, &registered);
    if (registered.kind != UAF_DRAFT || !record_find(&registered.left, WHOLE(any.bytes), &record))
        fail_because("Register", "no record");
    server_check_holder(alone, record.mixed);
    if (same(record.mixed, WHOLE(a->firms[NORTHGATE].mixed.bytes)))
        fail_because("Register", "an AppID that is missing makes no difference");
    show("  < a draft to sign, %zu bytes; the new record's mixed token is ", registered.size);
    show_short(record.mixed);
    show("\n");

    show("  > the same: Deregister with an empty KeyID\n");
    require_written(write_deregister(&command, alone, nothing()));
    run_on(&command, &registered.left, &answer);
    show_status(&answer, UAF_STATUS_OK);
    require_same(&answer.left, table);
    show("  = that record is gone and Northgate's are there: without an AppID it is another holder\n");
}

/* A Deregister looks at nothing that is lent. */
static void nothing_lent(const struct afternoon *a, const struct table *table)
{
    static struct answer answer;
    const struct hash ann = key_id_of(a, NORTHGATE, "Ann");
    struct command command;
    struct record record;
    show("  > Northgate: Deregister Ann's KeyID, with nothing lent and each lent number out of range\n");
    require_written(write_deregister(&command, caller_of(&a->firms[NORTHGATE]), WHOLE(ann.bytes)));
    const uint32_t wrong = UINT32_MAX;
    uint32_t refusal = uaf_command(
        command.bytes, command.size, NULL, 0, wrong, wrong, wrong, NULL, 0, wrong, wrong, NULL, 0, NULL, 0, NULL, 0, table->bytes,
        table->size, answer.bytes, sizeof answer.bytes, answer.left.bytes, sizeof answer.left.bytes, &answer.kind, &answer.size,
        &answer.left.size);
    if (refusal != 0)
        fail_because("Deregister", uaf_refusal_name(refusal));
    show_status(&answer, UAF_STATUS_OK);
    if (record_find(&answer.left, WHOLE(ann.bytes), &record))
        fail_because("Deregister", "the record is still there");
    show("  = the token has what it needs: the command says whose it is\n");
}

void whose_command(const struct afternoon *a)
{
    const struct table copy = a->terminal.table;
    show("\n12. Whose command it is, on a copy of the table: the token hashes access token and AppID itself\n");
    shifted_cut(caller_of(&a->firms[NORTHGATE]), WHOLE(a->firms[NORTHGATE].mixed.bytes), &copy);
    without_app_id(a, &copy);
    nothing_lent(a, &copy);
}
