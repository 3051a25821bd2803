#include "afternoon.h"

#include "fail.h"
#include "show.h"
#include "tlv.h"

struct caller caller_of(const struct firm *firm)
{
    return (struct caller){text(firm->app_id), WHOLE(firm->access_token.bytes)};
}

static void found_firms(struct firm firms[FIRMS])
{
    static const char *const names[FIRMS][2] = {
        {"Northgate", "https://northgate.example/tote"}, {"Hollin", "https://hollin.example/window"},
        {"Ashby", "https://ashby.example/pools"},        {"Brock", "https://brock.example/pools"},
        {"Carrow", "https://carrow.example/pools"},      {"Denby", "https://denby.example/pools"},
    };
    for (size_t i = 0; i < FIRMS; i++) {
        firms[i].name = names[i][0];
        firms[i].app_id = names[i][1];
        /* the same in every afternoon, so that a firm finds its own records again */
        firms[i].access_token = sha256(text(firms[i].name));
        firms[i].mixed = sha256_of_both(WHOLE(firms[i].access_token.bytes), text(firms[i].app_id));
    }
}

void afternoon_open(struct afternoon *a, const char *path, size_t *swept)
{
    found_firms(a->firms);
    a->challenges = a->registrations = a->signatures = 0;
    a->server.count = 0;
    terminal_open(&a->terminal, path, swept);
    archive_open(&a->archive, &a->terminal.store);
}

void afternoon_close(struct afternoon *a)
{
    archive_close(&a->archive);
    terminal_close(&a->terminal);
}

/* ---- the table */

size_t count_records(const struct afternoon *a, const struct firm *firm)
{
    size_t count = 0;
    struct record record;
    for (struct bytes rest = FILLED(a->terminal.table); record_next(&rest, &record);)
        count += firm == NULL || same(record.mixed, WHOLE(firm->mixed.bytes));
    return count;
}

struct hash key_id_of(const struct afternoon *a, size_t firm, const char *username)
{
    struct hash key_id;
    struct record record;
    for (struct bytes rest = FILLED(a->terminal.table); record_next(&rest, &record);) {
        if (!same(record.mixed, WHOLE(a->firms[firm].mixed.bytes)) || !same(record.username, text(username)))
            continue;
        memcpy(key_id.bytes, record.key_id.at, sizeof key_id.bytes);
        return key_id;
    }
    fail_because(username, "no such record");
}

static const char *holder_name(const struct afternoon *a, struct bytes mixed)
{
    for (size_t i = 0; i < FIRMS; i++)
        if (same(WHOLE(a->firms[i].mixed.bytes), mixed))
            return a->firms[i].name;
    return "(unknown)";
}

void show_table(const struct afternoon *a)
{
    struct record record;
    for (struct bytes rest = FILLED(a->terminal.table); record_next(&rest, &record);) {
        show("      %-10s ", holder_name(a, record.mixed));
        show_name(record.username, 10);
        show(" SignCounter %u\n", (unsigned)record.count);
    }
}

void require_same_table(const struct afternoon *a, const struct table *before)
{
    if (!same(FILLED(*before), FILLED(a->terminal.table)))
        fail_because("table", "changed");
}

void require_table_file(const struct afternoon *a, const struct table *expected)
{
    struct table file;
    terminal_read_table(&a->terminal, &file);
    if (!same(FILLED(*expected), FILLED(file)))
        fail_because("table file", "not what it should be");
}

/* ---- the commands */

static void require_refusal(const char *what, uint32_t refusal, uint32_t expected)
{
    char why[128];
    if (refusal == expected)
        return;
    snprintf(why, sizeof why, "refusal %u: %s", (unsigned)refusal, uaf_refusal_name(refusal));
    fail_because(what, why);
}

static void run(struct afternoon *a, const struct request *request, size_t status, struct response *response)
{
    char why[128];
    require_refusal("command", terminal_run(&a->terminal, request, response), 0);
    if (response->size == 0)
        fail_because("command", "the chip did not sign");
    if (response->status != status) {
        snprintf(why, sizeof why, "%s, and not %s", uaf_status_name(response->status), uaf_status_name(status));
        fail_because("command", why);
    }
}

static void start_request(struct request *request)
{
    request->verdict = UAF_VERIFIED;
    request->display = UAF_SHOWN_CONFIRMED;
    request->attestation = 0;
}

/* What the server wants to see signed: never the same twice. */
struct challenge {
    char letters[64];
};

static struct challenge new_challenge(struct afternoon *a, const struct firm *firm)
{
    struct challenge challenge;
    uint8_t fresh[4];
    random_bytes(fresh, sizeof fresh);
    snprintf(challenge.letters, sizeof challenge.letters, "%s, challenge %u, %08x", firm->name, ++a->challenges,
             (unsigned)number(WHOLE(fresh)));
    return challenge;
}

void get_info(struct afternoon *a, struct response *response)
{
    struct request request;
    start_request(&request);
    require_written(write_get_info(&request.command));
    run(a, &request, 0, response);
}

static void start_register(
    struct request *request, const struct firm *firm, const struct challenge *challenge, const char *username, uint32_t attestation)
{
    struct hash challenge_hash = sha256(text(challenge->letters));
    start_request(request);
    request->attestation = attestation;
    require_written(
        write_register(&request->command, caller_of(firm), WHOLE(challenge_hash.bytes), text(username), attestation));
}

void enrol(
    struct afternoon *a, size_t firm, const char *username, uint32_t attestation, size_t status,
    struct response *response)
{
    struct challenge challenge = new_challenge(a, &a->firms[firm]);
    struct request request;
    start_register(&request, &a->firms[firm], &challenge, username, attestation);
    run(a, &request, status, response);
    if (response->signed_length == 0)
        return;

    char name[48]; /* a username may be any text, so it is no part of a file's name */
    snprintf(name, sizeof name, "register-%s-%u", a->firms[firm].name, ++a->registrations);
    archive_add(&a->archive, name, &(struct asked){caller_of(&a->firms[firm]), challenge.letters, ""}, response);
    server_enrol(&a->server, username, text(challenge.letters), response);
    struct record record;
    if (!record_find(&a->terminal.table, field_of(response, UAF_TAG_KEYID), &record))
        fail_because(username, "registered without a record");
    server_check_holder(caller_of(&a->firms[firm]), record.mixed);
}

struct hash enrol_unsigned(struct afternoon *a, size_t firm, const char *username, uint32_t attestation)
{
    struct challenge challenge = new_challenge(a, &a->firms[firm]);
    struct request request;
    struct response response;
    struct table file;
    struct record record;
    start_register(&request, &a->firms[firm], &challenge, username, attestation);
    a->terminal.chip_fails = true;
    require_refusal("command", terminal_run(&a->terminal, &request, &response), 0);
    a->terminal.chip_fails = false;
    const struct hash key_id = a->terminal.unsigned_id;
    terminal_read_table(&a->terminal, &file);
    if (response.size != 0 || !record_find(&file, WHOLE(key_id.bytes), &record) || !same(record.username, text(username))
        || !terminal_has_key(&a->terminal, WHOLE(key_id.bytes)))
        fail_because(username, "not a registration whose draft is unsigned");
    return key_id;
}

void withdraw(struct afternoon *a, size_t firm, struct bytes key_id, uint32_t refusal)
{
    require_refusal("withdrawal", terminal_withdraw(&a->terminal, caller_of(&a->firms[firm]), key_id), refusal);
    if (refusal == 0 && terminal_has_key(&a->terminal, key_id))
        fail_because("withdrawal", "the key is still there");
}

/* The name in a Register, and the run of children that it stands in. */
static struct bytes name_in(const struct command *command, struct bytes *children)
{
    struct bytes rest = FILLED(*command), name;
    uint16_t tag;
    if (!tlv_next(&rest, &tag, children) || rest.size > 0 || !tlv_find(*children, UAF_TAG_USERNAME, &name))
        fail_because("command", "no Register");
    return name;
}

void enrol_cut(struct afternoon *a, size_t firm, struct response *response)
{
    struct challenge challenge = new_challenge(a, &a->firms[firm]);
    struct request request;
    struct bytes children;
    start_register(&request, &a->firms[firm], &challenge, ZOE, UAF_BASIC_SURROGATE);
    struct bytes name = name_in(&request.command, &children);
    tlv_cut(request.command.bytes, &request.command.size, children, name);
    if (!same(name_in(&request.command, &children), text(ZOE_CUT)))
        fail_because(ZOE, "not cut as it should be");
    run(a, &request, UAF_STATUS_PARAMS_INVALID, response);
}

const struct account *sign(struct afternoon *a, struct signing what, size_t status, struct response *response)
{
    struct caller caller = caller_of(&a->firms[what.firm]);
    struct challenge challenge = new_challenge(a, &a->firms[what.firm]);
    struct hash challenge_hash = sha256(text(challenge.letters));
    const char *shown = what.content != NULL ? what.content : "";
    struct bytes content = text(shown);
    struct request request;
    start_request(&request);
    request.display = what.display;
    require_written(write_sign(
        &request.command, caller, WHOLE(challenge_hash.bytes), what.content != NULL ? &content : NULL, what.key_handles));
    run(a, &request, status, response);
    if (response->signed_length == 0)
        return NULL;

    char name[48];
    snprintf(name, sizeof name, "sign-%u", ++a->signatures);
    archive_add(&a->archive, name, &(struct asked){caller, challenge.letters, shown}, response);
    return server_book(&a->server, text(challenge.letters), content, response);
}

void leave(struct afternoon *a, size_t firm, struct bytes key_id, size_t status, struct response *response)
{
    struct request request;
    start_request(&request);
    require_written(write_deregister(&request.command, caller_of(&a->firms[firm]), key_id));
    run(a, &request, status, response);
}
