/* An afternoon of two betting firms on one token.
 *
 *     demo [-v] [STATE_FOLDER]
 *
 * The fingerprint always agrees and the sellers' choices are written below; keys, hashes, signatures and files are real. -v
 * says of each record that it is stored or removed, also where many come and go. */
#include <stdio.h>
#include <stdlib.h>

#include "afternoon.h"
#include "edges.h"
#include "fail.h"
#include "show.h"

static void say_what_this_is(void)
{
    show("An afternoon of two betting firms on one token\n\n");
    show("  > to the token   < from the token   = checked by the firm's server or by this program\n");
    show("  stored, counted, removed, withdrawn KEYID: so it is on disk; removing, withdrawing KEYID: about to go\n");
}

/* A firm of a former afternoon is sent home by the command that is meant for it. */
static void find_former(struct afternoon *a, const char *path, size_t swept)
{
    struct response response;
    show("\n0. The state folder %s\n", path);
    show("  = records: %zu; files that a crash left over, now removed: %zu\n", count_records(a, NULL), swept);
    show_table(a);
    for (size_t i = 0; i < FIRMS; i++) {
        if (count_records(a, &a->firms[i]) == 0)
            continue;
        show("  > %s: Deregister with an empty KeyID, which closes the former afternoon\n", a->firms[i].name);
        leave(a, i, nothing(), UAF_STATUS_OK, &response);
        show_response(&response);
    }
}

static void what_it_is(struct afternoon *a)
{
    struct response response;
    show("\n1. What the token is\n");
    show("  > GetInfo\n");
    get_info(a, &response);
    show_response(&response);
}

/* A Sign that must be signed, and booked to this seller and no other. */
static void sign_as(struct afternoon *a, struct signing what, const char *username)
{
    struct response response;
    const struct account *account = sign(a, what, UAF_STATUS_OK, &response);
    if (account == NULL || strcmp(account->username, username) != 0)
        fail_because(username, "not the one it is booked to");
    show_response(&response);
    show("  = the signature verifies with %s's key: booked to %s\n", account->username, account->username);
}

static void show_holder(const struct firm *firm)
{
    show("  = %-10s mixed token ", firm->name);
    show_short(WHOLE(firm->mixed.bytes));
    show(" from its access token and %s\n", firm->app_id);
}

static void register_seller(struct afternoon *a, size_t firm, const char *username, uint32_t attestation)
{
    struct response response;
    bool full = attestation == UAF_BASIC_FULL;
    show("  > %s: Register %s, %s attestation\n", a->firms[firm].name, username, full ? "full" : "surrogate");
    enrol(a, firm, username, attestation, UAF_STATUS_OK, &response);
    show_response(&response);
    show("  = the signature verifies with %s;", full ? "the certificate's key" : "the new key itself");
    show(" the record's mixed token is as libcrypto hashes it\n");
}

static void register_sellers(struct afternoon *a)
{
    show("\n2. Three sellers register: Ann and Bo of Northgate, with one mixed token, and Cy of Hollin\n");
    show_holder(&a->firms[NORTHGATE]);
    show_holder(&a->firms[HOLLIN]);
    register_seller(a, NORTHGATE, "Ann", UAF_BASIC_FULL);
    register_seller(a, NORTHGATE, "Bo", UAF_BASIC_SURROGATE);
    register_seller(a, HOLLIN, "Cy", UAF_BASIC_FULL);
}

/* The key handle that stands with this name in a list of names. */
static struct bytes handle_in(const struct response *list, const char *username)
{
    for (size_t i = 0; i + 1 < list->count; i++)
        if (list->tags[i] == UAF_TAG_USERNAME && same(field(list, i), text(username)))
            return field(list, i + 1);
    fail_because(username, "not in the list");
}

/* A Sign that several keys fit gives their names, and moves no counter. */
static void list_names(struct afternoon *a, const char *with, struct bytes key_handles, struct response *list)
{
    const struct table before = a->terminal.table;
    show("  > Northgate: Sign, %s\n", with);
    if (sign(a, (struct signing){NORTHGATE, key_handles, NULL, UAF_SHOWN_CONFIRMED}, UAF_STATUS_OK, list) != NULL)
        fail_because("Sign", "signed by one of several");
    show_response(list);
    require_same_table(a, &before);
}

static void dead_heat(struct afternoon *a)
{
    struct response list;
    show("\n3. A dead heat: both of Northgate's keys fit, so neither signs until one is chosen\n");
    list_names(a, "no key handle", nothing(), &list);
    show("  = two names, no signature; the table is as it was, so no counter moved\n");

    show("  > Northgate: Sign with Bo's key handle from the list\n");
    sign_as(a, (struct signing){NORTHGATE, handle_in(&list, "Bo"), NULL, UAF_SHOWN_CONFIRMED}, "Bo");
}

/* What breaks a rule is not written, and so never reaches the token. */
static void show_unwritten(uint32_t refusal)
{
    if (refusal != UAF_REFUSED_FIELD)
        fail_because("writer", "what breaks a rule is not refused");
    show("  = the writer refuses it with %u: %s\n", (unsigned)refusal, uaf_refusal_name(refusal));
}

static void accented_name(struct afternoon *a)
{
    const struct hash any = sha256(nothing());
    struct response list, again, response;
    struct command command;
    show("\n4. A name with an accent: the list prints it, and no name that is cut inside a letter gets into the list\n");
    register_seller(a, NORTHGATE, ZOE, UAF_BASIC_SURROGATE);
    list_names(a, "no key handle", nothing(), &list);
    if (list.count != 1 + 3 * 2 || !same(field(&list, 5), text(ZOE))) /* after the status, names and key handles */
        fail_because("Sign", "other names than the three");
    show("  = three names; the last is 5a 6f c3 ab, and c3 ab is one letter\n");

    const struct table before = a->terminal.table;
    show("  > Northgate: Register the same name from a field of 3 bytes, 5a 6f c3\n");
    show_unwritten(
        write_register(&command, caller_of(&a->firms[NORTHGATE]), WHOLE(any.bytes), text(ZOE_CUT), UAF_BASIC_SURROGATE));
    show("  > Northgate: Register the whole name, of which the last byte is lost after it was written\n");
    enrol_cut(a, NORTHGATE, &response);
    show_response(&response);
    require_same_table(a, &before);
    list_names(a, "no key handle", nothing(), &again);
    if (!same(FILLED(list), FILLED(again)))
        fail_because("Sign", "another list than before");
    show("  = no record of it; the list is byte for byte as before\n");

    show("  > Northgate: Sign with %s's key handle from the list\n", ZOE);
    sign_as(a, (struct signing){NORTHGATE, handle_in(&again, ZOE), NULL, UAF_SHOWN_CONFIRMED}, ZOE);
}

static void clear_winner(struct afternoon *a)
{
    show("\n5. A clear winner: Hollin has one key on this token, and the others are not its own\n");
    show("  > Hollin: Sign, no key handle\n");
    sign_as(a, (struct signing){HOLLIN, nothing(), NULL, UAF_SHOWN_CONFIRMED}, "Cy");
}

static void dividends(struct afternoon *a)
{
    const char *right = "Race 4, place pool: 3.20 on 2, 7 and 11";
    const char *wrong = "Race 5, win pool: 320.00 on 4";
    struct response response;
    struct hash ann = key_id_of(a, NORTHGATE, "Ann");
    show("\n6. Two dividends on the display: the seller's yes is part of what is signed\n");
    show("  > Northgate: Sign with Ann's key handle, and a dividend as content\n");
    show("    display [ %s ]  Ann: yes\n", right);
    sign_as(a, (struct signing){NORTHGATE, WHOLE(ann.bytes), right, UAF_SHOWN_CONFIRMED}, "Ann");
    show("  = the dividend's hash, which is signed, is as libcrypto hashes it\n");

    const struct table before = a->terminal.table;
    show("  > Northgate: Sign with Ann's key handle, and another dividend\n");
    show("    display [ %s ]  Ann: no\n", wrong);
    sign(a, (struct signing){NORTHGATE, WHOLE(ann.bytes), wrong, UAF_SHOWN_CANCELLED}, UAF_STATUS_USER_CANCELLED, &response);
    show_response(&response);
    require_same_table(a, &before);
    show("  = no signature, no counter moved\n");
}

static void several_handles(struct afternoon *a)
{
    struct response list;
    struct hash bo = key_id_of(a, NORTHGATE, "Bo"), zoe = key_id_of(a, NORTHGATE, ZOE);
    uint8_t both[2 * UAF_KEY_ID_SIZE];
    copy(both, WHOLE(bo.bytes));
    copy(both + UAF_KEY_ID_SIZE, WHOLE(zoe.bytes));
    show("\n7. What a command has room for: several key handles, content of no bytes, and 8,192 bytes in all\n");
    list_names(a, "Bo's key handle and " ZOE "'s", WHOLE(both), &list);
    if (list.count != 1 + 2 * 2) /* the status, names and key handles */
        fail_because("Sign", "other names than the two");
    show("  = these two, and not Ann\n");
}

static void empty_content(struct afternoon *a)
{
    show("  > Hollin: Sign with content of no bytes\n");
    sign_as(a, (struct signing){HOLLIN, nothing(), "", UAF_SHOWN_CONFIRMED}, "Cy");
    show("  = it counts as none: the hash that is signed is empty\n");
}

/* A list of dividends that leaves no room in the command, and is too long for one display and not for another; then one byte more. */
static void longest_command(struct afternoon *a)
{
    static char letters[UAF_MOST_COMMAND];
    const struct hash any = sha256(nothing());
    const struct caller hollin = caller_of(&a->firms[HOLLIN]);
    struct bytes content = text("");
    struct command command;
    struct response response;
    require_written(write_sign(&command, hollin, WHOLE(any.bytes), &content, nothing()));
    const size_t room = UAF_MOST_COMMAND - command.size;
    for (size_t i = 0; i < room; i++)
        letters[i] = "7.40 "[i % 5];
    content = text(letters);
    require_written(write_sign(&command, hollin, WHOLE(any.bytes), &content, nothing()));
    if (command.size != UAF_MOST_COMMAND)
        fail_because("writer", "another length than that of the fields");
    show("  > Hollin: Sign with content of %zu bytes, a command of %zu; the display cannot show that much\n", room, command.size);
    sign(
        a, (struct signing){HOLLIN, nothing(), letters, UAF_SHOWN_NOT_RENDERED}, UAF_STATUS_CANNOT_RENDER_TRANSACTION_CONTENT,
        &response);
    show_response(&response);
    show("  > Hollin: the same to a display that can show it\n");
    sign_as(a, (struct signing){HOLLIN, nothing(), letters, UAF_SHOWN_CONFIRMED}, "Cy");
    show("  = the hash of its %zu bytes is as libcrypto hashes them\n", room);

    show("  > Hollin: Sign with content of %zu bytes\n", room + 1);
    letters[room] = '.';
    content = text(letters);
    show_unwritten(write_sign(&command, hollin, WHOLE(any.bytes), &content, nothing()));
}

static void strangers(struct afternoon *a)
{
    struct response with_hers, with_none;
    struct hash ann = key_id_of(a, NORTHGATE, "Ann"), nobody = sha256(text("nobody"));
    const struct table before = a->terminal.table;
    show("\n8. Hollin tries Ann's key: it cannot even learn that the key exists\n");
    show("  > Hollin: Sign with Ann's key handle, then with one that nobody has\n");
    sign(a, (struct signing){HOLLIN, WHOLE(ann.bytes), NULL, UAF_SHOWN_CONFIRMED}, UAF_STATUS_ACCESS_DENIED, &with_hers);
    sign(a, (struct signing){HOLLIN, WHOLE(nobody.bytes), NULL, UAF_SHOWN_CONFIRMED}, UAF_STATUS_ACCESS_DENIED, &with_none);
    show_response(&with_hers);
    if (!same(FILLED(with_hers), FILLED(with_none)))
        fail_because("Sign", "tells a stranger's key from none");
    show("  > Hollin: Deregister Ann's KeyID, then one that nobody has\n");
    leave(a, HOLLIN, WHOLE(ann.bytes), UAF_STATUS_ACCESS_DENIED, &with_hers);
    leave(a, HOLLIN, WHOLE(nobody.bytes), UAF_STATUS_ACCESS_DENIED, &with_none);
    show_response(&with_hers);
    if (!same(FILLED(with_hers), FILLED(with_none)))
        fail_because("Deregister", "tells a stranger's key from none");
    require_same_table(a, &before);
    show("  = both times the same bytes for both, and the table is as it was\n");
}

/* Registers sellers until the firm has its 8 or the table its 32. */
static void fill(struct afternoon *a, size_t firm)
{
    struct response response;
    for (unsigned i = 1; count_records(a, &a->firms[firm]) < UAF_MOST_OWN && count_records(a, NULL) < UAF_MOST_RECORDS; i++) {
        char username[16];
        snprintf(username, sizeof username, "Seller-%u", i);
        enrol(a, firm, username, UAF_BASIC_SURROGATE, UAF_STATUS_OK, &response);
    }
}

static void full_table(struct afternoon *a)
{
    const struct table before = a->terminal.table;
    struct response response;
    show("\n9. A full table: no holder gets more than 8 places, and there are 32 in all\n");
    show("  > Ashby: Register until it has 8 records, each OK; then a ninth\n");
    fill(a, FIRST_OTHER);
    enrol(a, FIRST_OTHER, "Ninth", UAF_BASIC_SURROGATE, UAF_STATUS_INSUFFICIENT_RESOURCES, &response);
    show_response(&response);
    show("  > three more firms: Register until the table has 32 records, each OK; then Hollin: Register Dee\n");
    for (size_t i = FIRST_OTHER + 1; i < FIRMS; i++)
        fill(a, i);
    archive_file(&a->archive, "table-full.bin", FILLED(a->terminal.table));
    enrol(a, HOLLIN, "Dee", UAF_BASIC_SURROGATE, UAF_STATUS_INSUFFICIENT_RESOURCES, &response);
    show_response(&response);
    show("  > the four firms go home: Deregister with an empty KeyID from each\n");
    for (size_t i = FIRST_OTHER; i < FIRMS; i++)
        leave(a, i, nothing(), UAF_STATUS_OK, &response);
    show_response(&response);
    require_same_table(a, &before);
    show("  = the table is byte for byte what it was before they came, so there is a place for Dee\n");
}

static void freed_place(struct afternoon *a)
{
    register_seller(a, HOLLIN, "Dee", UAF_BASIC_SURROGATE);
}

static void deregister_seller(struct afternoon *a, size_t firm, const char *username)
{
    struct response response;
    struct hash key_id = key_id_of(a, firm, username);
    show("  > %s: Deregister %s's KeyID\n", a->firms[firm].name, username);
    leave(a, firm, WHOLE(key_id.bytes), UAF_STATUS_OK, &response);
    show_response(&response);
}

/* A Register that makes its draft and gets no signature. Gives the KeyID. */
static struct hash register_in_vain(struct afternoon *a, size_t firm, const char *username, uint32_t attestation)
{
    bool full = attestation == UAF_BASIC_FULL;
    show("  > %s: Register %s, %s attestation\n", a->firms[firm].name, username, full ? "full" : "surrogate");
    struct hash key_id = enrol_unsigned(a, firm, username, attestation);
    show("  < a draft to sign, and the chip gives no signature: no response leaves\n");
    show("  = the record is in the table file, and its key beside it, but no server knows of it\n");
    return key_id;
}

static void take_back(struct afternoon *a, size_t firm, const char *username, const struct hash *key_id)
{
    show("  > %s's mixed token and %s's KeyID: take back\n", a->firms[firm].name, username);
    withdraw(a, firm, WHOLE(key_id->bytes), 0);
}

static void failed_chip(struct afternoon *a)
{
    const struct table before = a->terminal.table;
    show("\n13. The signing chip fails after a Register: the key that no server knows is taken back\n");
    require_table_file(a, &before);
    const struct hash eve = register_in_vain(a, HOLLIN, "Eve", UAF_BASIC_SURROGATE);
    take_back(a, HOLLIN, "Eve", &eve);
    require_table_file(a, &before);
    show("  = the table file is byte for byte what it was before the Register, and the key is gone\n");
    register_seller(a, HOLLIN, "Eve", UAF_BASIC_SURROGATE);
}

/* Two others between the Register and its withdrawal: one whose record comes to stand behind that which goes, and one whose count rises. */
static void others_meanwhile(struct afternoon *a)
{
    const struct hash bo = key_id_of(a, NORTHGATE, "Bo");
    register_seller(a, FIRST_OTHER, "Gus", UAF_BASIC_SURROGATE);
    show("  > Northgate: Sign with Bo's key handle\n");
    sign_as(a, (struct signing){NORTHGATE, WHOLE(bo.bytes), NULL, UAF_SHOWN_CONFIRMED}, "Bo");
}

static void failed_chip_again(struct afternoon *a)
{
    struct response response;
    show("\n14. It fails once more, and others are served before the key is taken back: what is theirs stays\n");
    const struct hash fay = register_in_vain(a, HOLLIN, "Fay", UAF_BASIC_FULL);
    others_meanwhile(a);
    const struct table expected = records_without(&a->terminal.table, WHOLE(fay.bytes));
    take_back(a, HOLLIN, "Fay", &fay);
    require_table_file(a, &expected);
    show("  = Fay's record is gone, and the others, with Gus's and Bo's new count, are byte for byte as they were\n");
    register_seller(a, HOLLIN, "Fay", UAF_BASIC_FULL);
    show("  > Ashby: Deregister with an empty KeyID\n");
    leave(a, FIRST_OTHER, nothing(), UAF_STATUS_OK, &response);
    show_response(&response);
}

static void refuse_to_take_back(struct afternoon *a, size_t firm, const char *username, const struct hash *key_id, const char *why)
{
    const struct table before = a->terminal.table;
    show("  > %s's mixed token and %s's KeyID: take back\n", a->firms[firm].name, username);
    withdraw(a, firm, WHOLE(key_id->bytes), UAF_REFUSED_WITHDRAWAL);
    require_table_file(a, &before);
    if (!terminal_has_key(&a->terminal, WHOLE(key_id->bytes)))
        fail_because(username, "refused, and the key is gone");
    show("  < refusal %u: %s\n", UAF_REFUSED_WITHDRAWAL, why);
}

/* A key that has signed is known to its server. */
static void not_taken_back(struct afternoon *a)
{
    const struct hash dee = key_id_of(a, HOLLIN, "Dee"), fay = key_id_of(a, HOLLIN, "Fay");
    show("\n15. What the token does not take back: table file and key stay as they are\n");
    refuse_to_take_back(a, NORTHGATE, "Fay", &fay, "Fay is Hollin's");
    refuse_to_take_back(a, HOLLIN, "Dee", &dee, "Dee has not signed, but Eve and Fay of Hollin are newer");
    show("  > Hollin: Sign with Fay's key handle\n");
    sign_as(a, (struct signing){HOLLIN, WHOLE(fay.bytes), NULL, UAF_SHOWN_CONFIRMED}, "Fay");
    refuse_to_take_back(a, HOLLIN, "Fay", &fay, "Fay's key has signed");
}

static void go_home(struct afternoon *a)
{
    struct response response;
    show("\n16. Bo and %s go home: one record each is removed, and Northgate's next sign-in is no tie\n", ZOE);
    deregister_seller(a, NORTHGATE, "Bo");
    deregister_seller(a, NORTHGATE, ZOE);
    show("  > Northgate: Sign, no key handle\n");
    sign_as(a, (struct signing){NORTHGATE, nothing(), NULL, UAF_SHOWN_CONFIRMED}, "Ann");

    show("\n17. Hollin goes home: an empty KeyID removes all that is Hollin's, and nothing else\n");
    show("  > Hollin: Deregister with an empty KeyID\n");
    leave(a, HOLLIN, nothing(), UAF_STATUS_OK, &response);
    show_response(&response);
    show("  = what is left on disk\n");
    show_table(a);
}

int main(int argc, char **argv)
{
    static struct afternoon afternoon;
    size_t swept;
    int next = 1;
    bool verbose = next < argc && strcmp(argv[next], "-v") == 0;
    if (verbose)
        next++;
    if (argc - next > 1 || (next < argc && argv[next][0] == '-')) {
        fprintf(stderr, "usage: demo [-v] [STATE_FOLDER]\n");
        return EXIT_FAILURE;
    }
    const char *path = next < argc ? argv[next] : "target/demo/state";

    say_what_this_is();
    afternoon_open(&afternoon, path, &swept);
    afternoon.terminal.quiet = !verbose;
    find_former(&afternoon, path, swept);
    afternoon.terminal.quiet = false;
    what_it_is(&afternoon);
    register_sellers(&afternoon);
    dead_heat(&afternoon);
    accented_name(&afternoon);
    clear_winner(&afternoon);
    dividends(&afternoon);
    several_handles(&afternoon);
    empty_content(&afternoon);
    longest_command(&afternoon);
    strangers(&afternoon);
    afternoon.terminal.quiet = !verbose;
    full_table(&afternoon);
    afternoon.terminal.quiet = false;
    freed_place(&afternoon);
    last_count(&afternoon);
    refusals(&afternoon);
    whose_command(&afternoon);
    failed_chip(&afternoon);
    failed_chip_again(&afternoon);
    not_taken_back(&afternoon);
    go_home(&afternoon);
    afternoon_close(&afternoon);
    show_flush();
    return EXIT_SUCCESS;
}
