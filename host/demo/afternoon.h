/* The firms, and what they ask of the token through the terminal. Each command knows the status it must get, and another one
 * ends the program. What a completed response holds is kept for the signature check and shown to the firm's server. */
#ifndef DEMO_AFTERNOON_H
#define DEMO_AFTERNOON_H

#include "archive.h"
#include "server.h"
#include "terminal.h"

/* A betting firm. Its access token, a secret of 32 bytes, and its AppID go into every command. Their hash is its mixed token, which
 * the token works out for itself; here it is libcrypto's, to know the firm's records by. */
struct firm {
    const char *name;
    const char *app_id;
    struct hash access_token;
    struct hash mixed;
};

enum { NORTHGATE, HOLLIN, FIRST_OTHER, FIRMS = FIRST_OTHER + 4 };

/* A seller whose name ends with an e with two dots: in UTF-8 two bytes, of which a field that is too short cuts off the second. */
#define ZOE "Zo\xC3\xAB"
#define ZOE_CUT "Zo\xC3"

struct afternoon {
    struct terminal terminal;
    struct server server;
    struct archive archive;
    struct firm firms[FIRMS];
    unsigned challenges;
    unsigned registrations;
    unsigned signatures;
};

/* Opens the state folder, see terminal_open. */
void afternoon_open(struct afternoon *a, const char *path, size_t *swept);
void afternoon_close(struct afternoon *a);

struct caller caller_of(const struct firm *firm);

/* The records of a firm, or of all for NULL. */
size_t count_records(const struct afternoon *a, const struct firm *firm);

/* The KeyID of a seller's record, which must be there. */
struct hash key_id_of(const struct afternoon *a, size_t firm, const char *username);

void show_table(const struct afternoon *a);
void require_same_table(const struct afternoon *a, const struct table *before);

/* The table file holds these bytes. */
void require_table_file(const struct afternoon *a, const struct table *expected);

void get_info(struct afternoon *a, struct response *response);

void enrol(
    struct afternoon *a, size_t firm, const char *username, uint32_t attestation, size_t status,
    struct response *response);

/* A Register while the signing chip fails: no response leaves, no server hears of it, and its record and key are on disk. Gives the
 * KeyID. */
struct hash enrol_unsigned(struct afternoon *a, size_t firm, const char *username, uint32_t attestation);

/* Takes back the registration with this KeyID, which must be done, and leave no key, or be refused with this number. */
void withdraw(struct afternoon *a, size_t firm, struct bytes key_id, uint32_t refusal);

/* A Register of Zoe whose name loses its last byte after the command was written, for no writer writes such a name. */
void enrol_cut(struct afternoon *a, size_t firm, struct response *response);

struct signing {
    size_t firm;
    struct bytes key_handles; /* run together; of no bytes: none is given */
    const char *content;      /* NULL: none is given */
    uint32_t display;         /* what the display says to the content */
};

/* Gives the account that the server books it to, or NULL where nothing was signed. */
const struct account *sign(struct afternoon *a, struct signing what, size_t status, struct response *response);

/* A KeyID of no bytes: all records of the firm. */
void leave(struct afternoon *a, size_t firm, struct bytes key_id, size_t status, struct response *response);

#endif
