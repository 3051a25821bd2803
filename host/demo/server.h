/* The betting firm's side. It sees responses, and books to the seller whose key signed. What the token hashed is hashed here again,
 * by libcrypto; for that it is shown the mixed token of a new record, which no response has. */
#ifndef DEMO_SERVER_H
#define DEMO_SERVER_H

#include "commands.h"
#include "token.h"

/* A seller, as the registration told of it. */
struct account {
    char username[129];
    struct hash key_id;
    struct blob public_key;
    uint32_t count;
};

struct server {
    struct account accounts[40];
    size_t count;
};

/* Checks a registration and opens the account. */
void server_enrol(struct server *server, const char *username, struct bytes challenge, const struct response *response);

/* Checks a record's mixed token: the hash of the access token and AppID that the registration was asked with. */
void server_check_holder(struct caller caller, struct bytes mixed);

/* Checks what was signed and gives the account it is booked to. Content of no bytes: none was asked for. */
const struct account *server_book(
    struct server *server, struct bytes challenge, struct bytes content, const struct response *response);

#endif
