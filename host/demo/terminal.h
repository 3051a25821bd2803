/* The firmware around the token: it lends what a command uses, keeps the table and the keys on disk, and signs drafts. */
#ifndef DEMO_TERMINAL_H
#define DEMO_TERMINAL_H

#include "commands.h"
#include "keys.h"
#include "store.h"
#include "token.h"

struct terminal {
    struct store store;
    struct table table; /* as it is on disk */
    EVP_PKEY *attestation_key;
    struct blob certificate;
    bool quiet; /* says nothing of what it stores and removes */
    bool chip_fails; /* the signing chip gives no signature */
    struct hash unsigned_id; /* the KeyID of the last Register whose draft the chip did not sign */
};

/* A command, and what the finger and the display have to say to it. */
struct request {
    struct command command;
    uint32_t verdict;
    uint32_t display;
    uint32_t attestation; /* of a Register */
};

/* Opens the state folder and removes what a crash left there; *swept is how many files. A table that the token refuses, or
 * a record whose key is missing, ends the program, and nothing is touched. */
void terminal_open(struct terminal *terminal, const char *path, size_t *swept);
void terminal_close(struct terminal *terminal);

/* Runs a command to its end: a draft is signed and completed. Gives 0 or the refusal's number. After 0 the response has no
 * bytes where the chip gave no signature. The count of a Sign is then used up. The record of a Register is on disk, and
 * terminal_withdraw takes it back. */
uint32_t terminal_run(struct terminal *terminal, const struct request *request, struct response *response);

/* Takes back a registration of this caller: its record goes from the disk, and then its key. Gives 0 or the refusal's number. It
 * is for a Register that terminal_run gave no response to: whether a response has left is nothing that the token knows. */
uint32_t terminal_withdraw(struct terminal *terminal, struct caller caller, struct bytes key_id);

/* What is on disk: the table file, and whether there is a key of this KeyID. */
void terminal_read_table(const struct terminal *terminal, struct table *table);
bool terminal_has_key(const struct terminal *terminal, struct bytes key_id);

#endif
