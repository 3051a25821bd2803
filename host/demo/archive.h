/* Keeps each completed response in the folder "responses" of the state folder, and says in the file "manifest" there what
 * it is, for the signature check. This is no part of the token's state: an afternoon begins a new manifest. */
#ifndef DEMO_ARCHIVE_H
#define DEMO_ARCHIVE_H

#include <stdio.h>

#include "commands.h"
#include "store.h"
#include "token.h"

struct archive {
    int folder;
    FILE *manifest;
};

/* What a response was asked with. */
struct asked {
    struct caller caller;
    const char *challenge;
    const char *content; /* "" where there was none */
};

void archive_open(struct archive *archive, const struct store *store);
void archive_close(struct archive *archive);

/* One file, as it is. */
void archive_file(struct archive *archive, const char *name, struct bytes bytes);

/* Writes NAME.bin and a line of fields with a tab between them: file, kind (full, surrogate or sign), place and length of
 * the signed stretch as uaf_signed_part gives them, challenge, AppID, access token in hexadecimal, content. */
void archive_add(struct archive *archive, const char *name, const struct asked *asked, const struct response *response);

#endif
