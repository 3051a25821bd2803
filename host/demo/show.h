/* What a person sees. All of it goes to standard output, and a failure to write there ends the program. */
#ifndef DEMO_SHOW_H
#define DEMO_SHOW_H

#include "token.h"

/* printf, checked. */
#if defined(__GNUC__)
__attribute__((format(printf, 1, 2)))
#endif
void show(const char *format, ...);

/* Hands on what was printed so far. */
void show_flush(void);

/* "stored KEYID", "removing KEYID", "removed KEYID", "withdrawing KEYID", "withdrawn KEYID" and "counted KEYID N", in
 * hexadecimal, each on its own line and handed on at once: the crash test reads them. */
void show_event(const char *what, struct bytes key_id);
void show_count(struct bytes key_id, uint32_t count);

/* A username, which is UTF-8, and spaces after it up to so many letters. */
void show_name(struct bytes name, size_t width);

/* A response: its status and each field. */
void show_response(const struct response *response);

/* The first bytes of a value, enough to tell it from another. */
void show_short(struct bytes value);

#endif
