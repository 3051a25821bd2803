#include "show.h"

#include <stdarg.h>
#include <stdio.h>

#include "fail.h"
#include "tlv.h"

void show(const char *format, ...)
{
    va_list values;
    va_start(values, format);
    if (vprintf(format, values) < 0)
        fail("standard output");
    va_end(values);
}

void show_flush(void)
{
    if (fflush(stdout) != 0)
        fail("standard output");
}

static void show_hex(struct bytes bytes)
{
    for (size_t i = 0; i < bytes.size; i++)
        show("%02x", bytes.at[i]);
}

void show_event(const char *what, struct bytes key_id)
{
    show("    %s ", what);
    show_hex(key_id);
    show("\n");
    show_flush();
}

void show_count(struct bytes key_id, uint32_t count)
{
    show("    counted ");
    show_hex(key_id);
    show(" %u\n", (unsigned)count);
    show_flush();
}

void show_short(struct bytes value)
{
    struct bytes front = {value.at, value.size < 8 ? value.size : 8};
    show_hex(front);
    if (front.size < value.size)
        show("..");
}

/* printf pads by bytes, and a letter may have several: those after its first are 80 to BF. */
void show_name(struct bytes name, size_t width)
{
    size_t letters = 0;
    for (size_t i = 0; i < name.size; i++)
        letters += (name.at[i] & 0xC0) != 0x80;
    show("%.*s%*s", (int)name.size, (const char *)name.at, letters < width ? (int)(width - letters) : 0, "");
}

static void show_bytes(struct bytes value)
{
    if (value.size == 0) {
        show("empty");
        return;
    }
    show_short(value);
    show("  %zu bytes", value.size);
}

static unsigned part(struct bytes value, size_t from, size_t size)
{
    return from + size <= value.size ? (unsigned)number((struct bytes){value.at + from, size}) : 0;
}

static void show_assertion_info(struct bytes value)
{
    unsigned mode = part(value, 2, 1);
    show("version %u, mode 0x%02X%s, algorithm 0x%04X", part(value, 0, 2), mode, mode == 2 ? " (content confirmed)" : "",
         part(value, 3, 2));
    if (value.size == 7)
        show(", key 0x%04X", part(value, 5, 2));
}

static void show_counters(struct bytes value)
{
    show("SignCounter %u", part(value, 0, 4));
    if (value.size == 8)
        show(", RegCounter %u", part(value, 4, 4));
}

static void show_value(size_t tag, struct bytes value)
{
    switch (tag) {
    case UAF_TAG_AAID:
    case UAF_TAG_USERNAME:
    case UAF_TAG_ASSERTION_SCHEME:
    case UAF_TAG_TC_DISPLAY_CONTENT_TYPE:
        show("%.*s", (int)value.size, (const char *)value.at);
        break;
    case UAF_TAG_API_VERSION:
    case UAF_TAG_AUTHENTICATOR_INDEX:
        show("%u", (unsigned)number(value));
        break;
    case UAF_TAG_ATTESTATION_TYPE:
        show("0x%04X %s", (unsigned)number(value), number(value) == UAF_BASIC_FULL ? "full" : "surrogate");
        break;
    case UAF_TAG_ASSERTION_INFO:
        show_assertion_info(value);
        break;
    case UAF_TAG_COUNTERS:
        show_counters(value);
        break;
    default:
        show_bytes(value);
    }
}

void show_response(const struct response *response)
{
    show("  < %s 0x%02X, %zu bytes", uaf_status_name(response->status), (unsigned)response->status, response->size);
    if (response->signed_length > 0)
        show("; signed: %zu bytes from byte %zu on", response->signed_length, response->signed_place);
    show("\n");
    for (size_t i = 0; i < response->count; i++) {
        if (response->tags[i] == UAF_TAG_STATUS_CODE)
            continue; /* said above */
        show("      %-24s  ", uaf_tag_name(response->tags[i]));
        show_value(response->tags[i], field(response, i));
        show("\n");
    }
}
