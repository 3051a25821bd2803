#include "tlv.h"

enum { HEADER = 4 };

uint32_t number(struct bytes value)
{
    uint32_t n = 0;
    for (size_t i = 0; i < value.size && i < sizeof n; i++)
        n |= (uint32_t)value.at[i] << (8 * i);
    return n;
}

bool tlv_next(struct bytes *rest, uint16_t *tag, struct bytes *value)
{
    if (rest->size < HEADER)
        return false;
    size_t length = number((struct bytes){rest->at + 2, 2});
    if (rest->size - HEADER < length)
        return false;
    *tag = (uint16_t)number((struct bytes){rest->at, 2});
    *value = (struct bytes){rest->at + HEADER, length};
    rest->at += HEADER + length;
    rest->size -= HEADER + length;
    return true;
}

bool tlv_find(struct bytes run, uint16_t tag, struct bytes *value)
{
    uint16_t met;
    while (tlv_next(&run, &met, value))
        if (met == tag)
            return true;
    return false;
}

/* One less in the length that stands in front of a value. */
static void shorten(uint8_t *value)
{
    if (value[-2]-- == 0)
        value[-1]--;
}

void tlv_cut(uint8_t *bytes, size_t *size, struct bytes outer, struct bytes inner)
{
    uint8_t *from = bytes + (inner.at - bytes), *end = from + inner.size;
    memmove(end - 1, end, *size - (size_t)(end - bytes));
    *size -= 1;
    shorten(from);
    shorten(bytes + (outer.at - bytes));
}
