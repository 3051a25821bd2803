/* TLVs: a 16-bit tag, a 16-bit length and the value, little-endian. Here is a walk over a command that the token wrote, or a
 * stored table that it wrote or accepted. (A response is read by the token's own reader, see token.h.) */
#ifndef DEMO_TLV_H
#define DEMO_TLV_H

#include "bytes.h"

/* A little-endian number of at most 4 bytes. */
uint32_t number(struct bytes value);

/* Takes the TLV at the front of *rest and moves *rest behind it. False, and nothing is moved, where *rest is empty or
 * its first TLV does not fit into it. */
bool tlv_next(struct bytes *rest, uint16_t *tag, struct bytes *value);

/* The value of the first TLV with that tag in a run of TLVs. */
bool tlv_find(struct bytes run, uint16_t tag, struct bytes *value);

/* Takes the last byte off a value inside another one, both of them parts of the *size bytes at `bytes`. The lengths in front
 * of both fall by one, so that they still fit. */
void tlv_cut(uint8_t *bytes, size_t *size, struct bytes outer, struct bytes inner);

#endif
