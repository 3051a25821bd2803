/* The records of a stored table. The table must be one that the token wrote or accepted. */
#ifndef DEMO_RECORDS_H
#define DEMO_RECORDS_H

#include "token.h"

/* One record, as parts of the table's bytes. */
struct record {
    struct bytes key_id;
    struct bytes mixed;
    struct bytes username;
    uint32_t count;
};

/* for (struct bytes rest = FILLED(table); record_next(&rest, &record);), oldest record first. */
bool record_next(struct bytes *rest, struct record *record);

bool record_find(const struct table *table, struct bytes key_id, struct record *record);

/* The table without the record of this KeyID; the others' bytes are as they were, in their order. */
struct table records_without(const struct table *table, struct bytes key_id);

#endif
