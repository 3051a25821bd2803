#include "records.h"

#include "tlv.h"

bool record_next(struct bytes *rest, struct record *record)
{
    uint16_t tag;
    struct bytes children, counter;
    if (!tlv_next(rest, &tag, &children) || !tlv_find(children, UAF_TAG_KEYID, &record->key_id)
        || !tlv_find(children, UAF_TAG_KEYHANDLE_ACCESS_TOKEN, &record->mixed)
        || !tlv_find(children, UAF_TAG_USERNAME, &record->username) || !tlv_find(children, UAF_TAG_COUNTERS, &counter))
        return false;
    record->count = number(counter);
    return true;
}

bool record_find(const struct table *table, struct bytes key_id, struct record *record)
{
    for (struct bytes rest = FILLED(*table); record_next(&rest, record);)
        if (same(record->key_id, key_id))
            return true;
    return false;
}

struct table records_without(const struct table *table, struct bytes key_id)
{
    struct table left = {.size = 0};
    struct bytes rest = FILLED(*table), from = rest;
    for (struct record record; record_next(&rest, &record); from = rest) {
        const struct bytes whole = {from.at, from.size - rest.size};
        if (same(record.key_id, key_id))
            continue;
        copy(left.bytes + left.size, whole);
        left.size += whole.size;
    }
    return left;
}
