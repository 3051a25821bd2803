/* What an afternoon does not reach by itself: the last count, bytes and lent results that a terminal should not send, and
 * callers that are nearly a firm. The token is called directly, and what it gives goes nowhere: nothing here touches the table on disk. */
#ifndef DEMO_EDGES_H
#define DEMO_EDGES_H

#include "afternoon.h"

void last_count(const struct afternoon *a);
void refusals(const struct afternoon *a);
void whose_command(const struct afternoon *a);

#endif
