/* Counts by merged corners alone. */
#include "merging.h"

void recount(uint32_t frame, struct bound bound, const struct row *rows, size_t count, size_t from,
             struct finding *list)
{
    for (size_t i = from; i < count; i++)
        list[i] = merge(frame, bound, rows, (uint32_t)i);
}
