/* In how many ways so many queens stand on a board of as many rows and columns so that none meets another: a search that
   goes back where it cannot go on. */
#include "export.h"

/* The ways from this row on. A set bit is a column that is taken: by a queen above, or by one on a slope. */
static int ways(u32 all, u32 columns, u32 left, u32 right)
{
    int found = 0;
    if (columns == all)
        return 1;
    for (u32 free = all & ~(columns | left | right); free; free &= free - 1) {
        u32 queen = free & -free;
        found += ways(all, columns | queen, (left | queen) << 1, (right | queen) >> 1);
    }
    return found;
}

EXPORT(queens)
int queens(u32 size)
{
    return size > 16 ? -1 : ways((1u << size) - 1, 0, 0, 0);
}
