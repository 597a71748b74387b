/* Sorts numbers that a generator makes, by an order that is a function: calls through a table. */
#include "export.h"

#define MOST 4096

typedef int (*Order)(int, int);

static int numbers[MOST];

static int upwards(int one, int other)
{
    return one < other;
}

static int downwards(int one, int other)
{
    return one > other;
}

/* By the number of bits that are set, and where these are equal by size. */
static int by_bits(int one, int other)
{
    int ones = __builtin_popcount(one), others = __builtin_popcount(other);
    return ones == others ? one < other : ones < others;
}

static const Order ORDERS[] = {upwards, downwards, by_bits};

static void swap(int one, int other)
{
    int held = numbers[one];
    numbers[one] = numbers[other];
    numbers[other] = held;
}

/* Quicksort of the places from `first` up to `end`, which is not one of them. */
static void sort(int first, int end, Order before)
{
    while (end - first > 1) {
        int middle = numbers[first + (end - first) / 2], low = first, high = end - 1;
        while (low <= high) {
            while (before(numbers[low], middle))
                low++;
            while (before(middle, numbers[high]))
                high--;
            if (low <= high)
                swap(low++, high--);
        }
        sort(first, high + 1, before);
        first = low;
    }
}

/* Of so many numbers, at most 4,096, the one at this place once they are sorted: order 0 is upwards, 1 downwards, and 2 by
   the number of bits. A place that is not there gives a sum over all, in which each place counts by its own factor. */
EXPORT(sorted)
int sorted(int count, int order, int place)
{
    u32 seed = 1, sum = 0;
    if (count < 0 || count > MOST || order < 0 || order > 2)
        return -1;
    for (int n = 0; n < count; n++) {
        seed = seed * 1664525 + 1013904223;
        numbers[n] = (int)seed;
    }
    sort(0, count, ORDERS[order]);
    if (place >= 0 && place < count)
        return numbers[place];
    for (int n = 0; n < count; n++)
        sum = sum * 31 + (u32)numbers[n];
    return (int)sum;
}
