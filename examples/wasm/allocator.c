/* An allocator with a list of free blocks, which grows its memory where none fits, and programs that use it. */
#include "export.h"

/* Where blocks come from: the memory behind the program's own data, or natively one large piece. */
#ifdef __wasm__
extern u8 __heap_base;
#define PAGE 65536u
static u8 *reach, *bound;

static int reserve(u32 size)
{
    if (!reach) {
        reach = &__heap_base;
        bound = (u8 *)(__builtin_wasm_memory_size(0) * PAGE);
    }
    if (size <= (u32)(bound - reach))
        return 1;
    u32 pages = (size + PAGE - 1) / PAGE;
    if ((int)__builtin_wasm_memory_grow(0, pages) == -1)
        return 0;
    bound += pages * PAGE;
    return 1;
}
#else
static u8 whole[1 << 26], *reach = whole;
static int reserve(u32 size)
{
    return size <= (u32)(whole + sizeof whole - reach);
}
#endif

/* A block begins with this, and its bytes follow. Free blocks make a list by their addresses. */
typedef struct Block {
    struct Block *next;
    u32 size;
    u32 unused[sizeof(void *) == 4 ? 2 : 1];
} Block;

static Block *free_blocks;

static void *allocate(u32 size)
{
    size = (size + 15) / 16 * 16;
    for (Block **link = &free_blocks; *link; link = &(*link)->next) {
        Block *block = *link;
        if (block->size < size)
            continue;
        *link = block->next;
        return block + 1;
    }
    if (!reserve(size + sizeof(Block)))
        return 0;
    Block *block = (Block *)reach;
    reach += sizeof(Block) + size;
    block->size = size;
    return block + 1;
}

/* Puts a block into the list, and makes one of it and its neighbours where they touch. */
static void release(void *bytes)
{
    Block *block = (Block *)bytes - 1, *before = 0, **link = &free_blocks;
    while (*link && *link < block) {
        before = *link;
        link = &before->next;
    }
    block->next = *link;
    *link = block;
    if (block->next && (u8 *)(block + 1) + block->size == (u8 *)block->next) {
        block->size += sizeof(Block) + block->next->size;
        block->next = block->next->next;
    }
    if (before && (u8 *)(before + 1) + before->size == (u8 *)block) {
        before->size += sizeof(Block) + block->size;
        before->next = block->next;
    }
}

typedef struct Item {
    struct Item *next;
    u32 number;
} Item;

/* The sum of the numbers from 1 on, out of a list with an item for each, which is given back item by item. */
EXPORT(listed)
int listed(u32 count)
{
    Item *first = 0;
    u32 sum = 0;
    for (u32 number = 1; number <= count; number++) {
        Item *item = allocate(sizeof(Item));
        if (!item)
            return -1;
        item->next = first;
        item->number = number;
        first = item;
    }
    while (first) {
        Item *item = first;
        sum += item->number;
        first = item->next;
        release(item);
    }
    return (int)sum;
}

/* Takes and gives back blocks of many sizes so many times, each filled with its number, and says how many had lost what
   stood in them: none, if the allocator is right; -1 where the memory would not grow. */
EXPORT(lost)
int lost(u32 rounds)
{
    u8 *held[64] = {0};
    u32 sizes[64] = {0}, seed = 1;
    int wrong = 0;
    for (u32 round = 0; round < rounds; round++) {
        seed = seed * 1664525 + 1013904223;
        u32 place = seed >> 26, size = 1 + (seed >> 10 & 2047);
        if (held[place]) {
            for (u32 n = 0; n < sizes[place]; n++)
                if (held[place][n] != (u8)place) {
                    wrong++;
                    break;
                }
            release(held[place]);
        }
        held[place] = allocate(size);
        if (!held[place])
            return -1;
        sizes[place] = size;
        for (u32 n = 0; n < size; n++)
            held[place][n] = (u8)place;
    }
    return wrong;
}

/* How many pages the memory has once so many blocks of 1,000 bytes are held at once, or -1 where it would not grow. */
EXPORT(pages)
int pages(u32 blocks)
{
    for (u32 n = 0; n < blocks; n++)
        if (!allocate(1000))
            return -1;
#ifdef __wasm__
    return (int)__builtin_wasm_memory_size(0);
#else
    return 0;
#endif
}
