/* Bytes in and out. ./run --in FILE calls alloc for so many bytes, writes those of the file there, and gives pointer and
   length behind the arguments. */
#include "export.h"

#define PAGE 65536

/* Behind all else that the program has in its memory. */
extern u8 __heap_base;
static u8 *free_from = &__heap_base;

/* Room for so many bytes, which is never given back. Where the memory cannot grow it traps: no pointer says so. */
EXPORT(alloc)
u8 *alloc(u32 length)
{
    u8 *at = free_from;
    u64 missing = (u64)(u32)at + length, has = (u64)__builtin_wasm_memory_size(0) * PAGE;
    if (missing > has && __builtin_wasm_memory_grow(0, (missing - has + PAGE - 1) / PAGE) == (__SIZE_TYPE__)-1)
        __builtin_trap();
    free_from = at + length;
    return at;
}

/* Bytes at a new place are answered as one number: their pointer in the high half, their length in the low one. */
static u64 bytes(const u8 *at, u32 length)
{
    return (u64)(u32)at << 32 | length;
}

/* The bytes in base 64: four signs for three bytes, and = in place of what is missing at the end. */
EXPORT(base64)
u64 base64(const u8 *at, u32 length)
{
    static const u8 signs[] = "ABCDEFGHIJKLMNOPQRSTUVWXYZabcdefghijklmnopqrstuvwxyz0123456789+/";
    u32 count = (length + 2) / 3 * 4;
    u8 *made = alloc(count), *to = made;
    for (u32 n = 0; n < length; n += 3) {
        u32 three = at[n] << 16 | (n + 1 < length ? at[n + 1] : 0) << 8 | (n + 2 < length ? at[n + 2] : 0);
        for (u32 sign = 0; sign < 4; sign++)
            *to++ = sign <= length - n ? signs[three >> (18 - 6 * sign) & 63] : '=';
    }
    return bytes(made, count);
}

/* The letters moved on by so many places in the alphabet, in place: then the length alone is answered. */
EXPORT(moved)
u32 moved(u32 by, u8 *at, u32 length)
{
    for (u32 n = 0; n < length; n++) {
        u8 first = at[n] & 0x20 ? 'a' : 'A', place = at[n] - first;
        if (place < 26)
            at[n] = first + (place + by % 26) % 26;
    }
    return length;
}
