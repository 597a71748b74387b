/* The kinds of work of crates/bench_objects in C: the words are the kind and the number of times. */
#include <stdint.h>
#include <stdio.h>
#include <stdlib.h>
#include <string.h>

enum { MIB = 1048576, ELEMENTS = 100000, PAGE = 65536 };

/* An element as the table holds it: a tag and a number. */
typedef struct { uint64_t tag, value; } Element;

static volatile unsigned char seen;

/* Not known to the compiler, so that no malloc and memset become one calloc. */
static void *(*volatile set)(void *, int, size_t) = memset;

static void copy(char *base, size_t size, size_t dst, size_t src, size_t count, long times) {
    for (long n = 0; n < times; n++) {
        memmove(base + dst * size, base + src * size, count * size);
        seen = (unsigned char)base[dst * size];
    }
}

static void fill_bytes(unsigned char *base, long times) {
    for (long n = 0; n < times; n++) {
        set(base + 5, 9, MIB);
        seen = base[5];
    }
}

static void fill_elements(Element *base, long times) {
    for (long n = 0; n < times; n++) {
        for (size_t i = 0; i < ELEMENTS; i++) base[5 + i] = (Element){2, 9};
        seen = (unsigned char)base[5].value;
    }
}

static int grow(long times) {
    size_t length = 0, room = 0;
    unsigned char *base = NULL;
    for (long n = 0; n < times; n++) {
        if (room - length < PAGE) {
            room = room * 2 > length + PAGE ? room * 2 : length + PAGE;
            unsigned char *moved = realloc(base, room);
            if (!moved) return 1;
            base = moved;
        }
        memset(base + length, 0, PAGE);
        length += PAGE;
    }
    seen = base ? base[0] : 0;
    free(base);
    return 0;
}

static void make(long times) {
    for (long n = 0; n < times; n++) {
        unsigned char *base = malloc(1000 * (size_t)PAGE);
        if (base) set(base, 0, 1000 * (size_t)PAGE);
        seen = base ? base[n] : 0;
        free(base);
    }
}

int main(int count, char **words) {
    if (count < 3) return 2;
    const char *kind = words[1];
    long times = atol(words[2]);
    unsigned char *bytes = malloc(64 * (size_t)PAGE), *other = malloc(64 * (size_t)PAGE);
    Element *elements = malloc(400000 * sizeof(Element));
    memset(bytes, 0, 64 * (size_t)PAGE);
    memset(other, 0, 64 * (size_t)PAGE);
    for (size_t i = 0; i < 400000; i++) elements[i] = (Element){1, 7};
    if (!strcmp(kind, "memory_up")) copy((char *)bytes, 1, 4096, 0, MIB, times);
    else if (!strcmp(kind, "memory_up_by_one")) copy((char *)bytes, 1, 1, 0, MIB, times);
    else if (!strcmp(kind, "memory_down")) copy((char *)bytes, 1, 0, 4096, MIB, times);
    else if (!strcmp(kind, "memory_down_by_one")) copy((char *)bytes, 1, 0, 1, MIB, times);
    else if (!strcmp(kind, "memory_apart")) copy((char *)bytes, 1, 2 * MIB, 0, MIB, times);
    else if (!strcmp(kind, "memory_from"))
        for (long n = 0; n < times; n++) { memcpy(bytes + 5, other + 3, MIB); seen = bytes[5]; }
    else if (!strcmp(kind, "memory_fill")) fill_bytes(bytes, times);
    else if (!strcmp(kind, "memory_grow")) return grow(times);
    else if (!strcmp(kind, "memory_new")) make(times);
    else if (!strcmp(kind, "table_up")) copy((char *)elements, sizeof(Element), 1000, 0, ELEMENTS, times);
    else if (!strcmp(kind, "table_down")) copy((char *)elements, sizeof(Element), 0, 1000, ELEMENTS, times);
    else if (!strcmp(kind, "table_apart")) copy((char *)elements, sizeof(Element), 200000, 0, ELEMENTS, times);
    else if (!strcmp(kind, "table_fill")) fill_elements(elements, times);
    printf("%ld\n", times);
    return 0;
}
