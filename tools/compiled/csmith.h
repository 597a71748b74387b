// What a program of csmith includes, for a compiler without a C library. Its `main` is `guest_main`, and `run` gives the sum
// of what its globals hold at the end.
#include <float.h>
#include <limits.h>
#include <stddef.h>
#include <stdint.h>

#define STATIC static
#define UNDEFINED(value) (value)
#define LOG_INDEX
#define LOG_EXEC
#define FUNC_NAME(name) safe_##name
#define fabs __builtin_fabs
#define fabsf __builtin_fabsf
// By its path: the headers of this machine beside it are none for a module.
#include "/usr/include/csmith/safe_math.h"

// The compiler may call these, whether or not a program does.
void *memset(void *to, int value, size_t count) {
  for (size_t place = 0; place < count; place++) ((char *)to)[place] = value;
  return to;
}

void *memcpy(void *to, const void *from, size_t count) {
  for (size_t place = 0; place < count; place++) ((char *)to)[place] = ((const char *)from)[place];
  return to;
}

static uint32_t crc32_context = 0xFFFFFFFF;
static uint32_t sum;

static void crc32_gentab(void) {}

static void add_byte(uint8_t byte) {
  crc32_context ^= byte;
  for (int bit = 0; bit < 8; bit++) crc32_context = crc32_context >> 1 ^ (crc32_context & 1 ? 0xEDB88320 : 0);
}

static void transparent_crc(uint64_t value, char *name, int flag) {
  for (int byte = 0; byte < 8; byte++) add_byte(value >> 8 * byte);
}

static void transparent_crc_bytes(char *from, int count, char *name, int flag) {
  for (int place = 0; place < count; place++) add_byte(from[place]);
}

static int printf(const char *format, ...) { return 0; }
static void platform_main_begin(void) {}
static void platform_main_end(uint32_t crc, int flag) { sum = crc; }

int guest_main(void);

__attribute__((export_name("run"))) uint32_t run(void) {
  guest_main();
  return sum;
}
