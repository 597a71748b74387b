/* Every export with each of its errors, at sizes 0 and at the limits, on modules cut short and changed, from two threads,
 * and often enough to see memory grow: `calls GUEST ROUNDS`. It prints what is wrong, and how many calls a second there
 * were. */
#define _POSIX_C_SOURCE 200809L
#include "mullerpink.h"

#include <malloc.h>
#include <pthread.h>
#include <stdio.h>
#include <stdlib.h>
#include <string.h>
#include <time.h>

#define TEXT(text) (const uint8_t *)(text), sizeof(text) - 1
#define ROOM 64
#define LIMIT 16777216

static uint8_t guest[1 << 16];
static size_t guest_length;
static int wrong = 0;

static void same(const char *what, uint64_t got, uint64_t wanted) {
  if (got == wanted)
    return;
  wrong = 1;
  printf("%s: is %llu, wanted %llu\n", what, (unsigned long long)got, (unsigned long long)wanted);
}

static void runs(void) {
  uint8_t out[ROOM];
  memset(out, '.', ROOM);
  mullerpink_ran ran = mullerpink_run(TEXT("div\0" "84\0" "2"), guest, guest_length, out, ROOM);
  same("run", ran.code, MULLERPINK_DONE);
  same("run's line", ran.count == 17 && memcmp(out, "ok values i32:42\n.", 18) == 0, 1);
  ran = mullerpink_run(TEXT("div\0" "84\0" "2"), guest, guest_length, out, 17);
  same("a run in just its room", ran.code, MULLERPINK_DONE);
  for (size_t room = 0; room < 17; room++) {
    memset(out, '.', ROOM);
    ran = mullerpink_run(TEXT("div\0" "84\0" "2"), guest, guest_length, out, room);
    same("a run without room", ran.code, MULLERPINK_NO_ROOM);
    same("its front", ran.count == room && memcmp(out, "ok values i32:42\n", room) == 0 && out[room] == '.', 1);
  }
  same("words", mullerpink_run(TEXT("--turns\0" "0\0" "div"), guest, guest_length, out, ROOM).code, MULLERPINK_BAD_WORDS);
  same("no text", mullerpink_run(TEXT("\xff"), guest, guest_length, out, ROOM).code, MULLERPINK_NO_TEXT);
  same("no word", mullerpink_run(TEXT(""), guest, guest_length, out, ROOM).code, MULLERPINK_NO_FUNCTION);
  same("name", mullerpink_run(TEXT("sub"), guest, guest_length, out, ROOM).code, MULLERPINK_NO_FUNCTION);
  same("arguments", mullerpink_run(TEXT("div\0" "1"), guest, guest_length, out, ROOM).code, MULLERPINK_BAD_ARGUMENTS);
  same("no module", mullerpink_run(TEXT("div"), guest, 0, out, ROOM).code, MULLERPINK_BAD_MODULE);
  same("bytes", mullerpink_run(TEXT("--in\0" "0\0" "div"), guest, guest_length, out, ROOM).code, MULLERPINK_TAKES_NO_BYTES);
}

static const mullerpink_bounds bounded = {1, 16, 16, 1000, 1000};
static const mullerpink_bounds unfuelled = {0, 16, 16, 0, 100000};
static const mullerpink_value arguments[2] = {{MULLERPINK_I32, 84, 0}, {MULLERPINK_I32, 2, 0}};

/* A call of the guest by these arguments and bounds, in room for `room` results, of which none is touched behind what is
 * counted. */
static mullerpink_called call(const char *name, const mullerpink_value *given, size_t count, mullerpink_bounds by,
                              mullerpink_value *results, size_t room) {
  for (size_t place = 0; place < room; place++)
    results[place] = (mullerpink_value){99, 99, 99};
  mullerpink_called called = mullerpink_call(guest, guest_length, (const uint8_t *)name, strlen(name), given, count, &by, results, room);
  for (size_t place = called.code == MULLERPINK_DONE ? called.count : 0; place < room; place++)
    same("room behind the results", results[place].kind == 99 && results[place].low == 99 && results[place].high == 99, 1);
  return called;
}

static void ends(const char *what, mullerpink_called called, uint32_t code, uint32_t cause, size_t count) {
  same(what, called.code, code);
  same(what, called.cause, cause);
  same(what, called.count, count);
}

static void typed(void) {
  mullerpink_value results[4], given[3] = {{MULLERPINK_I32, 84, 0}, {MULLERPINK_I32, 0, 0}, {MULLERPINK_I32, 1, 0}};
  mullerpink_bounds by = MULLERPINK_BOUNDS;
  ends("call", call("div", arguments, 2, by, results, 4), MULLERPINK_DONE, 0, 1);
  same("its result", results[0].kind == MULLERPINK_I32 && results[0].low == 42 && results[0].high == 0, 1);
  ends("in just its room", call("div", arguments, 2, bounded, results, 1), MULLERPINK_DONE, 0, 1);
  ends("without room", call("div", arguments, 2, by, results, 0), MULLERPINK_NO_ROOM, 0, 1);
  ends("a trap", call("div", given, 2, by, results, 4), MULLERPINK_TRAP, MULLERPINK_INTEGER_DIVISION_BY_ZERO, 0);
  ends("no fuel", call("forever", arguments, 0, bounded, results, 0), MULLERPINK_TRAP, MULLERPINK_OUT_OF_FUEL, 0);
  by.turns = 1000;
  ends("turns", call("forever", arguments, 0, by, results, 0), MULLERPINK_REFUSED, MULLERPINK_TURN_LIMIT, 0);
  by.turns = 0;
  ends("no turns", call("div", arguments, 2, by, results, 4), MULLERPINK_BAD_BOUNDS, 0, 0);
  by.turns = 1000000001;
  ends("too many turns", call("div", arguments, 2, by, results, 4), MULLERPINK_BAD_BOUNDS, 0, 0);
  by.turns = 1000000000;
  by.pages = by.elements = 0;
  ends("no pages", call("div", arguments, 2, by, results, 4), MULLERPINK_DONE, 0, 1);
  ends("unknown", call("sub", arguments, 2, by, results, 4), MULLERPINK_NO_FUNCTION, 0, 0);
  ends("no name", call("", arguments, 2, by, results, 4), MULLERPINK_NO_FUNCTION, 0, 0);
  ends("no text", call("\xff", arguments, 2, by, results, 4), MULLERPINK_NO_TEXT, 0, 0);
  ends("too few", call("div", arguments, 1, by, results, 4), MULLERPINK_BAD_ARGUMENTS, 0, 0);
  ends("none", call("div", arguments, 0, by, results, 4), MULLERPINK_BAD_ARGUMENTS, 0, 0);
  ends("too many", call("div", given, 3, by, results, 4), MULLERPINK_BAD_ARGUMENTS, 0, 0);
}

/* An argument of each kind, and of none, in the place of a number of 32 bits. */
static void kinds(void) {
  mullerpink_value results[1], given[2] = {{MULLERPINK_I32, 84, 0}, {MULLERPINK_I32, 2, 0}};
  for (uint32_t kind = MULLERPINK_I64; kind <= MULLERPINK_ANYREF; kind++) {
    given[1] = (mullerpink_value){kind, 0, 0};
    ends("another kind", call("div", given, 2, bounded, results, 1), MULLERPINK_BAD_ARGUMENTS, 0, 0);
  }
  static const mullerpink_value bad[] = {{8, 0, 0},   {UINT32_MAX, 0, 0}, {0, UINT64_C(1) << 32, 0}, {0, 1, 1}, {1, 1, 1},
                                         {2, UINT64_C(1) << 32, 0}, {3, 0, 1}, {5, 1, 0}, {6, 0, 1}, {7, UINT64_MAX, UINT64_MAX}};
  for (size_t place = 0; place < sizeof bad / sizeof *bad; place++) {
    given[1] = bad[place];
    ends("no value", call("div", given, 2, bounded, results, 1), MULLERPINK_BAD_VALUE, 0, 0);
  }
  given[1] = (mullerpink_value){MULLERPINK_I32, UINT32_MAX, 0};
  ends("the greatest", call("div", given, 2, bounded, results, 1), MULLERPINK_DONE, 0, 1);
  same("84 / -1", results[0].low, (uint32_t)-84);
}

/* Values of each kind there and back, two results at a time: the module is written out in bytes, and `twice` gives both of its
 * arguments back, in their order. */
static void there_and_back(void) {
  static const uint8_t types[8] = {0x7f, 0x7e, 0x7d, 0x7c, 0x7b, 0x70, 0x6f, 0x6e};
  static const mullerpink_value ones[8] = {{0, UINT32_MAX, 0}, {1, UINT64_MAX, 0}, {2, UINT32_MAX, 0}, {3, UINT64_MAX, 0},
                                           {4, 1, UINT64_MAX}, {5, 0, 0}, {6, 0, 0}, {7, 0, 0}};
  static const char name[] = "twice";
  for (size_t one = 0; one < 8; one++)
    for (size_t other = 0; other < 8; other++) {
      uint8_t a = types[one], b = types[other];
      const uint8_t module[] = {0,   'a', 's', 'm', 1, 0, 0, 0,   1,   8,   1,   0x60, 2, a, b, 2,    a, b,    3, 2,    1,    0,
                                7,   9,   1,   5,   't', 'w', 'i', 'c', 'e', 0, 0,   10, 8, 1, 6,    0, 0x20, 0, 0x20, 1,    0x0b};
      mullerpink_value given[2] = {ones[one], ones[other]}, results[3] = {{99, 99, 99}, {99, 99, 99}, {99, 99, 99}};
      mullerpink_called called = mullerpink_call(module, sizeof module, TEXT(name), given, 2, &bounded, results, 3);
      ends("there and back", called, MULLERPINK_DONE, 0, 2);
      same("the values", memcmp(&results[0].low, &given[0].low, 16) == 0 && memcmp(&results[1].low, &given[1].low, 16) == 0, 1);
      same("the kinds", results[0].kind == one && results[1].kind == other && results[2].kind == 99, 1);
      called = mullerpink_call(module, sizeof module, TEXT(name), given, 2, &bounded, results, 1);
      ends("room for one of two", called, MULLERPINK_NO_ROOM, 0, 2);
    }
}

/* A module of one function without parameters and results, in its sections. */
#define HEAD "\0asm\1\0\0\0" "\1\4\1\x60\0\0"
#define ONE "\3\2\1\0"
#define EXPORT(kind, index) "\7\5\1\1" "f" kind index
#define EMPTY "\12\4\1\2\0\x0b"

static void of(const char *what, const char *module, size_t length, uint32_t code, uint32_t cause) {
  mullerpink_value results[1] = {{99, 99, 99}};
  mullerpink_called called = mullerpink_call((const uint8_t *)module, length, TEXT("f"), arguments, 0, &unfuelled, results, 1);
  ends(what, called, code, cause, 0);
  same("nothing is written", results[0].kind, 99);
}

#define OF(what, module, code, cause) of(what, module, sizeof(module) - 1, code, cause)

static void modules(void) {
  OF("a module", HEAD ONE EXPORT("\0", "\0") EMPTY, MULLERPINK_DONE, 0);
  OF("16 pages", HEAD ONE "\5\3\1\0\20" EXPORT("\0", "\0") EMPTY, MULLERPINK_DONE, 0);
  OF("17 pages", HEAD ONE "\5\3\1\0\21" EXPORT("\0", "\0") EMPTY, MULLERPINK_REFUSED, MULLERPINK_GROW_FAILED);
  OF("16 elements", HEAD ONE "\4\4\1\x70\0\20" EXPORT("\0", "\0") EMPTY, MULLERPINK_DONE, 0);
  OF("17 elements", HEAD ONE "\4\4\1\x70\0\21" EXPORT("\0", "\0") EMPTY, MULLERPINK_REFUSED, MULLERPINK_GROW_FAILED);
  OF("an import", HEAD "\2\7\1\1" "m\1" "f\0\0" ONE EXPORT("\0", "\1") EMPTY, MULLERPINK_REFUSED, MULLERPINK_IMPORT_COUNT);
  OF("a memory", HEAD ONE "\5\3\1\0\1" EXPORT("\2", "\0") EMPTY, MULLERPINK_NO_FUNCTION, 0);
  OF("unreachable", HEAD ONE EXPORT("\0", "\0") "\12\5\1\3\0\0\x0b", MULLERPINK_TRAP, MULLERPINK_UNREACHABLE_CODE_REACHED);
  OF("a start function", HEAD "\3\3\2\0\0" EXPORT("\0", "\1") "\10\1\0" "\12\10\2\3\0\0\x0b\2\0\x0b", MULLERPINK_TRAP,
     MULLERPINK_UNREACHABLE_CODE_REACHED);
  OF("recursion", HEAD ONE EXPORT("\0", "\0") "\12\6\1\4\0\x10\0\x0b", MULLERPINK_TRAP, MULLERPINK_STACK_OVERFLOW);
  OF("a value too many", HEAD ONE EXPORT("\0", "\0") "\12\6\1\4\0\x41\0\x0b", MULLERPINK_INVALID_MODULE, 0);
  OF("past the end", HEAD ONE "\5\3\1\0\1" EXPORT("\0", "\0") "\12\12\1\10\0\x41\x7f\x28\2\0\x1a\x0b", MULLERPINK_TRAP,
     MULLERPINK_MEMORY_OUT_OF_BOUNDS);
}

/* A module that takes bytes at 0: `same` answers as many, `past` 64 bits that stand for bytes past the end of the memory, and
 * `lost` is no function of bytes. */
static const char takes[] = "\0asm\1\0\0\0" "\1\22\3\x60\1\x7f\1\x7f\x60\2\x7f\x7f\1\x7f\x60\2\x7f\x7f\1\x7e" "\3\4\3\0\1\2"
                            "\5\3\1\0\1" "\7\40\4\6" "memory\2\0\5" "alloc\0\0\4" "same\0\1\4" "past\0\2"
                            "\12\20\3\4\0\x41\0\x0b\4\0\x20\1\x0b\4\0\x42\x7f\x0b";

static mullerpink_called on_bytes(const char *name, const mullerpink_value *given, size_t count, size_t length, size_t room) {
  uint8_t in[ROOM], out[ROOM];
  for (size_t place = 0; place < ROOM; place++)
    in[place] = (uint8_t)(place + 1);
  memset(out, 0, ROOM);
  mullerpink_called called = mullerpink_call_bytes((const uint8_t *)takes, sizeof takes - 1, (const uint8_t *)name, strlen(name),
                                                   given, count, &unfuelled, in, length, out, room);
  size_t written = called.code == MULLERPINK_DONE ? called.count : 0;
  same("the bytes", memcmp(in, out, written), 0);
  for (size_t place = written; place < ROOM; place++)
    same("room behind the bytes", out[place], 0);
  return called;
}

static void bytes(void) {
  for (size_t length = 0; length < ROOM; length++) {
    ends("bytes", on_bytes("same", arguments, 0, length, ROOM), MULLERPINK_DONE, 0, length);
    ends("bytes in just their room", on_bytes("same", arguments, 0, length, length), MULLERPINK_DONE, 0, length);
    if (length > 0)
      ends("bytes without room", on_bytes("same", arguments, 0, length, length - 1), MULLERPINK_NO_ROOM, 0, length);
  }
  ends("bytes past the end", on_bytes("past", arguments, 0, 4, ROOM), MULLERPINK_REFUSED, MULLERPINK_MEMORY_ACCESS_ERROR, 0);
  ends("an argument too many", on_bytes("same", arguments, 1, 4, ROOM), MULLERPINK_BAD_ARGUMENTS, 0, 0);
  ends("no bytes to a function", on_bytes("alloc", arguments, 0, 4, ROOM), MULLERPINK_TAKES_NO_BYTES, 0, 0);
  ends("no such function", on_bytes("other", arguments, 0, 4, ROOM), MULLERPINK_NO_FUNCTION, 0, 0);
  uint8_t out[ROOM], big[65537];
  memset(big, 7, sizeof big);
  ends("no bytes to a module", mullerpink_call_bytes(guest, guest_length, TEXT("div"), arguments, 2, &bounded, big, 0, out, ROOM),
       MULLERPINK_TAKES_NO_BYTES, 0, 0);
  ends("no text", mullerpink_call_bytes(guest, guest_length, TEXT("\xff"), arguments, 2, &bounded, big, 1, out, ROOM),
       MULLERPINK_NO_TEXT, 0, 0);
  ends("more than a page", mullerpink_call_bytes((const uint8_t *)takes, sizeof takes - 1, TEXT("same"), arguments, 0, &unfuelled,
                                                 big, sizeof big, out, ROOM),
       MULLERPINK_REFUSED, MULLERPINK_MEMORY_ACCESS_ERROR, 0);
}

static void sessions(void) {
  uint8_t out[ROOM];
  static const char memory[] = "{\"commands\": [{\"do\": \"memory_new\", \"min\": 1}]}";
  same("session", mullerpink_session(TEXT("{\"commands\": []}"), out, ROOM).code, MULLERPINK_DONE);
  same("no JSON", mullerpink_session(TEXT("{"), out, ROOM).code, MULLERPINK_BAD_JSON);
  same("empty", mullerpink_session(TEXT(""), out, 0).code, MULLERPINK_BAD_JSON);
  same("no script", mullerpink_session(TEXT("{}"), out, ROOM).code, MULLERPINK_BAD_SCRIPT);
  mullerpink_ran whole = mullerpink_session(TEXT(memory), out, ROOM);
  same("its lines", whole.code == MULLERPINK_DONE && whole.count == 12 && memcmp(out, "ok memory 0\n", 12) == 0, 1);
  same("session without room", mullerpink_session(TEXT(memory), out, 11).code, MULLERPINK_NO_ROOM);
}

/* A call that gives 42, again and again. */
static int is_right(void) {
  uint8_t out[ROOM];
  mullerpink_ran ran = mullerpink_run(TEXT("div\0" "84\0" "2"), guest, guest_length, out, ROOM);
  return ran.code == MULLERPINK_DONE && ran.count == 17 && memcmp(out, "ok values i32:42\n", 17) == 0;
}

static int gives_42(void) {
  mullerpink_value results[1];
  mullerpink_called called = mullerpink_call(guest, guest_length, TEXT("div"), arguments, 2, &bounded, results, 1);
  return called.code == MULLERPINK_DONE && called.count == 1 && results[0].low == 42;
}

static void bounds(void) {
  uint8_t out[ROOM];
  mullerpink_ran ran = mullerpink_run(TEXT("--fuel\0" "1000\0" "forever"), guest, guest_length, out, ROOM);
  same("fuel", ran.code == MULLERPINK_DONE && memcmp(out, "trap OutOfFuel\n", ran.count) == 0, 1);
  ran = mullerpink_run(TEXT("--turns\0" "9\0" "forever"), guest, guest_length, out, ROOM);
  same("turns", ran.code == MULLERPINK_DONE && memcmp(out, "refused TurnLimit\n", ran.count) == 0, 1);
}

static void limits(void) {
  uint8_t out[ROOM], *zeros = calloc(LIMIT + 1, 1);
  if (zeros == NULL)
    return;
  same("2^24 bytes", mullerpink_run(TEXT("f"), zeros, LIMIT, out, ROOM).code, MULLERPINK_BAD_MODULE);
  same("2^24 + 1", mullerpink_run(TEXT("f"), zeros, LIMIT + 1, out, ROOM).code, MULLERPINK_TOO_LONG);
  mullerpink_value results[1];
  ends("a call of 2^24", mullerpink_call(zeros, LIMIT, TEXT("f"), arguments, 0, &bounded, results, 1), MULLERPINK_BAD_MODULE, 0, 0);
  ends("2^24 + 1", mullerpink_call(zeros, LIMIT + 1, TEXT("f"), arguments, 0, &bounded, results, 1), MULLERPINK_TOO_LONG, 0, 0);
  ends("no module", mullerpink_call(zeros, 0, TEXT("f"), arguments, 0, &bounded, results, 1), MULLERPINK_BAD_MODULE, 0, 0);
  same("script", mullerpink_session(zeros, LIMIT + 1, out, ROOM).code, MULLERPINK_TOO_LONG);
  free(zeros);
}

/* Each front of the module, and the module with each of its bytes changed: any code may come, and the call comes back. */
static void hostile(void) {
  uint8_t copy[1 << 10], out[ROOM];
  for (size_t length = 0; length < guest_length; length++) {
    memcpy(copy, guest, length);
    same("a front", mullerpink_run(TEXT("div\0" "84\0" "2"), copy, length, out, ROOM).code == MULLERPINK_DONE, 0);
  }
  for (size_t place = 0; place < guest_length; place++)
    for (unsigned byte = 0; byte < 256; byte += 5) {
      memcpy(copy, guest, guest_length);
      copy[place] = (uint8_t)byte;
      mullerpink_ran ran = mullerpink_run(TEXT("--turns\0" "1000\0" "--pages\0" "16\0" "div\0" "84\0" "2"), copy,
                                          guest_length, out, ROOM);
      same("a changed module", ran.code <= MULLERPINK_NO_TEXT && ran.count <= ROOM, 1);
      mullerpink_value results[1];
      mullerpink_called called = mullerpink_call(copy, guest_length, TEXT("div"), arguments, 2, &bounded, results, 1);
      same("a call of a changed module", called.code <= MULLERPINK_REFUSED, 1);
    }
}

/* Pages in memory, which the system counts to some hundred. */
static size_t resident(void) {
  size_t all = 0, here = 0;
  FILE *file = fopen("/proc/self/statm", "r");
  if (file == NULL)
    return 0;
  if (fscanf(file, "%zu %zu", &all, &here) != 2)
    here = 0;
  fclose(file);
  return here;
}

static double seconds(void) {
  struct timespec now;
  clock_gettime(CLOCK_PROCESS_CPUTIME_ID, &now);
  return (double)now.tv_sec + (double)now.tv_nsec * 1e-9;
}

static void often(const char *what, int (*is_fine)(void), long rounds) {
  for (long round = 0; round < 1000; round++)
    is_fine();
  size_t before = resident(), used = mallinfo2().uordblks;
  double begun = seconds();
  for (long round = 0; round < rounds; round++)
    if (!is_fine())
      wrong = 1;
  double took = seconds() - begun;
  same("the heap in use", mallinfo2().uordblks, used);
  same("memory grew", resident() > before + 512, 0);
  printf("%ld %s, %.0f a second\n", rounds, what, (double)rounds / took);
}

static void *thread(void *unused) {
  for (int round = 0; round < 10000; round++)
    if (!is_right() || !gives_42())
      return (void *)guest;
  return unused;
}

static void threads(void) {
  pthread_t first, second;
  void *one = NULL, *two = NULL;
  if (pthread_create(&first, NULL, thread, NULL) != 0 || pthread_create(&second, NULL, thread, NULL) != 0)
    return;
  pthread_join(first, &one);
  pthread_join(second, &two);
  same("two threads", one == NULL && two == NULL, 1);
}

int main(int count, char **words) {
  FILE *file = count == 3 ? fopen(words[1], "rb") : NULL;
  if (file == NULL)
    return 2;
  guest_length = fread(guest, 1, sizeof guest, file);
  fclose(file);
  runs();
  typed();
  kinds();
  there_and_back();
  modules();
  bytes();
  sessions();
  bounds();
  limits();
  hostile();
  threads();
  often("runs", is_right, atol(words[2]));
  often("calls", gives_42, atol(words[2]));
  return wrong;
}
