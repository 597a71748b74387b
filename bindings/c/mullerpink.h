/* Mullerpink for C and C++: an interpreter of WebAssembly's integer part, whose code is proved.
 *
 * Each call stands alone: it keeps nothing behind it, and what it took of the heap it gave back. The heap is `malloc`,
 * `realloc` and `free` of the program. What the library is given stays the caller's.
 *
 * What the caller owes, in each call:
 *   - a pointer is never NULL, and points to as many items as the length behind it says, also where that is 0;
 *   - what is written to, `out` and `results`, overlaps nothing else that the call is given;
 *   - no call is made from a signal handler, or from the forked child of a process with threads.
 * All else, as any number, text or length, is answered by a code. Calls from several threads at once are fine.
 *
 * A program is linked as `cc main.c libmullerpink.a` or `cc main.c -lmullerpink`; nothing else is needed beside the C
 * library. */
#ifndef MULLERPINK_H
#define MULLERPINK_H

#include <stddef.h>
#include <stdint.h>

#ifdef __cplusplus
extern "C" {
#endif

/* How a call ended, where the same cause has the same code in each. Those up to 10 are the exit statuses of the programs. */
enum mullerpink_code {
  MULLERPINK_DONE = 0,
  /* The words ask for no call; of a typed call: its turns are 0, or more than 1,000,000,000. */
  MULLERPINK_BAD_WORDS = 2,
  MULLERPINK_BAD_BOUNDS = 2,
  /* The module, or the script, has more than 2^24 bytes; or a call is given 2^32 bytes or more. */
  MULLERPINK_TOO_LONG = 4,
  /* The bytes are no module that is read here; of a session: the script is no JSON. */
  MULLERPINK_BAD_MODULE = 5,
  MULLERPINK_BAD_JSON = 5,
  /* The module exports no function of the name; of a session: the JSON is no script. */
  MULLERPINK_NO_FUNCTION = 6,
  MULLERPINK_BAD_SCRIPT = 6,
  /* A module breaks a rule of validation. */
  MULLERPINK_INVALID_MODULE = 7,
  /* Memory ran out, before the call or in it. */
  MULLERPINK_OUT_OF_MEMORY = 8,
  /* There is no room for what is to be written. */
  MULLERPINK_NO_ROOM = 9,
  /* The arguments are not one integer for each parameter; of a typed call: not one value of its type for each;
   * where the call is given bytes, for each but the last two. */
  MULLERPINK_BAD_ARGUMENTS = 10,
  /* The words, or the name, are no UTF-8. */
  MULLERPINK_NO_TEXT = 11,
  /* The call is given bytes, and the module, or the function, takes none. */
  MULLERPINK_TAKES_NO_BYTES = 13,
  /* Of a typed call: it ended in a trap, which the cause names; it was refused, which the cause names; an argument has a kind
   * that there is not, or a bit that its kind has not. A run writes a line where these two come. */
  MULLERPINK_TRAP = 14,
  MULLERPINK_REFUSED = 15,
  MULLERPINK_BAD_VALUE = 16
};

/* The cause where the code is MULLERPINK_TRAP. */
enum mullerpink_trap {
  MULLERPINK_MEMORY_OUT_OF_BOUNDS = 1,
  MULLERPINK_TABLE_OUT_OF_BOUNDS = 2,
  MULLERPINK_INDIRECT_CALL_TO_NULL = 3,
  MULLERPINK_BAD_SIGNATURE = 4,
  MULLERPINK_INTEGER_DIVISION_BY_ZERO = 5,
  MULLERPINK_INTEGER_OVERFLOW = 6,
  MULLERPINK_UNREACHABLE_CODE_REACHED = 7,
  /* More than 1,024 functions are open at once. */
  MULLERPINK_STACK_OVERFLOW = 8,
  MULLERPINK_OUT_OF_FUEL = 9
};

/* The cause where the code is MULLERPINK_REFUSED: those that a typed call meets. The numbers up to 23 that are left out are
 * those of refusals of sessions. */
enum mullerpink_refusal {
  /* The module has imports, and there are none to give it. */
  MULLERPINK_IMPORT_COUNT = 7,
  /* It has more memories, or tables, than the 10,000 that a store may have. */
  MULLERPINK_RESOURCE_LIMIT = 12,
  /* Where it is given bytes: what `alloc`, or the function, answered stands for bytes past the end of the memory. */
  MULLERPINK_MEMORY_ACCESS_ERROR = 13,
  /* Its memories and tables begin with more pages, or elements, than the bounds leave. */
  MULLERPINK_GROW_FAILED = 14,
  /* The start function, or the call, made as many turns as the bounds allow. */
  MULLERPINK_TURN_LIMIT = 21
};

/* How a run or a session ended, and how many bytes it wrote. */
typedef struct {
  uint32_t code;
  size_t count;
} mullerpink_ran;

/* Runs a call whose arguments are words, and writes a line.
 *
 * It reads a module in the binary format, makes an instance of it without imports, calls one of its exports, and writes the
 * line of the reply to the front of `out`, as the program `mullerpink_run` prints it: `ok values i32:42` and a line feed,
 * or `refused` and the cause. What stands behind the line stays.
 *
 * `words`: options, the name of the export, and its arguments in decimal, with a byte 0 between two of them and none behind
 * the last: "--turns\0" "1000\0" "add\0" "2\0" "40". `--fuel N` gives so much fuel; `--turns N`, `--pages N` and
 * `--elements N` bound the instructions, the pages of all memories and the elements of all tables. With `--in N` the first N
 * bytes at `module` are given to the call, and the module stands behind them.
 *
 * Codes: 0, 2, 4 to 11 and 13. With 9 a front of the line was written, with each other but 0 nothing. */
mullerpink_ran mullerpink_run(const uint8_t *words, size_t words_len,
                              const uint8_t *module, size_t module_len,
                              uint8_t *out, size_t out_len);

/* A value: its kind, and its bits. An integer of 32 bits has those of the low half of `low`, and is no less than 0 there: -1 is
 * 4294967295. Kinds:
 *   0 i32, 1 i64, 2 f32, 3 f64   the bits in `low`, and `high` is 0
 *   4 v128                       the lower 64 bits in `low`, the others in `high`
 *   5 funcref, 6 externref, 7 anyref   of an argument both are 0, which is null; of a result `low` is 0 for null and else 1,
 *                                since what a reference leads to is gone behind the call */
typedef struct {
  uint32_t kind;
  uint64_t low, high;
} mullerpink_value;

enum mullerpink_kind {
  MULLERPINK_I32 = 0,
  MULLERPINK_I64 = 1,
  MULLERPINK_F32 = 2,
  MULLERPINK_F64 = 3,
  MULLERPINK_V128 = 4,
  MULLERPINK_FUNCREF = 5,
  MULLERPINK_EXTERNREF = 6,
  MULLERPINK_ANYREF = 7
};

/* What bounds a typed call. Where `has_fuel` is 0 code consumes none, and `fuel` is not looked at; else there is so much, of
 * which an instruction consumes 1, and a bulk one 1 more for each byte or element. `turns`, from 1 to 1,000,000,000, bounds the instructions of the start function, and then
 * those of the call; `pages`, of 65,536 bytes, all memories together; `elements` all tables together. */
typedef struct {
  uint32_t has_fuel, pages, elements;
  uint64_t fuel, turns;
} mullerpink_bounds;

/* The bounds that a run has where its words say nothing. */
#define MULLERPINK_BOUNDS {0, 16384, 10000000, 0, 1000000000}

/* How a typed call ended: its code, its cause where that is MULLERPINK_TRAP or MULLERPINK_REFUSED and else 0, and how many
 * results, or bytes, there are, which is 0 with each code but MULLERPINK_DONE and MULLERPINK_NO_ROOM. */
typedef struct {
  uint32_t code, cause;
  size_t count;
} mullerpink_called;

/* Reads a module in the binary format, makes an instance of it without imports, calls the function that it exports under
 * `name` with these arguments, and writes its results to the front of `results`. What stands behind them stays.
 *
 * Codes: 0, 2, 4 to 11 and 14 to 16. With each but 0 nothing is written. With 9 the call was made, and `count` says how many
 * results it has: the same call with as much room gives them. Where several causes hold, the first of 11, 16, 2, 4, 5, 7, 6
 * and 10 is told; of these nothing was run. */
mullerpink_called mullerpink_call(const uint8_t *module, size_t module_len,
                                  const uint8_t *name, size_t name_len,
                                  const mullerpink_value *arguments, size_t arguments_len,
                                  const mullerpink_bounds *bounds,
                                  mullerpink_value *results, size_t results_len);

/* The same of a function that is given bytes, and answers some, which are written to the front of `out`. The module exports a
 * memory `memory` and a function `alloc` of a length to a pointer: the bytes are written to where that says, and pointer and
 * length stand behind the arguments. The function answers a length, and the bytes from the pointer on are its answer; or one
 * integer of 64 bits, the pointer in its high half and the length in its low one.
 *
 * Codes: those of mullerpink_call, and 13, which is told before 10. With 9 `count` says how many bytes there are. */
mullerpink_called mullerpink_call_bytes(const uint8_t *module, size_t module_len,
                                        const uint8_t *name, size_t name_len,
                                        const mullerpink_value *arguments, size_t arguments_len,
                                        const mullerpink_bounds *bounds,
                                        const uint8_t *bytes, size_t bytes_len,
                                        uint8_t *out, size_t out_len);

/* Runs the script of a session, and writes its lines to the front of `out`, as the program `mullerpink` prints them. What
 * stands behind them stays.
 *
 * Codes: 0, 4 to 9. With 8 and 9 a front of the lines was written, with each other but 0 nothing. */
mullerpink_ran mullerpink_session(const uint8_t *script, size_t script_len,
                                  uint8_t *out, size_t out_len);

#ifdef __cplusplus
}
#endif

#endif
