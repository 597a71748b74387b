/* A host that calls a stranger's code: a sum, a trap, and code without end that is stopped. It reads a module from the file
 * that is named, and prints the line of each call. */
#include "mullerpink.h"

#include <stdio.h>

#define WORDS(text) (const uint8_t *)(text), sizeof(text) - 1

static uint8_t module[1 << 16], line[256];

static void show(const char *what, mullerpink_ran ran) {
  if (ran.code == MULLERPINK_DONE)
    printf("%s: %.*s", what, (int)ran.count, (const char *)line);
  else
    printf("%s: code %u\n", what, (unsigned)ran.code);
}

int main(int count, char **words) {
  FILE *file = count == 2 ? fopen(words[1], "rb") : NULL;
  if (file == NULL)
    return 1;
  size_t length = fread(module, 1, sizeof module, file);
  fclose(file);
  show("84 / 2", mullerpink_run(WORDS("div\0" "84\0" "2"), module, length, line, sizeof line));
  show("84 / 0", mullerpink_run(WORDS("div\0" "84\0" "0"), module, length, line, sizeof line));
  show("forever", mullerpink_run(WORDS("--fuel\0" "1000\0" "forever"), module, length, line, sizeof line));
  show("missing", mullerpink_run(WORDS("nothing"), module, length, line, sizeof line));

  mullerpink_value arguments[2] = {{MULLERPINK_I32, 84, 0}, {MULLERPINK_I32, 2, 0}}, result;
  mullerpink_bounds bounds = MULLERPINK_BOUNDS;
  mullerpink_called called = mullerpink_call(module, length, WORDS("div"), arguments, 2, &bounds, &result, 1);
  if (called.code == MULLERPINK_DONE)
    printf("a call: %d\n", (int)(uint32_t)result.low);
  return 0;
}
