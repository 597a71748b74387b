/* Runs one call of a file natively, and prints the line that the command prints:
   gcc -O1 -include hash.c -DCALL='sha256(3, 0)' native.c -o native && ./native */
#include <stdio.h>

#define LINE(value) _Generic((value), long long: "ok values i64:%lld\n", default: "ok values i32:%d\n")

int main(void)
{
    printf(LINE(CALL), CALL);
    return 0;
}
