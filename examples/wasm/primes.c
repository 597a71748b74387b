/* Primes among numbers of 64 bits, by a test that is sure for all of them (Miller and Rabin, with these bases). */
#include "export.h"

static u64 added(u64 one, u64 other, u64 modulus)
{
    return one >= modulus - other ? one - (modulus - other) : one + other;
}

/* The product modulo a number, by sums: 128 bits are not at hand. */
static u64 product(u64 one, u64 other, u64 modulus)
{
    u64 out = 0;
    for (; other; other >>= 1) {
        if (other & 1)
            out = added(out, one, modulus);
        one = added(one, one, modulus);
    }
    return out;
}

static u64 power(u64 base, u64 exponent, u64 modulus)
{
    u64 out = 1;
    for (; exponent; exponent >>= 1) {
        if (exponent & 1)
            out = product(out, base, modulus);
        base = product(base, base, modulus);
    }
    return out;
}

/* Whether this base shows that the number is no product; the number is odd and larger than the base. */
static int passes(u64 number, u64 base)
{
    int twos = __builtin_ctzll(number - 1);
    u64 found = power(base, (number - 1) >> twos, number);
    if (found == 1 || found == number - 1)
        return 1;
    while (--twos > 0) {
        found = product(found, found, number);
        if (found == number - 1)
            return 1;
    }
    return 0;
}

EXPORT(is_prime)
int is_prime(u64 number)
{
    static const u8 bases[] = {2, 3, 5, 7, 11, 13, 17, 19, 23, 29, 31, 37};
    if (number < 2)
        return 0;
    for (u32 n = 0; n < sizeof bases; n++)
        if (number % bases[n] == 0)
            return number == bases[n];
    for (u32 n = 0; n < sizeof bases; n++)
        if (!passes(number, bases[n]))
            return 0;
    return 1;
}

/* The first prime past a number, or 0 where 64 bits do not hold it. */
EXPORT(next_prime)
long long next_prime(u64 number)
{
    while (++number && !is_prime(number))
        ;
    return (long long)number;
}
