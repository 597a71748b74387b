/* SHA-256 of so many letters of the alphabet, which begins anew behind its end: 3 are "abc". */
#include "export.h"

static const u32 ROUNDS[64] = {
    0x428a2f98, 0x71374491, 0xb5c0fbcf, 0xe9b5dba5, 0x3956c25b, 0x59f111f1, 0x923f82a4, 0xab1c5ed5,
    0xd807aa98, 0x12835b01, 0x243185be, 0x550c7dc3, 0x72be5d74, 0x80deb1fe, 0x9bdc06a7, 0xc19bf174,
    0xe49b69c1, 0xefbe4786, 0x0fc19dc6, 0x240ca1cc, 0x2de92c6f, 0x4a7484aa, 0x5cb0a9dc, 0x76f988da,
    0x983e5152, 0xa831c66d, 0xb00327c8, 0xbf597fc7, 0xc6e00bf3, 0xd5a79147, 0x06ca6351, 0x14292967,
    0x27b70a85, 0x2e1b2138, 0x4d2c6dfc, 0x53380d13, 0x650a7354, 0x766a0abb, 0x81c2c92e, 0x92722c85,
    0xa2bfe8a1, 0xa81a664b, 0xc24b8b70, 0xc76c51a3, 0xd192e819, 0xd6990624, 0xf40e3585, 0x106aa070,
    0x19a4c116, 0x1e376c08, 0x2748774c, 0x34b0bcb5, 0x391c0cb3, 0x4ed8aa4a, 0x5b9cca4f, 0x682e6ff3,
    0x748f82ee, 0x78a5636f, 0x84c87814, 0x8cc70208, 0x90befffa, 0xa4506ceb, 0xbef9a3f7, 0xc67178f2,
};

static u32 state[8];

static u32 turned(u32 word, int by)
{
    return word >> by | word << (32 - by);
}

/* Takes one block of 64 bytes into the state. */
static void take(const u8 *block)
{
    u32 words[64], held[8];
    for (int n = 0; n < 16; n++)
        words[n] = (u32)block[4 * n] << 24 | block[4 * n + 1] << 16 | block[4 * n + 2] << 8 | block[4 * n + 3];
    for (int n = 16; n < 64; n++) {
        u32 low = words[n - 15], high = words[n - 2];
        words[n] = words[n - 16] + (turned(low, 7) ^ turned(low, 18) ^ low >> 3) + words[n - 7]
                 + (turned(high, 17) ^ turned(high, 19) ^ high >> 10);
    }
    for (int n = 0; n < 8; n++)
        held[n] = state[n];
    for (int n = 0; n < 64; n++) {
        u32 a = held[0], e = held[4];
        u32 first = held[7] + (turned(e, 6) ^ turned(e, 11) ^ turned(e, 25)) + ((e & held[5]) ^ (~e & held[6]))
                  + ROUNDS[n] + words[n];
        u32 second = (turned(a, 2) ^ turned(a, 13) ^ turned(a, 22))
                   + ((a & held[1]) ^ (a & held[2]) ^ (held[1] & held[2]));
        for (int place = 7; place > 0; place--)
            held[place] = held[place - 1];
        held[4] += first;
        held[0] = first + second;
    }
    for (int n = 0; n < 8; n++)
        state[n] += held[n];
}

/* The byte at this place of the message with what is put behind it: 80, zeros, and its length in bits at the end. */
static u8 padded(u32 place, u32 length, u32 end)
{
    if (place < length)
        return 'a' + place % 26;
    if (place == length)
        return 0x80;
    return place + 8 < end ? 0 : (u8)((u64)length * 8 >> 8 * (end - 1 - place));
}

/* One of the eight words of the hash. */
EXPORT(sha256)
int sha256(u32 length, u32 word)
{
    static const u32 first[8] = {
        0x6a09e667, 0xbb67ae85, 0x3c6ef372, 0xa54ff53a, 0x510e527f, 0x9b05688c, 0x1f83d9ab, 0x5be0cd19,
    };
    u32 end = (length + 8) / 64 * 64 + 64;
    for (int n = 0; n < 8; n++)
        state[n] = first[n];
    for (u32 at = 0; at < end; at += 64) {
        u8 block[64];
        for (u32 n = 0; n < 64; n++)
            block[n] = padded(at + n, length, end);
        take(block);
    }
    return (int)state[word & 7];
}
