// Prints so many ids that a table hashed with both keys 0 would put into one place: the halves of their hashes,
// added without carry, have their low 18 bits, the place among 2^18, below 128. About one number in 2048 is such an id.
#include <stdint.h>
#include <stdio.h>
#include <stdlib.h>

static uint64_t turned(uint64_t x, int bits) {
    return x << bits | x >> (64 - bits);
}

static void sip_round(uint64_t v[4]) {
    v[0] += v[1];
    v[1] = turned(v[1], 13) ^ v[0];
    v[0] = turned(v[0], 32);
    v[2] += v[3];
    v[3] = turned(v[3], 16) ^ v[2];
    v[0] += v[3];
    v[3] = turned(v[3], 21) ^ v[0];
    v[2] += v[1];
    v[1] = turned(v[1], 17) ^ v[2];
    v[2] = turned(v[2], 32);
}

// SipHash-1-3 with both keys 0 of a number in four bytes.
static uint64_t sip(uint32_t number) {
    uint64_t v[4] = {0x736f6d6570736575, 0x646f72616e646f6d, 0x6c7967656e657261, 0x7465646279746573};
    uint64_t block = (uint64_t)4 << 56 | number;
    v[3] ^= block;
    sip_round(v);
    v[0] ^= block;
    v[2] ^= 0xff;
    for (int i = 0; i < 3; i++)
        sip_round(v);
    return v[0] ^ v[1] ^ v[2] ^ v[3];
}

int main(int count, char **words) {
    long wanted = count == 2 ? atol(words[1]) : 0;
    for (uint32_t number = 1; wanted > 0 && number < (uint32_t)1 << 31; number++) {
        uint64_t value = sip(number);
        if (((value ^ value >> 32) & 0x3ffff) < 128) {
            printf("%u\n", number);
            wanted--;
        }
    }
    return wanted != 0;
}
