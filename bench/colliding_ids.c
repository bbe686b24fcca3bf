/* colliding_ids BITS COUNT: prints so many trade ids of eight characters whose hashes end in so many zero bits.
 *
 * The maps of Rattle's std and of its indexmap hash with a seed that is fixed, so whoever writes an input can choose
 * ids that are looked for from the same few places on. Each bit doubles the work of choosing them. */
#include <stdint.h>
#include <stdio.h>
#include <stdlib.h>

static const uint64_t MULTIPLIER = 0x9e3779b97f4a7c15ULL;
static const uint64_t START = 0x243f6a8885a308d3ULL;
static const char *LETTERS = "0123456789ABCDEFGHIJKLMNOPQRSTUVWXYZ";

static uint64_t folded(uint64_t a, uint64_t b)
{
    unsigned __int128 product = (unsigned __int128)a * b;
    return (uint64_t)product ^ (uint64_t)(product >> 64);
}

/* The state after one byte more. */
static uint64_t after(uint64_t state, unsigned char byte)
{
    return folded(state ^ (byte | (uint64_t)byte << 8 | (uint64_t)byte << 16), MULTIPLIER ^ 2);
}

int main(int count, char **words)
{
    if (count != 3) {
        fputs("usage: colliding_ids BITS COUNT\n", stderr);
        return 2;
    }
    uint32_t mask = (uint32_t)((1ULL << atoi(words[1])) - 1);
    long left = atol(words[2]);
    /* The length comes before the bytes. */
    uint64_t first = folded(START ^ 8, MULTIPLIER ^ 16);
    for (uint64_t number = 0; left > 0; number++) {
        char id[9] = {0};
        uint64_t rest = number, state = first;
        for (int place = 0; place < 8; place++, rest /= 36) {
            id[place] = LETTERS[rest % 36];
            state = after(state, (unsigned char)id[place]);
        }
        if (((uint32_t)(state ^ (state >> 32)) & mask) == 0) {
            puts(id);
            left--;
        }
    }
    return 0;
}
