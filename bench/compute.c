/* Mixes a table of 256 words with itself, ROUNDS times over: loads, stores, shifts, sums and branches. */
#include "oscar.h"

#ifndef ROUNDS
#define ROUNDS 10000
#endif
#define WORDS 256

static uint64_t table[WORDS];

int main(void)
{
    uint64_t sum = 1;
    for (int i = 0; i < WORDS; i++)
        table[i] = i;
    for (int round = 0; round < ROUNDS; round++)
        for (int i = 0; i < WORDS; i++) {
            uint64_t word = table[i] + (sum << 5);
            sum ^= word >> 3;
            if (sum & 1)
                sum += word;
            table[i] = word;
        }
    print_number(sum);
    print("\n");
    return 0;
}
