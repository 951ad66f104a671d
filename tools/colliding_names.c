/* Names of seven letters that all begin in one group of a table of 16,384 groups: the seed of the hasher is fixed. One a line.
 *
 *     cc -O2 -o colliding_names colliding_names.c && ./colliding_names COUNT
 */
#include <stdint.h>
#include <stdio.h>
#include <stdlib.h>

#define MULTIPLIER 0x9e3779b97f4a7c15ULL
#define SEED 0x243f6a8885a308d3ULL
#define LETTERS 7
#define GROUPS 16384

static uint64_t fold(uint64_t left, uint64_t right)
{
    unsigned __int128 product = (unsigned __int128)left * right;

    return (uint64_t)product ^ (uint64_t)(product >> 64);
}

static char name[LETTERS + 1];
static long wanted;

/* The names that go on from these letters, of which this is the hash; a byte at a time is hashed. */
static void go_on(int place, uint64_t state)
{
    for (char letter = 'A'; letter <= 'Z' && wanted > 0; letter++) {
        uint64_t next = fold(state ^ (uint64_t)letter * 0x10101, MULTIPLIER ^ 2);

        name[place] = letter;
        if (place + 1 < LETTERS)
            go_on(place + 1, next);
        else if (((next ^ next >> 32) & (GROUPS - 1)) == 1) {
            puts(name);
            wanted--;
        }
    }
}

int main(int count, char **words)
{
    wanted = count > 1 ? atol(words[1]) : 0;
    go_on(0, fold(SEED ^ LETTERS, MULTIPLIER ^ 16));
    return 0;
}
