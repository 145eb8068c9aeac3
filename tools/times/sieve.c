/* A sieve: the primes below SIZE, ROUNDS times. */
#include "omlog.h"

#define SIZE 32768u

#ifndef ROUNDS
#define ROUNDS 300u
#endif

static unsigned char is_composite[SIZE];

static unsigned primes(void)
{
    unsigned count = 0;
    for (unsigned n = 0; n < SIZE; n++)
        is_composite[n] = 0;
    for (unsigned n = 2; n < SIZE; n++) {
        if (is_composite[n])
            continue;
        count++;
        for (unsigned m = n + n; m < SIZE; m += n)
            is_composite[m] = 1;
    }
    return count;
}

int main(void)
{
    unsigned count = 0;
    for (unsigned round = 0; round < ROUNDS; round++)
        count = primes();
    omlog_output(&count, sizeof count);
    return 0;
}
