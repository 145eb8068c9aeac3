/* A mix of instructions: random numbers fill a table, which is sorted, searched and added up by bytes, halfwords and words, ROUNDS times. */
#include "omlog.h"

#define SIZE 1024u

#ifndef ROUNDS
#define ROUNDS 400u
#endif

static unsigned table[SIZE];

static unsigned next_random(unsigned state)
{
    state ^= state << 13;
    state ^= state >> 17;
    state ^= state << 5;
    return state;
}

static void sort(void)
{
    for (unsigned gap = SIZE / 2; gap > 0; gap /= 2)
        for (unsigned i = gap; i < SIZE; i++) {
            unsigned value = table[i], j = i;
            for (; j >= gap && table[j - gap] > value; j -= gap)
                table[j] = table[j - gap];
            table[j] = value;
        }
}

static unsigned place_of(unsigned value)
{
    unsigned low = 0, high = SIZE;
    while (low < high) {
        unsigned middle = (low + high) / 2;
        if (table[middle] < value)
            low = middle + 1;
        else
            high = middle;
    }
    return low;
}

static unsigned sum(void)
{
    const unsigned short *halfwords = (const unsigned short *)table;
    const signed char *bytes = (const signed char *)table;
    unsigned sum = 0;
    for (unsigned i = 0; i < SIZE; i++)
        sum = sum * 5 + table[i] + halfwords[2 * i] - (unsigned)bytes[4 * i + 3];
    return sum;
}

int main(void)
{
    unsigned state = 1, told = 0;
    for (unsigned round = 0; round < ROUNDS; round++) {
        for (unsigned i = 0; i < SIZE; i++)
            table[i] = state = next_random(state);
        sort();
        for (unsigned i = 0; i < SIZE; i++)
            told += place_of(state = next_random(state));
        told ^= sum();
    }
    omlog_output(&told, sizeof told);
    return 0;
}
