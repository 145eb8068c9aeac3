/* CRC-32, bit by bit, of SIZE bytes, ROUNDS times. */
#include "omlog.h"

#define SIZE 4096u

#ifndef ROUNDS
#define ROUNDS 1000u
#endif

static unsigned char bytes[SIZE];

static unsigned checksum(unsigned sum)
{
    sum = ~sum;
    for (unsigned i = 0; i < SIZE; i++) {
        sum ^= bytes[i];
        for (unsigned bit = 0; bit < 8; bit++)
            sum = (sum >> 1) ^ (0xEDB88320u & -(sum & 1));
    }
    return ~sum;
}

int main(void)
{
    unsigned sum = 0;
    for (unsigned i = 0; i < SIZE; i++)
        bytes[i] = i * 7;
    for (unsigned round = 0; round < ROUNDS; round++)
        sum = checksum(sum);
    omlog_output(&sum, sizeof sum);
    return 0;
}
