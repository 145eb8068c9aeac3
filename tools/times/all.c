/* All to all: in each of ROUNDS rounds each process sends a number to each, itself among them, and takes as many. */
#include "omlog.h"

#ifndef ROUNDS
#define ROUNDS 1562u
#endif

int main(void)
{
    unsigned processes, from, number, sum = 0;
    omlog_who(&processes);
    for (unsigned round = 0; round < ROUNDS; round++) {
        for (unsigned to = 0; to < processes; to++)
            omlog_send(to, &round, sizeof round);
        for (unsigned i = 0; i < processes; i++) {
            omlog_receive(&number, sizeof number, &from);
            sum += number;
        }
    }
    return sum & 127;
}
