/* A ring: a number goes round ROUNDS times, and each process adds one to it. */
#include "omlog.h"

#ifndef ROUNDS
#define ROUNDS 100000u
#endif

int main(void)
{
    unsigned processes, from, number = 0;
    unsigned own = omlog_who(&processes);
    unsigned next = own + 1 < processes ? own + 1 : 0;
    if (own == 0)
        omlog_send(next, &number, sizeof number);
    for (unsigned round = 0; round < ROUNDS; round++) {
        omlog_receive(&number, sizeof number, &from);
        number++;
        if (own != 0 || round + 1 < ROUNDS)
            omlog_send(next, &number, sizeof number);
    }
    return number & 127;
}
