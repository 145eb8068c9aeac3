/* All to one: each process but process 0 sends ROUNDS numbers to it. */
#include "omlog.h"

#ifndef ROUNDS
#define ROUNDS 2000u
#endif

int main(void)
{
    unsigned processes, from, number, sum = 0;
    if (omlog_who(&processes) == 0) {
        for (unsigned i = 0; i < ROUNDS * (processes - 1); i++) {
            omlog_receive(&number, sizeof number, &from);
            sum += number;
        }
    } else {
        for (number = 0; number < ROUNDS; number++)
            omlog_send(0, &number, sizeof number);
    }
    return sum & 127;
}
