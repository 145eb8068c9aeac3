/* Process 0 computes for ROUNDS rounds of four instructions. The others wait for its word. */
#include "omlog.h"

#ifndef ROUNDS
#define ROUNDS 200000000u
#endif

int main(void)
{
    unsigned processes, from, number = 1;
    unsigned own = omlog_who(&processes);
    if (own != 0) {
        omlog_receive(&number, sizeof number, &from);
        return 0;
    }
    for (unsigned round = 0; round < ROUNDS; round++)
        __asm__ volatile("slli %0, %0, 1\n\taddi %0, %0, 1" : "+r"(number));
    for (unsigned to = 1; to < processes; to++)
        omlog_send(to, &number, sizeof number);
    return 0;
}
