/* Each process waits for a message that nobody sends. */
#include "omlog.h"

int main(void)
{
    unsigned number, from;
    omlog_receive(&number, sizeof number, &from);
    return 0;
}
