/* A play on a system with a C library. */
#include "sum.h"

#include <stdio.h>

int main(void)
{
    return fputs(play(CALLS), stdout) == EOF;
}
