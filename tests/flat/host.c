/* The program on the host. */
#include <stdio.h>
#include "flat.h"

extern void program(void);

void put(int byte) { putchar(byte); }

int main(void)
{
    program();
    return 0;
}
