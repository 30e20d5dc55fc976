/* Plain reading for bench/speed.sh: the bytes of standard input, FETCH a call, and nothing done with them. */
#include <stdio.h>
#include <unistd.h>

#ifndef FETCH
#define FETCH 1024
#endif

int main(void)
{
    static char bytes[FETCH];
    unsigned long calls = 0;
    while (read(0, bytes, sizeof bytes) > 0)
        calls++;
    printf("%lu calls of %lu bytes\n", calls, (unsigned long)sizeof bytes);
    return 0;
}
