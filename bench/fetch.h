/* Fetching for bench/speed.sh, the same for every C program there: FETCH bytes a read(2), whole blocks. Fewer come only at the end, so that no
   block is torn where a pipe hands over less than was asked for. */
#ifndef FETCH_H
#define FETCH_H

#include <stddef.h>
#include <unistd.h>

static size_t fetch(unsigned char *bytes)
{
    size_t got = 0;
    ssize_t n;
    while (got < FETCH && (n = read(0, bytes + got, FETCH - got)) > 0)
        got += (size_t)n;
    return got;
}

#endif
