/* What bench/deliver.c and bench/deliver_run.c have in common: the grid that is lent, and the survey's lines. */
#ifndef LISTING_H
#define LISTING_H

#include <stdio.h>
#include <stdlib.h>

#include "desk.h"

enum { BLOCK = 1024 };

/* The cells of block 0's sheet; one where it is refused, since a pointer is never NULL. */
static int32_t *lend_grid(const uint8_t *block, size_t length, size_t *cells)
{
    *cells = (size_t)(dem_columns(block, length) * dem_rows(block, length));
    return malloc((*cells ? *cells : 1) * sizeof(int32_t));
}

/* Whether it was a refusal, which is then the whole answer. */
static int print_refusal(uint32_t kind, const uint64_t *answer)
{
    if (kind == 0 || kind == DEM_HELD)
        return 0;
    printf("refused %u %llu %llu\n", (unsigned)kind, (unsigned long long)answer[0], (unsigned long long)answer[1]);
    return 1;
}

static void print_last(const int64_t *session)
{
    uint8_t lines[DEM_REPORT];
    size_t used = dem_report(session, DEM_SESSION, lines, sizeof lines);
    if (used)
        fwrite(lines, 1, used, stdout);
    else
        printf("unfinished %lld\n", (long long)session[DEM_TAKEN]);
}

#endif
