/* The desk's call for bench/speed.sh: the sheet on standard input, taken block by block through dem_deliver and listed as the survey lists
   it. Blocks are fetched as bench/survey.c fetches them without FETCH, and as many cells are lent as block 0 asks for, so that only the
   reader differs. */
#include "listing.h"

int main(void)
{
    static uint8_t block[BLOCK];
    static int64_t session[DEM_SESSION];
    uint64_t answer[2] = {0, 0};
    int32_t *grid = NULL;
    size_t cells = 0, got;
    dem_open(DEM_USGS, session, DEM_SESSION);
    for (uint32_t number = 0; (got = fread(block, 1, BLOCK, stdin)) > 0; number++) {
        if (number == 0 && !(grid = lend_grid(block, got, &cells)))
            return 1;
        if (print_refusal(dem_deliver(session, DEM_SESSION, number, block, got, grid, cells, answer, 2), answer)) {
            free(grid);
            return 0;
        }
    }
    print_last(session);
    free(grid);
    return 0;
}
