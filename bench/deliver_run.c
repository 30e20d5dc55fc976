/* The desk's call for runs, for bench/speed.sh: as bench/deliver.c, but FETCH bytes a read (-DFETCH=65536), and the whole blocks among them
   through one dem_deliver_run. What is left at the end and is no whole block goes through dem_deliver. */
#include "fetch.h"
#include "listing.h"

/* What one read brought; whether it was refused, and said so. */
static int is_refused(int64_t *session, uint32_t number, const uint8_t *bytes, size_t got, int32_t *grid, size_t cells)
{
    uint64_t answer[3] = {0, 0, 0};
    size_t rest = got % BLOCK, whole = got - rest;
    if (print_refusal(dem_deliver_run(session, DEM_SESSION, number, bytes, whole, grid, cells, answer, 3), answer))
        return 1;
    if (rest == 0)
        return 0;
    number += (uint32_t)(whole / BLOCK);
    return print_refusal(dem_deliver(session, DEM_SESSION, number, bytes + whole, rest, grid, cells, answer, 2), answer);
}

int main(void)
{
    static uint8_t bytes[FETCH];
    static int64_t session[DEM_SESSION];
    int32_t *grid = NULL;
    size_t cells = 0, got;
    dem_open(DEM_USGS, session, DEM_SESSION);
    for (uint32_t number = 0; (got = fetch(bytes)) > 0; number += FETCH / BLOCK) {
        if (number == 0 && !(grid = lend_grid(bytes, got < BLOCK ? got : BLOCK, &cells)))
            return 1;
        if (is_refused(session, number, bytes, got, grid, cells)) {
            free(grid);
            return 0;
        }
    }
    print_last(session);
    free(grid);
    return 0;
}
