/* A sheet taken, looked at, sent out and read back through the C calls.
 *   desk SHEET   SHEET is the paper's own, samples/paper.dem: document 01, "The lister, and one sheet"
 * What is expected is written here from document 01. Ends with status 1 if one thing is otherwise. */
#include <inttypes.h>
#include <stdio.h>
#include <stdlib.h>
#include <string.h>

#include "desk.h"

enum { BLOCK = 1024, BLOCKS = 3, COLUMNS = 2, ROWS = 3, CELLS = COLUMNS * ROWS, ROOM = 3 };
#define UNIT INT64_C(1000000000) /* reals are kept in billionths */

static const int32_t cells_of_the_paper[CELLS] = {1000, DEM_VOID, 1200, DEM_VOID, 1100, 900};
static const char lines_of_the_paper[] = "sheet 3 2 30 30 1.00\nposts 5 void 1\nrange 9.00 12.00\nend 3\n";

static int wrong;

static void expect(int good, const char *what)
{
    printf("  %s%s\n", what, good ? "" : "  WRONG");
    wrong += !good;
}

/* Each slice that is lent stands on the heap for itself, so that a checker of memory sees a step past its end. */
static void *lent(size_t count, size_t size)
{
    void *slice = calloc(count, size);
    if (!slice)
        exit(2);
    return slice;
}

/* A session and a grid, each with one number behind it that no call may touch, and an answer with a third one. */
struct desk {
    int64_t *session;
    int32_t *grid;
    uint64_t *answer;
};

static struct desk open_desk(void)
{
    struct desk desk = {lent(DEM_SESSION + 1, sizeof(int64_t)), lent(CELLS + 1, sizeof(int32_t)), lent(ROOM, sizeof(uint64_t))};
    desk.session[DEM_SESSION] = 7;
    for (int i = 0; i <= CELLS; i++)
        desk.grid[i] = 7;
    expect(dem_open(DEM_USGS, desk.session, DEM_SESSION - 1) == 12, "a session of too few numbers is not opened: 12");
    expect(dem_open(DEM_USGS, desk.session, DEM_SESSION) == 0, "opened");
    return desk;
}

static void close_desk(struct desk desk)
{
    free(desk.session);
    free(desk.grid);
    free(desk.answer);
}

/* Delivers a block and holds result and answer against what document 01 says. */
static void deliver(struct desk desk, uint32_t number, const uint8_t *block, size_t length, uint32_t kind, uint64_t at, uint64_t byte)
{
    char what[80];
    desk.answer[0] = desk.answer[1] = 99;
    desk.answer[2] = 7;
    uint32_t found = dem_deliver(desk.session, DEM_SESSION + 1, number, block, length, desk.grid, CELLS + 1, desk.answer, ROOM);
    if (found == 0 || found == DEM_HELD)
        snprintf(what, sizeof what, "block %" PRIu32 ": %s", number, found ? "held" : "taken");
    else
        snprintf(what, sizeof what, "block %" PRIu32 ": refused %" PRIu32 " %" PRIu64 " %" PRIu64, number, found, desk.answer[0],
                 desk.answer[1]);
    expect(found == kind && desk.answer[0] == at && desk.answer[1] == byte && desk.answer[2] == 7, what);
}

static int same_cells(const int32_t *grid)
{
    return memcmp(grid, cells_of_the_paper, sizeof cells_of_the_paper) == 0 && grid[CELLS] == 7;
}

/* All of the session's numbers. The paper does not say its level: that is the block's own. */
static int same_session(const int64_t *session, const uint8_t *record_a)
{
    const int64_t numbers[DEM_SESSION] = {
        dem_integer_value(record_a + 144, 6), 1, 17, 2, 2,                                              /* level, system, zone, units */
        600 * UNIT, 900 * UNIT, 600 * UNIT, 960 * UNIT, 630 * UNIT, 960 * UNIT, 630 * UNIT, 900 * UNIT, /* corners */
        9 * UNIT, 12 * UNIT, 0, 30 * UNIT, 30 * UNIT, 1 * UNIT, 2, /* extremes, accuracy, spacings, profiles */
        3, 2, 5, 4, 900, 1200, 0, 0,                               /* taken, closed, posts, filled, low, high, column, finished */
        0, 0, 0, 0, 0, 0, 0, 0, 0,                                 /* no open profile */
        1000 + 1200 + 1100 + 900, DEM_USGS,                        /* sum, family */
    };
    return memcmp(session, numbers, sizeof numbers) == 0 && session[DEM_SESSION] == 7;
}

/* The mean level, made by the desk itself: in hundredths, and cut towards zero, for how it is rounded is the desk's own affair. Where
 * nothing is filled there is none, which is no fault of the session. */
static int has_mean(const int64_t *session, int64_t *mean)
{
    if (session[DEM_FILLED] == 0)
        return 0;
    *mean = session[DEM_SUM] / session[DEM_FILLED];
    return 1;
}

/* What the desk shows after a block, without a walk over the grid. The paper's ground is above zero, so no sign is to be written. */
static void show_mean(const int64_t *session, int64_t filled, int64_t sum, int64_t mean)
{
    char what[80];
    int64_t found = 0;
    int good = has_mean(session, &found) && found == mean && session[DEM_FILLED] == filled && session[DEM_SUM] == sum;
    snprintf(what, sizeof what, "mean level %" PRId64 ".%02" PRId64 " of %" PRId64 " cells", found / 100, found % 100, session[DEM_FILLED]);
    expect(good, what);
}

static int same_report(const int64_t *session)
{
    uint8_t *out = lent(DEM_REPORT, 1);
    size_t length = sizeof lines_of_the_paper - 1;
    int good = dem_report(session, DEM_SESSION, out, length - 1) == 0 && out[0] == 0;
    good = good && dem_report(session, DEM_SESSION, out, DEM_REPORT) == length && memcmp(out, lines_of_the_paper, length) == 0;
    printf("%.*s", (int)length, (const char *)out);
    free(out);
    return good;
}

/* A poor line: one block early, one cut, one damaged, one twice, one too many. */
static void take(struct desk desk, uint8_t *blocks[BLOCKS])
{
    deliver(desk, 1, blocks[1], BLOCK, 3, 1, 0);
    expect(dem_is_sound(desk.session, DEM_SESSION) == 1 && dem_is_complete(desk.session, DEM_SESSION) == 0, "fresh: sound, not complete");
    expect(dem_columns(blocks[0], BLOCK) == COLUMNS && dem_rows(blocks[0], BLOCK) == ROWS, "2 columns, 3 rows");
    expect(dem_columns(blocks[1], BLOCK) == 0 && dem_rows(blocks[0], BLOCK - 1) == 0, "none where it is no record A");
    deliver(desk, 0, blocks[0], BLOCK - 1, 1, 0, 0);
    expect(desk.grid[0] == 7 && desk.grid[CELLS] == 7, "the grid is as it was lent");
    deliver(desk, 0, blocks[0], BLOCK, 0, 0, 0);
    expect(desk.grid[0] == DEM_VOID && desk.grid[CELLS - 1] == DEM_VOID && desk.grid[CELLS] == 7, "the sheet's cells are void, and no more");
    int64_t mean;
    expect(!has_mean(desk.session, &mean) && desk.session[DEM_SUM] == 0, "no mean yet");
    uint8_t kept = blocks[1][149];
    blocks[1][149] = '\t'; /* the last byte of the first post */
    deliver(desk, 1, blocks[1], BLOCK, 6, 1, 150);
    blocks[1][149] = kept;
    deliver(desk, 1, blocks[1], BLOCK, 0, 0, 0);
    show_mean(desk.session, 2, 1000 + 1200, 1100);
    deliver(desk, 1, blocks[1], BLOCK, DEM_HELD, 0, 0);
    show_mean(desk.session, 2, 1000 + 1200, 1100);
    expect(dem_is_complete(desk.session, DEM_SESSION) == 0, "not complete");
    deliver(desk, 2, blocks[2], BLOCK, 0, 0, 0);
    show_mean(desk.session, 4, 4200, 1050);
    deliver(desk, 3, blocks[2], BLOCK, 4, 3, 0);
    expect(dem_is_sound(desk.session, DEM_SESSION) == 1 && dem_is_complete(desk.session, DEM_SESSION) == 1, "sound and complete");
}

/* A number where the session keeps an unsigned one must not be negative, and no sum is further from zero than its cells can bring it. */
static void unsound(struct desk desk, const uint8_t *block)
{
    int64_t sum = desk.session[DEM_SUM], furthest = desk.session[DEM_FILLED] * 4276700;
    desk.session[DEM_SUM] = -furthest;
    expect(dem_is_sound(desk.session, DEM_SESSION) == 1, "a sum as far below zero as four cells go: sound");
    desk.session[DEM_SUM] = furthest + 1;
    expect(dem_is_sound(desk.session, DEM_SESSION) == 0, "one that goes too far: unsound");
    desk.session[DEM_SUM] = INT64_MIN;
    expect(dem_is_sound(desk.session, DEM_SESSION) == 0, "and so is the least number there is");
    desk.session[DEM_SUM] = sum;
    int64_t taken = desk.session[DEM_TAKEN];
    desk.session[DEM_TAKEN] = -1;
    expect(dem_is_sound(desk.session, DEM_SESSION) == 0 && dem_is_complete(desk.session, DEM_SESSION) == 0, "taken -1: unsound");
    deliver(desk, 0, block, BLOCK, 2, 0, 0);
    expect(desk.session[DEM_TAKEN] == -1, "and left as it was");
    desk.session[DEM_TAKEN] = taken;
}

/* A family that nobody knows can be opened, but nothing can be delivered to it; nor is a sheet sound under a family that it was not begun
 * with, unless it obeys that one too. */
static void other_families(struct desk desk, const uint8_t *block)
{
    static const int64_t unknown[] = {-1, 2, 255, INT64_C(1) << 32};
    for (size_t i = 0; i < sizeof unknown / sizeof *unknown; i++) {
        desk.session[DEM_FAMILY] = unknown[i];
        expect(dem_is_sound(desk.session, DEM_SESSION) == 0, "a family that is none: unsound");
    }
    desk.session[DEM_FAMILY] = DEM_CANADIAN;
    expect(dem_is_sound(desk.session, DEM_SESSION) == 0, "a UTM sheet is no Canadian one: unsound");
    desk.session[DEM_FAMILY] = DEM_USGS;
    expect(dem_is_sound(desk.session, DEM_SESSION) == 1, "with its own family: sound");
    struct desk other = open_desk();
    expect(dem_open(2, other.session, DEM_SESSION) == 0 && other.session[DEM_FAMILY] == 2, "family 2 is opened");
    deliver(other, 0, block, BLOCK, 2, 0, 0);
    expect(dem_open(DEM_CANADIAN, other.session, DEM_SESSION) == 0 && dem_is_sound(other.session, DEM_SESSION) == 1, "family 1 is opened");
    deliver(other, 0, block, BLOCK, 6, 0, 113); /* no corner in degrees: all blank, so the last byte */
    close_desk(other);
}

/* Block by block, and all at once: the same bytes. */
static uint8_t *send(const uint8_t *record_a, const int32_t *grid)
{
    uint64_t *answer = lent(1, sizeof *answer);
    uint8_t *sheet = lent(BLOCKS, BLOCK), *block = lent(BLOCK, 1);
    expect(dem_block_count(record_a, BLOCK, grid, CELLS) == BLOCKS, "3 blocks to send");
    expect(dem_block_count(record_a, BLOCK, grid, CELLS - 1) == 0, "none from a grid too short");
    expect(dem_write_sheet(record_a, BLOCK, grid, CELLS, sheet, BLOCKS * BLOCK - 1, answer, 1) == 1 && *answer == 0 && sheet[0] == 0,
           "a sheet into a byte too few: 1 with 0, nothing written");
    expect(dem_write_sheet(record_a, BLOCK, grid, CELLS, sheet, BLOCKS * BLOCK, answer, 1) == 0, "the sheet is written");
    for (uint32_t number = 0; number < BLOCKS; number++)
        expect(dem_write_block(record_a, BLOCK, grid, CELLS, number, block, BLOCK, answer, 1) == 0
                   && memcmp(block, sheet + BLOCK * number, BLOCK) == 0,
               "a block is written, and is the sheet's");
    expect(dem_write_block(record_a, BLOCK, grid, CELLS, BLOCKS, block, BLOCK, answer, 1) == 14 && *answer == BLOCKS,
           "no block 3: 14, and how many there are");
    expect(dem_write_block(record_a, BLOCK - 1, grid, CELLS, 0, block, BLOCK, answer, 1) == 1 && *answer == 1, "a template cut: 1 with 1");
    free(block);
    free(answer);
    return sheet;
}

static void read_back(const uint8_t *sheet)
{
    struct desk desk = open_desk();
    for (uint32_t number = 0; number < BLOCKS; number++)
        deliver(desk, number, sheet + BLOCK * number, BLOCK, 0, 0, 0);
    expect(dem_is_complete(desk.session, DEM_SESSION) == 1 && same_cells(desk.grid), "complete, and the cells are those that were sent");
    close_desk(desk);
}

int main(int argc, char **argv)
{
    uint8_t *blocks[BLOCKS];
    FILE *file = argc == 2 ? fopen(argv[1], "rb") : NULL;
    for (int i = 0; i < BLOCKS; i++) {
        blocks[i] = lent(BLOCK, 1);
        if (!file || fread(blocks[i], 1, BLOCK, file) != BLOCK) {
            fprintf(stderr, "usage: desk SHEET, of three blocks\n");
            return 2;
        }
    }
    fclose(file);
    puts("taking the sheet");
    struct desk desk = open_desk();
    take(desk, blocks);
    expect(same_session(desk.session, blocks[0]), "the session's numbers are the paper's");
    expect(same_cells(desk.grid), "the cells are the paper's");
    expect(same_report(desk.session), "and so are the lines");
    unsound(desk, blocks[0]);
    puts("other families");
    other_families(desk, blocks[0]);
    puts("sending it");
    uint8_t *sheet = send(blocks[0], desk.grid);
    puts("reading it back");
    read_back(sheet);
    free(sheet);
    close_desk(desk);
    for (int i = 0; i < BLOCKS; i++)
        free(blocks[i]);
    printf("%d wrong\n", wrong);
    return wrong ? 1 : 0;
}
