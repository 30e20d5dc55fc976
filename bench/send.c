/* The writer beside the reading of what it wrote, for bench/send.sh: on a sheet of 1201 x 1201 cells,
 *   send KIND               writes the sheet by one call and does no more: its instructions are counted there;
 *   send KIND SURVEY FILE   measures. FILE gets the blocks, for the program SURVEY to read; FILE.said is what it says.
 * KIND is `smooth` (levels that change by one from cell to cell) or `rough` (any number of digits, any sign, scattered voids).
 *
 * By turns, best of 21, by the clock: dem_write_sheet into a lent buffer; the same blocks through dem_deliver_run, 64 a call, into a
 * second grid; and the survey from its start to its end. The second grid must be the first, cell for cell, and the survey must say what
 * dem_report says. A call for one block looks at the whole grid, so only some are made, and the time of all is told from them; they must
 * write the same bytes. */
#define _GNU_SOURCE
#include <fcntl.h>
#include <spawn.h>
#include <stdio.h>
#include <stdlib.h>
#include <string.h>
#include <sys/wait.h>
#include <time.h>

#include "desk.h"

enum { SIDE = 1201, CELLS = SIDE * SIDE, BLOCK = 1024, RUN = 64, CALLS = 40, TURNS = 21 };

static uint8_t template[BLOCK];
static int32_t grid[CELLS], again[CELLS];

static double now(void) {
    struct timespec t;
    clock_gettime(CLOCK_MONOTONIC, &t);
    return (double)t.tv_sec + (double)t.tv_nsec / 1e9;
}

static int wrong(const char *what, uint64_t number) {
    printf("%s %llu\n", what, (unsigned long long)number);
    return 1;
}

static void field(uint8_t *block, int first, int width, const char *text) {
    memcpy(block + first - 1 + width - (int)strlen(text), text, strlen(text));
}

/* UTM zone 17, metres, spacing 30, 30, 1; corners at 0 and 36000, so 1201 columns and rows. */
static void make_template(uint8_t *block) {
    static const char *const corners[] = {"0.0", "0.0", "0.0", "36000.0", "36000.0", "36000.0", "36000.0", "0.0"};
    memset(block, ' ', BLOCK);
    memcpy(block, "SPEED", 5);
    field(block, 145, 6, "1"), field(block, 151, 6, "1"), field(block, 157, 6, "1"), field(block, 163, 6, "17");
    for (int i = 0; i < 15; i++) field(block, 169 + 24 * i, 24, "0.0");
    field(block, 529, 6, "2"), field(block, 535, 6, "2"), field(block, 541, 6, "4");
    for (int i = 0; i < 8; i++) field(block, 547 + 24 * i, 24, corners[i]);
    field(block, 739, 24, "0.0"), field(block, 763, 24, "0.0"), field(block, 787, 24, "0.0"), field(block, 811, 6, "0");
    field(block, 817, 12, "30.0"), field(block, 829, 12, "30.0"), field(block, 841, 12, "1.0");
    field(block, 853, 6, "1"), field(block, 859, 6, "1201");
}

static uint32_t next_random(void) {
    static uint32_t seed = 1;
    seed = seed * UINT32_C(1664525) + UINT32_C(1013904223);
    return seed >> 8;
}

/* One to five digits, as often each; of five, only what a post can say. */
static int32_t rough_cell(void) {
    static const uint32_t from[] = {0, 10, 100, 1000, 10000}, below[] = {10, 100, 1000, 10000, 32767};
    uint32_t digits = next_random() % 5;
    int32_t post = (int32_t)(from[digits] + next_random() % (below[digits] - from[digits]));
    return 100 * (next_random() % 2 ? post : -post);
}

/* Voids stand inside a column only: at its ends they would be left out, and there would be fewer posts. */
static void make_grid(int smooth) {
    for (int i = 0; i < CELLS; i++) {
        int inside = i % SIDE != 0 && i % SIDE != SIDE - 1;
        grid[i] = smooth ? 100 * (i % 3001 - 1000) : inside && next_random() % 41 == 0 ? DEM_VOID : rough_cell();
    }
}

static uint32_t write_all(uint8_t *out, uint64_t count) {
    uint64_t answer[1];
    return dem_write_sheet(template, BLOCK, grid, CELLS, out, count * BLOCK, answer, 1);
}

/* 0, or the kind of the refusal. */
static uint32_t read_all(const uint8_t *blocks, uint64_t count, int64_t *session) {
    uint64_t answer[3];
    uint32_t kind = dem_open(DEM_USGS, session, DEM_SESSION);
    for (uint64_t n = 0; n < count && kind == 0; n += RUN) {
        uint64_t run = count - n < RUN ? count - n : RUN;
        kind = dem_deliver_run(session, DEM_SESSION, (uint32_t)n, blocks + n * BLOCK, run * BLOCK, again, CELLS, answer, 3);
    }
    return kind;
}

/* A program that reads one file and writes another; whether it ended well. */
static int is_run(const char *program, const char *in, const char *out) {
    char *words[] = {(char *)program, NULL};
    char *none[] = {NULL};
    posix_spawn_file_actions_t files;
    pid_t child;
    int status;
    posix_spawn_file_actions_init(&files);
    posix_spawn_file_actions_addopen(&files, 0, in, O_RDONLY, 0);
    posix_spawn_file_actions_addopen(&files, 1, out, O_WRONLY | O_CREAT | O_TRUNC, 0644);
    int failed = posix_spawn(&child, program, &files, NULL, words, none);
    posix_spawn_file_actions_destroy(&files);
    return !failed && waitpid(child, &status, 0) == child && status == 0;
}

static int is_saved(const char *file, const uint8_t *bytes, size_t length) {
    FILE *f = fopen(file, "wb");
    size_t put = f ? fwrite(bytes, 1, length, f) : 0;
    return f && fclose(f) == 0 && put == length;
}

/* Whether the survey said what the session says. */
static int is_said(const char *file, const int64_t *session) {
    uint8_t lines[DEM_REPORT], said[DEM_REPORT + 1];
    size_t used = dem_report(session, DEM_SESSION, lines, sizeof lines);
    FILE *f = fopen(file, "rb");
    size_t got = f ? fread(said, 1, sizeof said, f) : 0;
    if (f) fclose(f);
    return used > 0 && got == used && memcmp(lines, said, used) == 0;
}

static void keep_least(double *least, double took) {
    if (*least == 0 || took < *least) *least = took;
}

/* What all blocks would take by a call for each; below 0 where one of those written is another than that in the sheet. */
static double time_singles(const uint8_t *out, uint64_t count) {
    static uint8_t block[BLOCK];
    uint64_t answer[1];
    double sum = 0;
    for (int i = 0; i < CALLS; i++) {
        uint32_t number = (uint32_t)((uint64_t)i * (count - 1) / (CALLS - 1));
        double start = now();
        uint32_t kind = dem_write_block(template, BLOCK, grid, CELLS, number, block, BLOCK, answer, 1);
        sum += now() - start;
        if (kind != 0 || memcmp(block, out + BLOCK * (size_t)number, BLOCK) != 0) return -1 - (double)number;
    }
    return sum / CALLS * (double)count;
}

static int measure(uint8_t *out, uint64_t count, const char *kind_name, const char *survey, const char *file) {
    int64_t session[DEM_SESSION];
    double writing = 0, reading = 0, surveying = 0;
    char said[4096];
    if (snprintf(said, sizeof said, "%s.said", file) >= (int)sizeof said) return 1;
    for (int turn = 0; turn < TURNS; turn++) {
        /* Nothing of the turn before can stand for this one. */
        memset(out, turn, count * BLOCK), memset(again, turn, sizeof again);
        double start = now();
        uint32_t kind = write_all(out, count);
        keep_least(&writing, now() - start);
        if (kind != 0) return wrong("writing: refused", kind);
        start = now();
        kind = read_all(out, count, session);
        keep_least(&reading, now() - start);
        if (kind != 0) return wrong("reading: refused", kind);
        for (int i = 0; i < CELLS; i++)
            if (again[i] != grid[i]) return wrong("another cell was read", (uint64_t)i);
        if (turn == 0 && !is_saved(file, out, count * BLOCK)) return wrong("not saved, of blocks", count);
        start = now();
        if (!is_run(survey, file, said)) return wrong("the survey failed in turn", (uint64_t)turn);
        keep_least(&surveying, now() - start);
        if (!is_said(said, session)) return wrong("the survey says something else in turn", (uint64_t)turn);
    }
    double single = time_singles(out, count);
    if (single < 0) return wrong("a call for one block writes another block", (uint64_t)(-1 - single));
    printf("%s: dem_write_sheet %.2f ms, dem_deliver_run %.2f ms, survey %.2f ms\n", kind_name, 1e3 * writing, 1e3 * reading, 1e3 * surveying);
    printf("    dem_write_sheet/dem_deliver_run %.2f\n", writing / reading);
    printf("    dem_write_sheet/survey %.2f\n", writing / surveying);
    printf("    a call for each of %u blocks/dem_write_sheet %.0f (%.1f s, told from %d calls)\n", (unsigned)count, single / writing, single, CALLS);
    return 0;
}

int main(int argc, char **argv) {
    if (argc != 2 && argc != 4) return 2;
    make_template(template);
    make_grid(strcmp(argv[1], "smooth") == 0);
    uint64_t count = dem_block_count(template, BLOCK, grid, CELLS);
    uint8_t *out = malloc(count * BLOCK + 1);
    if (count == 0 || out == NULL) return wrong("blocks", count);
    int failed = argc == 2 ? write_all(out, count) != 0 : measure(out, count, argv[1], argv[2], argv[3]);
    free(out);
    return failed;
}
