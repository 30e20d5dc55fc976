/* Writes a sheet for bench/speed.sh: sheet COLUMNS ROWS KIND, where KIND is `smooth` (levels that change little from post to post, voids in
   one corner) or `rough` (any post, any number of digits, scattered voids). UTM, metres, 30 x 30, z spacing 0.1, every profile full. */
#include <stdint.h>
#include <stdio.h>
#include <stdlib.h>
#include <string.h>

enum { BLOCK = 1024, SPACING = 30, WEST = 600000, SOUTH = 3999990, VOID = -32767 };

typedef struct { int any; int64_t low, high; } extremes;

static void join(extremes *a, extremes b)
{
    if (b.any && (!a->any || b.low < a->low))
        a->low = b.low;
    if (b.any && (!a->any || b.high > a->high))
        a->high = b.high;
    a->any |= b.any;
}

static void put_integer(unsigned char *at, long v)
{
    char t[24];
    snprintf(t, sizeof t, "%6ld", v);
    memcpy(at, t, 6);
}

/* Hundredths as 0.dddD+ee with `digits` digits, right-justified in `width` bytes. */
static void put_real(unsigned char *at, int width, int digits, char mark, int64_t v)
{
    char t[64], shown[32];
    int n = v ? snprintf(shown, sizeof shown, "%lld", (long long)llabs(v)) : 0;
    memset(shown + n, '0', sizeof shown - (size_t)n);
    int e = v ? n - 2 : 0;
    n = snprintf(t, sizeof t, "%s0.%.*s%c%c%02d", v < 0 ? "-" : "", digits, shown, mark, e < 0 ? '-' : '+', abs(e));
    memcpy(at + width - n, t, (size_t)n);
}

static uint32_t next_random(uint32_t *seed)
{
    *seed = *seed * UINT32_C(1664525) + UINT32_C(1013904223);
    return *seed >> 8;
}

static long rough_post(uint32_t *seed)
{
    uint32_t r = next_random(seed);
    if (r % 41 == 0)
        return VOID;
    return r % 5 == 0 ? (long)(r / 7 % 64000) - 32000 : (long)(r / 7 % 12000) - 900;
}

/* Two slopes and a little noise: 0.5 m at most from one post to the next. */
static long smooth_post(uint32_t *seed, int column, int row, int columns)
{
    if (column + row < columns / 8)
        return VOID;
    return 3000 + 2 * column + abs(row % 800 - 400) * 3 + (long)(next_random(seed) % 3);
}

static void put_record_a(unsigned char *b, int columns, int rows, extremes all)
{
    const int64_t east = WEST + SPACING * (int64_t)(columns - 1), north = SOUTH + SPACING * (int64_t)(rows - 1);
    const int64_t corner[8] = { WEST, SOUTH, WEST, north, east, north, east, SOUTH };
    const int numbers[][2] = { { 145, 1 }, { 151, 1 }, { 157, 1 }, { 163, 17 }, { 529, 2 }, { 535, 2 }, { 541, 4 }, { 811, 0 }, { 853, 1 }, { 859, columns } };
    memset(b, ' ', BLOCK);
    memcpy(b, "SPEED", 5);
    memcpy(b + 140, "GPM2", 4);
    for (size_t i = 0; i < sizeof numbers / sizeof *numbers; i++)
        put_integer(b + numbers[i][0] - 1, numbers[i][1]);
    for (int i = 0; i < 15; i++)
        put_real(b + 168 + 24 * i, 24, 15, 'D', 0);
    for (int i = 0; i < 8; i++)
        put_real(b + 546 + 24 * i, 24, 15, 'D', corner[i] * 100);
    put_real(b + 738, 24, 15, 'D', all.low);
    put_real(b + 762, 24, 15, 'D', all.high);
    put_real(b + 786, 24, 15, 'D', 0);
    put_real(b + 816, 12, 6, 'E', SPACING * 100);
    put_real(b + 828, 12, 6, 'E', SPACING * 100);
    put_real(b + 840, 12, 6, 'E', 10);
}

static void put_head(unsigned char *b, int column, int rows, extremes e)
{
    put_integer(b, 1);
    put_integer(b + 6, column + 1);
    put_integer(b + 12, rows);
    put_integer(b + 18, 1);
    put_real(b + 24, 24, 15, 'D', (WEST + SPACING * (int64_t)column) * 100);
    put_real(b + 48, 24, 15, 'D', SOUTH * INT64_C(100));
    put_real(b + 72, 24, 15, 'D', 0);
    put_real(b + 96, 24, 15, 'D', e.low);
    put_real(b + 120, 24, 15, 'D', e.high);
}

int main(int argc, char **argv)
{
    int columns = argc > 3 ? atoi(argv[1]) : 0, rows = argc > 3 ? atoi(argv[2]) : 0;
    if (columns < 2 || columns > 2048 || rows < 2 || rows > 2048)
        return 2;
    int smooth = !strcmp(argv[3], "smooth"), each = 1 + (rows > 146 ? (rows - 146 + 169) / 170 : 0);
    unsigned char *sheet = malloc((size_t)(1 + columns * each) * BLOCK);
    extremes all = { 0, 0, 0 };
    uint32_t seed = 1;
    if (!sheet)
        return 1;
    memset(sheet + BLOCK, ' ', (size_t)(columns * each) * BLOCK);
    for (int c = 0; c < columns; c++) {
        unsigned char *first = sheet + (size_t)(1 + c * each) * BLOCK, *b = first;
        extremes e = { 0, 0, 0 };
        for (int r = 0, at = 144; r < rows; r++, at += 6) {
            if (at + 6 > BLOCK)
                b += BLOCK, at = 0;
            long post = smooth ? smooth_post(&seed, c, r, columns) : rough_post(&seed);
            put_integer(b + at, post);
            join(&e, (extremes){ post != VOID, post * 10, post * 10 });
        }
        put_head(first, c, rows, e);
        join(&all, e);
    }
    put_record_a(sheet, columns, rows, all);
    return fwrite(sheet, BLOCK, (size_t)(1 + columns * each), stdout) ? 0 : 1;
}
