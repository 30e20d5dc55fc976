/* The check of a record A from C.
 *   record_a SHEET [CANADIAN]   takes the first block of a sheet that is in order, changes one stretch of it at a time, and prints the
 *                               answers; then the same with the first block of a Canadian sheet of 0.75 by 0.75 arc-seconds
 * What is expected is written here from document 01's table of record A and from what document 02 asks of Canadian sheets. Ends with status
 * 1 if one is answered otherwise. */
#include <inttypes.h>
#include <stdio.h>
#include <string.h>

#include "desk.h"

enum { BLOCK = 1024 };

/* a text put at a byte, counted from 1, and the kind and byte that the papers name for it */
struct change {
    const char *what;
    size_t byte;
    const char *text;
    uint32_t kind, at;
};

static const struct change usgs_changes[] = {
    {"as it stands", 1, "", 0, 0},
    {"a tab in the text", 100, "\t", 5, 1},
    {"a letter in the system", 157, "     x", 6, 162},
    {"a second point in a real that has a form only", 169, "   0.00.000000000000D+00", 6, 176},
    {"blanks where such a real should stand", 193, "                        ", 6, 216},
    {"four corners said to be five", 541, "     5", 9, 541},
    {"a corner without its exponent's digits", 547, "   0.600000000000000D   ", 6, 568},
    {"west beyond east", 547, "   0.700000000000000D+03", 10, 547},
    {"an angle", 787, "   0.100000000000000D+01", 9, 787},
    {"no profile", 859, "     0", 7, 859},
    {"corners of 600, without a point", 547, "      600000000000000000", 0, 0},
    {"an angle of 1 without a point, finer than a billionth", 787, "                       1", 8, 787},
    {"an angle of nothing without a point", 787, "                      00", 0, 0},
    {"x spacing 30 as an old tape has it", 817, "  300000E+02", 0, 0},
    {"x spacing 30 whole, without a point", 817, "          30", 7, 817},
    {"more profiles than columns", 859, "     3", 10, 859},
    {"a tab in the last byte", 1024, "\t", 5, 865},
};

static const struct change canadian_changes[] = {
    {"as it stands", 1, "", 0, 0},
    {"lower case in the name", 1, "31a01DEMw", 0, 0},
    {"lower case in the producer", 41, "cfs-ssm", 0, 0},
    {"a tab in the name", 40, "\t", 5, 1},
    {"a tab in the producer", 100, "\t", 5, 41},
    {"something in the first filler", 109, "0", 5, 101},
    {"a letter in the degrees", 110, "  9W", 6, 113},
    {"a longitude that is not the corner's", 110, "   9", 15, 110},
    {"sixty minutes", 114, "60", 7, 114},
    {"sixty seconds", 116, "60.0000", 7, 116},
    {"seconds below a billionth", 116, "1.D-10 ", 8, 116},
    {"sixty seconds without a point", 116, "600000 ", 7, 116},
    {"thirty seconds without a point: not the corner's", 116, " 300000", 15, 110},
    {"a latitude that is not the corner's", 123, "  -9", 15, 110},
    {"lower case in the process code", 136, "a", 5, 136},
    {"something in the second filler", 137, "A", 5, 137},
    {"lower case in the origin", 141, "yt  ", 5, 138},
    {"level 2", 145, "     2", 9, 145},
    {"UTM", 157, "     1", 9, 157},
    {"a zone", 163, "    17", 9, 163},
    {"heights in feet", 535, "     1", 9, 535},
    {"a record C", 811, "     1", 9, 811},
    {"spacings turned round: x 0.75, y 1.5", 817, "0.750000E+000.150000E+01", 7, 817},
    {"no spacing at all", 817, "0.000000E+000.000000E+00", 7, 817},
    {"3 by 3 seconds: a pair, but too few columns", 817, "0.300000E+010.300000E+01", 10, 817},
    {"a profile less", 859, "  1200", 7, 859},
};

struct origin {
    const char *text;
    uint32_t number;
};

/* document 01, "Origin (141-144)" */
static const struct origin usgs_origins[] = {
    {"MAC ", 1}, {"GPM2", 2}, {"MCMC", 3}, {"RMMC", 4}, {"WMC ", 5}, {"FS  ", 6}, {"mac ", 0}, {"    ", 0}, {"NTDB", 0},
};

/* document 003's list, in its order */
static const struct origin canadian_origins[] = {
    {"NTDB", 1},  {"BC  ", 2},  {"MB  ", 3},  {"NB  ", 4},  {"NL  ", 5},  {"NS  ", 6},  {"NT  ", 7},  {"NU  ", 8},  {"ON  ", 9},
    {"PE  ", 10}, {"AB  ", 11}, {"QC  ", 12}, {"SK  ", 13}, {"YT  ", 14}, {"MULT", 15}, {"  BC", 0},  {"    ", 0},  {"MAC ", 0},
};

#define COUNT(table) (sizeof(table) / sizeof *(table))

static void put(uint8_t *block, const uint8_t *sheet, size_t byte, const char *text)
{
    memcpy(block, sheet, BLOCK);
    memcpy(block + byte - 1, text, strlen(text));
}

/* The calls without a family are those of family 0. */
static int as_before(const uint8_t *block, size_t length)
{
    return dem_family_record_a_kind(DEM_USGS, block, length) == dem_record_a_kind(block, length)
           && dem_family_record_a_byte(DEM_USGS, block, length) == dem_record_a_byte(block, length)
           && dem_family_origin(DEM_USGS, block, length) == dem_origin(block, length)
           && dem_family_columns(DEM_USGS, block, length) == dem_columns(block, length)
           && dem_family_rows(DEM_USGS, block, length) == dem_rows(block, length);
}

static int check_changes(uint32_t family, const struct change *changes, size_t count, const uint8_t *sheet)
{
    uint8_t block[BLOCK];
    int wrong = 0;
    for (size_t i = 0; i < count; i++) {
        put(block, sheet, changes[i].byte, changes[i].text);
        uint32_t kind = dem_family_record_a_kind(family, block, BLOCK), at = dem_family_record_a_byte(family, block, BLOCK);
        int good = kind == changes[i].kind && at == changes[i].at && as_before(block, BLOCK);
        printf("%s: kind %" PRIu32 ", byte %" PRIu32 "%s\n", changes[i].what, kind, at, good ? "" : "  WRONG");
        wrong += !good;
    }
    return wrong;
}

static int check_origins(uint32_t family, const struct origin *origins, size_t count, const uint8_t *sheet)
{
    uint8_t block[BLOCK];
    int wrong = 0;
    for (size_t i = 0; i < count; i++) {
        put(block, sheet, 141, origins[i].text);
        uint32_t number = dem_family_origin(family, block, BLOCK);
        int good = number == origins[i].number && as_before(block, BLOCK);
        printf("origin '%s': %" PRIu32 "%s\n", origins[i].text, number, good ? "" : "  WRONG");
        wrong += !good;
    }
    return wrong;
}

/* another length: kind 1 at byte 0, no origin, no name; also for a family that is none, which is 2 only of a whole block */
static int check_short(const uint8_t *sheet)
{
    size_t n = BLOCK - 1;
    int good = dem_record_a_kind(sheet, n) == 1 && dem_record_a_byte(sheet, n) == 0 && dem_origin(sheet, n) == 0
               && dem_name_length(sheet, n) == 0 && as_before(sheet, n);
    good = good && dem_family_record_a_kind(DEM_CANADIAN, sheet, n) == 1 && dem_family_record_a_byte(DEM_CANADIAN, sheet, n) == 0
           && dem_family_origin(DEM_CANADIAN, sheet, n) == 0 && dem_family_record_a_kind(2, sheet, n) == 1;
    printf("a byte short: %s\n", good ? "kind 1, byte 0" : "WRONG");
    return !good;
}

static int check_unknown(const uint8_t *sheet)
{
    int good = dem_family_record_a_kind(2, sheet, BLOCK) == 2 && dem_family_record_a_byte(2, sheet, BLOCK) == 0
               && dem_family_origin(2, sheet, BLOCK) == 0 && dem_family_columns(2, sheet, BLOCK) == 0 && dem_family_rows(2, sheet, BLOCK) == 0;
    printf("a family that is none: %s\n", good ? "kind 2, byte 0" : "WRONG");
    return !good;
}

/* the name runs to its last byte that is not blank, and no further than byte 40 */
static int check_name(const uint8_t *sheet)
{
    uint8_t block[BLOCK];
    put(block, sheet, 1, "  A B                                   Z");
    size_t n = dem_name_length(block, BLOCK);
    printf("name of %zu bytes: '%.*s'%s\n", n, (int)n, (const char *)block, n == 5 ? "" : "  WRONG");
    return n != 5;
}

static int check_size(const uint8_t *sheet)
{
    uint64_t columns = dem_family_columns(DEM_CANADIAN, sheet, BLOCK), rows = dem_family_rows(DEM_CANADIAN, sheet, BLOCK);
    int good = columns == 1201 && rows == 1201;
    printf("%" PRIu64 " columns, %" PRIu64 " rows%s\n", columns, rows, good ? "" : "  WRONG");
    return !good;
}

static int first_block(const char *name, uint8_t *block)
{
    FILE *file = fopen(name, "rb");
    size_t got = file ? fread(block, 1, BLOCK, file) : 0;
    if (file)
        fclose(file);
    return got == BLOCK;
}

int main(int argc, char **argv)
{
    uint8_t sheet[BLOCK], canadian[BLOCK];
    if (argc < 2 || argc > 3 || !first_block(argv[1], sheet) || (argc == 3 && !first_block(argv[2], canadian))) {
        fprintf(stderr, "usage: record_a SHEET [CANADIAN]\n");
        return 2;
    }
    int wrong = check_changes(DEM_USGS, usgs_changes, COUNT(usgs_changes), sheet)
                + check_origins(DEM_USGS, usgs_origins, COUNT(usgs_origins), sheet) + check_short(sheet) + check_unknown(sheet)
                + check_name(sheet);
    if (argc == 3) {
        puts("a Canadian sheet");
        wrong += check_changes(DEM_CANADIAN, canadian_changes, COUNT(canadian_changes), canadian)
                 + check_origins(DEM_CANADIAN, canadian_origins, COUNT(canadian_origins), canadian) + check_size(canadian)
                 + check_short(canadian) + check_unknown(canadian);
    }
    return wrong ? 1 : 0;
}
