/* Field readings from C: what the desk program does with a number field.
 *   fields          checks the papers' examples, whose answers are written here from documents 01 and 02, and prints each
 *   fields -        reads fields from standard input, one to a line, and prints both readings of each
 * Ends with status 1 if an example is not answered as the paper says. */
#include <inttypes.h>
#include <stdio.h>
#include <string.h>

#include "desk.h"

struct example {
    char reading; /* i or r */
    const char *text;
    uint32_t kind;
    int64_t value; /* of a real, in billionths */
    uint32_t byte; /* of wrong form, counted from 1 */
};

/* document 01, "Examples on the edge", and 02 */
static const struct example examples[] = {
    {'r', "0.428400000000000D+06", 0, INT64_C(428400000000000), 0},
    {'r', "1.0D-09", 0, 1, 0},
    {'r', ".5D-09", 8, 0, 0},
    {'r', "1.0D+09", 7, 0, 0},
    {'r', "0.0D+99", 0, 0, 0},
    {'r', "                        ", 6, 0, 24},
    {'r', "123456789.1234567", 8, 0, 0},
    {'r', "999999999.9", 0, INT64_C(999999999900000000), 0},
    /* document 02, request 4: no point, by the length of the field */
    {'r', "  300000E+01", 0, INT64_C(3000000000), 0},
    {'r', "300000E+01", 0, 3, 0},
    {'r', "              300000E+01", 0, 3, 0},
    {'r', " 300000", 0, INT64_C(30000000000), 0},
    {'r', "          30", 0, 30000, 0},
    {'r', "                     600", 8, 0, 0},
    {'r', "                    1D24", 7, 0, 0},
    {'r', "5", 8, 0, 0},
    {'r', "5.", 0, INT64_C(5000000000), 0},
    {'i', "    -7", 0, -7, 0},
    {'i', "32768 ", 6, 0, 6},
    {'i', "-32768", 0, -32768, 0},
    {'i', "      ", 6, 0, 6},
    {'i', "", 1, 0, 0},
    /* document 02, request 6: which byte first makes the form impossible; an integer stands right, a real may have blanks behind it */
    {'i', "1     ", 6, 0, 2},
    {'i', "    1 ", 6, 0, 6},
    {'i', "     +", 6, 0, 6},
    {'i', "99999x", 6, 0, 6},
    {'r', "1 .0", 6, 0, 3},
    {'r', "1.0 D+01", 6, 0, 5},
    {'r', "1.0D  ", 6, 0, 5},
    {'r', "1.0D", 6, 0, 4},
    {'r', ".D+01", 6, 0, 2},
    {'r', "1.0D+012", 6, 0, 8},
    {'r', "1.0d+01", 6, 0, 4},
};

static void print_reading(const char *name, uint32_t kind, int64_t value, uint32_t byte, int billionths)
{
    if (byte != 0)
        printf("  %s: refused, kind %" PRIu32 ", byte %" PRIu32 "\n", name, kind, byte);
    else if (kind != 0)
        printf("  %s: refused, kind %" PRIu32 "\n", name, kind);
    else if (!billionths)
        printf("  %s: %" PRId64 "\n", name, value);
    else {
        uint64_t size = value < 0 ? (uint64_t)-value : (uint64_t)value;
        printf("  %s: %s%" PRIu64 ".%09" PRIu64 "\n", name, value < 0 ? "-" : "", size / 1000000000, size % 1000000000);
    }
}

static int check_examples(void)
{
    int wrong = 0;
    for (size_t i = 0; i < sizeof examples / sizeof *examples; i++) {
        const struct example *e = &examples[i];
        const uint8_t *field = (const uint8_t *)e->text;
        size_t n = strlen(e->text);
        uint32_t kind = e->reading == 'i' ? dem_integer_kind(field, n) : dem_real_kind(field, n);
        int64_t value = e->reading == 'i' ? dem_integer_value(field, n) : dem_real_value(field, n);
        uint32_t byte = e->reading == 'i' ? dem_integer_byte(field, n) : dem_real_byte(field, n);
        printf("[%s]\n", e->text);
        print_reading(e->reading == 'i' ? "integer" : "real", kind, value, byte, e->reading == 'r');
        if (kind != e->kind || value != e->value || byte != e->byte) {
            printf("  WRONG: the papers say kind %" PRIu32 ", value %" PRId64 ", byte %" PRIu32 "\n", e->kind, e->value, e->byte);
            wrong = 1;
        }
    }
    return wrong;
}

static void read_lines(void)
{
    char line[4096];
    while (fgets(line, sizeof line, stdin)) {
        size_t n = strcspn(line, "\n");
        const uint8_t *field = (const uint8_t *)line;
        printf("[%.*s]\n", (int)n, line);
        print_reading("integer", dem_integer_kind(field, n), dem_integer_value(field, n), dem_integer_byte(field, n), 0);
        print_reading("real", dem_real_kind(field, n), dem_real_value(field, n), dem_real_byte(field, n), 1);
    }
}

int main(int argc, char **argv)
{
    if (argc > 1 && strcmp(argv[1], "-") == 0) {
        read_lines();
        return 0;
    }
    return check_examples();
}
