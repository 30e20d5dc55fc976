/* Answers from the C calls over a pipe, so that another program, on whatever machine, can hold them against its own.
 * In: one byte that says what is asked; four bytes of length, the least first; that many bytes. A slice among them is four bytes
 * of count and then its elements; `family`, `number`, `length`, `room` and the like have four bytes. Values have the least byte first, both ways.
 *
 * On one slice of bytes, asked in each of two surroundings:
 *   'f' a field          kind, value and byte of the integer, then those of the real
 *   'a' a record A       kind, byte, origin, length of the name
 * On slices that all stand between guards; the answer starts with whether every guard, and every slice that the call may only
 * read, is as it was (1 or 0):
 *   'o' family, numbers                                  dem_open; the numbers after it
 *   'd' numbers, number, block, cells, room              dem_deliver; numbers, cells and the answer's slots after it
 *   'r' numbers, number, blocks, cells, room             dem_deliver_run; the same after it
 *   's' numbers, length                                  dem_is_sound, dem_is_complete, dem_report; the report's bytes after it
 *   'c' block                                            dem_columns, dem_rows
 *   'F' family, block                                    kind, byte and origin of a record A, columns, rows, all by its family
 *   'w' template, cells, number, block, room             dem_block_count, dem_write_block; block and slots after it
 *   'W' template, cells, length, room                    dem_write_sheet; the sheet's bytes and slots after it
 * On a grid that is kept here from one request to the next, for sheets too large to be sent to and fro with each block:
 *   'G' cells, held                                      makes it, of so many cells that all hold this
 *   'D' numbers, number, block, lent, first, count, room dem_deliver with the front of it lent; numbers, `count` of its cells from
 *                                                        `first` on and the slots after it
 *   'R' the same with blocks                             dem_deliver_run in the same way
 *   'k' first, count                                     so many of its cells
 * Kinds, bytes, origins and results have four bytes, values, counts and slots eight. 'n' hands over what is there. */
#include "desk.h"

#include <stdio.h>
#include <stdlib.h>
#include <string.h>

#define AROUND 24
#define BUFFER 65536

static void put(uint64_t value, int bytes) {
    for (int i = 0; i < bytes; i++) putchar((int)(value >> (8 * i) & 255));
}

static void stop(const char *why) {
    fprintf(stderr, "answers: %s\n", why);
    exit(1);
}

/* A call that looks past an end finds more digits the first time, more blanks the second. */
static const char surroundings[] = {'7', ' '};

static uint8_t guard;

static void surround(uint8_t *bytes, size_t length) {
    memset(bytes - AROUND, guard, AROUND);
    memset(bytes + length, guard, AROUND);
}

/* What of a request has not been looked at; there is room for guards around all of it. */
struct request {
    uint8_t *rest;
    size_t left;
};

static const uint8_t *take(struct request *asked, size_t bytes) {
    const uint8_t *taken = asked->rest;
    if (bytes > asked->left) stop("a request ends too soon");
    asked->rest += bytes;
    asked->left -= bytes;
    return taken;
}

static uint32_t take_four(struct request *asked) {
    const uint8_t *four = take(asked, 4);
    return four[0] | (uint32_t)four[1] << 8 | (uint32_t)four[2] << 16 | (uint32_t)four[3] << 24;
}

/* A slice lent to a call: `whole` has its guards too, `held` what it held before. Both are kept from one request to the next. */
struct lent {
    uint8_t *whole, *held;
    size_t room, bytes;
    uint8_t guard;
};

static struct lent session, block, grid, given, slots, kept;

static uint8_t *lend(struct lent *slice, size_t bytes) {
    if (slice->whole == NULL || bytes > slice->room) {
        free(slice->whole);
        free(slice->held);
        slice->room = bytes;
        slice->whole = malloc(bytes + 2 * AROUND);
        slice->held = malloc(bytes + 1);
        if (slice->whole == NULL || slice->held == NULL) stop("no memory");
    }
    slice->bytes = bytes;
    slice->guard = guard;
    surround(slice->whole + AROUND, bytes);
    return slice->whole + AROUND;
}

/* The library is for x86-64, where elements lie in memory as they do in a request. */
static void *lend_elements(struct lent *slice, struct request *asked, size_t width, size_t *count) {
    *count = take_four(asked);
    uint8_t *at = lend(slice, *count * width);
    const uint8_t *elements = take(asked, *count * width);
    memcpy(at, elements, *count * width);
    memcpy(slice->held, elements, *count * width);
    return at;
}

/* Bytes to be written to hold no two alike side by side, so that a copy or a fill shows. */
static uint8_t *lend_to_fill(struct lent *slice, size_t bytes) {
    uint8_t *at = lend(slice, bytes);
    for (size_t i = 0; i < bytes; i++) at[i] = (uint8_t)(i * 31 + 7);
    return at;
}

static uint64_t *lend_slots(size_t count) {
    uint8_t *at = lend(&slots, count * sizeof(uint64_t));
    memset(at, 0xA5, slots.bytes);
    return (uint64_t *)(void *)at;
}

static int guards_stand(const struct lent *slice) {
    for (size_t i = 0; i < AROUND; i++)
        if (slice->whole[i] != slice->guard || slice->whole[AROUND + slice->bytes + i] != slice->guard) return 0;
    return 1;
}

static int is_as_it_was(const struct lent *slice) {
    return guards_stand(slice) && memcmp(slice->whole + AROUND, slice->held, slice->bytes) == 0;
}

static void hand_back(const struct lent *slice) {
    fwrite(slice->whole + AROUND, 1, slice->bytes, stdout);
}

static void answer_open(struct request *asked) {
    size_t count;
    uint32_t family = take_four(asked);
    int64_t *numbers = lend_elements(&session, asked, sizeof *numbers, &count);
    uint32_t result = dem_open(family, numbers, count);
    put((uint64_t)guards_stand(&session), 4);
    put(result, 4);
    hand_back(&session);
}

/* dem_deliver and dem_deliver_run are lent the same. */
typedef uint32_t delivery(int64_t *, size_t, uint32_t, const uint8_t *, size_t, int32_t *, size_t, uint64_t *, size_t);

static void answer_deliver(struct request *asked, delivery *deliver) {
    size_t count, length, size;
    int64_t *numbers = lend_elements(&session, asked, sizeof *numbers, &count);
    uint32_t number = take_four(asked);
    uint8_t *bytes = lend_elements(&block, asked, 1, &length);
    int32_t *cells = lend_elements(&grid, asked, sizeof *cells, &size);
    size_t room = take_four(asked);
    uint32_t result = deliver(numbers, count, number, bytes, length, cells, size, lend_slots(room), room);
    put((uint64_t)(guards_stand(&session) && is_as_it_was(&block) && guards_stand(&grid) && guards_stand(&slots)), 4);
    put(result, 4);
    hand_back(&session);
    hand_back(&grid);
    hand_back(&slots);
}

static void answer_keep(struct request *asked) {
    size_t size = take_four(asked);
    uint32_t held = take_four(asked);
    uint8_t *at = lend(&kept, size * sizeof held);
    for (size_t i = 0; i < size; i++) memcpy(at + i * sizeof held, &held, sizeof held);
    put(1, 4);
}

/* Cells of the kept grid, which are asked for in one stretch. */
static void hand_back_kept(size_t first, size_t count) {
    size_t width = sizeof(int32_t);
    if (first > kept.bytes / width || count > kept.bytes / width - first) stop("asked for cells that are not kept");
    fwrite(kept.whole + AROUND + first * width, width, count, stdout);
}

static void answer_deliver_kept(struct request *asked, delivery *deliver) {
    size_t count, length;
    int64_t *numbers = lend_elements(&session, asked, sizeof *numbers, &count);
    uint32_t number = take_four(asked);
    uint8_t *bytes = lend_elements(&block, asked, 1, &length);
    size_t lent = take_four(asked), first = take_four(asked), shown = take_four(asked), room = take_four(asked);
    if (kept.whole == NULL || lent > kept.bytes / sizeof(int32_t)) stop("asked for a grid that is not kept");
    int32_t *cells = (int32_t *)(void *)(kept.whole + AROUND);
    uint32_t result = deliver(numbers, count, number, bytes, length, cells, lent, lend_slots(room), room);
    put((uint64_t)(guards_stand(&session) && is_as_it_was(&block) && guards_stand(&kept) && guards_stand(&slots)), 4);
    put(result, 4);
    hand_back(&session);
    hand_back_kept(first, shown);
    hand_back(&slots);
}

static void answer_look(struct request *asked) {
    size_t first = take_four(asked), count = take_four(asked);
    if (kept.whole == NULL) stop("asked for a grid that is not kept");
    put((uint64_t)guards_stand(&kept), 4);
    hand_back_kept(first, count);
}

static void answer_session(struct request *asked) {
    size_t count;
    int64_t *numbers = lend_elements(&session, asked, sizeof *numbers, &count);
    size_t length = take_four(asked);
    uint8_t *report = lend_to_fill(&given, length);
    uint32_t is_sound = dem_is_sound(numbers, count), is_complete = dem_is_complete(numbers, count);
    size_t used = dem_report(numbers, count, report, length);
    put((uint64_t)(is_as_it_was(&session) && guards_stand(&given)), 4);
    put(is_sound, 4);
    put(is_complete, 4);
    put(used, 8);
    hand_back(&given);
}

static void answer_columns(struct request *asked) {
    size_t length;
    uint8_t *bytes = lend_elements(&block, asked, 1, &length);
    uint64_t columns = dem_columns(bytes, length), rows = dem_rows(bytes, length);
    put((uint64_t)is_as_it_was(&block), 4);
    put(columns, 8);
    put(rows, 8);
}

static void answer_of_family(struct request *asked) {
    size_t length;
    uint32_t family = take_four(asked);
    uint8_t *bytes = lend_elements(&block, asked, 1, &length);
    uint32_t kind = dem_family_record_a_kind(family, bytes, length), byte = dem_family_record_a_byte(family, bytes, length);
    uint32_t origin = dem_family_origin(family, bytes, length);
    uint64_t columns = dem_family_columns(family, bytes, length), rows = dem_family_rows(family, bytes, length);
    put((uint64_t)is_as_it_was(&block), 4);
    put(kind, 4);
    put(byte, 4);
    put(origin, 4);
    put(columns, 8);
    put(rows, 8);
}

static void answer_write_block(struct request *asked) {
    size_t length, size, lent;
    uint8_t *template = lend_elements(&block, asked, 1, &length);
    int32_t *cells = lend_elements(&grid, asked, sizeof *cells, &size);
    uint32_t number = take_four(asked);
    uint8_t *written = lend_elements(&given, asked, 1, &lent);
    size_t room = take_four(asked);
    uint64_t blocks = dem_block_count(template, length, cells, size);
    uint32_t result = dem_write_block(template, length, cells, size, number, written, lent, lend_slots(room), room);
    put((uint64_t)(is_as_it_was(&block) && is_as_it_was(&grid) && guards_stand(&given) && guards_stand(&slots)), 4);
    put(blocks, 8);
    put(result, 4);
    hand_back(&given);
    hand_back(&slots);
}

static void answer_write_sheet(struct request *asked) {
    size_t length, size;
    uint8_t *template = lend_elements(&block, asked, 1, &length);
    int32_t *cells = lend_elements(&grid, asked, sizeof *cells, &size);
    size_t bytes = take_four(asked), room = take_four(asked);
    uint8_t *sheet = lend_to_fill(&given, bytes);
    uint32_t result = dem_write_sheet(template, length, cells, size, sheet, bytes, lend_slots(room), room);
    put((uint64_t)(is_as_it_was(&block) && is_as_it_was(&grid) && guards_stand(&given) && guards_stand(&slots)), 4);
    put(result, 4);
    hand_back(&given);
    hand_back(&slots);
}

static void answer_field(const uint8_t *field, size_t length) {
    put(dem_integer_kind(field, length), 4);
    put((uint64_t)dem_integer_value(field, length), 8);
    put(dem_integer_byte(field, length), 4);
    put(dem_real_kind(field, length), 4);
    put((uint64_t)dem_real_value(field, length), 8);
    put(dem_real_byte(field, length), 4);
}

static void answer_record_a(const uint8_t *bytes, size_t length) {
    put(dem_record_a_kind(bytes, length), 4);
    put(dem_record_a_byte(bytes, length), 4);
    put(dem_origin(bytes, length), 4);
    put(dem_name_length(bytes, length), 4);
}

static void answer(int what, struct request asked) {
    switch (what) {
    case 'f': answer_field(asked.rest, asked.left); break;
    case 'a': answer_record_a(asked.rest, asked.left); break;
    case 'o': answer_open(&asked); break;
    case 'd': answer_deliver(&asked, dem_deliver); break;
    case 'r': answer_deliver(&asked, dem_deliver_run); break;
    case 's': answer_session(&asked); break;
    case 'c': answer_columns(&asked); break;
    case 'F': answer_of_family(&asked); break;
    case 'G': answer_keep(&asked); break;
    case 'D': answer_deliver_kept(&asked, dem_deliver); break;
    case 'R': answer_deliver_kept(&asked, dem_deliver_run); break;
    case 'k': answer_look(&asked); break;
    case 'w': answer_write_block(&asked); break;
    case 'W': answer_write_sheet(&asked); break;
    default: stop("asked for something unknown");
    }
}

/* A request of so many bytes, in memory that is kept for the next one. */
static struct request next_request(size_t length) {
    static uint8_t *bytes;
    static size_t room;
    if (bytes == NULL || length > room) {
        free(bytes);
        room = length;
        bytes = malloc(length + 2 * AROUND);
        if (bytes == NULL) stop("no memory");
    }
    if (fread(bytes + AROUND, 1, length, stdin) != length) stop("a request ends too soon");
    return (struct request){bytes + AROUND, length};
}

int main(void) {
    int what;
    unsigned turn = 0;
    setvbuf(stdin, NULL, _IOFBF, BUFFER);
    setvbuf(stdout, NULL, _IOFBF, BUFFER);
    while ((what = getchar()) != EOF) {
        uint8_t size[4];
        if (what == 'n') { /* nothing more for now: hand over what is there */
            fflush(stdout);
            continue;
        }
        if (fread(size, 1, 4, stdin) != 4) stop("a request ends too soon");
        struct request head = {size, 4};
        struct request asked = next_request(take_four(&head));
        int times = what == 'f' || what == 'a' ? 2 : 1;
        for (int i = 0; i < times; i++) {
            guard = (uint8_t)surroundings[turn++ % 2];
            surround(asked.rest, asked.left);
            answer(what, asked);
        }
    }
    return 0;
}
