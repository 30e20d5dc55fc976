/* The calls of the terrain sheet library. Types and names are those of crates/desk_c/src, where each call's promise stands; .ci/header
 * holds this file against it.
 *
 * What a caller lends is a pointer and how many bytes, numbers or cells stand there. A call keeps nothing and allocates nothing, and any
 * contents are answered. What no call can test for itself must hold of the pointers:
 *   - all of that length can be read, and written where the pointer is not const;
 *   - a pointer is never NULL, also with length 0;
 *   - it is aligned as its type asks;
 *   - slices lent to one call do not overlap, and nothing else writes to them until it returns.
 * Where a refusal is answered, nothing that was lent is changed but the numbers of the answer. (Of a run this is said of the refused block:
 * see dem_deliver_run.) */
#ifndef DESK_H
#define DESK_H

#include <stddef.h>
#include <stdint.h>

#ifdef __cplusplus
extern "C" {
#endif

/* ---- Fields and record A ---- */

/* An integer field of 1 to 6 bytes. Kind: 0 read, 1 wrong length, 6 wrong form. Value: 0 where refused. Byte: of a field of wrong form
 * the one, counted from 1, that first makes its form impossible, which is the last where it merely ends too soon; 0 for every other kind. */
uint32_t dem_integer_kind(const uint8_t *field, size_t length);
int64_t dem_integer_value(const uint8_t *field, size_t length);
uint32_t dem_integer_byte(const uint8_t *field, size_t length);

/* A real field of 1 to 24 bytes. Kind: 0 read, 1 wrong length, 6 wrong form, 7 magnitude 1,000,000,000 or more,
 * 8 finer than a billionth or more than 15 digits. Value: a whole number of billionths, 0 where refused.
 * A field without a point has one before its last digits, by its whole length: 6 digits in 12 bytes, 4 in 7 bytes, 15 in any
 * other. So hand over the field as it stands in its record, blanks and all: with its blanks cut off it may be another number. */
uint32_t dem_real_kind(const uint8_t *field, size_t length);
int64_t dem_real_value(const uint8_t *field, size_t length);
uint32_t dem_real_byte(const uint8_t *field, size_t length);

/* A record A: a block of 1,024 bytes. Kind: 0 where no rule is broken, else the number of the first broken rule, 1 for another
 * length. Byte: where that rule stands, counted from 1; 0 where none is broken, and for kind 1. */
uint32_t dem_record_a_kind(const uint8_t *block, size_t length);
uint32_t dem_record_a_byte(const uint8_t *block, size_t length);

/* The origin of a record A, 1 to 6; 0 for any other text or length. */
uint32_t dem_origin(const uint8_t *block, size_t length);

/* How many bytes of a record A, from its first, are the sheet's name; 0 where it is blank, or for another length. It is the same in each
 * family. */
size_t dem_name_length(const uint8_t *block, size_t length);

/* Columns and rows of a record A, each 1 to 2048; 0 where it is refused. Columns x rows cells are to be lent for its sheet. */
uint64_t dem_columns(const uint8_t *block, size_t length);
uint64_t dem_rows(const uint8_t *block, size_t length);

/* ---- The same by the rules of a family ----
 *
 * The calls above, and those that send a sheet, are for USGS sheets. The caller names the family: the bytes do not tell it, for there are
 * records A that obey both. Any number may be asked of; one that is no family's is refused. */
#define DEM_USGS 0
#define DEM_CANADIAN 1 /* CDED level 1: 1201 profiles of 1201 posts, from 0.75 to 12 arc-seconds apart */

/* Kind: 2 for a family that is none, after 1. Byte: 0 for these two. */
uint32_t dem_family_record_a_kind(uint32_t family, const uint8_t *block, size_t length);
uint32_t dem_family_record_a_byte(uint32_t family, const uint8_t *block, size_t length);

/* The origin: of a Canadian sheet 1 to 15, for NTDB, BC, MB, NB, NL, NS, NT, NU, ON, PE, AB, QC, SK, YT, MULT. 0 for any other text,
 * length or family. */
uint32_t dem_family_origin(uint32_t family, const uint8_t *block, size_t length);

/* 0 where the record A is refused; of a Canadian one, else 1201. */
uint64_t dem_family_columns(uint32_t family, const uint8_t *block, size_t length);
uint64_t dem_family_rows(uint32_t family, const uint8_t *block, size_t length);

/* ---- Taking a sheet, block by block ----
 *
 * A session is a slice of at least DEM_SESSION numbers; those past them are never looked at or changed. It may be kept anywhere between
 * two calls, in a file for example: hand session and grid back as the last call left them. In order:
 *    0  level, system, zone, ground unit, vertical unit
 *    5  corners SW, NW, NE, SE, each x then y     (billionths)
 *   13  stated least and greatest                 (billionths)
 *   15  accuracy
 *   16  x, y, z spacing                           (billionths)
 *   19  profiles n
 *   20  blocks taken, profiles closed, posts read, cells filled
 *   24  running least and greatest                (hundredths)
 *   26  first profile's column; 1 once a record C is taken
 *   28  the open profile: posts, row, datum (hundredths), stated least and greatest (billionths), posts read, cells filled, running least
 *       and greatest (hundredths)
 *   37  sum of the filled cells                   (hundredths)
 *   38  family
 * Corners, extremes, datum and sum may be negative; a negative number elsewhere, or too few numbers, is an unsound session (2). So is any
 * family but DEM_USGS and DEM_CANADIAN, whatever the other numbers are.
 *
 * The sum is exact and grows with the count of filled cells, block by block, also inside a profile. One further from zero than that count
 * x 4,276,700 is an unsound session too. A mean is the caller's own: sum / filled, where any are filled.
 *
 * The grid: cell = column x rows + row, from the south-western one; hundredths of the vertical unit. */
#define DEM_SESSION 39         /* numbers of a session */
#define DEM_TAKEN 20           /* where the blocks taken stand: the number of the block that is due */
#define DEM_FILLED 23          /* where the cells filled stand */
#define DEM_SUM 37             /* where their sum stands */
#define DEM_FAMILY 38          /* where the family stands */
#define DEM_VOID (-2147483647 - 1) /* a void cell */

/* Results. 0: taken, or done. Else a kind:
 *    1  wrong length                         8  number too fine, or of too many digits
 *    2  unsound session                      9  code not allowed here
 *    3  block's number above the next one   10  numbers that do not go together
 *    4  sheet complete                      11  stated extreme not that of the posts
 *    5  no text, or no blank                12  grid, or session, too short
 *    6  wrong form of a number              13  (writer) a cell that no post can say
 *    7  number out of range                 14  (writer) no such block
 *   15  (Canadian) the corner written in degrees disagrees with the SW corner, at 110
 * What stands beside a kind is put into the answer, as many numbers of it as there is room for; the room past them stays as it is.
 * Taken, held and done put zeros there. */
#define DEM_HELD 255 /* the block was taken before: nothing was read or changed */

/* A fresh session of a family; 12, and nothing changed, where there are fewer than DEM_SESSION numbers. Any number is opened: one that is
 * no family's makes an unsound session, refused 2 at the first delivery. */
uint32_t dem_open(uint32_t family, int64_t *session, size_t numbers);

/* One delivery, judged by the rules of the session's family: 0 taken, DEM_HELD, or a kind from 1 to 12, or 15. Answer: block, byte. */
uint32_t dem_deliver(int64_t *session, size_t numbers, uint32_t number, const uint8_t *block, size_t length, int32_t *grid, size_t cells,
                     uint64_t *answer, size_t room);

/* Several blocks in one call: `blocks` is whole blocks one behind the other, `number` that of the first. They are delivered in order, each as by
 * dem_deliver, up to the first refusal: what was taken before it stays, the refused block changes nothing, and those behind it are not
 * looked at. The result is the refusal's kind, else that of the last block: 0 taken, DEM_HELD where all of them were held. Answer: block and
 * byte of the refusal, 0 and 0 where there is none, and third how many blocks were taken or held before it, or all of them.
 * A length that is no multiple of 1,024 is 1, with the number given, byte 0 and count 0, before all else; no bytes at all are DEM_HELD and 0,
 * and nothing else is looked at. */
uint32_t dem_deliver_run(int64_t *session, size_t numbers, uint32_t number, const uint8_t *blocks, size_t length, int32_t *grid,
                         size_t cells, uint64_t *answer, size_t room);

/* 1 or 0. An unsound session and a fresh one are not complete. */
uint32_t dem_is_sound(const int64_t *session, size_t numbers);
uint32_t dem_is_complete(const int64_t *session, size_t numbers);

/* The lister's four lines of a complete session, and how many bytes they are; 0, and nothing written, where it is not complete or they
 * do not fit. DEM_REPORT bytes are always enough. An x or y spacing that is not whole has two decimals (0.75, 1.50). */
#define DEM_REPORT 256
size_t dem_report(const int64_t *session, size_t numbers, uint8_t *out, size_t length);

/* ---- Sending a USGS sheet: a template record A, and the grid ---- */

/* How many blocks the sheet has; 0 where template or grid is refused. */
uint64_t dem_block_count(const uint8_t *record_a, size_t record_a_length, const int32_t *grid, size_t cells);

/* Writes block `number` into a block of 1,024 bytes. Answer, one number: for kind 1, 0 the lent block and 1 the template; for 5 to 10 the
 * template's byte; 0 for 12; the cell for 13; the count of blocks for 14. */
uint32_t dem_write_block(const uint8_t *record_a, size_t record_a_length, const int32_t *grid, size_t cells, uint32_t number,
                         uint8_t *block, size_t length, uint64_t *answer, size_t room);

/* Writes all of them, into exactly count x 1,024 bytes: another length is 1 with 0, after all other refusals. Else as above. */
uint32_t dem_write_sheet(const uint8_t *record_a, size_t record_a_length, const int32_t *grid, size_t cells, uint8_t *out, size_t length,
                         uint64_t *answer, size_t room);

#ifdef __cplusplus
}
#endif

#endif
