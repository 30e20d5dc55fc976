/* The Load button: load STATE [FAMILY] <LINE
 * LINE is frames: a block's number in four bytes, the largest first, then its 1,024 bytes. STATE keeps session and grid between two
 * presses. Each refused frame gets a line `refused KIND BLOCK BYTE`; the last lines are the lister's four, or `unfinished TAKEN`.
 * Frames are fetched as they come, many a read, and those whose numbers go up by one are delivered in one call: with the same answers, and
 * the same STATE, as one by one.
 * FAMILY is 0 for a USGS sheet or 1 for a Canadian one. Left out, it is STATE's own, and 0 where there is no STATE yet; it is never guessed
 * from the bytes.
 *
 * Status 0: so it was, and STATE is on the disk.
 * Status 1: STATE, or the answers, could not be written. STATE is the one that was last written whole. Standard output has the refusals up
 *   to there and no last lines, so nobody takes them for an end.
 * Status 2: wrong usage, a FAMILY that is none or another than STATE's, a STATE that is no whole state of ours, or another press at work on
 *   it. Nothing was read from the line.
 *
 * STATE is never changed in place: STATE.new is written and synced, then renamed. STATE.lock is locked while a press is at work; the system
 * takes the lock away with the process, so the file may stay. Both names belong to the button. */
#define _XOPEN_SOURCE 700
#include <errno.h>
#include <fcntl.h>
#include <inttypes.h>
#include <signal.h>
#include <stdio.h>
#include <stdlib.h>
#include <string.h>
#include <sys/file.h>
#include <sys/stat.h>
#include <unistd.h>

#include "desk.h"

enum { HEAD = 4, BLOCK = 1024, FRAME = HEAD + BLOCK, RUN = 64, ANSWER = 3 };
enum { MOST_CELLS = 2048 * 2048, KEEP_EVERY = 64 };
enum { DONE = 0, NOT_WRITTEN = 1, NOT_OURS = 2 };
enum { NOT_NAMED = -1, NO_FAMILY = -2 };

/* The file: these eight bytes; the count of numbers, the numbers; the count of cells, the cells; two sums. Counts and cells have four
 * bytes, numbers and sums eight, two's complement, the largest byte first. Nothing stands behind. */
static const char MARK[] = "DEMLOAD1";
enum { MARK_SIZE = 8, COUNT_SIZE = 4, NUMBER_SIZE = 8, CELL_SIZE = 4, SUMS_SIZE = 16 };
enum { CELLS_AT = MARK_SIZE + COUNT_SIZE + DEM_SESSION * NUMBER_SIZE + COUNT_SIZE };

/* What the presses are about. All that is lent to the library stands on the heap, each slice for itself. */
struct desk {
    int64_t *session;
    int32_t *grid; /* never NULL, also with no cells */
    size_t cells;
    uint64_t *answer;
    uint8_t *blocks; /* RUN of them; fewer stand at its end, so that what is lent ends where the slice does */
    size_t loose;    /* blocks taken since STATE was kept */
    int kept;        /* whether this press has kept it */
};

/* What has come over the line and is not delivered yet. */
struct line {
    uint8_t *frames; /* room for RUN of them */
    size_t length;
};

/* Where it is kept, and with what permissions if a press before this one kept it. */
struct place {
    char *state, *fresh, *lock, *folder;
    int existed;
    mode_t mode;
};

static int complain(int status, const char *what, const char *name)
{
    fprintf(stderr, "load: %s: %s\n", name, what);
    return status;
}

/* ---- The state as bytes ---- */

/* Four bytes and eight, each byte named: compilers make one step of it, and the largest sheet is written some four hundred times. */
static uint8_t *put_four(uint8_t *at, uint32_t value)
{
    at[0] = (uint8_t)(value >> 24);
    at[1] = (uint8_t)(value >> 16);
    at[2] = (uint8_t)(value >> 8);
    at[3] = (uint8_t)value;
    return at + 4;
}

static uint32_t four_at(const uint8_t *at)
{
    return (uint32_t)at[0] << 24 | (uint32_t)at[1] << 16 | (uint32_t)at[2] << 8 | at[3];
}

static uint8_t *put_eight(uint8_t *at, uint64_t value)
{
    return put_four(put_four(at, (uint32_t)(value >> 32)), (uint32_t)value);
}

static uint64_t eight_at(const uint8_t *at)
{
    return (uint64_t)four_at(at) << 32 | four_at(at + 4);
}

/* Four bytes at a time: their sum, and the sum of the sums so far, which tells where each stood. A cell that rotted on the disk
 * would be signed on otherwise; all the bytes before the sums are a whole number of fours. */
static void sums_of(const uint8_t *bytes, size_t length, uint64_t sums[2])
{
    sums[0] = sums[1] = 0;
    for (size_t i = 0; i < length; i += 4) {
        sums[0] += four_at(bytes + i);
        sums[1] += sums[0];
    }
}

static size_t state_size(size_t cells)
{
    return CELLS_AT + cells * CELL_SIZE + SUMS_SIZE;
}

static void put_state(uint8_t *out, const struct desk *desk)
{
    uint64_t sums[2];
    memcpy(out, MARK, MARK_SIZE);
    uint8_t *at = put_four(out + MARK_SIZE, DEM_SESSION);
    for (size_t i = 0; i < DEM_SESSION; i++)
        at = put_eight(at, (uint64_t)desk->session[i]);
    at = put_four(at, (uint32_t)desk->cells);
    for (size_t i = 0; i < desk->cells; i++)
        at = put_four(at, (uint32_t)desk->grid[i]);
    sums_of(out, (size_t)(at - out), sums);
    put_eight(put_eight(at, sums[0]), sums[1]);
}

/* Whether these are a whole state's bytes, as far as bytes can tell. */
static int is_whole(const uint8_t *bytes, size_t size)
{
    uint64_t sums[2];
    if (size < state_size(0) || memcmp(bytes, MARK, MARK_SIZE) != 0 || four_at(bytes + MARK_SIZE) != DEM_SESSION)
        return 0;
    uint32_t cells = four_at(bytes + CELLS_AT - COUNT_SIZE);
    if (cells > MOST_CELLS || size != state_size(cells))
        return 0;
    sums_of(bytes, size - SUMS_SIZE, sums);
    return eight_at(bytes + size - SUMS_SIZE) == sums[0] && eight_at(bytes + size - NUMBER_SIZE) == sums[1];
}

static int lend_grid(struct desk *desk, size_t cells)
{
    int32_t *grid = calloc(cells ? cells : 1, sizeof *grid);
    if (!grid)
        return 0;
    free(desk->grid);
    desk->grid = grid;
    desk->cells = cells;
    return 1;
}

/* Where so many bytes of blocks are put to be lent. */
static uint8_t *blocks_of(const struct desk *desk, size_t length)
{
    return desk->blocks + RUN * BLOCK - length;
}

/* A grid too short for the session's sheet is told before the block is looked at, and a blank block is never taken: so one may ask. */
static int is_too_short(struct desk *desk, size_t cells)
{
    uint8_t *block = memset(blocks_of(desk, BLOCK), ' ', BLOCK);
    return dem_deliver(desk->session, DEM_SESSION, (uint32_t)desk->session[DEM_TAKEN], block, BLOCK, desk->grid, cells, desk->answer, ANSWER)
           == 12;
}

/* Rows x columns by a complete sheet's own lines; a complete one is no longer asked for its grid. */
static size_t reported_cells(const struct desk *desk)
{
    unsigned rows = 0, columns = 0;
    char *lines = calloc(DEM_REPORT + 1, 1);
    if (lines && dem_report(desk->session, DEM_SESSION, (uint8_t *)lines, DEM_REPORT))
        (void)sscanf(lines, "sheet %u %u ", &rows, &columns);
    free(lines);
    return (size_t)rows * columns;
}

/* Whether there are just the cells of the session's sheet, none before block 0. */
static int is_its_grid(struct desk *desk)
{
    if (desk->session[DEM_TAKEN] == 0 || desk->cells == 0)
        return desk->session[DEM_TAKEN] == 0 && desk->cells == 0;
    if (dem_is_complete(desk->session, DEM_SESSION))
        return reported_cells(desk) == desk->cells;
    return !is_too_short(desk, desk->cells) && is_too_short(desk, desk->cells - 1);
}

static int take_state(struct desk *desk, const uint8_t *bytes, size_t size, const char *name)
{
    static const char other[] = "this is no whole state of the Load button";
    if (!is_whole(bytes, size))
        return complain(NOT_OURS, other, name);
    if (!lend_grid(desk, four_at(bytes + CELLS_AT - COUNT_SIZE)))
        return complain(NOT_WRITTEN, "no memory for its grid", name);
    for (size_t i = 0; i < DEM_SESSION; i++)
        desk->session[i] = (int64_t)eight_at(bytes + MARK_SIZE + COUNT_SIZE + i * NUMBER_SIZE);
    for (size_t i = 0; i < desk->cells; i++)
        desk->grid[i] = (int32_t)four_at(bytes + CELLS_AT + i * CELL_SIZE);
    if (!dem_is_sound(desk->session, DEM_SESSION))
        return complain(NOT_OURS, "its session is unsound", name);
    if (!is_its_grid(desk))
        return complain(NOT_OURS, other, name);
    return DONE;
}

/* ---- The file ---- */

static int read_all(int file, uint8_t *bytes, size_t size)
{
    size_t got = 0;
    while (got < size) {
        ssize_t n = read(file, bytes + got, size - got);
        if (n < 0 && errno == EINTR)
            continue;
        if (n <= 0)
            return 0;
        got += (size_t)n;
    }
    return 1;
}

static int write_all(int file, const uint8_t *bytes, size_t size)
{
    while (size) {
        ssize_t n = write(file, bytes, size);
        if (n < 0 && errno == EINTR)
            continue;
        if (n < 0)
            return 0;
        bytes += n;
        size -= (size_t)n;
    }
    return 1;
}

static int read_state(int file, struct desk *desk, struct place *place)
{
    struct stat about;
    if (fstat(file, &about) != 0)
        return complain(NOT_WRITTEN, strerror(errno), place->state);
    if (!S_ISREG(about.st_mode) || about.st_size < 0 || (uintmax_t)about.st_size > state_size(MOST_CELLS))
        return complain(NOT_OURS, "this is no whole state of the Load button", place->state);
    place->existed = 1;
    place->mode = about.st_mode & 07777;
    size_t size = (size_t)about.st_size;
    uint8_t *bytes = malloc(size ? size : 1);
    if (!bytes)
        return complain(NOT_WRITTEN, "no memory to read it", place->state);
    int status = read_all(file, bytes, size) ? take_state(desk, bytes, size, place->state)
                                             : complain(NOT_WRITTEN, "it cannot be read", place->state);
    free(bytes);
    return status;
}

/* A press for another family than the sheet's is a slip of the hand: the sheet is not to be judged by rules that it was not begun with. */
static int same_family(const struct desk *desk, const struct place *place, int family)
{
    if (family == NOT_NAMED || desk->session[DEM_FAMILY] == family)
        return DONE;
    return complain(NOT_OURS, family == DEM_USGS ? "its sheet is Canadian (1), not of family 0" : "its sheet is USGS (0), not of family 1",
                    place->state);
}

/* The desk as STATE has it, or a fresh one if there is no STATE. */
static int begin(struct desk *desk, struct place *place, int family)
{
    dem_open(family == NOT_NAMED ? DEM_USGS : (uint32_t)family, desk->session, DEM_SESSION);
    /* without blocking, for STATE may be the name of a pipe */
    int file = open(place->state, O_RDONLY | O_CLOEXEC | O_NONBLOCK);
    if (file < 0 && errno == ENOENT)
        return DONE;
    if (file < 0)
        return complain(errno == EISDIR || errno == ENXIO ? NOT_OURS : NOT_WRITTEN, strerror(errno), place->state);
    int status = read_state(file, desk, place);
    close(file);
    return status == DONE ? same_family(desk, place, family) : status;
}

/* A new file of the old one's permissions, written and on the disk. */
static int write_fresh(const struct place *place, const uint8_t *bytes, size_t size)
{
    int file = open(place->fresh, O_WRONLY | O_CREAT | O_EXCL | O_CLOEXEC, place->existed ? 0600 : 0666);
    if (file < 0)
        return 0;
    int good = (!place->existed || fchmod(file, place->mode) == 0) && write_all(file, bytes, size) && fsync(file) == 0;
    int reason = errno;
    if (close(file) != 0 && good) {
        good = 0;
        reason = errno;
    }
    errno = reason;
    return good;
}

/* A renamed file outlasts a power cut only once its folder is on the disk too; a folder that cannot be synced is no fault. */
static int sync_folder(const char *folder)
{
    int file = open(folder, O_RDONLY | O_CLOEXEC);
    if (file < 0)
        return errno == EACCES;
    int good = fsync(file) == 0 || errno == EINVAL;
    close(file);
    return good;
}

/* STATE replaced whole, or left as it is. */
static int keep(struct desk *desk, const struct place *place)
{
    size_t size = state_size(desk->cells);
    uint8_t *bytes = malloc(size);
    if (!bytes)
        return complain(NOT_WRITTEN, "no memory to write it", place->state);
    put_state(bytes, desk);
    int good = write_fresh(place, bytes, size) && rename(place->fresh, place->state) == 0;
    free(bytes);
    if (!good) {
        int reason = errno;
        unlink(place->fresh);
        return complain(NOT_WRITTEN, strerror(reason), place->state);
    }
    if (!sync_folder(place->folder))
        return complain(NOT_WRITTEN, "it is written, but its folder is not synced", place->state);
    desk->loose = 0;
    desk->kept = 1;
    return DONE;
}

/* One press at a time. Another user's lock file may be read-only to us, which is enough to lock it. */
static int lock(const struct place *place)
{
    int file = open(place->lock, O_RDWR | O_CREAT | O_CLOEXEC, 0666);
    if (file < 0 && errno == EACCES)
        file = open(place->lock, O_RDONLY | O_CLOEXEC);
    if (file < 0)
        return complain(NOT_WRITTEN, strerror(errno), place->lock);
    if (flock(file, LOCK_EX | LOCK_NB) == 0)
        return DONE; /* stays open, and so locked, up to the end */
    return complain(errno == EWOULDBLOCK ? NOT_OURS : NOT_WRITTEN,
                    errno == EWOULDBLOCK ? "another press is at work on it" : strerror(errno), place->state);
}

/* ---- Names ---- */

static char *joined(const char *a, const char *b, const char *c)
{
    char *text = malloc(strlen(a) + strlen(b) + strlen(c) + 1);
    if (text)
        strcat(strcat(strcpy(text, a), b), c);
    return text;
}

/* The folder of a name, found by the system so that every way to write it gives one lock. */
static char *folder_of(const char *name)
{
    const char *slash = strrchr(name, '/');
    if (!slash)
        return realpath(".", NULL);
    char *folder = joined(name, "", "");
    if (!folder)
        return NULL;
    folder[slash == name ? 1 : slash - name] = '\0';
    char *found = realpath(folder, NULL);
    free(folder);
    return found;
}

/* STATE may be a link: what it points at is replaced, and not the link. */
static int find(struct place *place, const char *given)
{
    struct stat about;
    char *linked = realpath(given, NULL);
    if (!linked && lstat(given, &about) == 0)
        return complain(NOT_OURS, "it is a link that leads nowhere", given);
    const char *name = linked ? linked : given, *slash = strrchr(name, '/');
    const char *last = slash ? slash + 1 : name;
    int status = DONE;
    if (!*last)
        status = complain(NOT_OURS, "this names no file", given);
    else if (!(place->folder = folder_of(name)))
        status = complain(NOT_WRITTEN, strerror(errno), given);
    else if (!(place->state = joined(place->folder, "/", last)) || !(place->fresh = joined(place->state, ".new", ""))
             || !(place->lock = joined(place->state, ".lock", "")))
        status = complain(NOT_WRITTEN, "no memory", given);
    free(linked);
    return status;
}

/* ---- The line ---- */

/* What is there, as far as there is room: a read waits only where there is nothing, for the line may stay open. 0 at the line's end; a line
 * that breaks off is one that ends. */
static int fetch(struct line *line)
{
    ssize_t n;
    do
        n = read(STDIN_FILENO, line->frames + line->length, RUN * FRAME - line->length);
    while (n < 0 && errno == EINTR);
    if (n <= 0)
        return 0;
    line->length += (size_t)n;
    return 1;
}

/* How many of the frames are one run: each number is one more than the number before it, and behind the largest there is none. */
static size_t run_length(const uint8_t *frames, size_t most)
{
    size_t count = 1;
    while (count < most && four_at(frames + count * FRAME) == (uint64_t)four_at(frames) + count)
        count++;
    return count;
}

/* Block 0 says how many cells its sheet has, so that none is refused for want of them. In a run it can only be the first. */
static int make_room(struct desk *desk, const uint8_t *frames)
{
    if (four_at(frames) != 0 || desk->session[DEM_TAKEN] != 0)
        return 1;
    uint32_t family = (uint32_t)desk->session[DEM_FAMILY];
    const uint8_t *block = memcpy(blocks_of(desk, BLOCK), frames + HEAD, BLOCK);
    uint64_t cells = dem_family_columns(family, block, BLOCK) * dem_family_rows(family, block, BLOCK);
    return cells <= desk->cells || lend_grid(desk, (size_t)cells);
}

/* What was taken is kept every so often, and as soon as the sheet is complete: the line may stay open. */
static int count_taken(struct desk *desk, const struct place *place, size_t taken)
{
    desk->loose += taken;
    if (taken == 0 || (desk->loose < KEEP_EVERY && !dem_is_complete(desk->session, DEM_SESSION)))
        return DONE;
    return keep(desk, place);
}

/* Whether a frame was refused, which is then said at once. */
static int tell_refusal(const struct desk *desk, uint32_t kind)
{
    if (kind == 0 || kind == DEM_HELD)
        return 0;
    printf("refused %" PRIu32 " %" PRIu64 " %" PRIu64 "\n", kind, desk->answer[0], desk->answer[1]);
    return 1;
}

/* A call ends at the first refusal: the frames behind it go on as a run of their own. A sheet that became complete is kept before it is said
 * that the next block is one too many. */
static int take_run(struct desk *desk, const struct place *place, const uint8_t *frames, size_t count)
{
    uint32_t number = four_at(frames);
    if (!make_room(desk, frames))
        return complain(NOT_WRITTEN, "no memory for its grid", place->state);
    for (size_t i = 0; i < count; i++)
        memcpy(blocks_of(desk, (count - i) * BLOCK), frames + i * FRAME + HEAD, BLOCK);
    while (count) {
        int64_t before = desk->session[DEM_TAKEN];
        uint32_t kind = dem_deliver_run(desk->session, DEM_SESSION, number, blocks_of(desk, count * BLOCK), count * BLOCK, desk->grid,
                                        desk->cells, desk->answer, ANSWER);
        int status = count_taken(desk, place, (size_t)(desk->session[DEM_TAKEN] - before));
        if (status != DONE)
            return status;
        size_t done = tell_refusal(desk, kind) ? (size_t)desk->answer[2] + 1 : count;
        number += (uint32_t)done;
        count -= done;
    }
    return DONE;
}

/* The whole frames that are there, in runs no longer than what may be taken before STATE is kept. What is left moves to the front. */
static int take_frames(struct desk *desk, const struct place *place, struct line *line)
{
    size_t at = 0;
    int status = DONE;
    while (status == DONE && line->length - at >= FRAME) {
        const uint8_t *frames = line->frames + at;
        size_t whole = (line->length - at) / FRAME, most = KEEP_EVERY - desk->loose;
        size_t count = run_length(frames, whole < most ? whole : most);
        status = take_run(desk, place, frames, count);
        at += count * FRAME;
    }
    line->length -= at;
    memmove(line->frames, line->frames + at, line->length);
    return status;
}

/* A frame that the line's end cut short is delivered as it is; one cut inside its number is nothing. */
static void take_cut(struct desk *desk, const struct line *line)
{
    if (line->length < HEAD)
        return;
    size_t length = line->length - HEAD;
    uint8_t *block = memcpy(blocks_of(desk, length), line->frames + HEAD, length);
    (void)tell_refusal(desk, dem_deliver(desk->session, DEM_SESSION, four_at(line->frames), block, length, desk->grid, desk->cells,
                                         desk->answer, ANSWER));
}

/* All frames of the line. */
static int take_line(struct desk *desk, const struct place *place)
{
    struct line line = {malloc(RUN * FRAME), 0};
    if (!line.frames)
        return complain(NOT_WRITTEN, "no memory for its line", place->state);
    int status = DONE;
    while (status == DONE && fetch(&line))
        status = take_frames(desk, place, &line);
    if (status == DONE)
        take_cut(desk, &line);
    free(line.frames);
    return status == DONE && (desk->loose || !(place->existed || desk->kept)) ? keep(desk, place) : status;
}

static void print_end(const struct desk *desk)
{
    uint8_t *lines = malloc(DEM_REPORT);
    size_t length = lines ? dem_report(desk->session, DEM_SESSION, lines, DEM_REPORT) : 0;
    if (length)
        fwrite(lines, 1, length, stdout);
    else
        printf("unfinished %" PRId64 "\n", desk->session[DEM_TAKEN]);
    free(lines);
}

/* A file opened where a standard one is missing would be taken for it: STATE.new would get the answers. */
static int fill_standard_files(void)
{
    for (int file = 0; file <= 2; file++)
        if (fcntl(file, F_GETFD) < 0 && open("/dev/null", O_RDONLY) != file)
            return 0;
    return 1;
}

static int press(struct desk *desk, struct place *place, const char *name, int family)
{
    int status = find(place, name);
    if (status == DONE)
        status = lock(place);
    if (status == DONE)
        status = begin(desk, place, family);
    if (status == DONE) {
        unlink(place->fresh); /* what a killed press may have left */
        status = take_line(desk, place);
    }
    if (status != DONE)
        return status;
    print_end(desk);
    if (fflush(stdout) != 0 || ferror(stdout))
        return complain(NOT_WRITTEN, "it is kept, but the answers could not be written", place->state);
    return DONE;
}

/* One digit, as the families are numbered, and no other way to write it. */
static int family_named(const char *text)
{
    if (!text)
        return NOT_NAMED;
    return strcmp(text, "0") == 0 ? DEM_USGS : strcmp(text, "1") == 0 ? DEM_CANADIAN : NO_FAMILY;
}

int main(int argc, char **argv)
{
    if (!fill_standard_files())
        return NOT_WRITTEN;
    if (argc < 2 || argc > 3 || !*argv[1]) {
        fprintf(stderr, "usage: load STATE [FAMILY] <LINE\n");
        return NOT_OURS;
    }
    int family = family_named(argv[2]); /* NULL, where FAMILY is left out */
    if (family == NO_FAMILY)
        return complain(NOT_OURS, "this is no family: 0 is USGS, 1 is Canadian", argv[2]);
    /* A disk quota and a reader that has gone are answers of write, not ends of the program. */
    signal(SIGXFSZ, SIG_IGN);
    signal(SIGPIPE, SIG_IGN);
    setvbuf(stdout, NULL, _IOLBF, BUFSIZ); /* a refusal is seen at once, also through a pipe */
    struct desk desk = {calloc(DEM_SESSION, sizeof *desk.session), NULL, 0, calloc(ANSWER, sizeof *desk.answer), malloc(RUN * BLOCK), 0, 0};
    struct place place = {NULL, NULL, NULL, NULL, 0, 0};
    if (!desk.session || !desk.answer || !desk.blocks || !lend_grid(&desk, 0))
        return complain(NOT_WRITTEN, "no memory", argv[1]);
    int status = press(&desk, &place, argv[1], family);
    free(desk.session);
    free(desk.grid);
    free(desk.answer);
    free(desk.blocks);
    free(place.state);
    free(place.fresh);
    free(place.lock);
    free(place.folder);
    return status;
}
