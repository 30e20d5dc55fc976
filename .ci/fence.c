/* A heap of slices with fences, for programs linked with --wrap=malloc,--wrap=calloc,--wrap=realloc,--wrap=free: a step past a slice, by C or
 * by the library, ends the program at once. An address sanitizer sees only what it compiled, and it does not run in the kit's emulator.
 * Each slice ends where a page begins that nobody may touch; with FENCE=low in the environment it begins where such a page ends. The few bytes
 * between it and the other page hold a pattern, looked at when it is given back and at the program's end. What was given back stays closed. */
#define _DEFAULT_SOURCE
#include <stdint.h>
#include <stdio.h>
#include <stdlib.h>
#include <string.h>
#include <sys/mman.h>

enum { PAGE = 4096, MOST_SLICES = 20000, PATTERN = 0xA5 };

struct slice {
    unsigned char *at, *room;
    size_t length, room_length;
};

static struct slice slices[MOST_SLICES];
static size_t used;

void *__real_malloc(size_t);
void __real_free(void *);
void *__wrap_malloc(size_t length);
void *__wrap_calloc(size_t count, size_t size);
void *__wrap_realloc(void *at, size_t length);
void __wrap_free(void *at);

static void stop(const char *what)
{
    fputs("fence: ", stderr);
    fputs(what, stderr);
    fputs("\n", stderr);
    abort();
}

void *__wrap_malloc(size_t length)
{
    size_t room = (length / PAGE + 1) * PAGE;
    const char *side = getenv("FENCE");
    if (used == MOST_SLICES)
        stop("too many slices");
    unsigned char *pages = mmap(NULL, room + 2 * PAGE, PROT_NONE, MAP_PRIVATE | MAP_ANONYMOUS | MAP_NORESERVE, -1, 0);
    if (pages == MAP_FAILED || mprotect(pages + PAGE, room, PROT_READ | PROT_WRITE) != 0)
        return NULL;
    struct slice *slice = &slices[used++];
    slice->room = pages + PAGE;
    slice->room_length = room;
    slice->length = length;
    slice->at = slice->room + (side && strcmp(side, "low") == 0 ? 0 : room - length);
    memset(slice->room, PATTERN, room);
    return slice->at;
}

void *__wrap_calloc(size_t count, size_t size)
{
    if (size && count > SIZE_MAX / 2 / size)
        return NULL;
    void *at = __wrap_malloc(count * size);
    return at ? memset(at, 0, count * size) : NULL;
}

static struct slice *slice_at(const void *at)
{
    for (size_t i = used; i > 0; i--)
        if (slices[i - 1].at == at && slices[i - 1].room)
            return &slices[i - 1];
    return NULL;
}

static void look(const struct slice *slice)
{
    for (const unsigned char *p = slice->room; p < slice->room + slice->room_length; p++)
        if ((p < slice->at || p >= slice->at + slice->length) && *p != PATTERN)
            stop("written beside a slice");
}

void __wrap_free(void *at)
{
    struct slice *slice = at ? slice_at(at) : NULL;
    if (!slice) {
        __real_free(at);
        return;
    }
    look(slice);
    /* its memory goes back, its addresses stay closed */
    if (mmap(slice->room, slice->room_length, PROT_NONE, MAP_FIXED | MAP_PRIVATE | MAP_ANONYMOUS | MAP_NORESERVE, -1, 0) == MAP_FAILED)
        stop("a slice cannot be closed");
    slice->room = NULL;
}

void *__wrap_realloc(void *at, size_t length)
{
    struct slice *slice = at ? slice_at(at) : NULL;
    if (at && !slice)
        stop("grown, but never lent");
    void *moved = __wrap_malloc(length);
    if (moved && slice) {
        memcpy(moved, at, slice->length < length ? slice->length : length);
        __wrap_free(at);
    }
    return moved;
}

__attribute__((destructor)) static void look_at_all(void)
{
    for (size_t i = 0; i < used; i++)
        if (slices[i].room)
            look(&slices[i]);
}
