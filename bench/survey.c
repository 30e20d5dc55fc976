/* A careful reader of elevation sheets in C, to document 01's rules, for the comparison of speed in bench/speed.sh: it lists the sheet on
   standard input as the survey does. (Its author had read crates/load/src, so it is no independent second reading.) It trusts its own
   session: no test of soundness (kind 2). With -DFETCH=65536 it fetches so many bytes a read, as the survey does; without, a block a call of
   fread, which reads 4,096 bytes at a time. */
#include <stdint.h>
#include <stdio.h>
#include <string.h>

enum { BLOCK = 1024, CELLS = 1201 * 1201, SCRATCH = 170 };
#define BILLION INT64_C(1000000000)
#define CENT INT64_C(10000000) /* a hundredth, in billionths */

typedef struct { int64_t first, count, step; } lattice;
typedef struct { uint64_t filled; int64_t low, high, sum; } extremes;

typedef struct {
    int64_t level, system, zone, ground, vertical, accuracy, profiles;
    int64_t corner[8]; /* SW, NW, NE, SE: x then y */
    int64_t least, greatest, xstep, ystep, zstep;
    lattice columns, rows;
} header;

typedef struct { int64_t posts, row, datum, least, greatest, read; extremes seen; } profile;

typedef struct {
    header h;
    profile p; /* open where p.posts is not 0 */
    uint64_t taken, posts, first_block;
    int64_t closed, column;
    int finished;
    extremes seen;
} session;

typedef struct { int kind; uint64_t block; int byte; } answer; /* kind 0: taken; -1: held */

/* ---- fields */

static int read_integer(const unsigned char *b, int n, int64_t *out)
{
    int i = 0, minus = 0;
    int64_t v = 0;
    while (i < n && b[i] == ' ')
        i++;
    if (i < n && (b[i] == '+' || b[i] == '-'))
        minus = b[i++] == '-';
    if (i == n)
        return 6;
    for (; i < n; i++) {
        unsigned d = (unsigned)b[i] - '0';
        if (d > 9)
            return 6;
        v = v * 10 + d;
    }
    *out = minus ? -v : v;
    return 0;
}

static int64_t power_of_ten(int n)
{
    int64_t v = 1;
    while (n-- > 0)
        v *= 10;
    return v;
}

/* A real as a whole number of billionths. `out` may be null: then only its form is judged. */
static int read_real(const unsigned char *b, int n, int64_t *out)
{
    int i = 0, minus = 0, digits = 0, point = 0, after = 0, e = 0;
    unsigned __int128 m = 0;
    while (i < n && b[i] == ' ')
        i++;
    if (i < n && (b[i] == '+' || b[i] == '-'))
        minus = b[i++] == '-';
    for (; i < n; i++) {
        if (b[i] == '.' && !point) {
            point = 1;
            continue;
        }
        if (b[i] < '0' || b[i] > '9')
            break;
        m = m * 10 + (b[i] - '0');
        digits++;
        after += point;
    }
    if (!digits)
        return 6;
    if (i < n && (b[i] == 'D' || b[i] == 'E')) {
        int down = 0, k = 0;
        i++;
        if (i < n && (b[i] == '+' || b[i] == '-'))
            down = b[i++] == '-';
        for (; i < n && k < 2 && b[i] >= '0' && b[i] <= '9'; i++, k++)
            e = e * 10 + (b[i] - '0');
        if (!k)
            return 6;
        if (down)
            e = -e;
    }
    while (i < n && b[i] == ' ')
        i++;
    if (i != n)
        return 6;
    if (!out)
        return 0;
    if (m == 0) {
        *out = 0;
        return 0;
    }
    /* 02, request 4: where no point stands, one before the last digits, by the length of the field */
    e -= point ? after : n == 12 ? 6 : n == 7 ? 4 : 15;
    while (m % 10 == 0) {
        m /= 10;
        e++;
    }
    int shown = 0;
    for (unsigned __int128 t = m; t; t /= 10)
        shown++;
    if (shown + e > 9)
        return 7;
    if (e + 9 < 0 || shown > 15)
        return 8;
    int64_t v = (int64_t)m * power_of_ten(e + 9);
    *out = minus ? -v : v;
    return 0;
}

static int is_text(const unsigned char *b, int n)
{
    for (int i = 0; i < n; i++)
        if (b[i] < 32 || b[i] > 126 || (b[i] >= 'a' && b[i] <= 'z'))
            return 0;
    return 1;
}

static int is_blank(const unsigned char *b, int n)
{
    for (int i = 0; i < n; i++)
        if (b[i] != ' ')
            return 0;
    return 1;
}

/* An integer of six bytes at `byte` (from 1), from `lo` to `hi`, else `kind`. */
static int field(const unsigned char *b, int byte, int64_t lo, int64_t hi, int kind, int64_t *out)
{
    int f = read_integer(b + byte - 1, 6, out);
    if (f)
        return f;
    return *out < lo || *out > hi ? kind : 0;
}

/* ---- record A */

static int64_t floor_div(int64_t a, int64_t b)
{
    int64_t q = a / b;
    return a % b < 0 ? q - 1 : q;
}

static lattice lattice_of(const int64_t *v, int64_t step)
{
    int64_t least = v[0], greatest = v[0];
    for (int i = 2; i < 8; i += 2) {
        if (v[i] < least)
            least = v[i];
        if (v[i] > greatest)
            greatest = v[i];
    }
    int64_t first = -floor_div(-least, step), last = floor_div(greatest, step);
    lattice l = { first, last < first ? 0 : last - first + 1, step };
    return l;
}

/* The place of v on the lattice, or -1. */
static int64_t place_of(lattice l, int64_t v)
{
    if (v % l.step)
        return -1;
    int64_t i = v / l.step - l.first;
    return i < 0 || i >= l.count ? -1 : i;
}

static int spacing(const unsigned char *b, int byte, int64_t *out)
{
    int f = read_real(b + byte - 1, 12, out);
    if (f)
        return f;
    return *out % BILLION || *out < BILLION || *out > 9999 * BILLION ? 7 : 0;
}

#define JUDGE(at, e) do { int k_ = (e); if (k_) { *byte = (at); return k_; } } while (0)

static int read_header(const unsigned char *b, header *h, int *byte)
{
    int64_t v;
    JUDGE(1, is_text(b, 144) ? 0 : 5);
    JUDGE(145, field(b, 145, 1, 3, 9, &h->level));
    JUDGE(151, field(b, 151, 1, 1, 9, &v));
    JUDGE(157, field(b, 157, 0, 2, 9, &h->system));
    JUDGE(163, field(b, 163, h->system != 0, h->system == 0 ? 0 : h->system == 1 ? 60 : 9999, 9, &h->zone));
    for (int i = 0; i < 15; i++)
        JUDGE(169 + 24 * i, read_real(b + 168 + 24 * i, 24, NULL));
    JUDGE(529, field(b, 529, h->system == 0 ? 3 : h->system == 1 ? 2 : 1, h->system == 0 ? 3 : 2, 9, &h->ground));
    JUDGE(535, field(b, 535, 1, 2, 9, &h->vertical));
    JUDGE(541, field(b, 541, 4, 4, 9, &v));
    for (int i = 0; i < 8; i++)
        JUDGE(547 + 24 * i, read_real(b + 546 + 24 * i, 24, &h->corner[i]));
    JUDGE(739, read_real(b + 738, 24, &h->least));
    JUDGE(763, read_real(b + 762, 24, &h->greatest));
    JUDGE(787, read_real(b + 786, 24, &v));
    JUDGE(787, v ? 9 : 0);
    JUDGE(811, field(b, 811, 0, 1, 9, &h->accuracy));
    JUDGE(817, spacing(b, 817, &h->xstep));
    JUDGE(829, spacing(b, 829, &h->ystep));
    JUDGE(841, read_real(b + 840, 12, &h->zstep));
    JUDGE(841, h->zstep <= 0 || h->zstep > BILLION || h->zstep % (h->vertical == 1 ? 10 * CENT : CENT) ? 7 : 0);
    JUDGE(853, field(b, 853, 1, 1, 9, &v));
    JUDGE(859, field(b, 859, 1, 2048, 7, &h->profiles));
    JUDGE(865, is_text(b + 864, 160) ? 0 : 5);
    const int64_t *c = h->corner;
    JUDGE(547, c[0] < c[6] && c[2] < c[4] && c[1] < c[3] && c[7] < c[5] ? 0 : 10);
    h->columns = lattice_of(c, h->xstep);
    h->rows = lattice_of(c + 1, h->ystep);
    JUDGE(817, h->columns.count < 1 || h->columns.count > 2048 || h->rows.count < 1 || h->rows.count > 2048 ? 10 : 0);
    JUDGE(859, h->profiles > h->columns.count ? 10 : 0);
    return 0;
}

/* ---- records B and C */

static int read_head(const unsigned char *b, int64_t number, profile *p, int64_t *x, int64_t *y, int *byte)
{
    int64_t v;
    JUDGE(1, field(b, 1, 1, 1, 9, &v));
    JUDGE(7, field(b, 7, number, number, 9, &v));
    JUDGE(13, field(b, 13, 1, 2048, 7, &p->posts));
    JUDGE(19, field(b, 19, 1, 1, 9, &v));
    JUDGE(25, read_real(b + 24, 24, x));
    JUDGE(49, read_real(b + 48, 24, y));
    JUDGE(73, read_real(b + 72, 24, &v));
    JUDGE(73, v % CENT || v > 10000 * BILLION || v < -10000 * BILLION ? 7 : 0);
    p->datum = v / CENT;
    JUDGE(97, read_real(b + 96, 24, &p->least));
    JUDGE(121, read_real(b + 120, 24, &p->greatest));
    return 0;
}

static int read_posts(const unsigned char *b, int at, int n, int64_t z, int64_t datum, int32_t *out, extremes *seen, int *byte)
{
    extremes e = { 0, INT64_MAX, INT64_MIN, 0 };
    for (int i = 0; i < n; i++, at += 6) {
        int64_t v;
        JUDGE(at, field(b, at, -32767, 32767, 7, &v));
        if (v == -32767) {
            out[i] = INT32_MIN;
            continue;
        }
        v = v * z + datum;
        out[i] = (int32_t)v;
        e.filled++;
        e.sum += v;
        if (v < e.low)
            e.low = v;
        if (v > e.high)
            e.high = v;
    }
    JUDGE(at, is_blank(b + at - 1, BLOCK + 1 - at) ? 0 : 5);
    *seen = e;
    return 0;
}

static int read_record_c(const unsigned char *b, int *byte)
{
    for (int half = 0; half < 60; half += 30) {
        int64_t code, v;
        JUDGE(half + 1, field(b, half + 1, 0, 1, 9, &code));
        for (int at = half + 7; at < half + 31; at += 6) {
            JUDGE(at, field(b, at, 0, INT64_MAX, 7, &v));
            JUDGE(at, !code && v ? 9 : 0);
        }
    }
    JUDGE(61, is_blank(b + 60, BLOCK - 60) ? 0 : 5);
    return 0;
}

static void join(extremes *a, const extremes *b)
{
    if (!b->filled)
        return;
    if (!a->filled || b->low < a->low)
        a->low = b->low;
    if (!a->filled || b->high > a->high)
        a->high = b->high;
    a->filled += b->filled;
    a->sum += b->sum;
}

static int64_t stated(const extremes *e, int64_t v) { return e->filled ? v * CENT : 0; }

/* ---- deliveries */

static answer refuse(int kind, uint64_t block, int byte)
{
    answer a = { kind, block, byte };
    return a;
}

static answer close_profile(const session *s)
{
    const profile *p = &s->p;
    if (p->least != stated(&p->seen, p->seen.low))
        return refuse(11, s->first_block, 97);
    if (p->greatest != stated(&p->seen, p->seen.high))
        return refuse(11, s->first_block, 121);
    if (s->closed + 1 == s->h.profiles) {
        if (s->h.least != stated(&s->seen, s->seen.low))
            return refuse(11, 0, 739);
        if (s->h.greatest != stated(&s->seen, s->seen.high))
            return refuse(11, 0, 763);
    }
    return refuse(0, 0, 0);
}

/* A profile's block, first or further: judged whole on a copy of the session, then kept. */
static answer read_profile(session *s, uint64_t number, const unsigned char *b, int32_t *grid)
{
    session t = *s;
    profile *p = &t.p;
    int32_t cells[SCRATCH];
    extremes seen;
    int byte = 0, kind, first = p->posts == 0, room = first ? 146 : 170;
    int64_t x = 0, y = 0, z = t.h.zstep / CENT;
    if (first) {
        memset(p, 0, sizeof *p);
        kind = read_head(b, t.closed + 1, p, &x, &y, &byte);
        if (kind)
            return refuse(kind, number, byte);
        t.first_block = number;
    }
    int n = p->posts - p->read < room ? (int)(p->posts - p->read) : room;
    kind = read_posts(b, first ? 145 : 1, n, z, p->datum, cells, &seen, &byte);
    if (kind)
        return refuse(kind, number, byte);
    if (first) {
        int64_t c = place_of(t.h.columns, x);
        if (c < 0 || (t.closed == 0 ? c + t.h.profiles > t.h.columns.count : c != t.column + t.closed))
            return refuse(10, number, 25);
        if (t.closed == 0)
            t.column = c;
        p->row = place_of(t.h.rows, y);
        if (p->row < 0 || p->row + p->posts > t.h.rows.count)
            return refuse(10, number, 49);
    }
    int64_t at = (t.column + t.closed) * t.h.rows.count + p->row + p->read;
    p->read += n;
    t.posts += (uint64_t)n;
    t.taken++;
    join(&p->seen, &seen);
    join(&t.seen, &seen);
    if (p->read == p->posts) {
        answer a = close_profile(&t);
        if (a.kind)
            return a;
        t.closed++;
        memset(p, 0, sizeof *p);
    }
    memcpy(grid + at, cells, (size_t)n * sizeof *cells);
    *s = t;
    return refuse(0, 0, 0);
}

static answer begin(session *s, const unsigned char *b, int32_t *grid, size_t lent)
{
    session t;
    int byte = 0;
    memset(&t, 0, sizeof t);
    int kind = read_header(b, &t.h, &byte);
    if (kind)
        return refuse(kind, 0, byte);
    size_t cells = (size_t)(t.h.columns.count * t.h.rows.count);
    if (lent < cells)
        return refuse(12, 0, 0);
    for (size_t i = 0; i < cells; i++)
        grid[i] = INT32_MIN;
    t.taken = 1;
    *s = t;
    return refuse(0, 0, 0);
}

static int is_complete(const session *s) { return s->closed == s->h.profiles && (!s->h.accuracy || s->finished); }

static answer deliver(session *s, uint64_t number, const unsigned char *b, size_t bytes, int32_t *grid, size_t lent)
{
    if (bytes != BLOCK)
        return refuse(1, number, 0);
    if (number < s->taken)
        return refuse(-1, 0, 0);
    if (number > s->taken)
        return refuse(3, number, 0);
    if (number == 0)
        return begin(s, b, grid, lent);
    if (is_complete(s))
        return refuse(4, number, 0);
    if (lent < (size_t)(s->h.columns.count * s->h.rows.count))
        return refuse(12, number, 0);
    if (s->closed < s->h.profiles)
        return read_profile(s, number, b, grid);
    int byte = 0, kind = read_record_c(b, &byte);
    if (kind)
        return refuse(kind, number, byte);
    s->finished = 1;
    s->taken++;
    return refuse(0, 0, 0);
}

/* ---- the listing */

static void print_hundredths(const char *before, int64_t v)
{
    printf("%s%s%lld.%02lld", before, v < 0 ? "-" : "", (long long)(v < 0 ? -v : v) / 100, (long long)(v < 0 ? -v : v) % 100);
}

static void print_sheet(const session *s)
{
    const header *h = &s->h;
    const extremes *e = &s->seen;
    printf("sheet %lld %lld %lld %lld", (long long)h->rows.count, (long long)h->columns.count, (long long)(h->xstep / BILLION),
           (long long)(h->ystep / BILLION));
    print_hundredths(" ", h->zstep / CENT);
    printf("\nposts %llu void %llu\n", (unsigned long long)s->posts, (unsigned long long)(s->posts - e->filled));
    print_hundredths("range ", e->filled ? e->low : 0);
    print_hundredths(" ", e->filled ? e->high : 0);
    printf("\nend %llu\n", (unsigned long long)s->taken);
}

#ifdef FETCH
#include "fetch.h"
#else
#define FETCH BLOCK
static size_t fetch(unsigned char *bytes) { return fread(bytes, 1, FETCH, stdin); }
#endif

/* No line tells the sum or a cell. A compiler would leave them out, if they were not to be seen from outside. */
int32_t grid[CELLS];
volatile int64_t sum_kept;

int main(void)
{
    static unsigned char bytes[FETCH];
    static session s;
    size_t got;
    uint64_t number = 0;
    while ((got = fetch(bytes)) > 0)
        for (size_t at = 0; at < got; at += BLOCK, number++) {
            answer a = deliver(&s, number, bytes + at, got - at < BLOCK ? got - at : BLOCK, grid, CELLS);
            if (a.kind > 0) {
                printf("refused %d %llu %d\n", a.kind, (unsigned long long)a.block, a.byte);
                return 0;
            }
        }
    sum_kept = s.seen.sum;
    if (s.taken && is_complete(&s))
        print_sheet(&s);
    else
        printf("unfinished %llu\n", (unsigned long long)s.taken);
    return 0;
}
