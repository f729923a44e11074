/* A day on the sampling line: a list comes in, is held against the profile and built; the other maker's table is taken; two desks draw the picture in strips, hide and show
 * traces and repaint no more than they must; trace files, points and the list go out and come back. docs/TOUR.md walks through it. From the repository's top:
 *
 *     ./library && ./gauge table samples/plain.values 640 400 >target/plain.table
 *     cc -O2 -Iinclude examples/line.c target/staticlib/libaktyrbuz.a -o target/line && target/line samples/plain.values target/plain.table 640 400 target/day
 */
#include "aktyrbuz.h"

#include <float.h>
#include <inttypes.h>
#include <stdio.h>
#include <stdlib.h>
#include <string.h>

enum { STRIP = 100, BAND_ROWS = 64, MOST = 1 << 19 };

struct description { size_t splines, points; int32_t adjustment; uint32_t *counts; float *starts; int32_t *deltas, *coefficients; };
struct table { float *segments; uint64_t *owners; uint32_t *row_starts, *entries, segment_count, entry_count, width, height; };
/* What a desk has on its screen: three channels, the columns that each row shows, and its bands. */
struct desk { const char *name; uint32_t number; float *picture; uint32_t *reach, *bands; };

/* The arguments that many calls share. */
#define DESCRIPTION(d) (d)->counts, (d)->splines, (d)->starts, 2 * (d)->splines, (d)->deltas, 2 * (d)->points, (d)->coefficients, 128 * (d)->splines
#define ROOMS(d, n) (d)->counts, n, (d)->starts, n, (d)->deltas, n, (d)->coefficients, n
#define TABLE(t) (t)->segments, 8 * (size_t)(t)->segment_count, (t)->owners, (t)->segment_count, (t)->segment_count, (t)->entries, (t)->entry_count, (t)->entry_count, (t)->row_starts, (size_t)(t)->height + 1, (t)->height
#define SIGHT(desk) splines, bits, splines, (desk)->number

static int64_t answer[5];
static uint8_t *bits; /* shared by both desks, a byte for each of the splines */
static size_t splines;

/* So many cells of zeros, which stay until the end of the day. */
static void *room(size_t cells, size_t size) {
    void *made = calloc(cells + 1, size);
    if (!made) exit(1);
    return made;
}

static void done(const char *call, uint32_t code) {
    if (code == AKTYRBUZ_DONE) return;
    fprintf(stderr, "%s: refused with code %" PRIu32 " at %" PRId64 "\n", call, code, answer[0]);
    exit(1);
}

static void same(const char *what, const void *a, const void *b, size_t bytes) {
    if (memcmp(a, b, bytes) == 0) return;
    fprintf(stderr, "%s: another one comes back\n", what);
    exit(1);
}

/* The numbers of a file, at most so many. */
static size_t load(const char *path, uint32_t *numbers, size_t most) {
    FILE *file = fopen(path, "r");
    size_t n = 0;
    if (!file) { perror(path); exit(1); }
    while (n < most && fscanf(file, "%" SCNu32, &numbers[n]) == 1) n++;
    fclose(file);
    return n;
}

/* Rooms of n cells for each of the four parts, one behind another, so that two descriptions are compared at once. */
static struct description rooms(size_t n) {
    uint32_t *cells = room(4 * n, 4);
    return (struct description){0, 0, 0, cells, (float *)(cells + n), (int32_t *)(cells + 2 * n), (int32_t *)(cells + 3 * n)};
}

/* Reads the list, and a damaged one beside it, of which nothing stays: no number, and no cell. */
static struct description read_list(const uint32_t *list, size_t n, uint32_t pixels) {
    struct description d = rooms(n), cut = rooms(n);
    done("read", aktyrbuz_read(list, n, 1 << 20, pixels, ROOMS(&d, n), answer));
    d.splines = (size_t)answer[1], d.points = (size_t)answer[2], d.adjustment = (int32_t)answer[3];
    printf("list: %zu values, %zu splines, %zu points, adjustment %" PRId32 "\n", n, d.splines, d.points, d.adjustment);
    memset(cut.counts, 1, 16 * n);
    uint32_t code = aktyrbuz_read(list, n - 1, 1 << 20, pixels, ROOMS(&cut, n), answer);
    printf("damaged list: refused with code %" PRIu32 " at %" PRId64 ", nothing is left of it\n", code, answer[0]);
    same("nothing", cut.counts, rooms(n).counts, 16 * n);
    return d;
}

static struct table build(const struct description *d, uint32_t width, uint32_t height) {
    struct table t = {room(MOST, 4), room(MOST / 8, 8), room((size_t)height + 1, 4), room(MOST, 4), 0, 0, width, height};
    float *path = room(MOST, 4), *walk = room(MOST, 4);
    done("profile", aktyrbuz_profile(DESCRIPTION(d), d->adjustment, 1, answer));
    printf("profile: edition 1 is met\n");
    done("build", aktyrbuz_build_profile(DESCRIPTION(d), d->adjustment, width, height, 0, 1, false, false, 1, path, MOST, walk, MOST,
                                         t.segments, MOST, t.owners, MOST / 8, t.row_starts, (size_t)height + 1, t.entries, MOST, answer));
    t.segment_count = (uint32_t)answer[1], t.entry_count = (uint32_t)answer[2];
    printf("build by profile: %" PRId64 " segments, %" PRId64 " of them faint, %" PRId64 " entries, estimate %" PRId64 "\n", answer[1], answer[4], answer[2], answer[3]);
    return t;
}

/* The other maker's row starts and entries, of which two have changed places at first; once they are right they take the place of ours. */
static void take_theirs(struct table *t, const char *path) {
    uint32_t rows = t->height + 1, *theirs = room(rows + MOST, 4), *entries = theirs + rows, n = (uint32_t)load(path, theirs, rows + MOST);
    n -= n < rows ? n : rows;
    for (int turn = 0; turn < 2; turn++) {
        uint32_t kept = entries[n / 2];
        entries[n / 2] = entries[n / 2 + 1], entries[n / 2 + 1] = kept;
        uint32_t code = aktyrbuz_check(t->segments, 8 * (size_t)t->segment_count, t->segment_count, t->height, theirs, rows, entries, n, n, answer);
        if (turn == 0) printf("their table, spoiled: refused with code %" PRIu32 " at %" PRId64 "\n", code, answer[0]);
        else done("check", code);
    }
    printf("their table: taken, %" PRId64 " entries\n", answer[1]);
    memcpy(t->row_starts, theirs, 4 * (size_t)rows), memcpy(t->entries, entries, 4 * (size_t)n), t->entry_count = n;
}

/* The columns from first up to past of a row, cleared and drawn again. */
static int64_t paint(const struct table *t, struct desk *desk, uint32_t y, uint32_t first, uint32_t past) {
    size_t pixels = (size_t)t->width * t->height, n = past - first;
    float *r[3];
    for (int c = 0; c < 3; c++) memset(r[c] = desk->picture + (size_t)c * pixels + (size_t)y * t->width + first, 0, n * sizeof(float));
    done("draw", aktyrbuz_draw(TABLE(t), SIGHT(desk), y, first, (uint32_t)n, r[0], n, r[1], n, r[2], n, answer));
    return answer[1];
}

/* Keeps which columns a row shows now. */
static void look(const struct table *t, struct desk *desk, uint32_t y) {
    done("reach", aktyrbuz_reach(TABLE(t), SIGHT(desk), y, t->width, answer));
    desk->reach[2 * y] = (uint32_t)answer[1], desk->reach[2 * y + 1] = (uint32_t)answer[2];
}

/* One number for a picture. */
static uint64_t number_of(const struct table *t, const struct desk *desk) {
    uint64_t number = 0xcbf29ce484222325;
    for (size_t i = 0; i < 3 * (size_t)t->width * t->height; i++) {
        uint32_t cell;
        memcpy(&cell, &desk->picture[i], 4);
        number = (number ^ cell) * 0x100000001b3;
    }
    return number;
}

/* The whole picture in strips: the operator's from left to right, the checker's from right to left. Bands that hold nothing are passed over. */
static void draw_all(const struct table *t, struct desk *desk) {
    uint32_t strips = (t->width + STRIP - 1) / STRIP;
    int64_t updates = 0;
    for (uint32_t s = 0; s < strips; s++) {
        uint32_t first = STRIP * (desk->number ? strips - 1 - s : s), past = first + STRIP < t->width ? first + STRIP : t->width;
        for (uint32_t y = 0; y < t->height; y++)
            if (desk->bands[5 * (y / BAND_ROWS)]) updates += paint(t, desk, y, first, past);
    }
    for (uint32_t y = 0; y < t->height; y++) look(t, desk, y);
    printf("%s draws: %" PRId64 " updates, picture %016" PRIx64 "\n", desk->name, updates, number_of(t, desk));
}

/* The trace of the brightest pixel: of the segments that its row lists the one with the nearest centre names it. */
static uint64_t touch(const struct table *t, const struct desk *desk) {
    const float *luma = desk->picture + (size_t)t->width * t->height;
    size_t at = 0;
    for (size_t i = 0; i < (size_t)t->width * t->height; i++)
        if (luma[i] > luma[at]) at = i;
    uint32_t x = (uint32_t)(at % t->width), y = (uint32_t)(at / t->width);
    double nearest = DBL_MAX;
    uint64_t trace = 0;
    for (uint32_t i = t->row_starts[y]; i < t->row_starts[y + 1]; i++) {
        const float *segment = t->segments + 8 * (size_t)t->entries[i];
        double dx = x - (double)segment[0], dy = y - (double)segment[1];
        if (dx * dx + dy * dy < nearest) nearest = dx * dx + dy * dy, trace = t->owners[t->entries[i]];
    }
    printf("%s touches column %" PRIu32 ", row %" PRIu32 ": trace %" PRIu64 "\n", desk->name, x, y, trace);
    return trace;
}

/* A desk hides a trace or shows it again. The bands that list it are made again, and in their rows the columns are repainted that were shown before or are now. */
static void change(const struct table *t, struct desk *desk, uint64_t trace, bool hidden) {
    uint32_t bands = (t->height + BAND_ROWS - 1) / BAND_ROWS, again = 0, shown = 0, rows = 0, columns = 0;
    done("hide", aktyrbuz_hide(bits, splines, desk->number, trace, hidden, answer));
    for (uint32_t b = 0; b < bands; b++) {
        uint32_t past = (b + 1) * BAND_ROWS < t->height ? (b + 1) * BAND_ROWS : t->height, i = t->row_starts[b * BAND_ROWS];
        while (i < t->row_starts[past] && t->owners[t->entries[i]] != trace) i++;
        if (i < t->row_starts[past]) {
            done("band", aktyrbuz_band(TABLE(t), SIGHT(desk), t->width, desk->bands, 5 * (size_t)bands, b, answer));
            again++;
            for (uint32_t y = b * BAND_ROWS; y < past; y++) {
                uint32_t *reach = desk->reach + 2 * y, first = reach[0], last = reach[1];
                look(t, desk, y);
                if (reach[0] < reach[1] && (first == last || reach[0] < first)) first = reach[0];
                if (reach[1] > last) last = reach[1];
                if (first == last) continue;
                paint(t, desk, y, first, last);
                rows++, columns += last - first;
            }
        }
        shown += desk->bands[5 * b];
    }
    printf("%s %s trace %" PRIu64 ": %" PRIu32 " bands made again, %" PRIu32 " entries shown, %" PRIu32 " rows repainted in %" PRIu32 " columns, picture %016" PRIx64 "\n",
           desk->name, hidden ? "hides" : "shows", trace, again, shown, rows, columns, number_of(t, desk));
}

/* Bytes go out to a file of this ending and come back. */
static size_t pass_on(const char *prefix, const char *ending, uint8_t *bytes) {
    char path[4096];
    size_t n = (size_t)answer[1];
    snprintf(path, sizeof path, "%s.%s", prefix, ending);
    FILE *file = fopen(path, "wb");
    if (!file || fwrite(bytes, 1, n, file) != n || fclose(file)) { perror(path); exit(1); }
    memset(bytes, 0, n);
    if (!(file = fopen(path, "rb")) || fread(bytes, 1, n, file) != n || fclose(file)) { perror(path); exit(1); }
    return n;
}

/* What goes out and comes back: the traces as files of both versions, the points of one, and the list. */
static void pass_all(const struct description *d, const uint32_t *list, size_t n, uint32_t pixels, uint64_t trace, const char *prefix) {
    size_t most = 36 + 524 * d->splines + 26 * d->points, bytes, before = 0;
    uint8_t *file = room(most, 1);
    struct description back = rooms(n);
    done("trace_write", aktyrbuz_trace_write(DESCRIPTION(d), d->adjustment, file, most, answer));
    bytes = pass_on(prefix, "1.trace", file);
    done("trace_read", aktyrbuz_trace_read(file, bytes, ROOMS(&back, n), answer));
    same("a trace file", d->counts, back.counts, 16 * n);
    printf("trace file of version 1: %zu bytes, comes back the same\n", bytes);
    done("trace_write2", aktyrbuz_trace_write2(DESCRIPTION(d), d->adjustment, 2, 2, file, most, answer));
    bytes = pass_on(prefix, "2.trace", file);
    done("trace_read2", aktyrbuz_trace_read2(file, bytes, ROOMS(&back, n), answer));
    same("a trace file", d->counts, back.counts, 16 * n);
    printf("trace file of version 2, edition %" PRId64 ": %zu bytes, comes back the same; ", answer[4], bytes);
    uint32_t older = aktyrbuz_trace_read(file, bytes, ROOMS(&back, n), answer);
    printf("the older reader: refused with code %" PRIu32 " at %" PRId64 "\n", older, answer[0]);
    done("points_write", aktyrbuz_points_write(DESCRIPTION(d), trace, file, most, answer));
    bytes = pass_on(prefix, "points", file);
    done("points_read", aktyrbuz_points_read(file, bytes, back.starts, n, back.deltas, n, answer));
    for (uint64_t k = 0; k < trace; k++) before += d->counts[k];
    same("a start", d->starts + 2 * trace, back.starts, 8), same("points", d->deltas + 2 * before, back.deltas, 8 * (size_t)answer[1]);
    printf("points of trace %" PRIu64 ": %" PRId64 " pairs, %zu bytes, come back the same\n", trace, answer[1] + 1, bytes);
    done("write", aktyrbuz_write(DESCRIPTION(d), d->adjustment, 1 << 20, pixels, back.counts, n, answer));
    same("the list", list, back.counts, 4 * n);
    printf("list: written back, %" PRId64 " values, the same\n", answer[1]);
}

int main(int argc, char **argv) {
    if (argc != 6) return fprintf(stderr, "usage: line VALUES TABLE WIDTH HEIGHT PREFIX\n"), 2;
    uint32_t width = (uint32_t)strtoul(argv[3], NULL, 10), height = (uint32_t)strtoul(argv[4], NULL, 10), *list = room(MOST, 4);
    size_t pixels = (size_t)width * height, n = load(argv[1], list, MOST);
    if (pixels > 1 << 26) return fprintf(stderr, "line: so great a picture is not for an example\n"), 2;
    struct description d = read_list(list, n, (uint32_t)pixels);
    struct table t = build(&d, width, height);
    take_theirs(&t, argv[2]);
    splines = d.splines, bits = room(splines, 1);
    struct desk desks[2] = {{"operator", 0, room(3 * pixels, 4), room(2 * (size_t)height, 4), room(5 * (size_t)height, 4)},
                            {"checker", 1, room(3 * pixels, 4), room(2 * (size_t)height, 4), room(5 * (size_t)height, 4)}};
    for (int k = 0; k < 2; k++) done("bands", aktyrbuz_bands(TABLE(&t), SIGHT(&desks[k]), width, desks[k].bands, 5 * (size_t)height, answer));
    for (int64_t b = 0; b < answer[1]; b++) printf("%s %" PRIu32, b ? "," : "bands:", desks[0].bands[5 * b]);
    printf(" entries\n");
    for (int k = 0; k < 2; k++) draw_all(&t, &desks[k]);
    uint64_t trace = touch(&t, &desks[0]);
    change(&t, &desks[0], trace, true), change(&t, &desks[1], 0, true), change(&t, &desks[0], trace, false);
    pass_all(&d, list, n, (uint32_t)pixels, trace, argv[5]);
    return 0;
}
