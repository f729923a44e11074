/* Reads samples/fibres.values, builds its table and draws every row, and prints the counts of each call. From the repository's top:
 *
 *     ./library
 *     cc -O2 -Iinclude examples/fibres.c target/staticlib/libaktyrbuz.a -o target/fibres && target/fibres samples/fibres.values 640 400
 */
#include "aktyrbuz.h"

#include <float.h>
#include <inttypes.h>
#include <stdio.h>
#include <stdlib.h>

/* What a read leaves. */
struct description {
    size_t splines, points;
    int32_t adjustment;
    uint32_t *counts;
    float *starts;
    int32_t *deltas, *coefficients;
};

/* What a build leaves. */
struct table {
    float *segments;
    uint64_t *owners;
    uint32_t *row_starts, *entries;
    size_t segments_len, entries_len;
    uint32_t segment_count, entry_count, height;
};

static void *room(size_t cells, size_t size) {
    void *cell = calloc(cells ? cells : 1, size);
    if (!cell) {
        fprintf(stderr, "no memory for %zu cells\n", cells);
        exit(1);
    }
    return cell;
}

static void check(const char *call, uint32_t code, const int64_t answer[5]) {
    if (code != AKTYRBUZ_DONE) {
        fprintf(stderr, "%s: refused with code %" PRIu32 " at %" PRId64 "\n", call, code, answer[0]);
        exit(1);
    }
}

/* The numbers of a file, with white space between them. */
static uint32_t *load(const char *path, size_t *len) {
    FILE *file = fopen(path, "r");
    size_t held = 0, most = 1024;
    uint32_t *list = room(most, sizeof *list);
    if (!file) {
        perror(path);
        exit(1);
    }
    while (fscanf(file, "%" SCNu32, &list[held]) == 1) {
        if (++held == most && !(list = realloc(list, (most *= 2) * sizeof *list))) {
            fprintf(stderr, "no memory for %zu values\n", most);
            exit(1);
        }
    }
    fclose(file);
    *len = held;
    return list;
}

/* Each cell of a description is a value of the list, so rooms as long as the list are enough. */
static struct description read_all(const uint32_t *list, size_t len, uint32_t pixels) {
    struct description d;
    int64_t answer[5];
    d.counts = room(len, sizeof *d.counts);
    d.starts = room(len, sizeof *d.starts);
    d.deltas = room(len, sizeof *d.deltas);
    d.coefficients = room(len, sizeof *d.coefficients);
    check("read", aktyrbuz_read(list, len, 1 << 20, pixels, d.counts, len, d.starts, len, d.deltas, len, d.coefficients, len, answer), answer);
    d.splines = (size_t)answer[1];
    d.points = (size_t)answer[2];
    d.adjustment = (int32_t)answer[3];
    printf("read: %" PRId64 " splines, %" PRId64 " points, adjustment %" PRId64 "\n", answer[1], answer[2], answer[3]);
    return d;
}

/* Nobody knows beforehand how many segments there will be: the rooms double until they are enough, up to 124 MiB. */
static struct table build_all(const struct description *d, uint32_t width, uint32_t height) {
    struct table t = {0};
    int64_t answer[5];
    uint32_t code;
    size_t points = 4096;
    t.height = height;
    do {
        float *path = room(2 * points, sizeof *path), *walk = room(3 * points, sizeof *walk);
        t.segments_len = 8 * points;
        t.entries_len = 16 * points;
        t.segments = realloc(t.segments, t.segments_len * sizeof *t.segments);
        t.owners = realloc(t.owners, points * sizeof *t.owners);
        t.entries = realloc(t.entries, t.entries_len * sizeof *t.entries);
        t.row_starts = realloc(t.row_starts, ((size_t)height + 1) * sizeof *t.row_starts);
        if (!t.segments || !t.owners || !t.entries || !t.row_starts) {
            fprintf(stderr, "no memory for a table\n");
            exit(1);
        }
        code = aktyrbuz_build(d->counts, d->splines, d->starts, 2 * d->splines, d->deltas, 2 * d->points, d->coefficients, 128 * d->splines,
                              d->adjustment, width, height, 0, 1, false, false, path, 2 * points, walk, 3 * points, t.segments, t.segments_len,
                              t.owners, points, t.row_starts, (size_t)height + 1, t.entries, t.entries_len, answer);
        free(path);
        free(walk);
        points *= 2;
    } while (code == AKTYRBUZ_ROOM && points <= 1 << 20);
    check("build", code, answer);
    t.segment_count = (uint32_t)answer[1];
    t.entry_count = (uint32_t)answer[2];
    printf("build: %" PRId64 " segments, %" PRId64 " of them faint, %" PRId64 " entries, estimate %" PRId64 "\n", answer[1], answer[4], answer[2], answer[3]);
    return t;
}

/* The trace that an operator touches: of the segments that row y lists, the one with the nearest centre tells its spline. */
static void touch(const struct table *t, uint32_t x, uint32_t y) {
    double nearest = DBL_MAX;
    uint64_t trace = 0;
    for (uint32_t i = t->row_starts[y]; i < t->row_starts[y + 1]; i++) {
        const float *segment = t->segments + 8 * (size_t)t->entries[i];
        double dx = (double)x - segment[0], dy = (double)y - segment[1], square = dx * dx + dy * dy;
        if (square < nearest) {
            nearest = square;
            trace = t->owners[t->entries[i]];
        }
    }
    printf("touch: column %" PRIu32 ", row %" PRIu32 " is of trace %" PRIu64 "\n", x, y, trace);
}

/* For one desk that has hidden nothing: a byte of 0 for each spline. */
static void draw_all(const struct table *t, size_t splines, uint32_t width) {
    float *channels = room(3 * (size_t)width, sizeof *channels);
    uint8_t *bits = room(splines, sizeof *bits);
    int64_t answer[5], updates = 0;
    float brightest = 0;
    uint32_t at_x = 0, at_y = 0;
    for (uint32_t y = 0; y < t->height; y++) {
        for (size_t i = 0; i < 3 * (size_t)width; i++)
            channels[i] = 0;
        check("draw", aktyrbuz_draw(t->segments, t->segments_len, t->owners, t->segment_count, t->segment_count, t->entries, t->entries_len, t->entry_count,
                                    t->row_starts, (size_t)t->height + 1, t->height, splines, bits, splines, 0, y, 0, width, channels, width,
                                    channels + width, width, channels + 2 * (size_t)width, width, answer),
              answer);
        updates += answer[1];
        for (size_t x = 0; x < width; x++)
            if (channels[width + x] > brightest) {
                brightest = channels[width + x];
                at_x = (uint32_t)x;
                at_y = y;
            }
    }
    printf("draw: %" PRId64 " updates, the brightest Y is %.3f\n", updates, brightest);
    if (brightest > 0)
        touch(t, at_x, at_y);
    free(channels), free(bits);
}

int main(int argc, char **argv) {
    if (argc != 4) {
        fprintf(stderr, "usage: fibres VALUES WIDTH HEIGHT\n");
        return 2;
    }
    uint32_t width = (uint32_t)strtoul(argv[2], NULL, 10), height = (uint32_t)strtoul(argv[3], NULL, 10);
    uint64_t pixels = (uint64_t)width * height;
    size_t len;
    uint32_t *list = load(argv[1], &len);
    struct description d = read_all(list, len, pixels < UINT32_MAX ? (uint32_t)pixels : UINT32_MAX);
    struct table t = build_all(&d, width, height);
    draw_all(&t, d.splines, width);
    free(list);
    free(d.counts), free(d.starts), free(d.deltas), free(d.coefficients);
    free(t.segments), free(t.owners), free(t.row_starts), free(t.entries);
    return 0;
}
