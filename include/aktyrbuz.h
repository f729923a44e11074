/* Aktyrbuz: JPEG XL splines, from a list of decoded values to pixel rows.
 *
 * Every call takes any numbers and any lengths, ends, and never writes outside what it is lent. Each call but aktyrbuz_ln returns a code,
 * AKTYRBUZ_DONE or a refusal, and fills five numbers: the place, then the counts that are named with the call, then zeros. A success has
 * place 0, a refusal counts 0 (but AKTYRBUZ_PROFILE). Where several codes apply, the first in the order of the checks is given.
 *
 * A buffer is a pointer and a length in cells; a length of 0 may come with any pointer, NULL too. Buffers of one call do not overlap.
 * Nothing is kept between calls and nothing is allocated, so calls on different buffers may run at the same time.
 *
 * tools/boundary holds these declarations to the source of the library; nothing checks what is linked: keep the header and libaktyrbuz.a of one version together.
 */
#ifndef AKTYRBUZ_H
#define AKTYRBUZ_H

#ifndef __cplusplus
#include <stdbool.h>
#endif
#include <stddef.h>
#include <stdint.h>

#ifdef __cplusplus
extern "C" {
#endif

enum aktyrbuz_code {
    AKTYRBUZ_DONE = 0,
    AKTYRBUZ_SHORT = 1,     /* the list or trace file ends before the next value */
    AKTYRBUZ_SPLINES = 2,   /* more splines than the limit; writing also: none */
    AKTYRBUZ_COORD = 3,     /* a start with a coordinate of magnitude 2^23 or more; writing also: not whole, minus zero, NaN, or a negative first start; in a trace file -2^23 and a negative first start are good */
    AKTYRBUZ_POINTS = 4,    /* more points than the limit */
    AKTYRBUZ_DELTA = 5,     /* a double delta of magnitude 2^30 or more */
    AKTYRBUZ_TRAIL = 6,     /* values or bytes left over */
    AKTYRBUZ_ROOM = 7,      /* a lent buffer is too short for what is due */
    AKTYRBUZ_SIZE = 8,      /* a width or height above 2^23 */
    AKTYRBUZ_SHAPE = 9,     /* lengths that disagree: S counts go with 2S starts, a double delta (x, y) a point and 128S coefficients; in a trace file counts that do not add up to its points; in a check row starts that are not height + 1; writing points also: no such spline */
    AKTYRBUZ_POSITION = 10, /* a start, delta or point outside -2^23 up to but not including 2^23, or a NaN start */
    AKTYRBUZ_DISTANCE = 11, /* a spline whose steps add up to more than the area limit */
    AKTYRBUZ_AREA = 12,     /* splines whose estimates add up to more than the area limit */
    AKTYRBUZ_COINCIDE = 13, /* two adjacent control points are equal */
    AKTYRBUZ_TABLE = 14,    /* a table that no build makes: a height above 2^23, more than 2^24 segments or 2^30 entries, counts that overrun the buffers, starts of a row that descend or pass the entries, an entry of it that names no segment, or one of no spline; in a check a row that lists anything but its segments, or entries left over */
    AKTYRBUZ_ROW = 15,      /* a row that is not below the height */
    AKTYRBUZ_SPAN = 16,     /* x0 + n above 2^23, or a channel shorter than n */
    AKTYRBUZ_HEADER = 17,   /* a trace file of a version that the call does not know, or with an offset that is not its part's; writing: a count or offset of 2^32 or more */
    AKTYRBUZ_TEXT = 18,     /* a byte that no text of points could have there, or a text that stops early */
    AKTYRBUZ_DESK = 19,     /* a desk other than 0 and 1 */
    AKTYRBUZ_TRACE = 20,    /* fewer shared bytes than the description had splines, or a bit of a spline without a byte */
    AKTYRBUZ_PROFILE = 21,  /* a description that breaks a rule of the fineness profile: the rule is the first count, the one refusal whose counts are not all 0 */
    AKTYRBUZ_EDITION = 22,  /* an edition other than 1 and 2, or edition 2 in a trace file of version 1 */
    AKTYRBUZ_BAND = 23      /* a band past the last */
};

/* The natural logarithm that building uses: a fixed sequence of operations, the same on every machine. */
float aktyrbuz_ln(float x);

/* Reads a list of decoded values into a description.
 *
 * At most min(configured, pixels / 2) splines and as many points are taken; configured is usually 2^20.
 * Rooms for S splines of P points in all: S counts (points of each spline), 2S starts (x, y), 2P deltas (x, y of each double delta)
 * and 128S coefficients (32 each for X, Y, B and sigma). Cells past these, and all cells after a refusal, are 0.
 * Checks, value by value, each after SHORT: at the spline count SPLINES, then ROOM of counts, starts and coefficients; COORD at each start; spline by spline POINTS, then ROOM of deltas,
 * at its point count, and DELTA at each pair; TRAIL last.
 * Place: an index of the list, of a pair that of its x; SHORT: the length of the list. Counts: splines, points, adjustment. */
uint32_t aktyrbuz_read(const uint32_t *list, size_t list_len, uint32_t configured, uint32_t pixels,
                       uint32_t *counts, size_t counts_len, float *starts, size_t starts_len,
                       int32_t *deltas, size_t deltas_len, int32_t *coefficients, size_t coefficients_len, int64_t answer[5]);

/* Writes a description as the list that is read back as it, under the same two limits. Here the lengths are exact (SHAPE).
 * Cells of the list past the last value, and all after a refusal, are 0.
 * Checks: SHAPE, SPLINES, COORD, then spline by spline POINTS and DELTA, then ROOM.
 * Place: the index in the list that the value would have, of a pair that of its x; SHAPE: 0; ROOM: the length lent. Counts: values written. */
uint32_t aktyrbuz_write(const uint32_t *counts, size_t counts_len, const float *starts, size_t starts_len,
                        const int32_t *deltas, size_t deltas_len, const int32_t *coefficients, size_t coefficients_len,
                        int32_t adjustment, uint32_t configured, uint32_t pixels, uint32_t *list, size_t list_len, int64_t answer[5]);

/* Builds the table of an image of width by height pixels: segments, and for each row those that touch it. The lengths of the description are exact.
 *
 * y_to_x and y_to_b are what X and B gain of Y (usually 0 and 1). level10 gives the greater area limit, high_precision longer reaches:
 * only with it are the rows those of the reference decoder, libjxl.
 * Rooms: path 2 floats a point, walk 3 floats a point, both for the longest spline and 0 on return; segments 8 floats each (centre x and y, distance,
 * 1/sigma, 0.25 sigma times multiplier, three colours); owners one cell a segment, the number of its spline, which never falls from one segment to the next;
 * height + 1 row_starts; entries. Row y lists entries[row_starts[y]] up to but not including entries[row_starts[y + 1]], ascending. As many segments fit as
 * both segments and owners have room for. Cells past the used part, and all cells after a refusal, are 0.
 * Checks: SIZE, SHAPE, ROOM of row_starts; then spline by spline POSITION of the start, pair by pair DELTA, POSITION of the delta, DISTANCE and POSITION of the point, then AREA
 * and COINCIDE; then spline by spline ROOM of path, walk and segments; then ROOM of entries.
 * Place: the number of a spline; SIZE, SHAPE, and ROOM of row_starts and entries: 0. Counts: segments, entries, estimate, and how many of the segments are faint: their distance is NaN,
 * so that they sit at row 0 and column 0 wherever their centre is. */
uint32_t aktyrbuz_build(const uint32_t *counts, size_t counts_len, const float *starts, size_t starts_len,
                        const int32_t *deltas, size_t deltas_len, const int32_t *coefficients, size_t coefficients_len,
                        int32_t adjustment, uint32_t width, uint32_t height, float y_to_x, float y_to_b,
                        bool high_precision, bool level10,
                        float *path, size_t path_len, float *walk, size_t walk_len, float *segments, size_t segments_len, uint64_t *owners, size_t owners_len,
                        uint32_t *row_starts, size_t row_starts_len, uint32_t *entries, size_t entries_len, int64_t answer[5]);

/* Adds the segments of row y to the pixels x0 up to but not including x0 + n, for a desk and without what it has hidden. Each channel begins at pixel x0; what they hold
 * before stays and is added to. Parts of a row may be drawn in any order. A refused drawing changes nothing.
 *
 * splines is how many the description had, and bits has a shared byte for each (more are not looked at): bit 0 hides the spline for desk 0, the operator, bit 1 for desk 1, the checker.
 * What a desk gets depends on its own bits alone. A viewer without desks lends zeros and is desk 0.
 * Checks: DESK, TABLE for the counts, TRACE, ROW, SPAN, TABLE for the row. Place: 0. Counts: updates, one for each segment at each pixel. */
uint32_t aktyrbuz_draw(const float *segments, size_t segments_len, const uint64_t *owners, size_t owners_len, uint32_t segment_count,
                       const uint32_t *entries, size_t entries_len, uint32_t entry_count,
                       const uint32_t *row_starts, size_t row_starts_len, uint32_t height,
                       uint64_t splines, const uint8_t *bits, size_t bits_len, uint32_t desk,
                       uint32_t y, uint32_t x0, uint32_t n,
                       float *r0, size_t r0_len, float *r1, size_t r1_len, float *r2, size_t r2_len, int64_t answer[5]);

/* The columns that drawing row y for a desk touches in an image of this width: from the first to the last of them. When the row is drawn whole, no column outside is
 * updated, and the first and the last one are. What lies wholly left of the image touches column 0, as in drawing.
 * Checks: DESK, SIZE, TABLE for the counts, TRACE, ROW, TABLE for the row. Place: 0. Counts: the first column and one past the last; 0 and 0 if drawing touches none. */
uint32_t aktyrbuz_reach(const float *segments, size_t segments_len, const uint64_t *owners, size_t owners_len, uint32_t segment_count,
                        const uint32_t *entries, size_t entries_len, uint32_t entry_count,
                        const uint32_t *row_starts, size_t row_starts_len, uint32_t height,
                        uint64_t splines, const uint8_t *bits, size_t bits_len, uint32_t desk,
                        uint32_t y, uint32_t width, int64_t answer[5]);

/* Hides a spline for a desk, or shows it again: sets that one bit to hidden, and changes no other. A refused call changes nothing.
 * Checks: DESK, TRACE for a spline without a byte. Place: 0. Counts: none. */
uint32_t aktyrbuz_hide(uint8_t *bits, size_t bits_len, uint32_t desk, uint64_t spline, bool hidden, int64_t answer[5]);

/* Makes a summary of every 64 rows for a desk and a width: five numbers a band, the last of which may have fewer rows. They are its entries that are not hidden for the desk, the
 * least and the greatest segment number among them, and the first column that drawing them touches in an image of this width and one past the last, 0 and 0 if it touches none. A
 * band that shows no entry has five zeros; one whose entries touch no column has its entries and segment numbers all the same.
 *
 * splines and bits as in aktyrbuz_draw. Room: 5 cells of bands for each 64 rows begun. Cells past these, and all cells after a refusal, are 0.
 * Checks: SIZE (the width), TABLE for the counts, DESK, TRACE, ROOM, TABLE for the rows. Place: 0. Counts: bands. */
uint32_t aktyrbuz_bands(const float *segments, size_t segments_len, const uint64_t *owners, size_t owners_len, uint32_t segment_count,
                        const uint32_t *entries, size_t entries_len, uint32_t entry_count,
                        const uint32_t *row_starts, size_t row_starts_len, uint32_t height,
                        uint64_t splines, const uint8_t *bits, size_t bits_len, uint32_t desk,
                        uint32_t width, uint32_t *bands, size_t bands_len, int64_t answer[5]);

/* Makes the five numbers of one band again, as after the desk has hidden a spline: they are then those of a summary made afresh, and every other cell stays as it was. Once each band that
 * lists a segment of the spline is made again, the whole summary is that of aktyrbuz_bands. A refused call changes nothing.
 * Room for all bands. Checks: SIZE, TABLE for the counts, DESK, TRACE, ROOM, BAND, TABLE for the rows of the band; other rows are not looked at. Place: 0. Counts: bands, of the whole table. */
uint32_t aktyrbuz_band(const float *segments, size_t segments_len, const uint64_t *owners, size_t owners_len, uint32_t segment_count,
                       const uint32_t *entries, size_t entries_len, uint32_t entry_count,
                       const uint32_t *row_starts, size_t row_starts_len, uint32_t height,
                       uint64_t splines, const uint8_t *bits, size_t bits_len, uint32_t desk,
                       uint32_t width, uint32_t *bands, size_t bands_len, uint32_t band, int64_t answer[5]);

/* Checks the row starts and entries of another maker for the segments of a build. They are accepted exactly if each row of the image lists just the segments whose rows have
 * it, once each and ascending, with starts and entry count that fit: then they are those of the build, and draw the same.
 * Checks: SIZE, SHAPE where row_starts are not height + 1 in number, TABLE for the counts (place 0), TABLE for the rows.
 * Place: the first wrong row; a first start other than 0 makes row 0 wrong, and entries left after the last row give the height; SIZE, SHAPE: 0. Counts: entries. */
uint32_t aktyrbuz_check(const float *segments, size_t segments_len, uint32_t segment_count, uint32_t height,
                        const uint32_t *row_starts, size_t row_starts_len, const uint32_t *entries, size_t entries_len, uint32_t entry_count, int64_t answer[5]);

/* Reads a trace file, a description without its picture, into a description. It has no limit of splines or points but its own length.
 *
 * The file is little-endian, four bytes a number: version 1, splines S, points P, adjustment, the byte offsets of the four parts, then from byte 32 on with no
 * gaps the parts: S counts, 2S starts (whole numbers from -2^23 up to but not including 2^23), 2P double deltas, 128S coefficients. It has 32 + 524 S + 8 P bytes.
 * Rooms as in aktyrbuz_read. Cells past these, and all cells after a refusal, are 0.
 * Checks: SHORT below 32 bytes, HEADER, SHORT, TRAIL, SHAPE, COORD, DELTA, ROOM.
 * Place: the first byte of the number refused; SHORT: the length of the file; TRAIL: the first byte left over; SHAPE, ROOM: 0. Counts: splines, points, adjustment. */
uint32_t aktyrbuz_trace_read(const uint8_t *bytes, size_t bytes_len, uint32_t *counts, size_t counts_len, float *starts, size_t starts_len,
                             int32_t *deltas, size_t deltas_len, int32_t *coefficients, size_t coefficients_len, int64_t answer[5]);

/* Writes a description as its trace file, the one that is read back as it. The lengths are exact (SHAPE).
 * Bytes past the file, and all after a refusal, are 0. Checks: SHAPE, HEADER, COORD, DELTA, ROOM.
 * Place: the first byte that the number would have; SHAPE, ROOM: 0. Counts: bytes written. */
uint32_t aktyrbuz_trace_write(const uint32_t *counts, size_t counts_len, const float *starts, size_t starts_len,
                              const int32_t *deltas, size_t deltas_len, const int32_t *coefficients, size_t coefficients_len,
                              int32_t adjustment, uint8_t *bytes, size_t bytes_len, int64_t answer[5]);

/* Reads the points of a line drawing, the value of an SVG points attribute, into a start and double deltas.
 *
 * The form is strict: pairs x,y with one comma, one space between pairs, decimal whole numbers of any length, a minus where needed, no leading zeros, no -0, nothing
 * else, and at least one pair. Rooms: 2 cells of start, and 2 of deltas for each pair after the first. Cells past these, and all after a refusal, are 0.
 * Checks: TEXT, then pair by pair POSITION and COINCIDE, then ROOM. What is taken is what building takes, but for distance and area.
 * Place: TEXT: the first byte that no text of the form could have there, or the length of a text that stops early; POSITION, COINCIDE: the first byte of the later
 * pair; ROOM: 0. Counts: double deltas, as pairs. */
uint32_t aktyrbuz_points_read(const uint8_t *text, size_t text_len, float *start, size_t start_len, int32_t *deltas, size_t deltas_len, int64_t answer[5]);

/* Writes the control points of one spline as such a text, the one that is read back as its rounded start and its double deltas. The lengths are exact (SHAPE).
 * Bytes past the text, and all after a refusal, are 0. Checks: SHAPE (also no such spline), DELTA, POSITION, COINCIDE, ROOM; other splines' points are not looked at.
 * Place: the spline; SHAPE: 0. Counts: bytes written. */
uint32_t aktyrbuz_points_write(const uint32_t *counts, size_t counts_len, const float *starts, size_t starts_len,
                               const int32_t *deltas, size_t deltas_len, const int32_t *coefficients, size_t coefficients_len,
                               uint64_t spline, uint8_t *text, size_t text_len, int64_t answer[5]);

/* Holds a description against an edition of the fineness profile, 1 or 2. The lengths are exact (SHAPE).
 *
 * The rules by their numbers: 1: 1 to 4096 splines; 2: each with 1 to 64 double deltas (edition 2: 256); 3: adjustment 0 (edition 2: -8 to 8); 4: sigma coefficients
 * zero after the first; 5: first sigma coefficient 1 to 400 (edition 2: 1600); 6: X and B coefficients all zero. Rules 1 and 3 come first, then each spline's in order.
 * Checks: SHAPE, EDITION, PROFILE. Place: PROFILE: the spline, 0 for rules 1 and 3; SHAPE, EDITION: 0. Counts: none; with PROFILE the number of the first broken
 * rule, the one refusal whose counts are not all 0. */
uint32_t aktyrbuz_profile(const uint32_t *counts, size_t counts_len, const float *starts, size_t starts_len,
                          const int32_t *deltas, size_t deltas_len, const int32_t *coefficients, size_t coefficients_len,
                          int32_t adjustment, uint32_t edition, int64_t answer[5]);

/* Builds what meets an edition of the profile: as aktyrbuz_build, every cell, with EDITION and PROFILE as above checked after SIZE and SHAPE and before any room. */
uint32_t aktyrbuz_build_profile(const uint32_t *counts, size_t counts_len, const float *starts, size_t starts_len,
                                const int32_t *deltas, size_t deltas_len, const int32_t *coefficients, size_t coefficients_len,
                                int32_t adjustment, uint32_t width, uint32_t height, float y_to_x, float y_to_b,
                                bool high_precision, bool level10, uint32_t edition,
                                float *path, size_t path_len, float *walk, size_t walk_len, float *segments, size_t segments_len, uint64_t *owners, size_t owners_len,
                                uint32_t *row_starts, size_t row_starts_len, uint32_t *entries, size_t entries_len, int64_t answer[5]);

/* Reads a trace file of either version, as aktyrbuz_trace_read reads one of version 1. A file of version 2 has a ninth header number, its edition, 1 or 2, and its
 * parts start at byte 36; one of version 1 is of edition 1. Whether the description meets the edition's profile is not asked.
 * Checks: SHORT below 32 bytes, HEADER for the version, SHORT below 36 bytes of version 2, HEADER for the offsets, EDITION, then SHORT and on as there.
 * Place: as there; EDITION: 32. Counts: splines, points, adjustment, edition. */
uint32_t aktyrbuz_trace_read2(const uint8_t *bytes, size_t bytes_len, uint32_t *counts, size_t counts_len, float *starts, size_t starts_len,
                              int32_t *deltas, size_t deltas_len, int32_t *coefficients, size_t coefficients_len, int64_t answer[5]);

/* Writes a description with its edition as its trace file of a version: of version 1 and edition 1 as aktyrbuz_trace_write.
 * Checks: SHAPE, EDITION (other than 1 and 2, or 2 in version 1), HEADER (a version other than 1 and 2, then as there), COORD, DELTA, ROOM.
 * Place: as there; EDITION: 32; HEADER for the version: 0. Counts: bytes written. */
uint32_t aktyrbuz_trace_write2(const uint32_t *counts, size_t counts_len, const float *starts, size_t starts_len,
                               const int32_t *deltas, size_t deltas_len, const int32_t *coefficients, size_t coefficients_len,
                               int32_t adjustment, uint32_t version, uint32_t edition, uint8_t *bytes, size_t bytes_len, int64_t answer[5]);

#ifdef __cplusplus
}
#endif

#endif
