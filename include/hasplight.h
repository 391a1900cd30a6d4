/* Hasplight for C and C++: link target/staticlib/libhasplight.a, which `./run --archive hasplight` writes.
 *
 * Each coordinate (an f32), index or length stands as four bytes, low byte first. A slice is an address, which is not null even
 * where the slice is empty, and a number of bytes; bytes past the last whole four are neither read nor written. What is lent to
 * be written must not overlap anything else that is lent in the same call.
 *
 * Every input is answered, or refused by a number. A refusal reports 0 beside its number and changes no lent byte. After 0 the
 * lent bytes past those that are reported keep their contents.
 *
 * No call takes memory from a heap. On the stack, by the compiled archive, cutting takes 40,000 bytes at most, merging 38,500, filling
 * a line with areas 52,500, with triangles 46,500, a hull 13,500, and a point test 100; none of its arrays is larger than 7,000 bytes.
 *
 *   1  odd number of coordinates             6  an output buffer too short
 *   2  fewer than 3 points, or 2 of a hull   7  a ring of four or more, met while cutting, has no ear
 *   3  more than 512 points                  8  triangle list not a multiple of three
 *   4  a coordinate, or the asked point,     9  a triangle index not below the number of points
 *      is off the grid                      10  more than 510 triangles
 *   5  two ring neighbours equal            11  a line that is not in form, or too long
 *                                           12  all points on one line
 *                                           13  an outline's area is not above zero: it goes clockwise, or has none
 */
#ifndef HASPLIGHT_H
#define HASPLIGHT_H

#include <stddef.h>
#include <stdint.h>

#ifdef __cplusplus
extern "C" {
#endif

/* count: triangles, pieces, hull corners, or bytes of text; 0 beside a refusal */
struct hasplight_answer {
    uint32_t number;
    uint32_t count;
};

/* answer: one of the three; outside beside a refusal */
enum { HASPLIGHT_OUTSIDE = 0, HASPLIGHT_INSIDE = 1, HASPLIGHT_BORDER = 2 };

struct hasplight_verdict {
    uint32_t number;
    uint32_t answer;
};

/* Cuts an outline of n corners into n - 2 triangles: three indices each, to the front of `indices`, which has room for 3 (n - 2)
 * of them. The outline goes counter-clockwise: its area, and so the sum of the triangles', is above zero. Refuses with 1, 2, 3, 4, 5, 13, 6, 7,
 * in this order. */
struct hasplight_answer hasplight_triangulate_ear_clipping(
    const uint8_t *coords, size_t coords_bytes,
    uint8_t *indices, size_t indices_bytes);

/* Merges m triangles, three indices each, into pieces: their indices one behind the other, to the front of `indices`, which has
 * room for 3 m of them, and the length of each to the front of `lengths`, which has room for m. Refuses with 1, 3, 4, 8, 10, 9, 6,
 * in this order. */
struct hasplight_answer hasplight_hertel_mehlhorn_idx(
    const uint8_t *coords, size_t coords_bytes,
    const uint8_t *triangles, size_t triangles_bytes,
    uint8_t *indices, size_t indices_bytes,
    uint8_t *lengths, size_t lengths_bytes);

/* Where (x, y) is: on the border of the outline, which is on some edge, ends counted; or else inside, where it crosses an odd number of edges; or
 * outside. Refuses with 1, 3, 4, in this order. */
struct hasplight_verdict hasplight_point_in_poly2d(
    float x, float y,
    const uint8_t *coords, size_t coords_bytes);

/* The same for a convex outline, whichever way round it goes, with two answers: inside, which its border is too, and outside. */
struct hasplight_verdict hasplight_point_in_convex_poly2d(
    float x, float y,
    const uint8_t *coords, size_t coords_bytes);

/* Finds the convex hull of a cloud of 2 to 512 points: the indices of its corners, counter-clockwise, to the front of `indices`, which has
 * room for one for each point. A straight corner may occur. Refuses with 1, 2, 3, 4, 12, 6, in this order; two points are on one line. */
struct hasplight_answer hasplight_convex_hull2_idx(
    const uint8_t *coords, size_t coords_bytes,
    uint8_t *indices, size_t indices_bytes);

/* Fills the outline of a line as `POLYGON ((0 0, 4 0, 4 4, 0 4, 0 0))`, of at most 8,192 bytes, without a newline: cuts it, merges the
 * triangles, and writes the areas to the front of `out` as a line that begins with MULTIPOLYGON, without a newline or a zero behind it. For n
 * corners `out` has room for 15 + 56 (n - 2) bytes; 28,575 are enough for any line. Refuses with 11, 2, 3, 4, 5, 13, 6, 7, in this order. */
struct hasplight_answer hasplight_fill_areas(
    const uint8_t *line, size_t line_bytes,
    uint8_t *out, size_t out_bytes);

/* The same with the triangles of the cut. */
struct hasplight_answer hasplight_fill_triangles(
    const uint8_t *line, size_t line_bytes,
    uint8_t *out, size_t out_bytes);

#ifdef __cplusplus
}
#endif

#endif
