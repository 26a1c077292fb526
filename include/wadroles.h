/*
 * wadroles.h - the proved layer cutter.
 *
 * A mesh is a table of coordinates (x, y and z per vertex, in micrometres) and
 * a table of corners (three vertex numbers per triangle, counterclockwise seen
 * from outside). It has at most WADROLES_MAX_VERTICES vertices and
 * WADROLES_MAX_TRIANGLES triangles; none of either is allowed, and so are
 * unused vertices. Coordinates are from -WADROLES_MAX_COORDINATE to
 * WADROLES_MAX_COORDINATE.
 *
 * Corner 3 t + k (k = 0, 1, 2) stands for the directed edge from its vertex to
 * that of the next corner of triangle t, the last leading back to the first.
 *
 * A file is a table of bytes that holds numbers, its values, one after another.
 * A value is a plain number of 32 bits in groups of seven, lowest group first,
 * with 128 added to every byte but the last, in the fewest bytes: five at most.
 * A signed number n is sent as the plain number 2 n if n >= 0, else -2 n - 1.
 *
 * Rules for every function:
 *
 * - It returns 0, or the number of a refusal (enum wadroles_refusal).
 * - `out` has 4 entries. A refusal writes its place, the least that fits, into
 *   out[0]. Success writes the function's values, if it has any, into the first
 *   entries, a signed one as two's complement. The other entries are left
 *   alone.
 * - A refusal leaves every table as before, but for these, which leave zeros in
 *   the entries that the function asks for: WADROLES_OPEN in pairing and order,
 *   WADROLES_OUTPUT in the work tables, and WADROLES_USED, which never arises.
 *   Each function says which refusals it has, in which sequence it tests them,
 *   and where the place is.
 * - A table is a pointer and, right after it, a length in elements (not bytes).
 *   The pointer of an empty table may be null.
 * - It keeps no state between calls and allocates nothing. Several threads may
 *   call at the same time if none writes a table that another one uses.
 * - It ends, and touches nothing outside the tables, whatever they hold.
 *
 * What the caller owes, and no function can test:
 *
 * - Each table really has the length given, and is aligned for its elements;
 *   so are `out` and the `xy` of wadroles_preview, which are never null.
 * - A table that the function writes (one whose pointer is not const), and
 *   `out`, overlap no other table.
 * - Until the function returns no other thread writes a table, or reads one
 *   that the function writes.
 *
 * docs/INTEGRATING.md has the memory to reserve, the costs, what is proved and
 * what is not. examples/c/sweep.c goes from a part file to its layer file.
 */
#ifndef WADROLES_H
#define WADROLES_H

#include <stddef.h>
#include <stdint.h>

#ifdef __cplusplus
extern "C" {
#endif

/* The version. Until 1.0 a change of behaviour or of a file raises the minor
 * number. */
#define WADROLES_VERSION_MAJOR 0
#define WADROLES_VERSION_MINOR 7
#define WADROLES_VERSION_PATCH 0

/* The most vertices and triangles a mesh may have. */
#define WADROLES_MAX_VERTICES 32768
#define WADROLES_MAX_TRIANGLES 65536

/* The farthest a coordinate may be from zero, on either side; one of the origin
 * of wadroles_preview too. */
#define WADROLES_MAX_COORDINATE 1048576

/* The most points that wadroles_area takes, and that a layer has: one of a file
 * and one that wadroles_preview, wadroles_clean and wadroles_nesting take. */
#define WADROLES_MAX_POINTS 98304

/* The most layers that a layer file has, and heights that wadroles_all_layers
 * and wadroles_all_layers_clean take. */
#define WADROLES_MAX_LAYERS 4096

/* The greatest thickness that wadroles_ink takes, in micrometres. */
#define WADROLES_MAX_THICKNESS 1000

/* An entry of a ring table whose corner is no crossing. */
#define WADROLES_NO_CORNER 4294967295u

/* An entry of a table of parents whose contour lies in no other. */
#define WADROLES_NO_PARENT 4294967295u

/* The refusals, by number. The place is a position in a table, a corner or a
 * byte of a file, or 0 where the call as a whole is meant; each function says
 * which. */
enum wadroles_refusal {
    /* A length not a multiple of three (points: two), a count too big, or ends
     * that are not those of the points. */
    WADROLES_SIZE = 1,
    /* A coordinate out of range. */
    WADROLES_RANGE = 2,
    /* A corner naming no vertex. */
    WADROLES_VERTEX = 3,
    /* A triangle naming a vertex twice. */
    WADROLES_TRIANGLE = 4,
    /* A corner without a partner among those with the reverse edge. */
    WADROLES_OPEN = 6,
    /* A corner whose pairing entry is missing or wrong, or not paired back. */
    WADROLES_PAIRING = 7,
    /* A position where the order table is missing an entry or wrong. */
    WADROLES_ORDER = 8,
    /* A table to be written is too short. */
    WADROLES_ROOM = 9,
    /* More passed than vertices. */
    WADROLES_PASSED = 10,
    /* A corner whose ring entry is missing or wrong for the passed count. */
    WADROLES_RING = 11,
    /* A passed vertex at or above the height, or heights that do not rise. */
    WADROLES_HEIGHT = 12,
    /* A file with a malformed or forbidden value, or with a byte left over. */
    WADROLES_FILE = 13,
    /* Output shorter than the file. */
    WADROLES_OUTPUT = 14,
    /* No layer of that number. */
    WADROLES_LAYER = 15,
    /* A walk meeting a crossing already used that is not its start. This never
     * arises: the pairing is tested before, and with a right one no walk does
     * so. */
    WADROLES_USED = 16,
    /* An origin that is not whole or out of range. */
    WADROLES_ORIGIN = 17,
    /* A contour of a file that is not clean. */
    WADROLES_UNCLEAN = 18,
    /* A thickness out of range. */
    WADROLES_THICKNESS = 19
};

/*
 * Tests a mesh, and writes its pairing and its order into the first entries of
 * two lent tables:
 *
 *   pairing  one entry per corner: its partner, a corner with the reverse edge
 *   order    each vertex once, by z and then by vertex number
 *
 * An edge may be shared by several sheets. Of the corners with a directed edge
 * and those with the reverse, both in corner order, the first are partners of
 * each other, and so are the second, and so on.
 *
 * Later entries of both tables stay. Success has no values: `out` stays.
 *
 * The tests, in this sequence; the first that fails is the refusal:
 *
 *   WADROLES_SIZE      coords_len or corners_len is not a multiple of three, or
 *                      there are more vertices or triangles than allowed;
 *                      place 0
 *   WADROLES_ROOM      pairing_len is less than corners_len, or order_len less
 *                      than the number of vertices; place 0
 *   WADROLES_RANGE     a coordinate is out of range; place its position in
 *                      coords
 *   WADROLES_VERTEX    a corner names no vertex; place the corner
 *   WADROLES_TRIANGLE  a triangle names a vertex twice; place its first corner
 *   WADROLES_OPEN      a corner finds no partner: no fewer corners before it
 *                      have its directed edge than there are corners with the
 *                      reverse; place the corner
 *
 * After WADROLES_OPEN the entries of pairing and order that success would fill
 * are zero, and later ones stay. After the other refusals both tables are as
 * before.
 */
uint32_t wadroles_check(const int32_t *coords, size_t coords_len,
                        const uint32_t *corners, size_t corners_len,
                        uint32_t *pairing, size_t pairing_len,
                        uint32_t *order, size_t order_len,
                        uint64_t out[4]);

/*
 * Cuts a mesh at the height h, any number of 32 bits. The pairing may come from
 * anyone (wadroles_check makes one); it is tested, and its entries beyond
 * corners_len are ignored.
 *
 * The vertices with z < h are passed. A crossing is a corner whose edge leads
 * up, from a passed vertex to one that is not. Its successor is the crossing
 * among the corners of the triangle of its paired corner. Following successors
 * gives the contours: closed, and seen from above with the solid on the left.
 * Contours are linked by the pairing and never by equal points, so sheets that
 * only touch stay apart, and those that share an edge are linked as it says.
 *
 * Writes the layer into the first entries of three lent tables:
 *
 *   names   one entry per point: the crossing
 *   points  two entries per point: x and y of the place where the crossing's
 *           edge meets the height, each rounded to the nearest whole number,
 *           halves away from zero
 *   ends    one entry per contour: the number of points up to its end
 *
 * A contour starts at its least corner, and contours stand by first corner.
 * Each has at least two points; equal neighbouring points are kept. Later
 * entries of the three tables stay. The fourth, marks, is a work table: it is
 * zero in its first corners_len entries, and later ones stay.
 *
 * The mesh with x (or y) of every vertex negated has, at each height, the same
 * names and ends, and the same points with x (or y) negated. It is inside out
 * as it stands; if you turn its triangles round as well, the rings run
 * backwards.
 *
 * On success out[0] is the number of contours and out[1] the number of points.
 *
 * The tests, in this sequence; the first that fails is the refusal:
 *
 *   WADROLES_SIZE      coords_len or corners_len is not a multiple of three, or
 *                      there are more vertices or triangles than allowed;
 *                      place 0
 *   WADROLES_ROOM      names_len, ends_len or marks_len is less than
 *                      corners_len, or points_len less than twice corners_len;
 *                      place 0
 *   WADROLES_RANGE     a coordinate is out of range; place its position in
 *                      coords
 *   WADROLES_VERTEX    a corner names no vertex; place the corner
 *   WADROLES_TRIANGLE  a triangle names a vertex twice; place its first corner
 *   WADROLES_PAIRING   a corner's entry in pairing is missing (the table is too
 *                      short), is no corner, is a corner without the reverse
 *                      edge, or is not paired back; place the corner
 *   WADROLES_USED      a walk along successors meets a crossing already used
 *                      that is not its start; place that crossing
 *
 * After WADROLES_USED the first corners_len entries of names, ends and marks
 * and the first 2 corners_len entries of points are zero, and later ones stay.
 * After the other refusals all four tables are as before.
 */
uint32_t wadroles_cut(const int32_t *coords, size_t coords_len,
                      const uint32_t *corners, size_t corners_len,
                      const uint32_t *pairing, size_t pairing_len,
                      int32_t h,
                      uint32_t *names, size_t names_len,
                      int32_t *points, size_t points_len,
                      uint32_t *ends, size_t ends_len,
                      uint32_t *marks, size_t marks_len,
                      uint64_t out[4]);

/*
 * Finds contour j (from 0) among the points of a layer: the part of the points
 * from the previous end (0 for the first contour) to its own. Ends are counts
 * of points, as wadroles_cut writes them; give the number of contours as
 * ends_len, so that old entries are not taken for ends.
 *
 * The part is empty where j has no end (j is not below ends_len), where its end
 * is less than the previous one, and where one of the two passes the table
 * (twice the end is more than points_len).
 *
 * It tests nothing else, refuses nothing and returns 0. No table is written.
 *
 * out[0] is the position in points of the part's first element, 0 where the
 * part is empty, and out[1] the part's length in elements, twice its points.
 */
uint32_t wadroles_contour(const int32_t *points, size_t points_len,
                          const uint32_t *ends, size_t ends_len,
                          size_t j,
                          uint64_t out[4]);

/*
 * Finds the doubled signed area of a run of points, such as a contour: the sum
 * of x y' - x' y over each point and the next, the last being followed by the
 * first. It is above zero for a run that goes round counterclockwise, and 0 for
 * fewer than three points.
 *
 * On success out[0] is the doubled area, as two's complement. No table is
 * written.
 *
 * The tests, in this sequence; the first that fails is the refusal:
 *
 *   WADROLES_SIZE      points_len is odd, or there are more than
 *                      WADROLES_MAX_POINTS points; place 0
 *   WADROLES_RANGE     a number is out of the range of coordinates; place its
 *                      position in points
 */
uint32_t wadroles_area(const int32_t *points, size_t points_len,
                       uint64_t out[4]);

/*
 * Starts a sweep: a plane that begins below the mesh and rises past its
 * vertices, in their order. Its state is with the caller, who hands it to
 * wadroles_step and wadroles_layer:
 *
 *   passed   how many vertices are passed: the first so many of the order
 *   ring     one entry per corner: the successor of a crossing, else
 *            WADROLES_NO_CORNER; crossings and successors as for wadroles_cut,
 *            but with these vertices passed
 *
 * At the start no vertex is passed, so there is no crossing: it writes
 * WADROLES_NO_CORNER into the first corners_len entries of ring. Later entries
 * stay.
 *
 * On success out[0] is the number of passed vertices, 0.
 *
 * The tests, in this sequence; the first that fails is the refusal:
 *
 *   WADROLES_SIZE      coords_len or corners_len is not a multiple of three, or
 *                      there are more vertices or triangles than allowed;
 *                      place 0
 *   WADROLES_ROOM      ring_len is less than corners_len; place 0
 *
 * It tests nothing else of the mesh; wadroles_step and wadroles_layer do. After
 * a refusal the ring table is as before.
 */
uint32_t wadroles_start(const int32_t *coords, size_t coords_len,
                        const uint32_t *corners, size_t corners_len,
                        uint32_t *ring, size_t ring_len,
                        uint64_t out[4]);

/*
 * Passes the next vertex of the order, the one at position `passed`. The
 * pairing and the order may come from anyone (wadroles_check makes them); they
 * are tested, and their entries beyond corners_len and beyond the number of
 * vertices are ignored.
 *
 * Writes into the ring table, for the vertices passed then, the entry of each
 * corner whose paired corner belongs to a triangle that names the vertex. All
 * other entries stay; they are not tested, so one that was wrong stays wrong.
 *
 * On success out[0] is the number of passed vertices then, one more than
 * before, and out[1] is 0. Where all vertices were passed already, the plane is
 * at the top: out[0] is `passed`, out[1] is 1, and the ring table is as before.
 *
 * The tests, in this sequence; the first that fails is the refusal:
 *
 *   WADROLES_SIZE      coords_len or corners_len is not a multiple of three, or
 *                      there are more vertices or triangles than allowed;
 *                      place 0
 *   WADROLES_RANGE     a coordinate is out of range; place its position in
 *                      coords
 *   WADROLES_VERTEX    a corner names no vertex; place the corner
 *   WADROLES_TRIANGLE  a triangle names a vertex twice; place its first corner
 *   WADROLES_PAIRING   a corner's entry in pairing is missing (the table is too
 *                      short), is no corner, is a corner without the reverse
 *                      edge, or is not paired back; place the corner
 *   WADROLES_ORDER     an entry of order is missing (the table is too short) or
 *                      is not the vertex that stands there by z and then by
 *                      vertex number; place its position
 *   WADROLES_PASSED    `passed` is more than the number of vertices; place 0
 *   WADROLES_RING      ring_len is less than corners_len; place ring_len
 *
 * After a refusal the ring table is as before, and the caller goes on with
 * `passed` as it was: out[0] is the place.
 */
uint32_t wadroles_step(const int32_t *coords, size_t coords_len,
                       const uint32_t *corners, size_t corners_len,
                       const uint32_t *pairing, size_t pairing_len,
                       const uint32_t *order, size_t order_len,
                       uint32_t *ring, size_t ring_len,
                       size_t passed,
                       uint64_t out[4]);

/*
 * Rises to the height h, any number of 32 bits: passes vertices, as
 * wadroles_step does, until no unpassed vertex has z < h, and takes the
 * contours out of the ring table. The same height may be asked twice. As in
 * wadroles_step the pairing and the order may come from anyone.
 *
 * Writes the ring table, for the vertices passed then, into the first
 * corners_len entries of ring; later ones stay. Fills names, points, ends and
 * marks with what wadroles_cut gives at the same height: marks are zero in the
 * first corners_len entries, and entries that are not filled stay.
 *
 * On success out[0] is the number of passed vertices then, out[1] the number of
 * contours and out[2] the number of points.
 *
 * The tests, in this sequence; the first that fails is the refusal:
 *
 *   WADROLES_SIZE      coords_len or corners_len is not a multiple of three, or
 *                      there are more vertices or triangles than allowed;
 *                      place 0
 *   WADROLES_ROOM      names_len, ends_len or marks_len is less than
 *                      corners_len, or points_len less than twice corners_len;
 *                      place 0
 *   WADROLES_RANGE     a coordinate is out of range; place its position in
 *                      coords
 *   WADROLES_VERTEX    a corner names no vertex; place the corner
 *   WADROLES_TRIANGLE  a triangle names a vertex twice; place its first corner
 *   WADROLES_PAIRING   a corner's entry in pairing is missing (the table is too
 *                      short), is no corner, is a corner without the reverse
 *                      edge, or is not paired back; place the corner
 *   WADROLES_ORDER     an entry of order is missing (the table is too short) or
 *                      is not the vertex that stands there by z and then by
 *                      vertex number; place its position
 *   WADROLES_PASSED    `passed` is more than the number of vertices; place 0
 *   WADROLES_RING      a corner's entry in ring is missing (the table is too
 *                      short) or is not the one for `passed` vertices; place
 *                      the corner
 *   WADROLES_HEIGHT    a passed vertex has z >= h: the plane is too high
 *                      already; place 0
 *   WADROLES_USED      a walk along the ring table meets a crossing already
 *                      used that is not its start; place that crossing
 *
 * After WADROLES_USED the ring table is as before; the first corners_len
 * entries of names, ends and marks and the first 2 corners_len entries of
 * points are zero, and later ones stay. After the other refusals all five
 * tables are as before. The caller goes on with `passed` as it was: out[0] is
 * the place.
 */
uint32_t wadroles_layer(const int32_t *coords, size_t coords_len,
                        const uint32_t *corners, size_t corners_len,
                        const uint32_t *pairing, size_t pairing_len,
                        const uint32_t *order, size_t order_len,
                        uint32_t *ring, size_t ring_len,
                        size_t passed, int32_t h,
                        uint32_t *names, size_t names_len,
                        int32_t *points, size_t points_len,
                        uint32_t *ends, size_t ends_len,
                        uint32_t *marks, size_t marks_len,
                        uint64_t out[4]);

/*
 * Writes the layer file of a mesh at rising heights: for each height the layer
 * that wadroles_cut, and a rise of wadroles_layer, give there. The file is the
 * one that wadroles_read_layer reads.
 *
 *   heights  at most WADROLES_MAX_LAYERS, strictly rising. With heights_len 0
 *            the heights are the lowest z + 50 and every 100 after it, those
 *            that are not above the highest z; without vertices there are none
 *   output   the file, from its first byte on; later bytes stay. With n layers
 *            and k points in all it has at most 2 + 8 n + 8 k + k / 2 bytes; a
 *            layer has at most one point for each triangle
 *
 * names, points, ends, marks and ring are work tables: what they hold before
 * does not matter. On success they are zero, in the first corners_len entries,
 * of points in the first 2 corners_len; later entries stay.
 *
 * On success out[0] is the length of the file.
 *
 * The tests, in this sequence; the first that fails is the refusal:
 *
 *   WADROLES_SIZE      coords_len or corners_len is not a multiple of three, or
 *                      there are more vertices, triangles or heights (default
 *                      ones counted) than allowed; place 0
 *   WADROLES_ROOM      names_len, ends_len, marks_len or ring_len is less than
 *                      corners_len, or points_len less than twice corners_len;
 *                      place 0
 *   WADROLES_RANGE     a coordinate is out of range; place its position in
 *                      coords
 *   WADROLES_VERTEX    a corner names no vertex; place the corner
 *   WADROLES_TRIANGLE  a triangle names a vertex twice; place its first corner
 *   WADROLES_PAIRING   a corner's entry in pairing is missing (the table is too
 *                      short), is no corner, is a corner without the reverse
 *                      edge, or is not paired back; place the corner
 *   WADROLES_ORDER     an entry of order is missing (the table is too short) or
 *                      is not the vertex that stands there by z and then by
 *                      vertex number; place its position
 *   WADROLES_HEIGHT    a height is not above the one before it; place its
 *                      position in heights
 *   WADROLES_USED      a walk meets a crossing already used that is not its
 *                      start; place that crossing
 *   WADROLES_OUTPUT    output_len is less than the length of the file; place 0
 *
 * After WADROLES_USED and WADROLES_OUTPUT the work tables are zero as on
 * success; after the other refusals they are as before. After every refusal
 * output is as before.
 */
uint32_t wadroles_all_layers(const int32_t *coords, size_t coords_len,
                             const uint32_t *corners, size_t corners_len,
                             const uint32_t *pairing, size_t pairing_len,
                             const uint32_t *order, size_t order_len,
                             const int32_t *heights, size_t heights_len,
                             uint32_t *names, size_t names_len,
                             int32_t *points, size_t points_len,
                             uint32_t *ends, size_t ends_len,
                             uint32_t *marks, size_t marks_len,
                             uint32_t *ring, size_t ring_len,
                             uint8_t *output, size_t output_len,
                             uint64_t out[4]);

/*
 * Reads layer i (from 0) of a layer file. The file holds these values and ends
 * after the last of them:
 *
 *   the layer count, at most WADROLES_MAX_LAYERS; then for each layer
 *     its height, signed, above that of the layer before
 *     its contour count; then for each contour
 *       its point count, at least 2, and together with those of the layer's
 *         contours before it at most WADROLES_MAX_POINTS
 *       x and y of its first point, signed
 *       for each later point the differences in x and in y to the point
 *         before, signed
 *
 * Points lie in the range of coordinates.
 *
 * Writes the layer into the first entries of two lent tables:
 *
 *   points  two entries per point: x and y
 *   ends    one entry per contour: the number of points up to its end
 *
 * Later entries of both tables stay.
 *
 * On success out[0] is the number of layers in the file, out[1] the height of
 * the layer, as two's complement, out[2] the number of its contours and out[3]
 * the number of its points.
 *
 * The tests, in this sequence; the first that fails is the refusal:
 *
 *   WADROLES_FILE      a value of the file, whichever layer it belongs to, is
 *                      missing, cut short, longer than it need be, over 32 bits
 *                      or breaks a rule above (the height that is not above the
 *                      one before, the point count that makes them too many,
 *                      the difference that leads out of range); place the first
 *                      byte of the first such value, or file_len if it is
 *                      missing. Or bytes are left over after the last value;
 *                      place the first of them
 *   WADROLES_LAYER     the file has no layer i; place 0
 *   WADROLES_ROOM      points_len is less than twice the layer's points, or
 *                      ends_len less than its contours; place 0
 *
 * After a refusal both tables are as before.
 */
uint32_t wadroles_read_layer(const uint8_t *file, size_t file_len,
                             size_t i,
                             int32_t *points, size_t points_len,
                             uint32_t *ends, size_t ends_len,
                             uint64_t out[4]);

/*
 * Reads a part file: a mesh, and the heights to cut it at. The file holds these
 * values and ends after the last of them:
 *
 *   the vertex count
 *   the triangle count
 *   three coordinates per vertex, signed
 *   three corners per triangle
 *   the height count
 *   the heights, signed
 *
 * Writes the part into the first entries of three lent tables:
 *
 *   coords   three entries per vertex
 *   corners  three entries per triangle
 *   heights  one entry per height
 *
 * Later entries of the three tables stay.
 *
 * On success out[0] is the number of vertices, out[1] the number of triangles
 * and out[2] the number of heights.
 *
 * Nothing but the form of the values is tested. The counts may pass the limits
 * of a mesh, coordinates and heights may be any numbers of 32 bits, corners may
 * name no vertex, and heights need not rise; wadroles_check tests the mesh.
 *
 * The tests, in this sequence; the first that fails is the refusal:
 *
 *   WADROLES_FILE      a value is missing, cut short, longer than it need be or
 *                      over 32 bits; place the first byte of the first such
 *                      value, or file_len if it is missing. Or bytes are left
 *                      over after the last value; place the first of them
 *   WADROLES_ROOM      coords_len is less than three times the vertices,
 *                      corners_len less than three times the triangles, or
 *                      heights_len less than the heights; place 0
 *
 * After a refusal all three tables are as before.
 */
uint32_t wadroles_read_part(const uint8_t *file, size_t file_len,
                            int32_t *coords, size_t coords_len,
                            uint32_t *corners, size_t corners_len,
                            int32_t *heights, size_t heights_len,
                            uint64_t out[4]);

/*
 * Gives call `number` (from 0) of those that draw a layer on a screen: a move
 * to a point, a line to a point, or a close. Each contour, in the order of the
 * ends, is a move to its first point, a line to each later point and a close,
 * so a layer has as many calls as points and contours together.
 *
 * Points and ends are those that wadroles_cut, wadroles_layer and
 * wadroles_read_layer write; give twice the number of points as points_len and
 * the number of contours as ends_len, so that old entries are not taken for the
 * layer's.
 *
 * A move and a line carry x and y of their point, each after the origin's has
 * been added. Both are whole numbers, so every sum is exact, and the origin
 * taken off again gives back the point. An origin of -0.0 is 0, and a sum of 0
 * is drawn as 0.0, never -0.0.
 *
 * Writes x and y of a move or a line into xy, which has 2 entries; a close, and
 * the answer that there is no such call, leave xy as before.
 *
 * On success out[0] is 0 for a move, 1 for a line, 2 for a close, and 3 where
 * `number` is past the last call.
 *
 * The tests, in this sequence; the first that fails is the refusal:
 *
 *   WADROLES_ORIGIN    origin_x or origin_y is no whole number (a fraction, an
 *                      infinity or no number at all), or is farther from zero
 *                      than WADROLES_MAX_COORDINATE; place 0
 *   WADROLES_SIZE      points_len is odd, there are more than
 *                      WADROLES_MAX_POINTS points, an end is not above the one
 *                      before it (0 for the first) by two or more, or the last
 *                      end (0 if there is none) is not the number of points;
 *                      place 0
 *   WADROLES_RANGE     a number is out of the range of coordinates; place its
 *                      position in points
 *
 * After a refusal xy is as before. The whole layer is tested each time, so to
 * fetch every call singly takes time by calls times points: take runs, with
 * wadroles_preview_run.
 */
uint32_t wadroles_preview(const int32_t *points, size_t points_len,
                          const uint32_t *ends, size_t ends_len,
                          float origin_x, float origin_y,
                          size_t number,
                          float xy[2],
                          uint64_t out[4]);

/*
 * Gives a run of the calls of wadroles_preview, from call `number` on: the
 * layer, the origin and the calls are as there. It fills the first entries of
 * two lent tables:
 *
 *   kinds  one entry per call: 0 for a move, 1 for a line, 2 for a close
 *   xy     two entries per call: x and y of a move or a line; those of a close
 *          stay
 *
 * It fills as many calls as are left from `number` on, as kinds has entries,
 * and as xy has pairs of entries, whichever is least; a short table is not
 * refused. Later entries of both tables stay, and so does an odd last one of
 * xy.
 *
 * On success out[0] is the number of calls filled. It is 0 where `number` is
 * past the last call, or a table holds none.
 *
 * The tests, in this sequence; the first that fails is the refusal:
 *
 *   WADROLES_ORIGIN    origin_x or origin_y is no whole number (a fraction, an
 *                      infinity or no number at all), or is farther from zero
 *                      than WADROLES_MAX_COORDINATE; place 0
 *   WADROLES_SIZE      points_len is odd, there are more than
 *                      WADROLES_MAX_POINTS points, an end is not above the one
 *                      before it (0 for the first) by two or more, or the last
 *                      end (0 if there is none) is not the number of points;
 *                      place 0
 *   WADROLES_RANGE     a number is out of the range of coordinates; place its
 *                      position in points
 *
 * After a refusal both tables are as before. Each run tests the whole layer
 * once, so the fewer runs the better: kinds of WADROLES_MAX_POINTS * 3 / 2
 * entries, and xy of twice as many, hold all calls of any layer.
 */
uint32_t wadroles_preview_run(const int32_t *points, size_t points_len,
                              const uint32_t *ends, size_t ends_len,
                              float origin_x, float origin_y,
                              size_t number,
                              uint8_t *kinds, size_t kinds_len,
                              float *xy, size_t xy_len,
                              uint64_t out[4]);

/*
 * Cleans a layer, contour by contour, in their order:
 *
 *   - every point equal to the one before it is dropped, and the first is kept
 *   - then the points at the end that equal the first are dropped
 *   - a contour left with fewer than three different points is dropped whole;
 *     they are counted over all of it, so A B A B has two
 *
 * A contour that this leaves as it is, is clean. A cleaned layer is clean, and
 * the sum of the areas of its contours is that of the layer. Points are not
 * moved, and starts and the order of the contours are kept.
 *
 * Points and ends are those that wadroles_cut, wadroles_layer and
 * wadroles_read_layer write; give twice the number of points as points_len and
 * the number of contours as ends_len, so that old entries are not taken for the
 * layer's.
 *
 * Writes the cleaned layer into the first entries of two lent tables:
 *
 *   clean_points  two entries per point: x and y
 *   clean_ends    one entry per contour: the number of points up to its end
 *
 * Later entries of both tables stay.
 *
 * On success out[0] is the number of contours left and out[1] the number of
 * points left.
 *
 * The tests, in this sequence; the first that fails is the refusal:
 *
 *   WADROLES_SIZE      points_len is odd, there are more than
 *                      WADROLES_MAX_POINTS points, an end is not above the one
 *                      before it (0 for the first) by two or more, or the last
 *                      end (0 if there is none) is not the number of points;
 *                      place 0
 *   WADROLES_RANGE     a number is out of the range of coordinates; place its
 *                      position in points
 *   WADROLES_ROOM      clean_points_len is less than points_len, or
 *                      clean_ends_len less than ends_len, however little is
 *                      left; place 0
 *
 * After a refusal both tables are as before.
 */
uint32_t wadroles_clean(const int32_t *points, size_t points_len,
                        const uint32_t *ends, size_t ends_len,
                        int32_t *clean_points, size_t clean_points_len,
                        uint32_t *clean_ends, size_t clean_ends_len,
                        uint64_t out[4]);

/*
 * Writes the layer file of a mesh at rising heights in the clean profile: for
 * each height what wadroles_clean leaves of the layer that wadroles_cut gives
 * there. A layer whose contours are all dropped stays in the file, with no
 * contour. wadroles_read_layer and wadroles_read_layer_clean read the file.
 *
 *   heights  at most WADROLES_MAX_LAYERS, strictly rising. With heights_len 0
 *            the heights are the lowest z + 50 and every 100 after it, those
 *            that are not above the highest z; without vertices there are none
 *   output   the file, from its first byte on; later bytes stay. With n layers
 *            and k points in all it has at most 2 + 8 n + 8 k + k / 2 bytes; a
 *            layer has at most one point for each triangle, and it is never
 *            longer than the file of wadroles_all_layers
 *
 * names, points, ends, marks and ring are work tables: what they hold before
 * does not matter. On success they are zero, in the first corners_len entries,
 * of points in the first 2 corners_len; later entries stay.
 *
 * On success out[0] is the length of the file.
 *
 * The tests, in this sequence; the first that fails is the refusal:
 *
 *   WADROLES_SIZE      coords_len or corners_len is not a multiple of three, or
 *                      there are more vertices, triangles or heights (default
 *                      ones counted) than allowed; place 0
 *   WADROLES_ROOM      names_len, ends_len, marks_len or ring_len is less than
 *                      corners_len, or points_len less than twice corners_len;
 *                      place 0
 *   WADROLES_RANGE     a coordinate is out of range; place its position in
 *                      coords
 *   WADROLES_VERTEX    a corner names no vertex; place the corner
 *   WADROLES_TRIANGLE  a triangle names a vertex twice; place its first corner
 *   WADROLES_PAIRING   a corner's entry in pairing is missing (the table is too
 *                      short), is no corner, is a corner without the reverse
 *                      edge, or is not paired back; place the corner
 *   WADROLES_ORDER     an entry of order is missing (the table is too short) or
 *                      is not the vertex that stands there by z and then by
 *                      vertex number; place its position
 *   WADROLES_HEIGHT    a height is not above the one before it; place its
 *                      position in heights
 *   WADROLES_USED      a walk meets a crossing already used that is not its
 *                      start; place that crossing
 *   WADROLES_OUTPUT    output_len is less than the length of the file; place 0
 *
 * After WADROLES_USED and WADROLES_OUTPUT the work tables are zero as on
 * success; after the other refusals they are as before. After every refusal
 * output is as before.
 */
uint32_t wadroles_all_layers_clean(const int32_t *coords, size_t coords_len,
                                   const uint32_t *corners, size_t corners_len,
                                   const uint32_t *pairing, size_t pairing_len,
                                   const uint32_t *order, size_t order_len,
                                   const int32_t *heights, size_t heights_len,
                                   uint32_t *names, size_t names_len,
                                   int32_t *points, size_t points_len,
                                   uint32_t *ends, size_t ends_len,
                                   uint32_t *marks, size_t marks_len,
                                   uint32_t *ring, size_t ring_len,
                                   uint8_t *output, size_t output_len,
                                   uint64_t out[4]);

/*
 * Reads layer i (from 0) of a layer file in the clean profile: the file is that
 * of wadroles_read_layer, and each contour of each layer is clean, as
 * wadroles_clean has it.
 *
 * Writes the layer into the first entries of two lent tables:
 *
 *   points  two entries per point: x and y
 *   ends    one entry per contour: the number of points up to its end
 *
 * Later entries of both tables stay.
 *
 * On success out[0] is the number of layers in the file, out[1] the height of
 * the layer, as two's complement, out[2] the number of its contours and out[3]
 * the number of its points.
 *
 * The tests, in this sequence; the first that fails is the refusal:
 *
 *   WADROLES_FILE      a value of the file, whichever layer it belongs to, is
 *                      missing, cut short, longer than it need be, over 32 bits
 *                      or breaks a rule of the file; or bytes are left over
 *                      after the last value; place as wadroles_read_layer's
 *   WADROLES_UNCLEAN   a contour, whichever layer it belongs to, is not clean:
 *                      cleaning would alter it or drop it; place the first byte
 *                      of the point count of the first such contour
 *   WADROLES_LAYER     the file has no layer i; place 0
 *   WADROLES_ROOM      points_len is less than twice the layer's points, or
 *                      ends_len less than its contours; place 0
 *
 * After a refusal both tables are as before.
 */
uint32_t wadroles_read_layer_clean(const uint8_t *file, size_t file_len,
                                   size_t i,
                                   int32_t *points, size_t points_len,
                                   uint32_t *ends, size_t ends_len,
                                   uint64_t out[4]);

/*
 * Finds what a job is charged for ink, in whole nanolitres; a nanolitre is
 * 1,000,000 cubic micrometres. The job is a layer file, and all of its layers
 * are equally thick:
 *
 *   file       the one that wadroles_read_layer reads; a file in the clean
 *              profile is one too
 *   thickness  in micrometres, from 1 to WADROLES_MAX_THICKNESS
 *
 * The charge of a layer is s thickness / 2,000,000, rounded up to a whole
 * number; s is the sum of the doubled areas of its contours, as wadroles_area
 * gives them, so holes are taken off. A layer with s below zero is charged
 * nothing. The charge of the job is the sum over its layers, each rounded up by
 * itself. It is exact for every file.
 *
 * On success out[0] is the charge of the job. No table is written.
 *
 * The tests, in this sequence; the first that fails is the refusal:
 *
 *   WADROLES_FILE      a value of the file is missing, cut short, longer than
 *                      it need be, over 32 bits or breaks a rule of the file;
 *                      or bytes are left over after the last value; place as
 *                      wadroles_read_layer's
 *   WADROLES_THICKNESS thickness is 0, or more than WADROLES_MAX_THICKNESS;
 *                      place 0
 */
uint32_t wadroles_ink(const uint8_t *file, size_t file_len,
                      uint32_t thickness,
                      uint64_t out[4]);

/*
 * Finds for each contour of a layer how many others it lies in, and which of
 * them is the smallest, so that a layer can be filled from outside in.
 *
 * A contour lies in another if its first point does. An edge of a contour goes
 * from a point to the next, the last to the first. It counts for a point p if
 * exactly one of its ends has y not above that of p, and the exact place where
 * it meets the level of p is right of p: its x is above that of p, not equal. p
 * lies in the contour if an odd number of its edges count. So points on the
 * left and the lower side of a square lie in it, and those on the right and the
 * upper side do not. The test is exact for every layer.
 *
 * Points and ends are those that wadroles_cut, wadroles_layer and
 * wadroles_read_layer write; give twice the number of points as points_len and
 * the number of contours as ends_len, so that old entries are not taken for the
 * layer's. Contours may cross, touch and be equal. Two equal squares that start
 * at their lower left corners lie in each other, and each is the parent of the
 * other.
 *
 * Writes into the first entries of two lent tables:
 *
 *   depths   one entry per contour: the number of other contours that it lies
 *            in
 *   parents  one entry per contour: of these the one with the smallest absolute
 *            area, at a tie the one of the lower number, and WADROLES_NO_PARENT
 *            where there is none
 *
 * Where a contour starts, and which way it runs, does not change which others
 * lie in it. Later entries of both tables stay. Success has no values: `out`
 * stays.
 *
 * The tests, in this sequence; the first that fails is the refusal:
 *
 *   WADROLES_SIZE      points_len is odd, there are more than
 *                      WADROLES_MAX_POINTS points, an end is not above the one
 *                      before it (0 for the first) by two or more, or the last
 *                      end (0 if there is none) is not the number of points;
 *                      place 0
 *   WADROLES_RANGE     a number is out of the range of coordinates; place its
 *                      position in points
 *   WADROLES_ROOM      depths_len or parents_len is less than ends_len; place 0
 *
 * After a refusal both tables are as before. The time goes by pairs of
 * contours. Where the first point of one is within the extent of another, it
 * goes by the points of that other too, and where it lies in it, by those of
 * the parent found so far.
 */
uint32_t wadroles_nesting(const int32_t *points, size_t points_len,
                          const uint32_t *ends, size_t ends_len,
                          uint32_t *depths, size_t depths_len,
                          uint32_t *parents, size_t parents_len,
                          uint64_t out[4]);

#ifdef __cplusplus
}
#endif

#endif /* WADROLES_H */
