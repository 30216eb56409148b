/* Lizardwire for C (C99) and C++: cages of outlines and regions.
 *
 * Link with target/shared/liblizardwire.so or target/shared/liblizardwire.a
 * (`tools/library` builds both). The library is for x86-64 Linux. It allocates
 * nothing, keeps nothing between calls, calls nothing of yours, and may be
 * called from any number of threads at once. A job line takes 208 KB of stack,
 * a region's inset 191, an outline's offset 144, the check of a region 59, any
 * other question about a region 30, and anything else less than 3 KB (a KB is
 * 1,000 bytes).
 *
 * Numbers come as one flat list of doubles, east then north of each vertex.
 * Every bit pattern is allowed in them, NaN too. What a caller owes is what C
 * cannot check: a pointer is not NULL and leads to as many numbers as the count
 * beside it says (where the count is 0, any other address will do), what is lent as
 * output shares no memory with the input, and the processor rounds to nearest and
 * keeps subnormal numbers (in a program linked with -ffast-math it may not).
 *
 * Every function of the library but lw_version and lw_hypot answers in a struct.
 * `refusal` is 0 where the call is granted. Otherwise it is the number of the first
 * question that was answered with no, the other fields carry what belongs to it, and
 * the lent output is as it was. A granted call changes only the numbers that it writes.
 *
 * Whether edges meet is told exactly, with nothing rounded: of an outline that is
 * accepted, no two edges that are no neighbours share a point. Two that 9 names
 * share one, or are neighbours that fold back. A point is on the boundary of an
 * outline if and only if it lies on an edge. Inside or outside, right beside an
 * edge, is rounded.
 *
 * A ring that an offset by a distance above 0 gives is simple, on the right side
 * and clear of its source, and keeps the distance at each of its vertices but for a
 * tolerance; lw_inset says what that is in truth. It need not be all that is left.
 * Where a narrow place closes, the part behind it can be missing:
 * (0,0) (10,0) (6,5) (10,10) (0,10) (4,5) inset by 1.2 gives one of two triangles;
 * (8,6) (2,12) (4,14) (-4,14) (-2,12) (-8,6) inset by 1.5 keeps 0.14 of an area of
 * 19.3. Nor does 16 always mean that nothing is left: the square from (0,0) to
 * (10,10) with the hole (1,4) (3,4) (3,6) (1,6) inset by 0.75 gets it, and an area
 * of 61.75 is left. README.md says more under "What is not covered".
 *
 * The refusals, and what goes with each, stand in the enum LwRefusal below.
 * A field that a refusal does not carry reads 0. Rings, edges, vertices, holes
 * and indices count from 0: ring 0 is the outer one, ring k is hole k - 1, and
 * edge k runs from vertex k to the next. 4, 5 and 6 can also come from an
 * offset's result; `ring` is then its place among the finished rings.
 *
 * 27 is asked of a ring as it is drawn, by lw_check, lw_outline, lw_region,
 * lw_region_inset and job lines: an edge, the closing one too, whose length is below
 * 0.000001 (the double nearest to it), by lw_hypot of the differences of its ends. It
 * comes after 4 to 7 of that ring, and before 8 and 9 of it. It is not asked of a shape
 * handed in, nor of an offset's result. So a result with such an edge is granted, and
 * can be offset again as it is (lw_inset, lw_outset, lw_stored_region_inset); handed
 * in as a drawing it is refused: (0,0) (4,0) (4,4) (1,4) (0,3) inset by 1.7071065 has
 * an edge of 2.3e-7.
 */
#ifndef LIZARDWIRE_H
#define LIZARDWIRE_H

#include <stddef.h>
#include <stdint.h>

#ifdef __cplusplus
extern "C" {
#endif

/* The refusals by their numbers, with what the fields carry. */
typedef enum LwRefusal {
    LW_GRANTED = 0,
    /* the count of numbers is odd */
    LW_REFUSED_ODD = 1,
    /* a number is not finite (first: its index) */
    LW_REFUSED_NOT_FINITE = 2,
    /* no ring, or vertex counts that do not add up to the points */
    LW_REFUSED_LENGTHS = 3,
    /* fewer than three vertices (ring; first: vertices found) */
    LW_REFUSED_FEW = 4,
    /* a coordinate beyond +-1e9 (ring; value: the coordinate) */
    LW_REFUSED_RANGE = 5,
    /* more vertices than there is room for: 128, in a hole 32 (ring; first: needed, second: room) */
    LW_REFUSED_ROOM = 6,
    /* a vertex equal to its neighbour (ring) */
    LW_REFUSED_REPEATED = 7,
    /* an area of nothing beside the outline's span (ring) */
    LW_REFUSED_FLAT = 8,
    /* two edges cross or touch (ring; first, second: the two edges) */
    LW_REFUSED_CROSSED = 9,
    /* more than 8 holes (first: holes given) */
    LW_REFUSED_MANY_HOLES = 10,
    /* a hole that reaches the outer ring or lies outside it (first: the hole) */
    LW_REFUSED_HOLE_OUTSIDE = 11,
    /* two holes that are not apart (first, second: the two holes) */
    LW_REFUSED_HOLES_TOUCH = 12,
    /* a distance that is not finite, or above 1e12 */
    LW_REFUSED_FAR = 13,
    /* a distance below 0 (value: the distance) */
    LW_REFUSED_NEGATIVE = 14,
    /* a front of more than 128 edges (first: needed) */
    LW_REFUSED_SLOTS = 15,
    /* nothing is left at that distance (value: the distance) */
    LW_REFUSED_COLLAPSES = 16,
    /* what is left is not one piece, or not clear of the source (value: the distance) */
    LW_REFUSED_SPLITS = 17,
    /* 387 events did not bring the front to the distance (first: 387, value: what remained) */
    LW_REFUSED_UNFINISHED = 18,
    /* more than 8 holes are left (first: 9) */
    LW_REFUSED_MANY_PIECES = 19,
    /* lent memory is too short (first: numbers (or bytes) needed) */
    LW_REFUSED_SHORT = 20,
    /* a shape or a stream's state handed in is none: counts or coordinates out of bounds */
    LW_REFUSED_SHAPE = 21,
    /* an ill-formed job line */
    LW_REFUSED_JOB = 22,
    /* an edge shorter than 0.000001 (ring) */
    LW_REFUSED_HAIRLINE = 27
} LwRefusal;

/* One line of words for the number of a refusal, without what it carries. */
static inline const char *lw_words(size_t refusal) {
    switch (refusal) {
    case LW_REFUSED_ODD: return "the count of numbers is odd: a vertex is two";
    case LW_REFUSED_NOT_FINITE: return "a coordinate is not a finite number";
    case LW_REFUSED_LENGTHS: return "there is no ring, or the vertex counts do not add up to the points";
    case LW_REFUSED_FEW: return "a ring has fewer than 3 vertices";
    case LW_REFUSED_RANGE: return "a coordinate is beyond 1e9";
    case LW_REFUSED_ROOM: return "a ring has too many vertices";
    case LW_REFUSED_REPEATED: return "a vertex stands twice in a row";
    case LW_REFUSED_FLAT: return "a ring is flat: it encloses nothing";
    case LW_REFUSED_CROSSED: return "two edges cross";
    case LW_REFUSED_MANY_HOLES: return "there are more than 8 holes";
    case LW_REFUSED_HOLE_OUTSIDE: return "a ring is not inside the first one";
    case LW_REFUSED_HOLES_TOUCH: return "two holes are not apart";
    case LW_REFUSED_FAR: return "the distance is not a number up to 1e12";
    case LW_REFUSED_NEGATIVE: return "the distance is below 0";
    case LW_REFUSED_SLOTS: return "too many edges: 128 can move at once";
    case LW_REFUSED_COLLAPSES: return "nothing is left: the margin is too wide";
    case LW_REFUSED_SPLITS: return "the cage falls apart or meets the outline";
    case LW_REFUSED_UNFINISHED: return "the cage was not finished in 387 events";
    case LW_REFUSED_MANY_PIECES: return "more than 8 holes would be left";
    case LW_REFUSED_SHORT: return "the lent memory is too short";
    case LW_REFUSED_SHAPE: return "this is not a shape, or not a stream's state";
    case LW_REFUSED_JOB: return "this is not a job line";
    case LW_REFUSED_HAIRLINE: return "an edge is shorter than 0.000001";
    default: return refusal ? "refused" : "granted";
    }
}

/* The version of this header. It goes up with every function that is added or changed; one
 * that is here stays as it is for as long as the number in the shared library's name does. */
#define LW_VERSION 4

/* The most that a shape holds. */
#define LW_VERTICES 128      /* an outline, or the outer ring of a region */
#define LW_HOLES 8           /* holes of a region */
#define LW_HOLE_VERTICES 32  /* a hole */
/* Lent output of this many numbers is never too short: so much is in a full shape. */
#define LW_OUTLINE_NUMBERS 256  /* an outline or a hole */
#define LW_REGION_NUMBERS 768   /* a region */
/* The longest job line that is read, in bytes, LF not counted. An answer line has
 * at most 13,098, which is proved, so lent output of this many bytes is never too
 * short. */
#define LW_LINE_BYTES 16384
/* The state of a stream of job lines, in bytes; and lent output of a stream that any
 * answer fits, with its LF. */
#define LW_STREAM_BYTES 16387
#define LW_STREAM_OUTPUT 16385

/* What lw_contains and lw_region_contains answer in `place`: 0 is outside. */
#define LW_OUTSIDE 0
#define LW_ON_BOUNDARY 1
#define LW_INSIDE 2

/* ---- what is answered */

typedef struct LwOutline {
    size_t refusal;
    size_t ring, first, second;
    double value;
    size_t count;  /* vertices; 0 where refused */
} LwOutline;

typedef struct LwPlace {
    size_t refusal;
    size_t first;
    size_t place;  /* LW_OUTSIDE, LW_ON_BOUNDARY, LW_INSIDE; LW_OUTSIDE where refused */
} LwPlace;

typedef struct LwNearest {
    size_t refusal;
    size_t first;
    double distance;     /* 0 where refused, as are the two below */
    double east, north;  /* the nearest point */
} LwNearest;

typedef struct LwArea {
    size_t refusal;
    double area;  /* 0 where refused */
} LwArea;

typedef struct LwLength {
    size_t refusal;
    double length;  /* 0 where refused */
} LwLength;

typedef struct LwMeeting {
    size_t refusal;
    size_t meets;    /* 1 where an edge of one outline meets an edge of the other; 0 where none does, or refused */
    size_t outer;    /* of the outer walk, the lowest edge that meets any; 0 where `meets` is 0, and so are the two below */
    size_t inner;    /* of the inner walk, the lowest edge that it meets */
    size_t swapped;  /* 1 where the second outline, having fewer vertices, is in the outer walk */
} LwMeeting;

typedef struct LwPoint {
    size_t refusal;
    double east, north;  /* 0 where refused */
} LwPoint;

typedef struct LwEdge {
    size_t refusal;
    double start_east, start_north;  /* 0 where refused, as are the two below */
    double end_east, end_north;
} LwEdge;

typedef struct LwOffset {
    size_t refusal;
    size_t ring, first, second;
    double value;
    size_t count;  /* vertices; 0 where refused */
    /* Completed events, refused or not: edges that shrank to nothing, splits of
     * a ring into two, splits that made two rings one. */
    size_t collapses, divides, joins;
} LwOffset;

typedef struct LwRegion {
    size_t refusal;
    size_t ring, first, second;
    double value;
    size_t rings;                  /* the outer ring and the holes; 0 where refused */
    size_t counts[1 + LW_HOLES];   /* vertices of each; 0 beyond the last */
} LwRegion;

typedef struct LwRegionOffset {
    size_t refusal;
    size_t ring, first, second;
    double value;
    size_t rings;
    size_t counts[1 + LW_HOLES];
    size_t collapses, divides, joins;
} LwRegionOffset;

typedef struct LwLine {
    size_t refusal;  /* 0 or 20 */
    size_t count;    /* bytes: those of the answer or of the state, or with 20 those needed */
} LwLine;

typedef struct LwFed {
    size_t refusal;  /* 0, 20 or 21 */
    size_t first;    /* with 20: the bytes needed, of the state or of the output */
    size_t taken;    /* bytes of the block that are done with */
    size_t written;  /* bytes of the output that are answers; 0 where refused */
} LwFed;

/* The version of the library that is linked: LW_VERSION as it was built. One below that of
 * this header is an older library, in which functions can be missing or answer otherwise. */
size_t lw_version(void);

/* The double nearest to the root of x*x + y*y, ties to even. hypot(0, 0) is 0;
 * a root past the largest double is infinity; an infinite operand gives
 * infinity, even beside a NaN; otherwise a NaN gives NaN. Never refused. */
double lw_hypot(double x, double y);

/* ---- outlines as they are drawn */

/* Are these numbers an outline, and of how many vertices?
 * Refusals: 1, 2, 4 to 7, 27, 8, 9, ring 0. One closing repeat of the first vertex is
 * dropped. */
LwOutline lw_check(const double *numbers, size_t count);

/* The outline of these numbers, written to `out`: the numbers as they are, or,
 * where they run clockwise, reversed with the first vertex kept.
 * Refusals: those of lw_check, then 20. */
LwOutline lw_outline(const double *numbers, size_t count, double *out, size_t out_count);

/* ---- outlines handed in
 *
 * The functions below take an outline as lw_outline, lw_inset and lw_outset write
 * it, and work on what they are given as it is: `count` is that of its numbers, two a
 * vertex. 21 is an odd count, fewer than 3 or more than 128 vertices, or a number that
 * is not within +-1e9. 27 is not asked, so that an inset with an edge that is too short
 * for a drawing can be inset again. The outline runs counter-clockwise; that is not
 * asked either, but the offsets go by it. lw_outline turns one round that runs
 * clockwise. */

/* Where does the point lie? Any finite point may be asked. The boundary is told
 * exactly. Refusals: 21, then 2 of the point (0 east, 1 north). */
LwPlace lw_contains(const double *outline, size_t count, double east, double north);

/* The nearest point of the boundary, and how far it is; where that is past the largest
 * double, the distance reads 0 and the point is the one asked. Refusals: as lw_contains. */
LwNearest lw_nearest(const double *outline, size_t count, double east, double north);

/* The area enclosed. Refusals: 21. */
LwArea lw_area(const double *outline, size_t count);

/* The length of the boundary. Refusals: 21. */
LwLength lw_perimeter(const double *outline, size_t count);

/* The largest absolute coordinate. Refusals: 21. */
LwLength lw_extent(const double *outline, size_t count);

/* The clearance of two outlines: the least distance from a vertex of either to an edge of the
 * other, and 0 if an edge of one meets an edge of the other. It is the same, bit for bit,
 * whichever is named first. One outline inside the other is measured the same way. Each
 * distance is that of lw_nearest, which also says where it is. It can round to 0 where the
 * outlines do not meet: lw_meeting tells. Refusals: 21 of the first, then of the second. */
LwLength lw_clearance(const double *first, size_t first_count, const double *second, size_t second_count);

/* Does an edge of one outline meet an edge of the other, and which two are the first that do?
 * Edges meet if they share a point, which is told exactly; one outline inside the other does
 * not make them meet. The outer walk is over the outline of fewer vertices, of two with as many
 * over the first. `outer` is the lowest edge there that meets any edge of the other outline,
 * and `inner` the lowest edge of the other that it meets, each counted in its outline as it is
 * handed in. So the pair is not in the order of the arguments: where `swapped` is 1, `outer` is
 * an edge of the second and `inner` one of the first. Refusals: 21 of the first, then of the
 * second. */
LwMeeting lw_meeting(const double *first, size_t first_count, const double *second, size_t second_count);

/* Vertex k; (0, 0) where there are no more than k. Refusals: 21. */
LwPoint lw_vertex(const double *outline, size_t count, size_t k);

/* Edge k, from vertex k to the next, the last one closing the ring; (0, 0) twice where
 * there are no more than k. Refusals: 21. */
LwEdge lw_edge(const double *outline, size_t count, size_t k);

/* The ring that the edges make once they have moved inward by the distance,
 * corners mitred, written to `out`. Refusals: 21, 13, 14, then 4, 5, 6 and 15 to
 * 18 as the offset meets them, then 20. At distance 0 it is the outline itself.
 * Above 0 each of its vertices lies, measured exactly, at least
 *     distance - 2e-9 * (1 + distance + largest) - 1e-15 * largest
 * from every edge of the outline, `largest` being the largest absolute coordinate
 * of the outline and nothing being rounded. */
LwOffset lw_inset(const double *outline, size_t count, double distance, double *out, size_t out_count);

/* Outward, likewise, but of exact distances nothing is promised. */
LwOffset lw_outset(const double *outline, size_t count, double distance, double *out, size_t out_count);

/* ---- regions as they are drawn */

/* The region of these numbers: `lengths` has the vertex count of each ring,
 * the outer one first. Its rings are written to `out` one after the other, each
 * stored as lw_outline does (holes too run counter-clockwise).
 * Refusals: 1 to 3; 4 to 7, 27, 8 and 9 ring by ring, the outer one first; 10 to 12,
 * then 20. */
LwRegion lw_region(const double *numbers, size_t count, const size_t *lengths, size_t rings,
                   double *out, size_t out_count);

/* The region is checked as lw_region does (1 to 12, and 27), then its outer ring
 * moves in and its holes grow. Refusals: those of lw_region but for 20, then 13, 14,
 * then 4, 5, 6 and 15 to 19 as the offset meets them, then 20. Above 0 each vertex of
 * each ring that is written lies at least as far as lw_inset says from every edge of
 * every ring handed in, `largest` being the largest absolute coordinate of them all.
 * What it writes can be inset again by lw_stored_region_inset; by this function only
 * where no edge of it is below 27's length. */
LwRegionOffset lw_region_inset(const double *numbers, size_t count, const size_t *lengths, size_t rings,
                               double distance, double *out, size_t out_count);

/* ---- regions handed in
 *
 * The functions below take rings as lw_region and the insets write them, one after the
 * other, with the vertex count of each, the outer one first: `counts` and `rings` of the
 * answer, and lw_numbers of these. They work on what they are given as it is: 27 is not
 * asked, and but for lw_given_region neither is whether holes lie inside and apart.
 * 21 is an odd count, no ring, counts that do not add up to the points, more than 8
 * holes, an outer ring of fewer than 3 or more than 128 vertices, a hole of fewer than 3
 * or more than 32, or a number that is not within +-1e9.
 *
 * Each ring runs counter-clockwise, holes too. That is not asked: of a hole that runs
 * clockwise, as in GeoJSON, an inset can be granted without it, and the cage then runs
 * over the hole. lw_region turns such rings round. */

/* How many numbers the rings are, two a vertex, of counts that the library answered: of
 * others the sum can pass the largest size_t and begin again at 0. */
static inline size_t lw_numbers(const size_t *counts, size_t rings) {
    size_t numbers = 0;
    for (size_t k = 0; k < rings; k++) {
        numbers += 2 * counts[k];
    }
    return numbers;
}

/* The region of given outlines, the outer one first, each as lw_outline writes it, written to
 * `out` as they are: one that runs clockwise is not turned round.
 * Refusals: 21 (not of more than 8 holes), 10, 11, 12, then 20. */
LwRegion lw_given_region(const double *numbers, size_t count, const size_t *counts, size_t rings,
                         double *out, size_t out_count);

/* A given outline as a region without holes, written to `out` as it is, not turned round.
 * Refusals: 21, then 20. */
LwRegion lw_without_holes(const double *outline, size_t count, double *out, size_t out_count);

/* Does 21 pass this region? Its rings and counts are told. Refusals: 21. */
LwRegion lw_stored_region(const double *numbers, size_t count, const size_t *counts, size_t rings);

/* The inset of a region as it is, so that an inset can be inset again, also one with an edge
 * that 27 refuses in a drawing. Refusals: 21, 13, 14, then 4, 5, 6 and 15 to 19 as the offset
 * meets them, then 20. How far its vertices lie from what is handed in, lw_region_inset says. */
LwRegionOffset lw_stored_region_inset(const double *numbers, size_t count, const size_t *counts, size_t rings,
                                      double distance, double *out, size_t out_count);

/* Where does the point lie? One in a hole is outside, one on an edge of a hole is on the
 * boundary; but where that edge is right beside the outer ring, it can be told outside.
 * Any finite point may be asked. Refusals: 21, then 2 of the point (0 east, 1 north). */
LwPlace lw_region_contains(const double *numbers, size_t count, const size_t *counts, size_t rings,
                           double east, double north);

/* The nearest point of the boundary, that of the holes too, and how far it is; past the
 * largest double as lw_nearest. Refusals: as lw_region_contains. */
LwNearest lw_region_nearest(const double *numbers, size_t count, const size_t *counts, size_t rings,
                            double east, double north);

/* The area inside the outer ring and outside every hole. Refusals: 21. */
LwArea lw_region_area(const double *numbers, size_t count, const size_t *counts, size_t rings);

/* The length of the outer ring and of every hole. Refusals: 21. */
LwLength lw_region_perimeter(const double *numbers, size_t count, const size_t *counts, size_t rings);

/* The outer ring as an outline, written to `out`. Refusals: 21, then 20. */
LwOutline lw_region_outer(const double *numbers, size_t count, const size_t *counts, size_t rings,
                          double *out, size_t out_count);

/* Hole k as an outline, written to `out`; where there are no more than k, `count` is 0 and
 * nothing is written. Refusals: 21, then 20. */
LwOutline lw_region_hole(const double *numbers, size_t count, const size_t *counts, size_t rings,
                         size_t k, double *out, size_t out_count);

/* ---- job lines */

/* The answer to one job line, both without LF. A refused job is an answer, too:
 * `no` and the number. A job is asked what a drawing is, 27 too (`no,27`).
 * Refusals: 20, `count` then being the bytes needed. */
LwLine lw_job_line(const uint8_t *line, size_t length, uint8_t *out, size_t out_length);

/* A stream of job lines: makes a state in lent memory, LW_STREAM_BYTES of it. Feed the input
 * block by block, cut anywhere, and finish; what is written, joined, has one answer a line.
 * Refusals: 20, `count` then being LW_STREAM_BYTES and the memory as it was. */
LwLine lw_stream(uint8_t *state, size_t state_length);

/* Takes the next bytes of the input, and writes the answers of the lines that end in them,
 * each with its LF. It stops where the next answer does not fit what is left of the output:
 * write out what is there, and feed the rest of the block from `taken` on. A granted call
 * takes the whole block or writes something.
 * Refusals: 20 of a state with fewer than LW_STREAM_BYTES (`first` says so many), then 21 of a
 * state that lw_stream did not make: it says it holds more than it has room for. Of both nothing
 * is taken, and the state is as it was. Then 20, where not even the first answer fits the output:
 * `first` is the bytes that it needs, and the line is kept in the state, as far as it is `taken`.
 * It does not come where the output has LW_STREAM_OUTPUT bytes. No two of block, state and output
 * share memory. */
LwFed lw_feed(const uint8_t *block, size_t length, uint8_t *state, size_t state_length,
              uint8_t *out, size_t out_length);

/* The end of the input: a last line without LF is answered, and the state holds nothing then.
 * Refusals: as lw_feed; after the last 20 the state is as it was. */
LwFed lw_finish(uint8_t *state, size_t state_length, uint8_t *out, size_t out_length);

#ifdef __cplusplus
}
#endif

#endif
