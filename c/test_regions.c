/* The functions about regions: as they are drawn, and handed in. */
#include "test.h"

#include <float.h>
#include <math.h>
#include <string.h>

static void region(void)
{
    static const double clockwise[] = {0, 0, 0, 10, 10, 10, 10, 0, 4, 4, 4, 6, 6, 6, 6, 4};
    GIVES(LwRegion, lw_region(pane, COUNT(pane), pane_rings, 2, fresh(), ROOM), .rings = 2, .counts = {4, 4});
    CHECK(wrote(pane, 16));
    GIVES(LwRegion, lw_region(clockwise, COUNT(clockwise), pane_rings, 2, fresh(), 16), .rings = 2, .counts = {4, 4});
    CHECK(wrote(pane, 16));
    GIVES(LwRegion, lw_region(pane, 8, pane_rings, 1, fresh(), 8), .rings = 1, .counts = {4});
    CHECK(wrote(pane, 8));
    fresh();
    for (size_t room = 0; room < 16; room++)
        GIVES(LwRegion, lw_region(pane, COUNT(pane), pane_rings, 2, lent, room), .refusal = 20, .first = 16);
    CHECK(untouched());
}

static void region_inset(void)
{
    static const double inner[] = {1, 1, 9, 1, 9, 9, 1, 9, 3, 7, 3, 3, 7, 3, 7, 7};
    static const double clockwise[] = {0, 0, 0, 10, 10, 10, 10, 0, 4, 4, 4, 6, 6, 6, 6, 4};
    GIVES(LwRegionOffset, lw_region_inset(pane, COUNT(pane), pane_rings, 2, 1, fresh(), 16), .rings = 2, .counts = {4, 4});
    CHECK(wrote(inner, 16));
    GIVES(LwRegionOffset, lw_region_inset(clockwise, 16, pane_rings, 2, 1, fresh(), ROOM), .rings = 2, .counts = {4, 4});
    CHECK(wrote(inner, 16));
    GIVES(LwRegionOffset, lw_region_inset(pane, COUNT(pane), pane_rings, 2, -0.0, fresh(), 16), .rings = 2, .counts = {4, 4});
    CHECK(wrote(pane, 16));
    GIVES(LwRegionOffset, lw_region_inset(pane, COUNT(pane), pane_rings, 2, 2, fresh(), ROOM), .refusal = 17, .value = 2);
    GIVES(LwRegionOffset, lw_region_inset(pane, COUNT(pane), pane_rings, 2, 3, lent, ROOM), .refusal = 16, .value = 3, .joins = 1);
    GIVES(LwRegionOffset, lw_region_inset(pane, COUNT(pane), pane_rings, 2, 1e12, lent, 0), .refusal = 16, .value = 1e12, .joins = 1);
    GIVES(LwRegionOffset, lw_region_inset(pane, COUNT(pane), pane_rings, 2, 1000000000000.0001, lent, ROOM), .refusal = 13);
    GIVES(LwRegionOffset, lw_region_inset(pane, COUNT(pane), pane_rings, 2, -1, lent, ROOM), .refusal = 14, .value = -1);
    for (size_t room = 0; room < 16; room++)
        GIVES(LwRegionOffset, lw_region_inset(pane, COUNT(pane), pane_rings, 2, 1, lent, room), .refusal = 20, .first = 16);
    CHECK(untouched());
}

/* Two holes grow into one, and are inset so whether they are drawn or handed in. */
static void joined(void)
{
    static const double pair[] = {0, 0, 20, 0, 20, 20, 0, 20, 4, 4, 6, 4, 6, 6, 4, 6, 7, 4, 9, 4, 9, 6, 7, 6};
    static const double inner[] = {0.75, 0.75, 19.25, 0.75, 19.25, 19.25, 0.75, 19.25, 3.25, 6.75, 3.25, 3.25, 9.75, 3.25, 9.75, 6.75};
    static const size_t counts[] = {4, 4, 4};
    GIVES(LwRegionOffset, lw_region_inset(pair, 24, counts, 3, 0.75, fresh(), 16), .rings = 2, .counts = {4, 4}, .joins = 1);
    CHECK(wrote(inner, 16));
    GIVES(LwRegionOffset, lw_stored_region_inset(pair, 24, counts, 3, 0.75, fresh(), 16), .rings = 2, .counts = {4, 4}, .joins = 1);
    CHECK(wrote(inner, 16));
}

void bad_region(const double *numbers, size_t count, const size_t *lengths, size_t rings, LwRegion due)
{
    const LwRegion a = lw_region(numbers, count, lengths, rings, fresh(), ROOM);
    const LwRegionOffset b = lw_region_inset(numbers, count, lengths, rings, 1, lent, ROOM);
    const LwRegionOffset c = lw_region_inset(numbers, count, lengths, rings, NAN, lent, 0);
    const LwRegionOffset offset = {.refusal = due.refusal, .ring = due.ring, .first = due.first, .second = due.second, .value = due.value};
    CHECK(memcmp(&a, &due, sizeof a) == 0);
    CHECK(memcmp(&b, &offset, sizeof b) == 0 && memcmp(&c, &offset, sizeof c) == 0);
    CHECK(untouched());
}

/* A hole of four vertices in the square of side 10 is refused. */
static void bad_hole(const double *hole, LwRegion due)
{
    double both[16];
    memcpy(both, pane, sizeof both);
    memcpy(both + 8, hole, 8 * sizeof *hole);
    bad_region(both, 16, pane_rings, 2, due);
}

static void region_is(const double *numbers, size_t count, const size_t *rings, size_t how_many, size_t refusal, size_t second)
{
    LwRegion a = lw_region(numbers, count, rings, how_many, fresh(), ROOM);
    CHECK(a.refusal == refusal && a.rings == (refusal ? 0 : how_many));
    CHECK(a.ring == 0 && a.first == 0 && a.second == second && a.value == 0);
    CHECK(refusal ? untouched() : lent[count] == MARK && lent[count - 1] != MARK);
}

/* Each of these is told otherwise with rounded turns: docs/DIFFERENCES.md has the rows, and oracle/tests/rounded.rs both answers. */
static void exact_turns(void)
{
    static const size_t two[] = {3, 3}, of_four[] = {4, 3}, three[] = {4, 3, 3};
    static const double within[] = {0.7, 0.4, 0, 0.6, 0.6, 0, 0.1, 0.5, 0.5, 0.1, 0.5, 0.4};
    static const double touched[] = {-0.09, 0.02, -0.72, -0.12, -0.54, -0.93, 0.09, -0.79, -0.45, -0.06, -0.48, -0.35, -0.3, -0.31};
    static const double apart[] = {0, 0, 1.1, 0, 1.1, 1.1, 0, 1.1, 0.7, 0.9, 0.4, 0.6, 0.8, 0.2, 0.2, 0.9, 0.2, 0.8, 0.6, 0.3};
    static const double joined[] = {0, 0, 1.9, 0, 1.9, 1.9, 0, 1.9, 1.5, 1.7, 0.3, 0.9, 0.4, 1.2, 1.6, 1.5, 0.9, 1.3, 1.7, 0.5};
    region_is(within, COUNT(within), two, 2, 0, 0);
    region_is(touched, COUNT(touched), of_four, 2, 11, 0);
    region_is(apart, COUNT(apart), three, 3, 0, 0);
    region_is(joined, COUNT(joined), three, 3, 12, 1);
}

/* A region with one number of its hole put in the place of another is refused. */
static void with_number(size_t k, double number)
{
    double both[16];
    int finite = isfinite(number) != 0;
    memcpy(both, pane, sizeof both);
    both[8 + k] = number;
    if (finite)
        bad_region(both, 16, pane_rings, 2, (LwRegion){.refusal = 5, .ring = 1, .value = number});
    else
        bad_region(both, 16, pane_rings, 2, (LwRegion){.refusal = 2, .first = 8 + k});
}

static void any_number(void)
{
    for (size_t k = 0; k < 8; k++)
        with_number(k, bad_numbers[k % COUNT(bad_numbers)]);
    GIVES(LwRegionOffset, lw_region_inset(pane, COUNT(pane), pane_rings, 2, NAN, fresh(), ROOM), .refusal = 13);
    GIVES(LwRegionOffset, lw_region_inset(pane, COUNT(pane), pane_rings, 2, DBL_MAX, lent, ROOM), .refusal = 13);
    CHECK(untouched());
}

/* ---- regions handed in: a shape and where its rings end */

/* Does 21 pass it, with its rings told, or refuse it with nothing told? */
static void stored_is(const double *numbers, size_t count, const size_t *counts, size_t rings, size_t refusal)
{
    LwRegion a = lw_stored_region(numbers, count, counts, rings);
    CHECK(a.refusal == refusal && a.rings == (refusal ? 0 : rings));
    CHECK(a.ring == 0 && a.first == 0 && a.second == 0 && a.value == 0);
    for (size_t k = 0; k < COUNT(a.counts); k++)
        CHECK(a.counts[k] == (refusal || k >= rings ? 0 : counts[k]));
}

/* Every function that takes a region answers 21 to this one, and writes nothing. */
static void is_no_region(const double *numbers, size_t count, const size_t *counts, size_t rings)
{
    stored_is(numbers, count, counts, rings, 21);
    GIVES(LwRegionOffset, lw_stored_region_inset(numbers, count, counts, rings, -1, fresh(), ROOM), .refusal = 21);
    GIVES(LwPlace, lw_region_contains(numbers, count, counts, rings, NAN, 1), .refusal = 21);
    GIVES(LwNearest, lw_region_nearest(numbers, count, counts, rings, 1, NAN), .refusal = 21);
    GIVES(LwArea, lw_region_area(numbers, count, counts, rings), .refusal = 21);
    GIVES(LwLength, lw_region_perimeter(numbers, count, counts, rings), .refusal = 21);
    GIVES(LwOutline, lw_region_outer(numbers, count, counts, rings, lent, ROOM), .refusal = 21);
    GIVES(LwOutline, lw_region_hole(numbers, count, counts, rings, 0, lent, ROOM), .refusal = 21);
    GIVES(LwOutline, lw_region_hole(numbers, count, counts, rings, SIZE_MAX, lent, 0), .refusal = 21);
    CHECK(untouched());
}

/* The same, and no given outlines either. */
static void is_nothing(const double *numbers, size_t count, const size_t *counts, size_t rings)
{
    is_no_region(numbers, count, counts, rings);
    GIVES(LwRegion, lw_given_region(numbers, count, counts, rings, fresh(), ROOM), .refusal = 21);
    GIVES(LwRegion, lw_given_region(numbers, count, counts, rings, lent, 0), .refusal = 21);
    CHECK(untouched());
}

/* A square of side 100 with so many holes in a row, hole h a square of side 1 + h from (10 + 10 h, 10) on. */
static double grid[2 * LW_VERTICES + 2 * 4 * 9];
static size_t grid_counts[10];

static size_t draw_grid(size_t holes)
{
    static const double corners[] = {0, 0, 1, 0, 1, 1, 0, 1};
    grid_counts[0] = 4;
    for (size_t k = 0; k < 8; k++)
        grid[k] = 100 * corners[k];
    for (size_t h = 0; h < holes; h++) {
        grid_counts[1 + h] = 4;
        for (size_t k = 0; k < 8; k++)
            grid[8 * (1 + h) + k] = (double)(1 + h) * corners[k] + (k % 2 ? 10 : 10 * (double)(1 + h));
    }
    return 8 * (1 + holes);
}

/* Hole h of the grid goes so far east. */
static void move_hole(size_t h, double east)
{
    for (size_t k = 0; k < 8; k += 2)
        grid[8 * (1 + h) + k] += east;
}

/* A ring of so many vertices, counter-clockwise, around the middle of the grid. */
static void draw_ring(double *at, size_t vertices, double radius)
{
    for (size_t k = 0; k < vertices; k++) {
        double turn = 6.283185307179586 * (double)k / (double)vertices;
        at[2 * k] = 50 + radius * cos(turn);
        at[2 * k + 1] = 50 + radius * sin(turn);
    }
}

static void no_region(void)
{
    static const size_t ends[][2] = {{4, 3}, {4, 5}, {3, 4}, {8, 0}, {0, 8}, {6, 2}, {2, 6}, {SIZE_MAX, 9}, {9, SIZE_MAX},
                                     {(SIZE_MAX >> 1) + 1, (SIZE_MAX >> 1) + 9}, {4, (SIZE_MAX >> 1) + 5}};
    for (size_t k = 0; k < COUNT(ends); k++)
        is_nothing(pane, COUNT(pane), ends[k], 2);
    is_nothing(pane, 15, pane_rings, 2);
    is_nothing(pane, 14, pane_rings, 2);
    is_nothing(pane, 0, pane_rings, 2);
    is_nothing(pane, COUNT(pane), pane_rings, 1);
    is_nothing(pane, COUNT(pane), pane_rings, 0);
    is_nothing(pane, 0, pane_rings, 0);
    is_nothing(many, COUNT(many), (const size_t[]){129}, 1);
    is_nothing(many, 4, (const size_t[]){2}, 1);
    for (size_t k = 0; k < COUNT(pane); k++) {
        double both[COUNT(pane)];
        memcpy(both, pane, sizeof both);
        both[k] = bad_numbers[k % COUNT(bad_numbers)];
        is_nothing(both, COUNT(both), pane_rings, 2);
    }
}

/* As many vertices as there is room for, and one more; 8 holes and 9. */
static void full_region(void)
{
    size_t counts[] = {LW_VERTICES, LW_HOLE_VERTICES};
    draw_ring(grid, counts[0], 40);
    draw_ring(grid + 2 * counts[0], counts[1], 20);
    stored_is(grid, lw_numbers(counts, 2), counts, 2, 0);
    CHECK(lw_given_region(grid, lw_numbers(counts, 2), counts, 2, fresh(), ROOM).refusal == 0 && wrote(grid, lw_numbers(counts, 2)));
    counts[1]++;
    draw_ring(grid + 2 * counts[0], counts[1], 20);
    is_nothing(grid, lw_numbers(counts, 2), counts, 2);
    counts[0]++;
    draw_ring(grid, counts[0], 40);
    is_nothing(grid, lw_numbers(counts, 1), counts, 1);

    stored_is(grid, draw_grid(8), grid_counts, 9, 0);
    size_t count = draw_grid(9);
    is_no_region(grid, count, grid_counts, 10);
    GIVES(LwRegion, lw_given_region(grid, count, grid_counts, 10, fresh(), ROOM), .refusal = 10, .first = 9);
    CHECK(untouched());
    bad_region(grid, count, grid_counts, 10, (LwRegion){.refusal = 10, .first = 9});
    grid[count - 1] = NAN;
    is_nothing(grid, count, grid_counts, 10);
}

/* Every hole is seen, the last one too. */
static void eight_holes(void)
{
    size_t count = draw_grid(8);
    GIVES(LwArea, lw_region_area(grid, count, grid_counts, 9), .area = 10000 - 204);
    GIVES(LwLength, lw_region_perimeter(grid, count, grid_counts, 9), .length = 400 + 4 * 36);
    GIVES(LwRegion, lw_region(grid, count, grid_counts, 9, fresh(), 72), .rings = 9, .counts = {4, 4, 4, 4, 4, 4, 4, 4, 4});
    CHECK(wrote(grid, count));
    GIVES(LwRegion, lw_given_region(grid, count, grid_counts, 9, fresh(), 72), .rings = 9, .counts = {4, 4, 4, 4, 4, 4, 4, 4, 4});
    CHECK(wrote(grid, count));
    GIVES(LwOutline, lw_region_outer(grid, count, grid_counts, 9, fresh(), ROOM), .count = 4);
    CHECK(wrote(grid, 8));
    for (size_t h = 0; h < 8; h++) {
        double west = 10 * (double)(1 + h), side = (double)(1 + h);
        GIVES(LwPlace, lw_region_contains(grid, count, grid_counts, 9, west + side / 2, 10 + side / 2), .place = LW_OUTSIDE);
        GIVES(LwPlace, lw_region_contains(grid, count, grid_counts, 9, west + side, 10 + side / 2), .place = LW_ON_BOUNDARY);
        GIVES(LwPlace, lw_region_contains(grid, count, grid_counts, 9, west + side + 0.5, 10 + side / 2), .place = LW_INSIDE);
        GIVES(LwNearest, lw_region_nearest(grid, count, grid_counts, 9, west - 0.25, 10.5), .distance = 0.25, .east = west, .north = 10.5);
        GIVES(LwOutline, lw_region_hole(grid, count, grid_counts, 9, h, fresh(), ROOM), .count = 4);
        CHECK(wrote(grid + 8 * (1 + h), 8));
    }
    GIVES(LwOutline, lw_region_hole(grid, count, grid_counts, 9, 8, fresh(), ROOM), .refusal = 0);
    CHECK(untouched());
}

/* Nine rings, no two with as many vertices: 12 around holes of 3 to 10. */
static void uneven_rings(void)
{
    static const size_t counts[] = {12, 3, 4, 5, 6, 7, 8, 9, 10};
    static double rings[128];
    double *at = rings + 24;
    draw_ring(rings, 12, 500);
    for (size_t h = 0; h < 8; h++) {
        draw_ring(at, counts[1 + h], 3);
        for (size_t k = 0; k < counts[1 + h]; k++, at += 2)
            at[0] += 20 * (double)h - 70;
    }
    GIVES(LwRegion, lw_region(rings, 128, counts, 9, fresh(), 128), .rings = 9, .counts = {12, 3, 4, 5, 6, 7, 8, 9, 10});
    CHECK(wrote(rings, 128));
    GIVES(LwRegion, lw_given_region(rings, 128, counts, 9, fresh(), 128), .rings = 9, .counts = {12, 3, 4, 5, 6, 7, 8, 9, 10});
    CHECK(wrote(rings, 128));
    stored_is(rings, 128, counts, 9, 0);
    GIVES(LwRegionOffset, lw_stored_region_inset(rings, 128, counts, 9, 0, fresh(), 128), .rings = 9,
          .counts = {12, 3, 4, 5, 6, 7, 8, 9, 10});
    CHECK(wrote(rings, 128));
    GIVES(LwOutline, lw_region_hole(rings, 128, counts, 9, 7, fresh(), ROOM), .count = 10);
    CHECK(wrote(rings + 108, 20));
}

/* The inset of the grid, drawn and handed in: each hole grows, in its place. */
static void eight_holes_inset(void)
{
    size_t count = draw_grid(8);
    double inner[72] = {1, 1, 99, 1, 99, 99, 1, 99};
    for (size_t h = 0; h < 8; h++) {
        double west = 10 * (double)(1 + h) - 1, side = (double)(3 + h);
        const double grown[] = {west, 9 + side, west, 9, west + side, 9, west + side, 9 + side};
        memcpy(inner + 8 * (1 + h), grown, sizeof grown);
    }
    GIVES(LwRegionOffset, lw_region_inset(grid, count, grid_counts, 9, 1, fresh(), 72), .rings = 9, .counts = {4, 4, 4, 4, 4, 4, 4, 4, 4});
    CHECK(wrote(inner, 72));
    GIVES(LwRegionOffset, lw_stored_region_inset(grid, count, grid_counts, 9, 1, fresh(), 72), .rings = 9,
          .counts = {4, 4, 4, 4, 4, 4, 4, 4, 4});
    CHECK(wrote(inner, 72));
}

/* Every question about rings, asked of one that is not the first. */
static void bad_regions(void)
{
    static const size_t three[] = {4, 3}, short_hole[] = {4, 2};
    static const double repeated[] = {4, 4, 6, 4, 6, 4, 4, 6}, flat[] = {4, 4, 5, 5, 6, 6, 7, 7}, bow[] = {4, 4, 6, 6, 6, 4, 4, 5};
    static const double around[] = {-1, -1, 11, -1, 11, 11, -1, 11}, touching[] = {4, 4, 6, 4, 6, 10, 4, 6};
    bad_region(pane, 15, pane_rings, 2, (LwRegion){.refusal = 1});
    bad_region(pane, COUNT(pane), three, 2, (LwRegion){.refusal = 3});
    bad_region(pane, 0, pane_rings, 0, (LwRegion){.refusal = 3});
    bad_region(pane, 12, short_hole, 2, (LwRegion){.refusal = 4, .ring = 1, .first = 2});
    bad_hole(repeated, (LwRegion){.refusal = 7, .ring = 1});
    bad_hole(flat, (LwRegion){.refusal = 8, .ring = 1});
    bad_hole(bow, (LwRegion){.refusal = 9, .ring = 1, .first = 0, .second = 2});
    bad_hole(around, (LwRegion){.refusal = 11});
    bad_hole(touching, (LwRegion){.refusal = 11});
    size_t counts[] = {4, LW_HOLE_VERTICES + 1};
    draw_grid(0);
    draw_ring(grid + 8, counts[1], 20);
    bad_region(grid, lw_numbers(counts, 2), counts, 2, (LwRegion){.refusal = 6, .ring = 1, .first = 33, .second = 32});
    counts[0] = LW_VERTICES + 1;
    bad_region(many, 258, counts, 1, (LwRegion){.refusal = 6, .first = 129, .second = 128});
}

/* The last hole out of its place: of drawn rings and of given outlines this is asked, of a region handed in it is not. */
static void last_hole(double east, LwRegion due)
{
    size_t count = draw_grid(8);
    move_hole(7, east);
    bad_region(grid, count, grid_counts, 9, due);
    const LwRegion a = lw_given_region(grid, count, grid_counts, 9, fresh(), ROOM);
    CHECK(memcmp(&a, &due, sizeof a) == 0 && untouched());
    stored_is(grid, count, grid_counts, 9, 0);
    GIVES(LwRegionOffset, lw_stored_region_inset(grid, count, grid_counts, 9, 0, fresh(), 72), .rings = 9,
          .counts = {4, 4, 4, 4, 4, 4, 4, 4, 4});
    CHECK(wrote(grid, count));
    GIVES(LwRegionOffset, lw_stored_region_inset(grid, count, grid_counts, 9, 0.25, fresh(), ROOM), .refusal = 17, .value = 0.25);
    CHECK(untouched());
}

static void holes_in_place(void)
{
    last_hole(100, (LwRegion){.refusal = 11, .first = 7});
    last_hole(15, (LwRegion){.refusal = 11, .first = 7});
    last_hole(-15, (LwRegion){.refusal = 12, .first = 5, .second = 7});
}

/* Rings that run clockwise are taken as they run; of such a hole an inset can be granted without it. */
static void as_they_run(void)
{
    static const double inner[] = {1, 1, 9, 1, 9, 9, 1, 9};
    double given[16] = {0, 0, 10, 0, 10, 10, 0, 10, 4, 4, 4, 6, 6, 6, 6, 4};
    static const double clockwise[] = {0, 0, 0, 10, 10, 10, 10, 0};
    GIVES(LwRegionOffset, lw_stored_region_inset(given, 16, pane_rings, 2, 1, fresh(), ROOM), .rings = 1, .counts = {4});
    CHECK(wrote(inner, 8));
    GIVES(LwRegionOffset, lw_stored_region_inset(given, 16, pane_rings, 2, 0.5, fresh(), ROOM), .refusal = 17, .value = 0.5);
    memcpy(given, clockwise, sizeof clockwise);
    GIVES(LwRegion, lw_given_region(given, 16, pane_rings, 2, fresh(), 16), .rings = 2, .counts = {4, 4});
    CHECK(wrote(given, 16));
    GIVES(LwRegionOffset, lw_stored_region_inset(given, 16, pane_rings, 2, 0, fresh(), 16), .rings = 2, .counts = {4, 4});
    CHECK(wrote(given, 16));
    GIVES(LwOutline, lw_region_outer(given, 16, pane_rings, 2, fresh(), ROOM), .count = 4);
    CHECK(wrote(given, 8));
    GIVES(LwOutline, lw_region_hole(given, 16, pane_rings, 2, 0, fresh(), ROOM), .count = 4);
    CHECK(wrote(given + 8, 8));
    GIVES(LwRegion, lw_without_holes(given, 8, fresh(), ROOM), .rings = 1, .counts = {4});
    CHECK(wrote(given, 8));
    GIVES(LwArea, lw_region_area(given, 16, pane_rings, 2), .area = 96);
    GIVES(LwPlace, lw_region_contains(given, 16, pane_rings, 2, 5, 5), .place = LW_OUTSIDE);
}

static void given_region(void)
{
    GIVES(LwRegion, lw_given_region(pane, COUNT(pane), pane_rings, 2, fresh(), 16), .rings = 2, .counts = {4, 4});
    CHECK(wrote(pane, 16));
    fresh();
    for (size_t room = 0; room < 16; room++)
        GIVES(LwRegion, lw_given_region(pane, COUNT(pane), pane_rings, 2, lent, room), .refusal = 20, .first = 16);
    CHECK(untouched());
}

static void no_outline(const double *numbers, size_t count)
{
    GIVES(LwRegion, lw_without_holes(numbers, count, fresh(), ROOM), .refusal = 21);
    GIVES(LwRegion, lw_without_holes(numbers, count, lent, 0), .refusal = 21);
    CHECK(untouched());
}

static void without_holes(void)
{
    GIVES(LwRegion, lw_without_holes(square, COUNT(square), fresh(), 8), .rings = 1, .counts = {4});
    CHECK(wrote(square, 8));
    GIVES(LwRegion, lw_without_holes(many, COUNT(many) - 2, fresh(), ROOM), .rings = 1, .counts = {128});
    CHECK(wrote(many, COUNT(many) - 2));
    fresh();
    for (size_t room = 0; room < 8; room++)
        GIVES(LwRegion, lw_without_holes(square, COUNT(square), lent, room), .refusal = 20, .first = 8);
    CHECK(untouched());
    no_outline(square, 7);
    no_outline(square, 4);
    no_outline(square, 0);
    no_outline(many, COUNT(many));
    for (size_t k = 0; k < 8; k++) {
        double other[8];
        memcpy(other, square, sizeof other);
        other[k] = bad_numbers[k % COUNT(bad_numbers)];
        no_outline(other, 8);
    }
}

/* An inset can be inset again: what is written is what is handed in. */
static void stored_inset(void)
{
    double once[LW_REGION_NUMBERS], direct[LW_REGION_NUMBERS];
    LwRegionOffset a = lw_stored_region_inset(pane, COUNT(pane), pane_rings, 2, 0.5, once, COUNT(once));
    LwRegionOffset b = lw_region_inset(pane, COUNT(pane), pane_rings, 2, 0.5, direct, COUNT(direct));
    size_t count = lw_numbers(a.counts, a.rings);
    CHECK(a.refusal == 0 && a.rings == 2 && count == 16);
    CHECK(memcmp(&a, &b, sizeof a) == 0 && memcmp(once, direct, count * sizeof *once) == 0);
    stored_is(once, count, a.counts, a.rings, 0);
    GIVES(LwRegionOffset, lw_stored_region_inset(once, 16, a.counts, 2, 0.5, fresh(), 16), .rings = 2, .counts = {4, 4});
    CHECK(lent[0] == 1 && lent[1] == 1 && lent[4] == 9 && lent[8] == 7 && lent[9] == 7 && lent[13] == 3 && lent[16] == MARK);
    GIVES(LwRegionOffset, lw_stored_region_inset(once, 16, a.counts, 2, -0.0, fresh(), ROOM), .rings = 2, .counts = {4, 4});
    CHECK(wrote(once, 16));
    fresh();
    for (size_t room = 0; room < 16; room++)
        GIVES(LwRegionOffset, lw_stored_region_inset(once, 16, a.counts, 2, 0.5, lent, room), .refusal = 20, .first = 16);
    GIVES(LwRegionOffset, lw_stored_region_inset(once, 16, a.counts, 2, 1.5, lent, ROOM), .refusal = 17, .value = 1.5);
    GIVES(LwRegionOffset, lw_stored_region_inset(once, 16, a.counts, 2, -1, lent, ROOM), .refusal = 14, .value = -1);
    GIVES(LwRegionOffset, lw_stored_region_inset(once, 16, a.counts, 2, NAN, lent, ROOM), .refusal = 13);
    GIVES(LwRegionOffset, lw_stored_region_inset(once, 16, a.counts, 2, 1000000000000.0001, lent, ROOM), .refusal = 13);
    GIVES(LwRegionOffset, lw_stored_region_inset(once, 16, a.counts, 2, 1e12, lent, 0), .refusal = 16, .value = 1e12, .joins = 1);
    CHECK(untouched());
}

static size_t placed(double east, double north)
{
    LwPlace a = lw_region_contains(pane, COUNT(pane), pane_rings, 2, east, north);
    CHECK(a.refusal == 0 && a.first == 0);
    return a.place;
}

static void region_contains(void)
{
    CHECK(placed(1, 1) == LW_INSIDE && placed(5, 5) == LW_OUTSIDE && placed(-1, 5) == LW_OUTSIDE);
    CHECK(placed(5e-324, 5) == LW_INSIDE && placed(-5e-324, 5) == LW_OUTSIDE);
    CHECK(placed(0, 5) == LW_ON_BOUNDARY && placed(4, 5) == LW_ON_BOUNDARY && placed(1e300, 0) == LW_OUTSIDE);
    LwPlace a = lw_region_contains(pane, COUNT(pane), pane_rings, 2, NAN, 1);
    CHECK(a.refusal == 2 && a.first == 0 && a.place == LW_OUTSIDE);
    a = lw_region_contains(pane, COUNT(pane), pane_rings, 2, 1, INFINITY);
    CHECK(a.refusal == 2 && a.first == 1 && a.place == LW_OUTSIDE);
}

static void region_nearest(void)
{
    GIVES(LwNearest, lw_region_nearest(pane, 16, pane_rings, 2, 5, 3.5), .distance = 0.5, .east = 5, .north = 4);
    GIVES(LwNearest, lw_region_nearest(pane, 16, pane_rings, 2, 13, -4), .distance = 5, .east = 10, .north = 0);
    GIVES(LwNearest, lw_region_nearest(pane, 16, pane_rings, 2, 5e-324, 5), .distance = 5e-324, .east = 0, .north = 5);
    GIVES(LwNearest, lw_region_nearest(pane, 16, pane_rings, 2, 5, NAN), .refusal = 2, .first = 1);
    GIVES(LwNearest, lw_region_nearest(pane, 16, pane_rings, 2, INFINITY, NAN), .refusal = 2, .first = 0);
    /* The distance is past the largest double. */
    GIVES(LwNearest, lw_region_nearest(pane, 16, pane_rings, 2, DBL_MAX, DBL_MAX), .east = DBL_MAX, .north = DBL_MAX);
}

static void region_area(void)
{
    GIVES(LwArea, lw_region_area(pane, 16, pane_rings, 2), .area = 96);
    GIVES(LwArea, lw_region_area(pane, 8, pane_rings, 1), .area = 100);
}

static void region_perimeter(void)
{
    GIVES(LwLength, lw_region_perimeter(pane, 16, pane_rings, 2), .length = 48);
    GIVES(LwLength, lw_region_perimeter(pane, 8, pane_rings, 1), .length = 40);
}

static void region_outer(void)
{
    GIVES(LwOutline, lw_region_outer(pane, 16, pane_rings, 2, fresh(), 8), .count = 4);
    CHECK(wrote(pane, 8));
    fresh();
    for (size_t room = 0; room < 8; room++)
        GIVES(LwOutline, lw_region_outer(pane, 16, pane_rings, 2, lent, room), .refusal = 20, .first = 8);
    CHECK(untouched());
}

static void region_hole(void)
{
    static const size_t past[] = {1, 2, 128, 256, (size_t)1 << 32, SIZE_MAX / 2 + 1, SIZE_MAX};
    GIVES(LwOutline, lw_region_hole(pane, 16, pane_rings, 2, 0, fresh(), 8), .count = 4);
    CHECK(wrote(pane + 8, 8));
    fresh();
    for (size_t room = 0; room < 8; room++)
        GIVES(LwOutline, lw_region_hole(pane, 16, pane_rings, 2, 0, lent, room), .refusal = 20, .first = 8);
    for (size_t k = 0; k < COUNT(past); k++)
        GIVES(LwOutline, lw_region_hole(pane, 16, pane_rings, 2, past[k], lent, k % 2 ? 0 : ROOM), .count = 0);
    GIVES(LwOutline, lw_region_hole(pane, 8, pane_rings, 1, 0, lent, ROOM), .count = 0);
    CHECK(untouched());
}

void test_regions(void)
{
    run("lw_region", region);
    run("lw_region_inset", region_inset);
    run("holes that join", joined);
    run("exact turns of regions", exact_turns);
    run("any number of regions", any_number);
    run("lw_stored_region", no_region);
    run("bad regions", bad_regions);
    run("full regions", full_region);
    run("eight holes", eight_holes);
    run("uneven rings", uneven_rings);
    run("eight holes inset", eight_holes_inset);
    run("holes out of place", holes_in_place);
    run("rings as they run", as_they_run);
    run("lw_given_region", given_region);
    run("lw_without_holes", without_holes);
    run("lw_stored_region_inset", stored_inset);
    run("lw_region_contains", region_contains);
    run("lw_region_nearest", region_nearest);
    run("lw_region_area", region_area);
    run("lw_region_perimeter", region_perimeter);
    run("lw_region_outer", region_outer);
    run("lw_region_hole", region_hole);
}
