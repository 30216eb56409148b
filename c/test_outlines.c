/* The functions about outlines: as they are drawn, and handed in. */
#include "test.h"

#include <float.h>
#include <math.h>
#include <stdint.h>
#include <string.h>

static const double clockwise[] = {0, 0, 0, 4, 4, 4, 4, 0};
static const double closed[] = {0, 0, 4, 0, 4, 4, 0, 4, 0, 0};
static const double bow[] = {0, 0, 4, 4, 4, 0, 0, 2};
static const double fold[] = {0, 0, 4, 0, 4, 4, 4, 2, 0, 2};
static const double flat[] = {0, 0, 1, 0, 2, 0};
static const double twice[] = {0, 0, 4, 0, 4, 0, 0, 4};
static const double not_finite[] = {0, 0, 4, 0, 4, NAN};
static const double far_off[] = {0, 0, 1e9, 0, 0, 1000000000.0000001};
static const double widest[] = {0, 0, 1e9, 0, 0, 1e9};
/* Almost on a line: rounded turns refused the first, named the edges 0 and 3 of the second, and accepted the third. */
static const double beside[] = {2.6, 0.6, 0.1, 1.6, 1.5, 1.7, 1.85, 0.9};
static const double crossed[] = {0.8, 0.3, 1.4, 3, 1.6, 1.2, 1.2, 2.1};
static const double touching[] = {0.1, 0, 0.2, 0, 0.2, 0.1, 0.4, 0.3};

/* The comb of 129 vertices without its last tooth: as many as there is room for. */
static const double *full(void)
{
    static double comb[256];
    memcpy(comb, many, 252 * sizeof *comb);
    memcpy(comb + 252, many + 254, 4 * sizeof *comb);
    return comb;
}

static void hypotenuse(void)
{
    CHECK(lw_hypot(3, 4) == 5);
    CHECK(lw_hypot(0, 0) == 0);
    CHECK(lw_hypot(-INFINITY, NAN) == INFINITY);
    CHECK(isnan(lw_hypot(NAN, 1)));
    CHECK(lw_hypot(1.7e308, 1.7e308) == INFINITY);
    CHECK(lw_hypot(5e-324, 0) == 5e-324);
    CHECK(lw_hypot(-2, 0) == 2 && lw_hypot(0, -2) == 2);
    /* The root of the rounded sum of squares is next to it, and so is what a C library answers. */
    CHECK(lw_hypot(118.98, 454.86) == 470.16365235947364);
    CHECK(lw_hypot(-8, 15) == 17 && lw_hypot(3e-320, 4e-320) == 5e-320);
}

static void refused_outline(LwOutline a, size_t refusal, size_t first, size_t second, double value)
{
    CHECK(a.refusal == refusal);
    CHECK(a.ring == 0 && a.first == first && a.second == second && a.value == value && a.count == 0);
}

void bad_outline(const double *numbers, size_t count, size_t refusal, size_t first, size_t second, double value)
{
    refused_outline(lw_check(numbers, count), refusal, first, second, value);
    refused_outline(lw_outline(numbers, count, fresh(), ROOM), refusal, first, second, value);
    CHECK(untouched());
}

static void check_and_outline(void)
{
    GIVES(LwOutline, lw_check(square, COUNT(square)), .count = 4);
    GIVES(LwOutline, lw_check(closed, COUNT(closed)), .count = 4);
    GIVES(LwOutline, lw_check(widest, COUNT(widest)), .count = 3);
    GIVES(LwOutline, lw_check(full(), 256), .count = 128);
    GIVES(LwOutline, lw_outline(square, COUNT(square), fresh(), ROOM), .count = 4);
    CHECK(wrote(square, 8));
    GIVES(LwOutline, lw_outline(clockwise, COUNT(clockwise), fresh(), 8), .count = 4);
    CHECK(wrote(square, 8));
    GIVES(LwOutline, lw_outline(closed, COUNT(closed), fresh(), ROOM), .count = 4);
    CHECK(wrote(square, 8));
    GIVES(LwOutline, lw_outline(full(), 256, fresh(), 256), .count = 128);
    CHECK(wrote(full(), 256));

    bad_outline(square, 7, 1, 0, 0, 0);
    bad_outline(not_finite, COUNT(not_finite), 2, 5, 0, 0);
    bad_outline(square, 0, 4, 0, 0, 0);
    bad_outline(square, 4, 4, 2, 0, 0);
    bad_outline(far_off, COUNT(far_off), 5, 0, 0, far_off[5]);
    bad_outline(many, COUNT(many), 6, 129, 128, 0);
    bad_outline(twice, COUNT(twice), 7, 0, 0, 0);
    bad_outline(flat, COUNT(flat), 8, 0, 0, 0);
    bad_outline(bow, COUNT(bow), 9, 0, 2, 0);
    bad_outline(fold, COUNT(fold), 9, 1, 2, 0);

    for (size_t room = 0; room < 8; room++) {
        refused_outline(lw_outline(square, COUNT(square), fresh(), room), 20, 8, 0, 0);
        CHECK(untouched());
    }
}

/* What 21 refuses, whatever is asked: an odd count, no vertex, two, 129, NaN, a number right above 1e9. */
static const struct {
    const double *numbers;
    size_t count;
} none[] = {{square, 7}, {square, 0}, {square, 4}, {many, 258}, {not_finite, 6}, {far_off, 6}};

static void contains(void)
{
    GIVES(LwPlace, lw_contains(square, COUNT(square), 2, 2), .place = LW_INSIDE);
    GIVES(LwPlace, lw_contains(square, COUNT(square), 4, 2), .place = LW_ON_BOUNDARY);
    GIVES(LwPlace, lw_contains(square, COUNT(square), 5, 2), .place = LW_OUTSIDE);
    GIVES(LwPlace, lw_contains(many, 256, 125.5, 8.5), .place = LW_INSIDE);
    GIVES(LwPlace, lw_contains(bow, COUNT(bow), 3.5, 2), .place = LW_INSIDE);
    GIVES(LwPlace, lw_contains(square, COUNT(square), 2, NAN), .refusal = 2, .first = 1);
    for (size_t k = 0; k < COUNT(none); k++)
        GIVES(LwPlace, lw_contains(none[k].numbers, none[k].count, NAN, 2), .refusal = 21);
}

static void nearest(void)
{
    GIVES(LwNearest, lw_nearest(square, COUNT(square), 3, 2), .distance = 1, .east = 4, .north = 2);
    GIVES(LwNearest, lw_nearest(square, COUNT(square), 7, 8), .distance = 5, .east = 4, .north = 4);
    GIVES(LwNearest, lw_nearest(square, COUNT(square), -3, -4), .distance = 5, .east = 0, .north = 0);
    GIVES(LwNearest, lw_nearest(square, COUNT(square), 5e-324, 2), .distance = 5e-324, .east = 0, .north = 2);
    GIVES(LwNearest, lw_nearest(many, 256, 130, 12), .distance = 5, .east = 126, .north = 9);
    GIVES(LwNearest, lw_nearest(square, COUNT(square), INFINITY, 2), .refusal = 2, .first = 0);
    GIVES(LwNearest, lw_nearest(square, COUNT(square), 2, NAN), .refusal = 2, .first = 1);
    /* The distance is past the largest double. */
    GIVES(LwNearest, lw_nearest(square, COUNT(square), DBL_MAX, DBL_MAX), .east = DBL_MAX, .north = DBL_MAX);
    for (size_t k = 0; k < COUNT(none); k++)
        GIVES(LwNearest, lw_nearest(none[k].numbers, none[k].count, NAN, 2), .refusal = 21);
}

static void area(void)
{
    GIVES(LwArea, lw_area(square, COUNT(square)), .area = 16);
    GIVES(LwArea, lw_area(clockwise, COUNT(clockwise)), .area = 16);
    GIVES(LwArea, lw_area(square, 6), .area = 8);
    GIVES(LwArea, lw_area(full(), 256), .area = 941);
    GIVES(LwArea, lw_area(flat, COUNT(flat)), .area = 0);
    for (size_t k = 0; k < COUNT(none); k++)
        GIVES(LwArea, lw_area(none[k].numbers, none[k].count), .refusal = 21);
}

static int length_is(LwLength a, double length) { return a.refusal == 0 && a.length == length; }
static int no_length(LwLength a) { return a.refusal == 21 && a.length == 0; }

/* The lengths of its edges, added up from edge 0 on. */
static double edge_by_edge(const double *numbers, size_t count)
{
    double sum = 0;
    for (size_t k = 0; k < count / 2; k++) {
        LwEdge e = lw_edge(numbers, count, k);
        sum += lw_hypot(e.end_east - e.start_east, e.end_north - e.start_north);
    }
    return sum;
}

static void perimeter(void)
{
    static const double three_four_five[] = {-3, 0, 0, 0, 0, -4};
    CHECK(length_is(lw_perimeter(square, COUNT(square)), 16));
    CHECK(length_is(lw_perimeter(clockwise, COUNT(clockwise)), 16));
    CHECK(length_is(lw_perimeter(three_four_five, COUNT(three_four_five)), 12));
    CHECK(length_is(lw_perimeter(square, 6), 8 + lw_hypot(4, 4)));
    CHECK(length_is(lw_perimeter(many, 256), edge_by_edge(many, 256)));
    CHECK(length_is(lw_perimeter(beside, COUNT(beside)), edge_by_edge(beside, COUNT(beside))));
    for (size_t k = 0; k < COUNT(none); k++)
        CHECK(no_length(lw_perimeter(none[k].numbers, none[k].count)));
}

static void extent(void)
{
    static const double low[] = {1, -7, 3, -2, 0.5, 2};
    static const double least[] = {-0.0, 0, 5e-324, 0, 0, -5e-324};
    CHECK(length_is(lw_extent(square, COUNT(square)), 4));
    CHECK(length_is(lw_extent(low, COUNT(low)), 7));
    CHECK(length_is(lw_extent(widest, COUNT(widest)), 1e9));
    CHECK(length_is(lw_extent(least, COUNT(least)), 5e-324));
    CHECK(length_is(lw_extent(many, 256), 126));
    for (size_t k = 0; k < COUNT(none); k++)
        CHECK(no_length(lw_extent(none[k].numbers, none[k].count)));
}

/* Whether edges meet, and which, worked out by a plain walk: of small whole numbers, where nothing is rounded. */
static double turn(const double *a, const double *b, const double *c)
{
    return (b[0] - a[0]) * (c[1] - a[1]) - (b[1] - a[1]) * (c[0] - a[0]);
}

static int on_edge(const double *a, const double *b, const double *p)
{
    int beside = fmax(a[0], b[0]) < p[0] || p[0] < fmin(a[0], b[0]) || fmax(a[1], b[1]) < p[1] || p[1] < fmin(a[1], b[1]);
    return turn(a, b, p) == 0 && !beside;
}

static int edges_meet(const double *a, const double *b, const double *c, const double *d)
{
    int across = turn(a, b, c) * turn(a, b, d) < 0 && turn(c, d, a) * turn(c, d, b) < 0;
    return across || on_edge(a, b, c) || on_edge(a, b, d) || on_edge(c, d, a) || on_edge(c, d, b);
}

/* What is due of o vertices in the outer walk and n in the inner one. */
static LwMeeting edge_after_edge(const double *outer, size_t o, const double *inner, size_t n, size_t swapped)
{
    for (size_t j = 0; j < o; j++)
        for (size_t k = 0; k < n; k++)
            if (edges_meet(outer + 2 * j, outer + 2 * ((j + 1) % o), inner + 2 * k, inner + 2 * ((k + 1) % n)))
                return (LwMeeting){.meets = 1, .outer = j, .inner = k, .swapped = swapped};
    return (LwMeeting){0};
}

/* Draws so many vertices of whole numbers below 10, moved: two such rings cross, touch or are apart. */
static void draw(double *ring, size_t vertices, double moved)
{
    static uint32_t state = 3;
    for (size_t k = 0; k < 2 * vertices; k++) {
        state = state * 1103515245 + 12345;
        ring[k] = (double)((state >> 16) % 10) + moved;
    }
}

/* Of drawn rings no answer differs from the plain walk's, and each kind of answer came. */
static void drawn_meetings(void)
{
    size_t differ = 0, apart = 0, swapped = 0, outer = 0, inner = 0;
    for (size_t round = 0; round < 20000; round++) {
        double first[16], second[16];
        size_t n = 3 + round % 6, m = 3 + round / 6 % 6;
        draw(first, n, 0);
        draw(second, m, (double)(round % 11));
        LwMeeting got = lw_meeting(first, 2 * n, second, 2 * m);
        LwMeeting due = m < n ? edge_after_edge(second, m, first, n, 1) : edge_after_edge(first, n, second, m, 0);
        differ += memcmp(&got, &due, sizeof got) != 0;
        apart += !due.meets, swapped += due.swapped, outer += due.outer > 0, inner += due.inner > 0;
    }
    CHECK(differ == 0);
    CHECK(apart > 2000 && swapped > 2000 && outer > 2000 && inner > 2000);
}

/* Which edges of the square and of an outline meet: the square named first, and the outline named first. */
static void meets_square(const double *numbers, size_t count, LwMeeting square_first, LwMeeting square_second)
{
    LwMeeting a = lw_meeting(square, COUNT(square), numbers, count), b = lw_meeting(numbers, count, square, COUNT(square));
    CHECK(memcmp(&a, &square_first, sizeof a) == 0);
    CHECK(memcmp(&b, &square_second, sizeof b) == 0);
}
#define MEET(j, k, s) ((LwMeeting){.meets = 1, .outer = (j), .inner = (k), .swapped = (s)})
#define APART ((LwMeeting){0})

static void meeting(void)
{
    static const double triangle[] = {3, 3, 6, 3, 6, 6}, closing[] = {5, 2, 9, 9, 2, 5};
    /* Edge 0 meets the square's edge 3 alone; the square's edge 1 meets the edges 2 and 3. */
    static const double hook[] = {2, 1, -2, 1, -2, 3, 6, 3}, longer[] = {2, 1, -2, 1, -2, 3, 6, 3, 7, 2};
    static const double corner[] = {4, 4, 9, 4, 9, 9}, tip[] = {9, 4, 4, 2, 9, 0}, dot[] = {2, 4, 2, 4, 2, 4};
    static const double below[] = {3, -2, 1, -2, 1, 0, 3, 0}, across[] = {-1, 1, 5, 1, 5, 2, -1, 2};
    static const double beyond[] = {6, 0, 8, 0, 8, 4, 6, 4}, within[] = {1, 1, 3, 1, 3, 3, 1, 3}, inner[] = {1, 1, 3, 1, 2, 3};
    static const double at_end[] = {-3, 5, 0, 6, -3, 7};
    /* Fewer vertices: in the outer walk, wherever it is named. */
    meets_square(triangle, COUNT(triangle), MEET(0, 1, 1), MEET(0, 1, 0));
    meets_square(closing, COUNT(closing), MEET(2, 1, 1), MEET(2, 1, 0));
    meets_square(longer, COUNT(longer), MEET(1, 2, 0), MEET(1, 2, 1));
    /* As many: the first is in the outer walk. */
    meets_square(hook, COUNT(hook), MEET(1, 2, 0), MEET(0, 3, 0));
    meets_square(square, COUNT(square), MEET(0, 0, 0), MEET(0, 0, 0));
    /* They touch: at a corner of both, at one of the other, at the whole other, along an edge. */
    meets_square(corner, COUNT(corner), MEET(0, 1, 1), MEET(0, 1, 0));
    meets_square(tip, COUNT(tip), MEET(0, 1, 1), MEET(0, 1, 0));
    meets_square(dot, COUNT(dot), MEET(0, 2, 1), MEET(0, 2, 0));
    meets_square(below, COUNT(below), MEET(0, 1, 0), MEET(1, 0, 0));
    /* They do not: beside one another, or one inside the other, also where the second has fewer vertices. */
    meets_square(beyond, COUNT(beyond), APART, APART);
    meets_square(within, COUNT(within), APART, APART);
    meets_square(inner, COUNT(inner), APART, APART);
    /* As they are handed in: a ring that runs clockwise, and a closing repeat, which counts. */
    GIVES(LwMeeting, lw_meeting(clockwise, COUNT(clockwise), triangle, COUNT(triangle)), .meets = 1, .inner = 2, .swapped = 1);
    GIVES(LwMeeting, lw_meeting(square, COUNT(square), across, COUNT(across)), .meets = 1, .outer = 1);
    GIVES(LwMeeting, lw_meeting(closed, COUNT(closed), across, COUNT(across)), .meets = 1, .inner = 1, .swapped = 1);
    /* As many vertices as there is room for, the last edge of them. */
    GIVES(LwMeeting, lw_meeting(full(), 256, at_end, COUNT(at_end)), .meets = 1, .inner = 127, .swapped = 1);
    GIVES(LwMeeting, lw_meeting(at_end, COUNT(at_end), full(), 256), .meets = 1, .inner = 127);
    GIVES(LwMeeting, lw_meeting(full(), 256, full(), 256), .meets = 1);
    GIVES(LwMeeting, lw_meeting(full(), 256, many, 256), .meets = 1);
    for (size_t k = 0; k < COUNT(none); k++) {
        GIVES(LwMeeting, lw_meeting(none[k].numbers, none[k].count, square, COUNT(square)), .refusal = 21);
        GIVES(LwMeeting, lw_meeting(square, COUNT(square), none[k].numbers, none[k].count), .refusal = 21);
        GIVES(LwMeeting, lw_meeting(none[k].numbers, none[k].count, none[0].numbers, none[0].count), .refusal = 21);
    }
    drawn_meetings();
}

/* The distance of the vertex of the second outline that is nearest to the first. */
static double vertex_by_vertex(const double *first, size_t first_count, const double *second, size_t second_count)
{
    double least = INFINITY;
    for (size_t k = 0; k < second_count / 2; k++) {
        LwPoint v = lw_vertex(second, second_count, k);
        least = fmin(least, lw_nearest(first, first_count, v.east, v.north).distance);
    }
    return least;
}

/* What is due: 0 where edges meet, otherwise the least of both walks. */
static double from_both_sides(const double *first, size_t first_count, const double *second, size_t second_count)
{
    if (lw_meeting(first, first_count, second, second_count).meets)
        return 0;
    return fmin(vertex_by_vertex(first, first_count, second, second_count), vertex_by_vertex(second, second_count, first, first_count));
}

/* The clearance of two outlines is that number, bit for bit, whichever is named first. */
static int clear_by(const double *first, size_t first_count, const double *second, size_t second_count, double due)
{
    LwLength told = {.length = due}, a = lw_clearance(first, first_count, second, second_count);
    LwLength b = lw_clearance(second, second_count, first, first_count);
    return memcmp(&a, &told, sizeof a) == 0 && memcmp(&b, &told, sizeof b) == 0;
}
#define CLEAR_BY(first, second, due) CHECK(clear_by(first, COUNT(first), second, COUNT(second), due))

/* Of drawn rings the clearance is the one from both sides. In many one side alone would not do. */
static void drawn_clearances(void)
{
    size_t differ = 0, meet = 0, of_first = 0, of_second = 0;
    for (size_t round = 0; round < 20000; round++) {
        double first[16], second[16];
        size_t n = 2 * (3 + round % 6), m = 2 * (3 + round / 6 % 6);
        draw(first, n / 2, 0);
        draw(second, m / 2, (double)(round % 23));
        double due = from_both_sides(first, n, second, m);
        differ += !clear_by(first, n, second, m, due);
        meet += due == 0;
        of_first += due != 0 && due < vertex_by_vertex(first, n, second, m);
        of_second += due != 0 && due < vertex_by_vertex(second, m, first, n);
    }
    CHECK(differ == 0);
    CHECK(meet > 2000 && of_first > 1500 && of_second > 1500);
}

/* The same of as many vertices as there is room for, twice: the comb, and below it the comb turned over, half a tooth to the side.
 * In turn a tooth of either almost reaches the other. */
static void full_clearances(void)
{
    size_t differ = 0, of_first = 0, of_second = 0;
    for (size_t round = 0; round < 84; round++) {
        double first[256], second[256];
        for (size_t k = 0; k < 256; k++) {
            first[k] = full()[k];
            second[k] = k % 2 ? -full()[k] - 0.5 : full()[k] + 0.5;
        }
        if (round % 2)
            first[2 * (round * 37 % 126) + 1] = -1.8;
        else
            second[2 * (round * 37 % 126) + 1] = 1.3;
        double due = from_both_sides(first, 256, second, 256);
        differ += due == 0 || !clear_by(first, 256, second, 256, due);
        of_first += due < vertex_by_vertex(first, 256, second, 256);
        of_second += due < vertex_by_vertex(second, 256, first, 256);
    }
    CHECK(differ == 0);
    CHECK(of_first > 30 && of_second > 30);
    CHECK(clear_by(full(), 256, full(), 256, 0) && clear_by(full(), 256, many, 256, 0));
}

static void clearance(void)
{
    /* The collar is 0.2 from the sleeve's spike; the collar's own vertices are farther from the sleeve. */
    static const double collar[] = {-3, 0, 3, 0, 3, -2, -3, -2}, sleeve[] = {-5, 10, -1, 6, 0, 0.2, 1, 6, 5, 10};
    /* Nearest to the square: an edge, a vertex alone, a closing edge alone. */
    static const double beyond[] = {6, 0, 8, 0, 8, 4, 6, 4}, wedge[] = {5, 2, 9, 0, 9, 4}, wall[] = {10, 2, 12, 12, 2, 10};
    /* Inside the square, by a vertex; and inside a notched one, by the notch. */
    static const double within[] = {1, 1, 3, 1, 3, 3, 1, 3}, notched[] = {0, 0, 4, 0, 4, 4, 2, 3.25, 0, 4};
    /* They meet, where a vertex of one lies on the other, and where no vertex of either is near the other. */
    static const double corner[] = {4, 4, 9, 4, 9, 9}, touched[] = {4, 2, 9, 0, 9, 4}, bar[] = {-3, 1, 7, 1, 7, 3, -3, 3};
    static const double high[] = {0.7, 11.3, 9.1, 10.2, 4.4, 17.9};
    /* The least double apart; and not at all, as far as the computed gap can tell, though they do not meet. */
    static const double upright[] = {5e-324, -1, 1, -1, 1, 1, 5e-324, 1}, sloping[] = {5e-324, 0, 1, 0, 1, 1};
    static const double tip[] = {0, 0, -1, 1, -1, -1};
    static const double low[] = {-1e9, -1e9, -1e9, 0, 0, -1e9}, far_up[] = {1e9, 1e9, 0, 1e9, 1e9, 0};
    CLEAR_BY(collar, sleeve, 0.2);
    CHECK(vertex_by_vertex(collar, COUNT(collar), sleeve, COUNT(sleeve)) == 0.2);
    CHECK(vertex_by_vertex(sleeve, COUNT(sleeve), collar, COUNT(collar)) > 2.9);
    CLEAR_BY(square, beyond, 2);
    CLEAR_BY(square, wedge, 1);
    CLEAR_BY(square, wall, lw_hypot(2, 2));
    CLEAR_BY(clockwise, wall, lw_hypot(2, 2));
    CLEAR_BY(square, within, 1);
    CLEAR_BY(notched, within, 0.25);
    CLEAR_BY(square, square, 0);
    CLEAR_BY(square, corner, 0);
    CLEAR_BY(square, touched, 0);
    CLEAR_BY(square, bar, 0);
    CLEAR_BY(upright, tip, 5e-324);
    CLEAR_BY(sloping, tip, 0);
    GIVES(LwMeeting, lw_meeting(sloping, COUNT(sloping), tip, COUNT(tip)), .meets = 0);
    CLEAR_BY(low, far_up, lw_hypot(1e9, 1e9));
    CHECK(clear_by(high, COUNT(high), many, 256, from_both_sides(high, COUNT(high), many, 256)));
    for (size_t k = 0; k < COUNT(none); k++) {
        CHECK(no_length(lw_clearance(none[k].numbers, none[k].count, square, COUNT(square))));
        CHECK(no_length(lw_clearance(square, COUNT(square), none[k].numbers, none[k].count)));
        CHECK(no_length(lw_clearance(none[k].numbers, none[k].count, none[0].numbers, none[0].count)));
    }
    drawn_clearances();
    full_clearances();
}

/* From the last vertex on there is none. */
static const size_t past[] = {4, 5, 128, 256, (size_t)1 << 32, SIZE_MAX / 2, SIZE_MAX / 2 + 1, SIZE_MAX};

static int point_is(LwPoint a, double east, double north) { return a.refusal == 0 && a.east == east && a.north == north; }

static void vertex(void)
{
    static const double odd_one[] = {7, 1, 9, 2, 8, 5, 6, 3};
    for (size_t k = 0; k < 4; k++)
        CHECK(point_is(lw_vertex(odd_one, COUNT(odd_one), k), odd_one[2 * k], odd_one[2 * k + 1]));
    CHECK(point_is(lw_vertex(many, 256, 127), many[254], many[255]));
    for (size_t k = 0; k < COUNT(past); k++)
        CHECK(point_is(lw_vertex(odd_one, COUNT(odd_one), past[k]), 0, 0));
    for (size_t k = 0; k < 4; k++)
        CHECK(point_is(lw_vertex(clockwise, COUNT(clockwise), k), clockwise[2 * k], clockwise[2 * k + 1]));
    for (size_t k = 0; k < COUNT(none); k++) {
        LwPoint a = lw_vertex(none[k].numbers, none[k].count, 1);
        CHECK(a.refusal == 21 && a.east == 0 && a.north == 0);
    }
}

static int edge_is(LwEdge a, const double *start, const double *end)
{
    return a.refusal == 0 && a.start_east == start[0] && a.start_north == start[1] && a.end_east == end[0] && a.end_north == end[1];
}

static void edge(void)
{
    static const double odd_one[] = {7, 1, 9, 2, 8, 5, 6, 3}, origin[] = {0, 0};
    for (size_t k = 0; k < 4; k++)
        CHECK(edge_is(lw_edge(odd_one, COUNT(odd_one), k), odd_one + 2 * k, odd_one + 2 * ((k + 1) % 4)));
    CHECK(edge_is(lw_edge(many, 256, 127), many + 254, many));
    for (size_t k = 0; k < COUNT(past); k++)
        CHECK(edge_is(lw_edge(odd_one, COUNT(odd_one), past[k]), origin, origin));
    for (size_t k = 0; k < COUNT(none); k++) {
        LwEdge a = lw_edge(none[k].numbers, none[k].count, 1);
        CHECK(a.refusal == 21 && a.start_east == 0 && a.start_north == 0 && a.end_east == 0 && a.end_north == 0);
    }
}

/* A square with a corner cut off; one whose waist closes; an H, whose bar does. */
static const double chip[] = {0, 0, 8, 0, 8, 7, 7, 8, 0, 8};
static const double hourglass[] = {0, 0, 10, 0, 6, 5, 10, 10, 0, 10, 4, 5};
static const double letter[] = {0, 0, 4, 0, 4, 4, 6, 4, 6, 0, 10, 0, 10, 10, 6, 10, 6, 6, 4, 6, 4, 10, 0, 10};

typedef LwOffset Offset(const double *, size_t, double, double *, size_t);

static void refused_offset(LwOffset a, size_t refusal, size_t first, double value, size_t collapses)
{
    CHECK(a.refusal == refusal);
    CHECK(a.ring == 0 && a.first == first && a.second == 0 && (a.value == value || (a.value != a.value && value != value)));
    CHECK(a.count == 0 && a.collapses == collapses && a.divides == 0 && a.joins == 0);
    CHECK(untouched());
}

static void bad_offset(Offset *offset)
{
    size_t n = COUNT(square);
    refused_offset(offset(square, 7, 1, fresh(), ROOM), 21, 0, 0, 0);
    refused_offset(offset(square, 4, NAN, fresh(), ROOM), 21, 0, 0, 0);
    refused_offset(offset(many, COUNT(many), 1, fresh(), ROOM), 21, 0, 0, 0);
    refused_offset(offset(square, n, NAN, fresh(), ROOM), 13, 0, 0, 0);
    refused_offset(offset(square, n, INFINITY, fresh(), ROOM), 13, 0, 0, 0);
    refused_offset(offset(square, n, 1000000000000.0001, fresh(), ROOM), 13, 0, 0, 0);
    refused_offset(offset(square, n, -1, fresh(), ROOM), 14, 0, -1, 0);
    for (size_t room = 0; room < 8; room++)
        refused_offset(offset(square, n, 1, fresh(), room), 20, 8, 0, 0);
    /* By 0, and -0, a ring is written as it is, however it runs and whatever it crosses; otherwise it is 17. */
    GIVES(LwOffset, offset(square, n, -0.0, fresh(), 8), .count = 4);
    CHECK(wrote(square, 8));
    GIVES(LwOffset, offset(bow, COUNT(bow), 0, fresh(), ROOM), .count = 4);
    CHECK(wrote(bow, 8));
    GIVES(LwOffset, offset(clockwise, COUNT(clockwise), 0, fresh(), ROOM), .count = 4);
    CHECK(wrote(clockwise, 8));
    GIVES(LwOffset, offset(many, 256, 0, fresh(), 256), .count = 128);
    CHECK(wrote(many, 256));
    refused_offset(offset(bow, COUNT(bow), 0.25, fresh(), ROOM), 17, 0, 0.25, 0);
    refused_offset(offset(clockwise, COUNT(clockwise), 1, fresh(), ROOM), 17, 0, 1, 0);
}

static void inset(void)
{
    static const double inner[] = {1, 1, 3, 1, 3, 3, 1, 3}, smaller[] = {2, 2, 6, 2, 6, 6, 2, 6};
    size_t n = COUNT(square);
    GIVES(LwOffset, lw_inset(square, n, 1, fresh(), 8), .count = 4);
    CHECK(wrote(inner, 8));
    GIVES(LwOffset, lw_inset(chip, COUNT(chip), 2, fresh(), ROOM), .count = 4, .collapses = 1);
    CHECK(wrote(smaller, 8));
    GIVES(LwOffset, lw_inset(hourglass, COUNT(hourglass), 1.2, fresh(), ROOM), .count = 3, .divides = 1);
    CHECK(lent[0] == 5 && fabs(lent[3] - 8.8) < 1e-9 && fabs(lent[5] - 8.8) < 1e-9 && lent[2] > 7 && lent[4] < 3 && lent[6] == MARK);
    GIVES(LwOffset, lw_inset(letter, COUNT(letter), 1.5, fresh(), ROOM), .refusal = 17, .value = 1.5, .divides = 1);
    CHECK(untouched());
    refused_offset(lw_inset(square, n, 2, fresh(), ROOM), 16, 0, 2, 0);
    refused_offset(lw_inset(square, n, 3, fresh(), ROOM), 16, 0, 3, 1);
    refused_offset(lw_inset(square, n, 1e12, fresh(), ROOM), 16, 0, 1e12, 1);
    bad_offset(lw_inset);
}

static void outset(void)
{
    static const double outer[] = {-1, 5, -1, -1, 5, -1, 5, 5}, wide[] = {-4, 14, -4, -4, 14, -4, 14, 14};
    static const double cup[] = {0, 0, 10, 0, 10, 10, 8, 10, 8, 2, 2, 2, 2, 10, 0, 10};
    GIVES(LwOffset, lw_outset(square, COUNT(square), 1, fresh(), 8), .count = 4);
    CHECK(wrote(outer, 8));
    GIVES(LwOffset, lw_outset(cup, COUNT(cup), 4, fresh(), ROOM), .count = 4, .collapses = 1);
    CHECK(wrote(wide, 8));
    refused_offset(lw_outset(cup, COUNT(cup), 3, fresh(), ROOM), 16, 0, 3, 0);
    refused_offset(lw_outset(square, COUNT(square), 1e12, fresh(), ROOM), 5, 0, -1e12, 0);
    bad_offset(lw_outset);
}

static int place(const double *outline, size_t count, double east, double north)
{
    LwPlace a = lw_contains(outline, count, east, north);
    return a.refusal == 0 ? (int)a.place : -1;
}

/* Each of these is told otherwise with rounded turns: docs/DIFFERENCES.md has the rows, and oracle/tests/rounded.rs both answers. */
static void exact_turns(void)
{
    static const struct {
        double ring[6], east, north;
        int place;
    } points[] = {
        {{0.1, 0.4, 0.2, 0.4, 0.3, 0.2}, 0.2, 0.3, LW_INSIDE},
        {{0, 0.4, 0.3, 0.1, 0.3, 0}, 0.2, 0.2, LW_OUTSIDE},
        {{0.1, 0.2, 0.1, 0.4, 0.4, 0.7}, 0.2, 0.5, LW_ON_BOUNDARY},
        {{0.1, 0.2, 0, 0.2, 0.7, 0.6}, 0.4, 0.4, LW_ON_BOUNDARY},
    };
    /* A corner that is right on an edge, and one that is right beside it. */
    static const double leaning[] = {-0.09, 0.02, -0.72, -0.12, -0.54, -0.93, 0.09, -0.79};
    static const double onto[] = {-0.45, -0.06, -0.48, -0.35, -0.3, -0.31};
    static const double slope[] = {0.7, 0.4, 0, 0.6, 0.6, 0}, under[] = {0.1, 0.5, 0.5, 0.1, 0.5, 0.4};
    LwOutline a = lw_check(beside, COUNT(beside));
    CHECK(a.refusal == 0 && a.count == 4);
    GIVES(LwMeeting, lw_meeting(leaning, COUNT(leaning), onto, COUNT(onto)), .meets = 1, .swapped = 1);
    GIVES(LwMeeting, lw_meeting(slope, COUNT(slope), under, COUNT(under)), .meets = 0);
    bad_outline(crossed, COUNT(crossed), 9, 0, 2, 0);
    bad_outline(touching, COUNT(touching), 9, 1, 3, 0);
    for (size_t k = 0; k < COUNT(points); k++) {
        CHECK(lw_outline(points[k].ring, 6, fresh(), ROOM).refusal == 0);
        CHECK(place(lent, 6, points[k].east, points[k].north) == points[k].place);
    }
}

/* A square with one number put in the place of another is refused. */
static void with_number(size_t k, double number)
{
    double given[8];
    int finite = isfinite(number) != 0;
    memcpy(given, square, sizeof given);
    given[k] = number;
    bad_outline(given, 8, finite ? 5 : 2, finite ? 0 : k, 0, finite ? number : 0);
    CHECK(lw_contains(given, 8, 2, 2).refusal == 21 && lw_contains(given, 8, NAN, 2).refusal == 21);
    CHECK(lw_nearest(given, 8, 2, 2).refusal == 21 && lw_area(given, 8).refusal == 21);
    CHECK(no_length(lw_perimeter(given, 8)) && no_length(lw_extent(given, 8)));
    CHECK(no_length(lw_clearance(given, 8, square, 8)) && no_length(lw_clearance(square, 8, given, 8)));
    GIVES(LwMeeting, lw_meeting(given, 8, square, 8), .refusal = 21);
    GIVES(LwMeeting, lw_meeting(square, 8, given, 8), .refusal = 21);
    CHECK(lw_vertex(given, 8, 0).refusal == 21 && lw_edge(given, 8, 0).refusal == 21);
    refused_offset(lw_inset(given, 8, 1, fresh(), ROOM), 21, 0, 0, 0);
    refused_offset(lw_outset(given, 8, 1, fresh(), ROOM), 21, 0, 0, 0);
}

/* Numbers that are not finite or too large are refused, 2, 5, 13 and 21, before anything is worked out with them; a point may
 * be any finite one. Rounded turns would pass all of this. */
static void any_number(void)
{
    static const double slope[] = {0, 0, 4, 4, 0, 4};
    const double *bad = bad_numbers;
    size_t n = COUNT(square);
    for (size_t k = 0; k < n; k++)
        with_number(k, bad[k % COUNT(bad_numbers)]);
    for (size_t b = 0; b < 3; b++) {
        LwPlace a = lw_contains(square, n, bad[b], bad[b]);
        CHECK(a.refusal == 2 && a.first == 0 && a.place == LW_OUTSIDE);
        a = lw_contains(square, n, 2, bad[b]);
        CHECK(a.refusal == 2 && a.first == 1 && a.place == LW_OUTSIDE);
    }
    for (size_t b = 3; b < COUNT(bad_numbers); b++)
        CHECK(place(square, n, bad[b], 2) == LW_OUTSIDE && place(square, n, 2, bad[b]) == LW_OUTSIDE &&
              place(slope, COUNT(slope), bad[b], bad[b]) == LW_OUTSIDE && place(slope, COUNT(slope), bad[b], 5e-324) == LW_OUTSIDE);
    CHECK(place(square, n, 5e-324, 2) == LW_INSIDE && place(square, n, -5e-324, 2) == LW_OUTSIDE);
    CHECK(place(square, n, 5e-324, 0) == LW_ON_BOUNDARY && place(square, n, 2, -5e-324) == LW_OUTSIDE);
    CHECK(place(slope, COUNT(slope), 5e-324, 5e-324) == LW_ON_BOUNDARY && place(slope, COUNT(slope), 1e-323, 5e-324) == LW_OUTSIDE);
}

void test_outlines(void)
{
    run("lw_hypot", hypotenuse);
    run("lw_check, lw_outline", check_and_outline);
    run("lw_contains", contains);
    run("lw_nearest", nearest);
    run("lw_area", area);
    run("lw_perimeter", perimeter);
    run("lw_extent", extent);
    run("lw_clearance", clearance);
    run("lw_meeting", meeting);
    run("lw_vertex", vertex);
    run("lw_edge", edge);
    run("lw_inset", inset);
    run("lw_outset", outset);
    run("exact turns", exact_turns);
    run("any number", any_number);
}
