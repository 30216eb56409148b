/* Edges that are too short for a drawing, 27: asked of numbers and job lines, and of no shape handed in. */
#include "test.h"

#include <inttypes.h>
#include <math.h>
#include <stdio.h>

/* Where the length ends that is too short: the double nearest to 0.000001, and the one before it. */
static const double least = 1e-6, below = 9.999999999999997e-7;

#define RINGS(...) ((const size_t[]){__VA_ARGS__})

/* The job line of an inset of these rings. */
static const char *job_of(double distance, const double *numbers, const size_t *lengths, size_t rings)
{
    static char line[LW_LINE_BYTES];
    uint64_t bits;
    memcpy(&bits, &distance, sizeof bits);
    char *at = line + sprintf(line, "inset,%016" PRIx64 ",%zu", bits, rings);
    for (size_t k = 0; k < rings; k++)
        at += sprintf(at, ",%zu", lengths[k]);
    for (size_t k = 0; k < lw_numbers(lengths, rings); k++) {
        memcpy(&bits, numbers + k, sizeof bits);
        at += sprintf(at, ",%016" PRIx64, bits);
    }
    return line;
}

/* Every door refuses these rings with this: a region, its inset, a job, and an outline where there is one ring. Of the output's
 * length nothing is asked. */
static void refused(const double *numbers, const size_t *lengths, size_t rings, LwRegion due)
{
    size_t count = lw_numbers(lengths, rings);
    char no[16];
    bad_region(numbers, count, lengths, rings, due);
    const LwRegion a = lw_region(numbers, count, lengths, rings, lent, 0);
    CHECK(memcmp(&a, &due, sizeof a) == 0);
    sprintf(no, "no,%zu", due.refusal);
    CHECK(says(answer(job_of(1, numbers, lengths, rings), LW_LINE_BYTES), no));
    CHECK(says(answer(job_of(NAN, numbers, lengths, rings), strlen(no)), no));
    if (rings == 1) {
        bad_outline(numbers, count, due.refusal, due.first, due.second, due.value);
        CHECK(lw_outline(numbers, count, lent, 0).refusal == due.refusal);
    }
}

/* A ring of so many numbers is refused with 27, or with what comes before it. */
#define HAIRLINE(ring) refused(ring, RINGS(COUNT(ring) / 2), 1, (LwRegion){.refusal = 27})
#define REFUSED(ring, ...) refused(ring, RINGS(COUNT(ring) / 2), 1, (LwRegion){__VA_ARGS__})

/* Every door passes this ring, which has so many vertices without its closing repeat. */
static void passes(const double *ring, size_t count, size_t vertices)
{
    char ok[16];
    size_t length = count / 2;
    GIVES(LwOutline, lw_check(ring, count), .count = vertices);
    GIVES(LwOutline, lw_outline(ring, count, fresh(), ROOM), .count = vertices);
    GIVES(LwRegion, lw_region(ring, count, &length, 1, fresh(), ROOM), .rings = 1, .counts = {vertices});
    GIVES(LwRegionOffset, lw_region_inset(ring, count, &length, 1, 0, fresh(), ROOM), .rings = 1, .counts = {vertices});
    sprintf(ok, "ok,1,%zu,", vertices);
    static char said[LW_LINE_BYTES + 1];
    LwLine a = lw_job_line((const uint8_t *)job_of(0, ring, &length, 1), strlen(job_of(0, ring, &length, 1)), (uint8_t *)said, LW_LINE_BYTES);
    CHECK(a.refusal == 0 && strncmp(said, ok, strlen(ok)) == 0);
}
#define PASSES(ring, vertices) passes(ring, COUNT(ring), vertices)

/* The least length, along an axis, aslant and by the closing edge; where doubles are farther apart; and the closing repeat. */
static void how_short(void)
{
    const double along[] = {0, 0, least, 0, 4, 4}, along_less[] = {0, 0, below, 0, 4, 4};
    const double up[] = {0, 0, 4, -4, 0, least}, up_less[] = {0, 0, 4, -4, 0, below};
    const double back[] = {0, 0, 4, 0, 4, 4, -least, 0}, back_less[] = {0, 0, 4, 0, 4, 4, -below, 0};
    static const double slant[] = {0, 0, 7.08e-7, 7.08e-7, 0, 4}, slant_less[] = {0, 0, 7e-7, 7e-7, 0, 4};
    const double far_off[] = {1e9, 0, nextafter(1e9, 0), 4, 0, 4};
    const double neighbours[] = {1e9, 0, 1e9, 1e9, nextafter(1e9, 0), 1e9, 0, 4}, west[] = {-1e9, 0, -1e9, 4, nextafter(-1e9, 0), 4, 0, 0};
    static const double closed[] = {0, 0, 4, 0, 4, 4, 0, 4, 0, 0}, closed_less[] = {0, 0, 4, 0, 4, 4, 0, 4, 5e-7, 0, 0, 0};
    static const double open_less[] = {0, 0, 4, 0, 4, 4, 0, 4, 5e-7, 0}, subnormal[] = {0, 0, 5e-324, 0, 4, 4};
    const double twice_closed[] = {0, 0, 4, 0, 4, 4, 0, 4, 0, 0, 0, 0};
    PASSES(along, 3);
    PASSES(up, 3);
    PASSES(back, 4);
    PASSES(slant, 3);
    PASSES(far_off, 3);
    PASSES(closed, 4);
    HAIRLINE(along_less);
    HAIRLINE(up_less);
    HAIRLINE(back_less);
    HAIRLINE(slant_less);
    HAIRLINE(neighbours);
    HAIRLINE(west);
    HAIRLINE(closed_less);
    HAIRLINE(open_less);
    HAIRLINE(subnormal);
    REFUSED(twice_closed, .refusal = 7);
}

/* Each edge of a ring with room for no more vertices is asked, whichever way it runs, and so is each of a full hole. */
static void each_edge(void)
{
    static double ring[256 + 64];
    size_t differ = 0;
    for (size_t way = 0; way < 2; way++)
        for (size_t k = 0; k < 128 + 32; k++) {
            for (size_t j = 0; j < 128 + 32; j++) {
                size_t n = j < 128 ? 128 : 32, at = (way ? n - j % 128 : j % 128) % n;
                double turn = 6.283185307179586 * (double)at / (double)n;
                ring[2 * j] = (j < 128 ? 100 : 10) * cos(turn), ring[2 * j + 1] = (j < 128 ? 100 : 10) * sin(turn);
            }
            size_t next = k < 128 ? (k + 1) % 128 : 128 + (k - 127) % 32;
            ring[2 * next] = ring[2 * k] + 6e-7, ring[2 * next + 1] = ring[2 * k + 1] - 6e-7;
            const LwRegion due = {.refusal = 27, .ring = k / 128};
            const LwRegion a = lw_region(ring, COUNT(ring), RINGS(128, 32), 2, fresh(), ROOM);
            differ += memcmp(&a, &due, sizeof a) != 0 || !untouched();
            differ += lw_check(ring, 256).refusal != (k < 128 ? 27 : 0);
        }
    CHECK(differ == 0);
}

/* What else is wrong with the ring: 1 to 7 anywhere come first, 27 anywhere before 8 and 9. */
static void order_in_a_ring(void)
{
    static const double hair[] = {0, 0, 4, 0, 4, 1e-7, 4, 4}, flat[] = {0, 0, 1e-7, 0, 2, 0}, bow[] = {0, 0, 4, 4, 4, 0, 0, 2, 0, 1e-7};
    static const double not_finite[] = {0, 0, 4, 0, 4, 1e-7, 4, NAN}, far_off[] = {0, 0, 4, 0, 4, 1e-7, 4, 2e9};
    static const double two[] = {0, 0, 0, 1e-7}, closed_two[] = {0, 0, 0, 1e-7, 0, 0};
    static const double then_twice[] = {0, 0, 4, 0, 4, 1e-7, 4, 4, 4, 4}, twice_then[] = {0, 0, 0, 0, 4, 0, 4, 4, 4, 4.0000001};
    static const double twice_at_end[] = {0, 0, 1e-7, 0, 4, 0, 4, 4, 0, 0, 0, 0};
    HAIRLINE(hair);
    HAIRLINE(flat);
    HAIRLINE(bow);
    bad_outline(hair, 7, 1, 0, 0, 0);
    bad_region(hair, 7, RINGS(3), 1, (LwRegion){.refusal = 1});
    REFUSED(not_finite, .refusal = 2, .first = 7);
    bad_region(hair, 8, RINGS(3), 1, (LwRegion){.refusal = 3});
    bad_region(hair, 8, RINGS(4), 0, (LwRegion){.refusal = 3});
    REFUSED(two, .refusal = 4, .first = 2);
    REFUSED(closed_two, .refusal = 4, .first = 2);
    REFUSED(far_off, .refusal = 5, .value = 2e9);
    REFUSED(then_twice, .refusal = 7);
    REFUSED(twice_then, .refusal = 7);
    REFUSED(twice_at_end, .refusal = 7);
    double full[258];
    memcpy(full, many, sizeof full);
    full[2] = 0, full[3] = 1 + 1e-7;
    REFUSED(full, .refusal = 6, .first = 129, .second = 128);
}

/* Ring by ring: all of one comes before anything of the next, and all rings before 10 to 12. */
static void order_of_rings(void)
{
    static const double plain[] = {0, 0, 100, 0, 100, 100, 0, 100}, hair[] = {0, 0, 100, 0, 100, 100, 0, 1e-7}, bow[] = {0, 0, 100, 100, 100, 0, 0, 50};
    static const double flat[] = {0, 0, 1, 0, 2, 0, 3, 0}, hair_hole[] = {10, 10, 20, 10, 20, 20, 10, 10.0000001};
    static const double good[] = {30, 30, 40, 30, 40, 40, 30, 40}, twice[] = {30, 30, 40, 30, 40, 30, 30, 40}, off[] = {30, 30, 3e9, 30, 40, 40, 30, 40};
    static const double outside[] = {210, 10, 220, 10, 220, 20, 210, 10.0000001}, crossed[] = {30, 30, 40, 40, 40, 30, 30, 35};
    static const struct {
        const double *rings[3];
        LwRegion due;
    } rows[] = {
        {{plain, hair_hole, good}, {.refusal = 27, .ring = 1}},
        {{plain, good, hair_hole}, {.refusal = 27, .ring = 2}},
        {{hair, hair_hole, good}, {.refusal = 27}},
        {{hair, twice, good}, {.refusal = 27}},
        {{hair, off, good}, {.refusal = 27}},
        {{hair, crossed, good}, {.refusal = 27}},
        {{plain, hair_hole, twice}, {.refusal = 27, .ring = 1}},
        {{plain, hair_hole, off}, {.refusal = 27, .ring = 1}},
        {{plain, twice, hair_hole}, {.refusal = 7, .ring = 1}},
        {{plain, off, hair_hole}, {.refusal = 5, .ring = 1, .value = 3e9}},
        {{plain, crossed, hair_hole}, {.refusal = 9, .ring = 1, .second = 2}},
        {{bow, hair_hole, good}, {.refusal = 9, .second = 2}},
        {{flat, hair_hole, good}, {.refusal = 8}},
        /* a hole outside, and holes that touch */
        {{plain, outside, good}, {.refusal = 27, .ring = 1}},
        {{plain, good, outside}, {.refusal = 27, .ring = 2}},
        {{plain, hair_hole, hair_hole}, {.refusal = 27, .ring = 1}},
    };
    double three[24];
    for (size_t k = 0; k < COUNT(rows); k++) {
        for (size_t r = 0; r < 3; r++)
            memcpy(three + 8 * r, rows[k].rings[r], 8 * sizeof *three);
        refused(three, RINGS(4, 4, 4), 3, rows[k].due);
    }
    /* The outer ring's 27 before a hole's 4; the hole's own 4 and 6 before its 27. */
    memcpy(three, hair, sizeof hair);
    memcpy(three + 8, hair_hole, sizeof hair_hole);
    refused(three, RINGS(4, 2), 2, (LwRegion){.refusal = 27});
    memcpy(three, plain, sizeof plain);
    three[11] = 10.0000001, three[10] = 10;
    refused(three, RINGS(4, 2), 2, (LwRegion){.refusal = 4, .ring = 1, .first = 2});
    /* Nine holes, a hair in the last: every ring comes before 10. */
    double ten[80];
    memcpy(ten, plain, sizeof plain);
    for (size_t r = 1; r < 10; r++) {
        double west = 10 * (double)r;
        const double hole[] = {west, 5, west + 4, 5, west + 4, 9, west, r < 9 ? 9 : 5.0000001};
        memcpy(ten + 8 * r, hole, sizeof hole);
    }
    refused(ten, RINGS(4, 4, 4, 4, 4, 4, 4, 4, 4, 4), 10, (LwRegion){.refusal = 27, .ring = 9});
}

/* ---- insets with a hairline, which are drawn from without one and inset again */

/* By this distance an edge is left of the corner that is cut off. */
#define HAIR 1.7071065

/* A square of side 4 with a corner cut off: its inset as an outline and as a region without holes. */
static const double house[] = {0, 0, 4, 0, 4, 4, 1, 4, 0, 3};

static void inset_outline(void)
{
    double cage[10], again[8], alone[10], twice[8];
    GIVES(LwOffset, lw_inset(house, COUNT(house), HAIR, cage, COUNT(cage)), .count = 5);
    double length = lw_hypot(cage[8] - cage[6], cage[9] - cage[7]);
    CHECK(length > 2.3e-7 && length < 2.4e-7);
    HAIRLINE(cage);
    GIVES(LwOffset, lw_inset(cage, 10, 0.1, again, COUNT(again)), .count = 4, .collapses = 1);
    for (size_t k = 0; k < 4; k++)
        CHECK(fabs(again[2 * k] - (k == 1 || k == 2 ? 2.1928935 : 1.8071065)) < 1e-6 && fabs(again[2 * k + 1] - (k > 1 ? 2.1928935 : 1.8071065)) < 1e-6);
    CHECK(lw_outset(cage, 10, 0.1, fresh(), ROOM).refusal == 0 && lw_inset(cage, 10, 0, fresh(), ROOM).refusal == 0 && wrote(cage, 10));
    /* The same as a region without holes. */
    GIVES(LwRegion, lw_without_holes(cage, 10, alone, 10), .rings = 1, .counts = {5});
    CHECK(memcmp(cage, alone, sizeof cage) == 0);
    GIVES(LwRegion, lw_given_region(cage, 10, RINGS(5), 1, fresh(), ROOM), .rings = 1, .counts = {5});
    GIVES(LwRegionOffset, lw_stored_region_inset(alone, 10, RINGS(5), 1, 0.1, twice, 8), .rings = 1, .counts = {4}, .collapses = 1);
    CHECK(memcmp(again, twice, sizeof again) == 0);
    GIVES(LwRegionOffset, lw_region_inset(house, 10, RINGS(5), 1, HAIR, fresh(), 10), .rings = 1, .counts = {5});
    CHECK(wrote(cage, 10));
}

/* A square of side 20 with a corner cut off, and in it a square hole; and one with a hole whose inner corner is cut off. */
static const double cut_outer[] = {0, 0, 20, 0, 20, 20, 1, 20, 0, 19, 9, 9, 11, 9, 11, 11, 9, 11};
static const double cut_hole[] = {0, 0, 20, 0, 20, 20, 0, 20, 5, 5, 15, 5, 15, 9, 10, 9, 9, 10, 9, 15, 5, 15};

/* The inset of a region has a hairline in this ring: numbers are refused, the region is inset again, without that edge. */
static void inset_region(const double *numbers, const size_t *lengths, size_t ring, size_t *less)
{
    double cage[LW_REGION_NUMBERS], again[LW_REGION_NUMBERS];
    LwRegionOffset a = lw_region_inset(numbers, lw_numbers(lengths, 2), lengths, 2, HAIR, cage, COUNT(cage));
    CHECK(a.refusal == 0 && a.rings == 2 && a.counts[0] == lengths[0] && a.counts[1] == lengths[1]);
    size_t count = lw_numbers(a.counts, 2);
    refused(cage, a.counts, 2, (LwRegion){.refusal = 27, .ring = ring});
    CHECK(lw_stored_region(cage, count, a.counts, 2).refusal == 0);
    GIVES(LwRegion, lw_given_region(cage, count, a.counts, 2, fresh(), ROOM), .rings = 2, .counts = {lengths[0], lengths[1]});
    GIVES(LwRegionOffset, lw_stored_region_inset(cage, count, a.counts, 2, 0.1, again, COUNT(again)), .rings = 2,
          .counts = {less[0], less[1]}, .collapses = 1);
    CHECK(lw_region_area(again, lw_numbers(less, 2), less, 2).area < lw_region_area(cage, count, a.counts, 2).area);
    GIVES(LwRegionOffset, lw_stored_region_inset(again, lw_numbers(less, 2), less, 2, 0, fresh(), ROOM), .rings = 2, .counts = {less[0], less[1]});
    CHECK(lw_region(again, lw_numbers(less, 2), less, 2, fresh(), ROOM).refusal == 0);
}

static void inset_regions(void)
{
    inset_region(cut_outer, RINGS(5, 4), 0, (size_t[]){4, 4});
    inset_region(cut_hole, RINGS(4, 7), 1, (size_t[]){4, 6});
}

/* No function that takes an outline or a region as it is asks 27. */
static void handed_in(void)
{
    static const double hair[] = {0, 0, 4, 0, 4, 4, 4, 4.0000001, 0, 4};
    static const size_t counts[] = {4, 5};
    double both[18] = {-9, -9, 9, -9, 9, 9, -9, 9};
    size_t n = COUNT(hair), all = COUNT(both);
    memcpy(both + 8, hair, sizeof hair);
    HAIRLINE(hair);
    refused(both, counts, 2, (LwRegion){.refusal = 27, .ring = 1});
    CHECK(lw_contains(hair, n, 2, 2).place == LW_INSIDE && lw_nearest(hair, n, 4, 9).refusal == 0);
    CHECK(lw_area(hair, n).refusal == 0 && lw_perimeter(hair, n).refusal == 0 && lw_extent(hair, n).length == 4.0000001);
    CHECK(lw_clearance(hair, n, square, 8).refusal == 0 && lw_clearance(square, 8, hair, n).refusal == 0);
    CHECK(lw_meeting(hair, n, square, 8).meets && lw_meeting(square, 8, hair, n).meets);
    CHECK(lw_vertex(hair, n, 3).north == 4.0000001 && lw_edge(hair, n, 2).end_north == 4.0000001);
    CHECK(lw_inset(hair, n, 1, fresh(), ROOM).refusal == 0 && lw_outset(hair, n, 1, fresh(), ROOM).refusal == 0);
    CHECK(lw_without_holes(hair, n, fresh(), ROOM).refusal == 0 && wrote(hair, n));
    CHECK(lw_stored_region(both, all, counts, 2).refusal == 0);
    CHECK(lw_given_region(both, all, counts, 2, fresh(), ROOM).refusal == 0 && wrote(both, all));
    CHECK(lw_stored_region_inset(both, all, counts, 2, 1, fresh(), ROOM).refusal == 0);
    CHECK(lw_region_contains(both, all, counts, 2, 2, 2).place == LW_OUTSIDE && lw_region_contains(both, all, counts, 2, 4, 4).place == LW_ON_BOUNDARY);
    CHECK(lw_region_nearest(both, all, counts, 2, 2, 3.5).refusal == 0 && lw_region_area(both, all, counts, 2).refusal == 0);
    CHECK(lw_region_perimeter(both, all, counts, 2).refusal == 0 && lw_region_outer(both, all, counts, 2, fresh(), ROOM).count == 4);
    CHECK(lw_region_hole(both, all, counts, 2, 0, fresh(), ROOM).count == 5 && wrote(hair, n));
}

/* A stream answers such a job like any other. */
static void streamed(void)
{
    static uint8_t state[LW_STREAM_BYTES], out[LW_STREAM_OUTPUT];
    static const double hair[] = {0, 0, 1e-7, 0, 4, 4};
    CHECK(lw_stream(state, sizeof state).refusal == 0);
    const char *job = job_of(1, hair, RINGS(3), 1);
    LwFed f = lw_feed((const uint8_t *)job, strlen(job), state, sizeof state, out, sizeof out);
    CHECK(f.refusal == 0 && f.taken == strlen(job) && f.written == 0);
    f = lw_feed((const uint8_t *)"\nx\n", 3, state, sizeof state, out, sizeof out);
    CHECK(f.refusal == 0 && f.taken == 3 && f.written == 12 && memcmp(out, "no,27\nno,22\n", 12) == 0);
    LwLine a = answer(job, 4);
    CHECK(a.refusal == 20 && a.count == 5);
}

void test_hairlines(void)
{
    run("the least length", how_short);
    run("each edge too short", each_edge);
    run("27 among 1 to 9", order_in_a_ring);
    run("27 among the rings", order_of_rings);
    run("an inset with a hairline", inset_outline);
    run("regions with a hairline", inset_regions);
    run("hairlines handed in", handed_in);
    run("a job with a hairline", streamed);
}
