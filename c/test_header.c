/* What the header itself says: the version, the refusals and their words, the numbers of a region's rings. */
#include "test.h"

#include <stdint.h>
#include <string.h>

static void version(void)
{
    CHECK(lw_version() == LW_VERSION);
}

/* No refusal before this one, nor granted, has the same words. */
static int only(size_t refusal)
{
    for (size_t k = 0; k < refusal; k++)
        if (strcmp(lw_words(k), lw_words(refusal)) == 0)
            return 0;
    return 1;
}

/* Each refusal has one line of words of its own. */
static void words(void)
{
    static const size_t none[] = {LW_REFUSED_JOB + 1, LW_REFUSED_HAIRLINE - 1, LW_REFUSED_HAIRLINE + 1, SIZE_MAX};
    CHECK(LW_GRANTED == 0 && LW_REFUSED_ODD == 1 && LW_REFUSED_JOB == 22 && LW_REFUSED_HAIRLINE == 27);
    CHECK(strcmp(lw_words(LW_GRANTED), "granted") == 0);
    for (size_t k = LW_REFUSED_ODD; k <= LW_REFUSED_JOB; k++)
        CHECK(strlen(lw_words(k)) > 10 && strchr(lw_words(k), '\n') == NULL && only(k));
    CHECK(strcmp(lw_words(LW_REFUSED_HAIRLINE), "an edge is shorter than 0.000001") == 0);
    for (size_t k = 0; k < COUNT(none); k++)
        CHECK(strcmp(lw_words(none[k]), "refused") == 0);
}

static void numbers(void)
{
    static const size_t full[9] = {128, 32, 32, 32, 32, 32, 32, 32, 32};
    CHECK(lw_numbers(pane_rings, 2) == COUNT(pane));
    CHECK(lw_numbers(pane_rings, 1) == 8);
    CHECK(lw_numbers(pane_rings, 0) == 0);
    CHECK(lw_numbers(full, COUNT(full)) == LW_REGION_NUMBERS);
}

/* A place may be asked as a truth: outside, and beside a refusal, it is 0. */
static void places(void)
{
    CHECK(LW_OUTSIDE == 0 && LW_ON_BOUNDARY == 1 && LW_INSIDE == 2);
    CHECK(lw_contains(square, 8, 2, 2).place && lw_contains(square, 8, 4, 2).place);
    CHECK(!lw_contains(square, 8, 5, 2).place && !lw_contains(square, 7, 2, 2).place);
}

void test_header(void)
{
    run("lw_version", version);
    run("lw_words", words);
    run("lw_numbers", numbers);
    run("places as truths", places);
}
