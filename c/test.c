/* Calls every function of include/lizardwire.h with good input, bad input and output that is too short.
 * Prints one line a function and ends with status 0, or prints what failed. */
#include "test.h"

#include <float.h>
#include <math.h>
#include <stdio.h>

static int checks, failures;

void holds(int truth, const char *said, const char *file, int line)
{
    checks++;
    if (!truth) {
        failures++;
        printf("%s:%d: %s\n", file, line, said);
    }
}

void run(const char *name, void (*test)(void))
{
    int before = checks, failed = failures;
    test();
    printf("%-24s %4d checks%s\n", name, checks - before, failures > failed ? ", FAILED" : "");
}

double lent[ROOM];

double *fresh(void)
{
    for (size_t k = 0; k < ROOM; k++)
        lent[k] = MARK;
    return lent;
}

int wrote(const double *numbers, size_t count)
{
    for (size_t k = 0; k < ROOM; k++)
        if (lent[k] != (k < count ? numbers[k] : MARK))
            return 0;
    return 1;
}

int untouched(void) { return wrote(lent, 0); }

const double square[8] = {0, 0, 4, 0, 4, 4, 0, 4};
const double pane[16] = {0, 0, 10, 0, 10, 10, 0, 10, 4, 4, 6, 4, 6, 6, 4, 6};
const size_t pane_rings[2] = {4, 4};
const double bad_numbers[7] = {NAN, INFINITY, -INFINITY, 1e308, -1e308, DBL_MAX, -DBL_MAX};
double many[258];

static void fill_many(void)
{
    for (size_t k = 0; k < 127; k++) {
        many[2 * k] = (double)k;
        many[2 * k + 1] = k % 2 ? 2 : 1;
    }
    many[254] = 126, many[255] = 9;
    many[256] = 0, many[257] = 9;
}

int main(void)
{
    fill_many();
    test_header();
    test_outlines();
    test_regions();
    test_stream();
    test_hairlines();
    if (failures)
        printf("%d of %d checks failed\n", failures, checks);
    return failures != 0;
}
