/* What the tests of the C interface share: checks that are counted, lent memory, and shapes. */
#ifndef LIZARDWIRE_TEST_H
#define LIZARDWIRE_TEST_H

#include <lizardwire.h>

#include <string.h>

/* Counts a check, and prints one that does not hold. */
void holds(int truth, const char *said, const char *file, int line);
#define CHECK(truth) holds((truth) != 0, #truth, __FILE__, __LINE__)
#define COUNT(list) (sizeof(list) / sizeof((list)[0]))

/* Calls a function, and compares the answer bit by bit: a field that is not named is 0. No answer has padding. */
#define GIVES(type, call, ...)                                                        \
    do {                                                                              \
        const type got = (call), due = {__VA_ARGS__};                                 \
        holds(memcmp(&got, &due, sizeof got) == 0, #call, __FILE__, __LINE__);        \
    } while (0)

/* Runs the checks of one function, and prints how many they are. */
void run(const char *name, void (*test)(void));

/* Lent memory with numbers that no answer has. */
#define MARK -77.25
#define ROOM 800
extern double lent[ROOM];
double *fresh(void);
/* The lent memory begins with these numbers and is as it was from there on. */
int wrote(const double *numbers, size_t count);
int untouched(void);

extern const double square[8];
/* A square of side 10 with a hole in its middle. */
extern const double pane[16];
extern const size_t pane_rings[2];
/* A ring of 129 vertices: a comb with its back. */
extern double many[258];
/* A number that every shape is refused with: not finite, or far beyond 1e9. */
extern const double bad_numbers[7];

/* lw_check and lw_outline refuse these numbers alike, and nothing is written. */
void bad_outline(const double *numbers, size_t count, size_t refusal, size_t first, size_t second, double value);
/* lw_region and lw_region_inset, whatever the distance, refuse them alike, and nothing is written. */
void bad_region(const double *numbers, size_t count, const size_t *lengths, size_t rings, LwRegion due);
/* The answer to a job line, in so much room; it is these bytes, and nothing is written behind them. */
LwLine answer(const char *line, size_t room);
int says(LwLine a, const char *line);

/* The tests, by what is asked about. */
void test_header(void);
void test_outlines(void);
void test_regions(void);
void test_stream(void);
void test_hairlines(void);

#endif
