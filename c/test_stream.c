/* The functions about job lines: one line, and a stream of them. */
#include "test.h"

#include <stdio.h>
#include <stdlib.h>
#include <string.h>

static uint8_t bytes[LW_LINE_BYTES];

/* Each of these bytes is this one: the first is, and each is as the one before it. */
static int all(const uint8_t *list, size_t from, size_t to, int byte)
{
    return from >= to || (list[from] == byte && memcmp(list + from, list + from + 1, to - from - 1) == 0);
}

LwLine answer(const char *line, size_t room)
{
    memset(bytes, '#', sizeof bytes);
    return lw_job_line((const uint8_t *)line, strlen(line), bytes, room);
}

int says(LwLine a, const char *line)
{
    size_t n = strlen(line);
    return a.refusal == 0 && a.count == n && memcmp(bytes, line, n) == 0 && all(bytes, n, sizeof bytes, '#');
}

static void job_line(void)
{
    static const char job[] = "inset,3ff0000000000000,1,4,0000000000000000,0000000000000000,4010000000000000,0000000000000000,"
                              "4010000000000000,4010000000000000,0000000000000000,4010000000000000";
    static const char ok[] = "ok,1,4,3ff0000000000000,3ff0000000000000,4008000000000000,3ff0000000000000,"
                             "4008000000000000,4008000000000000,3ff0000000000000,4008000000000000";
    CHECK(says(answer(job, sizeof bytes), ok));
    CHECK(says(answer(job, strlen(ok)), ok));
    CHECK(says(answer("", sizeof bytes), "no,22"));
    CHECK(says(answer("inset,3ff0000000000000,0", 4), "no,3"));
    LwLine a = answer(job, strlen(ok) - 1);
    CHECK(a.refusal == 20 && a.count == strlen(ok) && all(bytes, 0, sizeof bytes, '#'));
}

/* ---- the stream */

#define PAST 8
static uint8_t state[LW_STREAM_BYTES + PAST];
static uint8_t out[LW_STREAM_OUTPUT];

/* A state in memory of one byte again and again, and output of another. */
static LwLine made(int byte)
{
    memset(state, byte, sizeof state);
    memset(out, '#', sizeof out);
    return lw_stream(state, LW_STREAM_BYTES);
}

static LwFed feed(const char *block, size_t room)
{
    return lw_feed((const uint8_t *)block, strlen(block), state, LW_STREAM_BYTES, out, room);
}

static LwFed finish(size_t room) { return lw_finish(state, LW_STREAM_BYTES, out, room); }

static int is(LwFed f, size_t refusal, size_t first, size_t taken, size_t written)
{
    return f.refusal == refusal && f.first == first && f.taken == taken && f.written == written;
}

static size_t held_by(const uint8_t *memory) { return memory[0] + (size_t)256 * memory[1]; }
static size_t held(void) { return held_by(state); }

/* Bytes that are collected. */
typedef struct Text {
    uint8_t *bytes;
    size_t count, room;
} Text;

static void add(Text *text, const uint8_t *more, size_t count)
{
    if (text->count + count > text->room) {
        text->room = 2 * (text->count + count);
        text->bytes = realloc(text->bytes, text->room);
        if (text->bytes == NULL)
            abort();
    }
    if (count > 0)
        memcpy(text->bytes + text->count, more, count);
    text->count += count;
}

static Text sample(void)
{
    Text text = {NULL, 0, 0};
    FILE *file = fopen("docs/sample.jobs", "rb");
    CHECK(file != NULL);
    if (file == NULL)
        return text;
    uint8_t read[4096];
    for (size_t n; (n = fread(read, 1, sizeof read, file)) > 0;)
        add(&text, read, n);
    fclose(file);
    return text;
}

/* The answer of each line by lw_job_line, with its LF. */
static Text line_by_line(Text input)
{
    Text text = {NULL, 0, 0};
    for (size_t at = 0, end; at < input.count; at = end + 1) {
        for (end = at; end < input.count && input.bytes[end] != '\n'; end++) {
        }
        LwLine a = lw_job_line(input.bytes + at, end - at, bytes, sizeof bytes);
        add(&text, bytes, a.count);
        add(&text, (const uint8_t *)"\n", 1);
    }
    return text;
}

/* The state as these bytes leave it: a line goes into it unless all of it, with its LF, is in the block. */
static void put(uint8_t *kept, const uint8_t *block, size_t taken)
{
    size_t at = held_by(kept);
    for (size_t k = 0; k < taken; k++) {
        const uint8_t *end = at == 0 ? memchr(block + k, '\n', taken - k) : NULL;
        if (end != NULL)
            k = (size_t)(end - block);
        else if (block[k] == '\n')
            at = 0;
        else if (at < LW_STREAM_BYTES - 2)
            kept[2 + at++] = block[k];
    }
    kept[0] = (uint8_t)(at % 256);
    kept[1] = (uint8_t)(at / 256);
}

/* A call of lw_feed that changes the bytes it writes, what the state holds, and nothing else. */
static LwFed fed(const uint8_t *block, size_t count, size_t room, int *fine)
{
    static uint8_t due[sizeof state];
    memcpy(due, state, sizeof state);
    memset(out, '#', sizeof out);
    LwFed f = lw_feed(block, count, state, LW_STREAM_BYTES, out, room);
    if (f.taken > count)
        return f;
    put(due, block, f.taken);
    *fine = *fine && memcmp(state, due, sizeof state) == 0 && all(out, f.written, sizeof out, '#');
    return f;
}

/* The end of the stream, likewise. */
static LwFed finished(int *fine)
{
    static uint8_t before[sizeof state];
    memcpy(before, state, sizeof state);
    memset(out, '#', sizeof out);
    LwFed f = finish(LW_STREAM_OUTPUT);
    *fine = *fine && f.refusal == 0 && held() == 0;
    *fine = *fine && memcmp(state + 2, before + 2, sizeof state - 2) == 0 && all(out, f.written, sizeof out, '#');
    return f;
}

/* One block, in calls with `room` bytes of output, or as many as a refusal asks for. Does each keep its word? */
static int block_fed(Text *text, const uint8_t *block, size_t count, size_t room)
{
    size_t taken = 0, lent_bytes = room;
    int fine = 1;
    do {
        LwFed f = fed(block + taken, count - taken, lent_bytes, &fine);
        if (!fine || f.taken > count - taken || f.written > lent_bytes)
            return 0;
        if (f.refusal == 20 ? f.written != 0 || f.first <= lent_bytes || f.first > LW_STREAM_OUTPUT
                            : f.refusal != 0 || (f.taken < count - taken && f.written == 0))
            return 0;
        add(text, out, f.written);
        taken += f.taken;
        lent_bytes = f.refusal == 20 ? f.first : room;
        if (f.refusal == 20 && taken == count)
            return 0;
    } while (taken < count);
    return 1;
}

static int streamed(Text input, Text answers, size_t block, size_t room)
{
    Text text = {NULL, 0, 0};
    int fine = made(0xff).refusal == 0;
    for (size_t at = 0; fine && at < input.count; at += block) {
        size_t left = input.count - at;
        fine = block_fed(&text, input.bytes + at, left < block ? left : block, room);
    }
    LwFed last = finished(&fine);
    add(&text, out, last.written);
    fine = fine && text.count == answers.count &&
           memcmp(text.bytes, answers.bytes, answers.count) == 0;
    free(text.bytes);
    return fine;
}

/* However the sample is cut, and however short the output. */
static void any_blocks(void)
{
    Text input = sample();
    if (input.count == 0)
        return;
    const size_t blocks[] = {1, 7, 4096, input.count};
    const size_t rooms[] = {LW_STREAM_OUTPUT, 1000, 6, 0};
    for (int last_feed = 1; last_feed >= 0; last_feed--) {
        Text whole = line_by_line(input);
        for (size_t b = 0; b < COUNT(blocks); b++)
            for (size_t r = 0; r < COUNT(rooms); r++)
                CHECK(streamed(input, whole, blocks[b], rooms[r]));
        free(whole.bytes);
        /* and again without the last LF */
        input.count--;
    }
    free(input.bytes);
}

static void state_made(void)
{
    LwLine a = made('s');
    CHECK(a.refusal == 0 && a.count == LW_STREAM_BYTES);
    CHECK(held() == 0 && all(state, 2, sizeof state, 's'));
    memset(state, 's', sizeof state);
    a = lw_stream(state, LW_STREAM_BYTES - 1);
    CHECK(a.refusal == 20 && a.count == LW_STREAM_BYTES && all(state, 0, sizeof state, 's'));
    a = lw_stream(state, 0);
    CHECK(a.refusal == 20 && a.count == LW_STREAM_BYTES && all(state, 0, sizeof state, 's'));
    a = lw_stream(state, sizeof state);
    CHECK(a.refusal == 0 && a.count == LW_STREAM_BYTES && held() == 0 && all(state, 2, sizeof state, 's'));
}

/* Too few bytes are 20; a count past the room is 21. Nothing is touched. */
static void bad_states(void)
{
    const uint8_t line[] = {'\n'};
    made('s');
    const size_t sizes[] = {0, 1, 2, LW_STREAM_BYTES - 1};
    for (size_t k = 0; k < COUNT(sizes); k++) {
        CHECK(is(lw_feed(line, 1, state, sizes[k], out, sizeof out), 20, LW_STREAM_BYTES, 0, 0));
        CHECK(is(lw_finish(state, sizes[k], out, sizeof out), 20, LW_STREAM_BYTES, 0, 0));
    }
    CHECK(held() == 0 && all(state, 2, sizeof state, 's') && all(out, 0, sizeof out, '#'));
    memset(state, 0xff, sizeof state);
    CHECK(is(feed("\n", sizeof out), 21, 0, 0, 0) && is(finish(sizeof out), 21, 0, 0, 0));
    CHECK(all(state, 0, sizeof state, 0xff) && all(out, 0, sizeof out, '#'));
    /* 16,386 is one too many, 16,385 the most */
    made('s');
    state[0] = 2, state[1] = 64;
    CHECK(is(feed("\n", sizeof out), 21, 0, 0, 0) && is(finish(sizeof out), 21, 0, 0, 0));
    CHECK(state[0] == 2 && state[1] == 64 && all(state, 2, sizeof state, 's') && all(out, 0, sizeof out, '#'));
    state[0] = 1;
    CHECK(is(finish(sizeof out), 0, 0, 0, 6) && memcmp(out, "no,22\n#", 7) == 0 && held() == 0);
}

/* What lies behind the state is the caller's. */
static void long_state(void)
{
    made('s');
    memset(state + LW_STREAM_BYTES, 'p', PAST);
    Text input = {NULL, 0, 0};
    for (size_t k = 0; k < 20000; k++)
        add(&input, (const uint8_t *)"x", 1);
    LwFed f = lw_feed(input.bytes, input.count, state, sizeof state, out, 0);
    CHECK(is(f, 0, 0, 20000, 0) && held() == 16385);
    CHECK(all(state, 2, LW_STREAM_BYTES, 'x') && all(state, LW_STREAM_BYTES, sizeof state, 'p'));
    f = lw_finish(state, sizeof state, out, sizeof out);
    CHECK(is(f, 0, 0, 0, 6) && held() == 0 && all(state, LW_STREAM_BYTES, sizeof state, 'p'));
    free(input.bytes);
}

/* Output that is too short: nothing is written, and the caller goes on. */
static void short_output(void)
{
    made(0);
    CHECK(is(feed("", 0), 0, 0, 0, 0) && is(feed("ab", 0), 0, 0, 2, 0) && held() == 2);
    CHECK(is(feed("c\nd", 5), 20, 6, 1, 0) && held() == 3 && memcmp(state + 2, "abc", 3) == 0);
    CHECK(all(out, 0, sizeof out, '#'));
    CHECK(is(feed("\nd", 6), 0, 0, 2, 6) && memcmp(out, "no,22\n#", 7) == 0 && held() == 1);
    /* one of two answers fits: granted, and the second line is not taken */
    made(0);
    CHECK(is(feed("\n\n", 11), 0, 0, 1, 6) && memcmp(out, "no,22\n#", 7) == 0 && held() == 0);
    CHECK(is(feed("\n", 0), 20, 6, 0, 0) && held() == 0);
    CHECK(is(feed("\n", 6), 0, 0, 1, 6));
}

static void ends(void)
{
    made(0);
    CHECK(is(finish(0), 0, 0, 0, 0));
    CHECK(is(feed("abc", 0), 0, 0, 3, 0));
    CHECK(is(finish(5), 20, 6, 0, 0) && held() == 3 && all(out, 0, sizeof out, '#'));
    CHECK(memcmp(state + 2, "abc", 3) == 0 && all(state, 5, sizeof state, 0));
    CHECK(is(finish(6), 0, 0, 0, 6) && held() == 0 && memcmp(out, "no,22\n#", 7) == 0);
    CHECK(is(finish(6), 0, 0, 0, 0));
    /* and the state takes the next stream */
    CHECK(is(feed("\n", sizeof out), 0, 0, 1, 6));
}

/* Lines at the limit and past it, with LF and without, whole and in parts. */
static void long_lines(void)
{
    static const char head[] = "inset,3ff0000000000000,1,481";
    const size_t lengths[] = {LW_LINE_BYTES - 2, LW_LINE_BYTES, LW_LINE_BYTES + 1, 20000};
    for (size_t k = 0; k < COUNT(lengths); k++) {
        Text input = {NULL, 0, 0};
        add(&input, (const uint8_t *)head, strlen(head));
        while (input.count < lengths[k])
            add(&input, (const uint8_t *)",0000000000000000", lengths[k] - input.count < 17 ? lengths[k] - input.count : 17);
        add(&input, (const uint8_t *)"\n\n", 2);
        Text answers = line_by_line(input);
        CHECK(memcmp(answers.bytes, k == 0 ? "no,6\nno,22\n" : "no,22\nno,22\n", answers.count) == 0);
        for (size_t left = 0; left < 3; left++) {
            Text part = {input.bytes, input.count - left, 0};
            Text expected = line_by_line(part);
            CHECK(streamed(part, expected, 1000, LW_STREAM_OUTPUT) && streamed(part, expected, part.count, 0));
            free(expected.bytes);
        }
        free(answers.bytes);
        free(input.bytes);
    }
}

void test_stream(void)
{
    run("lw_job_line", job_line);
    run("lw_stream", state_made);
    run("a state that is none", bad_states);
    run("a state with more bytes", long_state);
    run("lw_feed", short_output);
    run("lw_finish", ends);
    run("lines of any length", long_lines);
    run("a stream in any blocks", any_blocks);
}
