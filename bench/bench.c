/*
 * Times each call of the library and the same call written by hand in C, on the same records, and
 * prints a table. First both are run once on every record: where they do not accept it with the
 * same answer and the same bytes, there is nothing to compare, and the program ends with 1.
 *
 * A time is that of a shape: the call is made on its records in turn and on each equally often, in
 * whole passes through them.
 */
#include <inttypes.h>
#include <stdio.h>
#include <stdlib.h>
#include <string.h>
#include <time.h>

#include "calls.h"

enum { ROUNDS = 40, FILL = 0xA5 };
static const double MEASURED_SECONDS = 0.025;

static uint8_t library_out[ROOM], plain_out[ROOM];
static volatile size_t kept; /* so that no call can be left out */

/* ---- the same answer ---- */

static void stop(const row *r, const shape *of, int number, const char *why)
{
    fprintf(stderr, "bench: %s of %s, record %d: %s\n", r->name, of->name, number, why);
    exit(1);
}

static void compare(const row *r, const shape *of, int number)
{
    const sample *const on = &of->samples[number];
    fsk_answer library, plain;
    memset(library_out, FILL, ROOM);
    memset(plain_out, FILL, ROOM);
    library = r->library(on, library_out, ROOM);
    plain = r->plain(on, plain_out, ROOM);
    if (library.number != plain.number || library.place != plain.place
        || library.length != plain.length) {
        fprintf(stderr,
                "bench: library: number %" PRIu32 " place %" PRIu32 " length %zu; "
                "plain: number %" PRIu32 " place %" PRIu32 " length %zu\n",
                library.number, library.place, library.length,
                plain.number, plain.place, plain.length);
        stop(r, of, number, "the answers differ");
    }
    if (memcmp(library_out, plain_out, ROOM) != 0)
        stop(r, of, number, "the bytes written differ");
    if (library.number != 0)
        stop(r, of, number, "it is refused");
}

/* ---- the time ---- */

/* A pass makes the call once on each record of a shape. */
static double seconds(call made, const shape *of, uint8_t *out, uint64_t passes)
{
    const clock_t start = clock();
    for (uint64_t pass = 0; pass < passes; pass++)
        for (int number = 0; number < ALIKE; number++)
            kept += made(&of->samples[number], out, ROOM).length;
    return (double)(clock() - start) / CLOCKS_PER_SEC;
}

/* How many passes one measurement has. */
static uint64_t passes_needed(call made, const shape *of, uint8_t *out)
{
    uint64_t passes = 1;
    double took;
    while ((took = seconds(made, of, out, passes)) < MEASURED_SECONDS / 10)
        passes *= 2;
    return (uint64_t)((double)passes * MEASURED_SECONDS / took) + 1;
}

static double mean_length(const shape *of)
{
    size_t sum = 0;
    for (int number = 0; number < ALIKE; number++)
        sum += of->samples[number].length;
    return (double)sum / ALIKE;
}

static double least(double a, double b)
{
    return a < b ? a : b;
}

/* The rounds of both sides take turns, so that a busy machine is no one's advantage. */
static void measure(const row *r, const shape *of)
{
    const uint64_t library_passes = passes_needed(r->library, of, library_out);
    const uint64_t plain_passes = passes_needed(r->plain, of, plain_out);
    const double bytes = mean_length(of);
    double library = 1e9, plain = 1e9; /* seconds, more than any round takes */
    for (int round = 0; round < ROUNDS; round++) {
        library = least(library, seconds(r->library, of, library_out, library_passes));
        plain = least(plain, seconds(r->plain, of, plain_out, plain_passes));
    }
    library *= 1e9 / (double)(library_passes * ALIKE);
    plain *= 1e9 / (double)(plain_passes * ALIKE);
    printf("%-11s %-12s %6.0f %12.1f %10.3f %12.1f %10.3f %8.2f\n", r->name, of->name, bytes,
           library, library / bytes, plain, plain / bytes, library / plain);
    fflush(stdout);
}

int main(void)
{
    shape shapes[SHAPES];
    make_shapes(shapes);
    for (const row *r = rows; r->name != NULL; r++)
        for (const shape *of = shapes; of < shapes + SHAPES; of++)
            for (int number = 0; number < ALIKE && applies(r, of); number++)
                compare(r, of, number);
    printf("%-11s %-12s %6s %12s %10s %12s %10s %8s\n", "", "", "", "library", "library", "plain",
           "plain", "library");
    printf("%-11s %-12s %6s %12s %10s %12s %10s %8s\n", "call", "shape", "bytes", "ns/call",
           "ns/byte", "ns/call", "ns/byte", "/ plain");
    for (const row *r = rows; r->name != NULL; r++)
        for (const shape *of = shapes; of < shapes + SHAPES; of++)
            if (!r->untimed && applies(r, of))
                measure(r, of);
    return 0;
}
