/* place < STREAM: document 01's program. It prints R, F, P, W and B lines, or E and a refusal's number. */
#include "geopic.h"

#include <inttypes.h>
#include <math.h>
#include <stdio.h>

enum { BYTES = 32768, POINTS = 2048, POSITIONS = 2048, LINES = 512, WARNINGS = 512 };

static uint8_t stream[BYTES + 1];
static double work[2 * POINTS];
static double positions[2 * POSITIONS];
static uint32_t features[6 * LINES];
static uint32_t warnings[2 * WARNINGS];

/* The nearest whole number of 10^-9 degree. */
static long long whole(double degrees)
{
    return llround(degrees * 1e9);
}

/* What was printed has been written, or the program says why not. */
static int finish(void)
{
    if (ferror(stdout) || fclose(stdout) != 0) {
        perror("place: the lines could not be written");
        return 2;
    }
    return 0;
}

int main(void)
{
    size_t n = fread(stream, 1, sizeof stream, stdin);
    if (ferror(stdin)) {
        perror("place: the stream could not be read");
        return 2;
    }
    if (n > BYTES) {
        printf("E 0\n");
        return finish();
    }
    geopic_answer a = geopic_place(stream, n, GEOPIC_BUILT_IN_KINDS, GEOPIC_KINDS, GEOPIC_TIER_LARGER, work,
                                   2 * POINTS, positions, 2 * POSITIONS, features, 6 * LINES, warnings, 2 * WARNINGS);
    if (a.number != 0) {
        printf("E %" PRIu32 "\n", a.number);
        return finish();
    }
    printf("R %" PRIu32 " %" PRIu32 "\n", a.method, a.controls);
    const double *p = positions;
    for (size_t i = 0; i < a.features; i++) {
        const uint32_t *f = features + 6 * i;
        printf("F %" PRIu32 " %" PRIu32 " %" PRIu32 " %" PRIu32 " %" PRIu32 " %" PRIu32 "\n", f[0], f[1], f[2], f[3],
               f[4], f[5]);
        for (uint32_t k = 0; k < f[5]; k++, p += 2) {
            printf("P %lld %lld\n", whole(p[0]), whole(p[1]));
        }
    }
    for (size_t i = 0; i < a.warnings; i++) {
        printf("W %" PRIu32 " %" PRIu32 "\n", warnings[2 * i], warnings[2 * i + 1]);
    }
    printf("B %zu %" PRIu32 "\n", a.left, a.spent);
    return finish();
}
