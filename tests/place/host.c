/* The host's call from C, on cases as the generator writes them:
 *     case NAME LIMIT WORK POSITIONS FEATURES WARNINGS KINDS TIER ALLOWANCE LENGTH
 * and LENGTH bytes (tests/oracle/main.rs).
 *
 * host answer < CASES    answers as `oracle batch --bits` does, and stops where a slice holds anything but what
 *                        include/geopic.h says, what was not written included, or the kind table was changed
 * host sizes < CASES     for every accepted case: exactly enough room, and each slice one short, and 0 and 1
 * host filter < CASES    the cases with their tier's own allowance
 * host other < CASES     every case under the other tier: 0 becomes 1, any other number 0
 * host stack < CASES     the most stack that a call took, on a stack of its own filled before; stops where that is more
 *                        than include/geopic.h says
 *
 * Every slice and the kind table are allocated at their own length, so that a sanitizer sees a write or a read behind
 * them. */
#define _XOPEN_SOURCE 700 /* contexts */
#include "geopic.h"

#include <inttypes.h>
#include <math.h>
#include <stdio.h>
#include <stdlib.h>
#include <string.h>
#include <ucontext.h>

#define PATTERN 0xa5

typedef struct {
    char name[256];
    size_t limit, work, positions, features, warnings, kinds_length, length;
    uint32_t tier;
    char allowance[24];
    uint8_t *kinds, *bytes;
} Case;

static void stop(const Case *c, const char *why)
{
    fprintf(stderr, "host: %s: %s\n", c->name, why);
    exit(1);
}

static void *taken(size_t n)
{
    void *p = malloc(n ? n : 1);
    if (!p) {
        perror("host");
        exit(2);
    }
    memset(p, PATTERN, n ? n : 1);
    return p;
}

/* The kind table from two hexadecimal digits a byte, `-` for no bytes. */
static void read_kinds(Case *c, const char *digits)
{
    c->kinds_length = strcmp(digits, "-") ? strlen(digits) / 2 : 0;
    c->kinds = taken(c->kinds_length);
    for (size_t i = 0; i < c->kinds_length; i++) {
        if (sscanf(digits + 2 * i, "%2" SCNx8, &c->kinds[i]) != 1) {
            stop(c, "a kind table of other digits");
        }
    }
}

static void write_kinds(const Case *c)
{
    for (size_t i = 0; i < c->kinds_length; i++) {
        printf("%02" PRIx8, c->kinds[i]);
    }
    if (c->kinds_length == 0) {
        printf("-");
    }
}

static int next(Case *c)
{
    char kinds[1024];
    if (scanf("case %255s %zu %zu %zu %zu %zu %1023s %" SCNu32 " %23s %zu", c->name, &c->limit, &c->work,
              &c->positions, &c->features, &c->warnings, kinds, &c->tier, c->allowance, &c->length) != 10) {
        return 0;
    }
    if (getchar() != '\n') {
        stop(c, "no end of line");
    }
    read_kinds(c, kinds);
    c->bytes = taken(c->length);
    if (fread(c->bytes, 1, c->length, stdin) != c->length) {
        stop(c, "cut off");
    }
    return 1;
}

static void write_case(const Case *c)
{
    printf("case %s %zu %zu %zu %zu %zu ", c->name, c->limit, c->work, c->positions, c->features, c->warnings);
    write_kinds(c);
    printf(" %" PRIu32 " %s %zu\n", c->tier, c->allowance, c->length);
    fwrite(c->bytes, 1, c->length, stdout);
}

typedef struct {
    uint8_t *kinds;
    double *work, *positions;
    uint32_t *features, *warnings;
    geopic_answer answer;
} Call;

static Call lent(const Case *c)
{
    Call k = {.kinds = taken(c->kinds_length),
              .work = taken(16 * c->work),
              .positions = taken(16 * c->positions),
              .features = taken(24 * c->features),
              .warnings = taken(8 * c->warnings)};
    memcpy(k.kinds, c->kinds, c->kinds_length);
    return k;
}

static void place(const Case *c, Call *k)
{
    /* a table of no bytes begins where its memory ends */
    const uint8_t *kinds = k->kinds + (c->kinds_length == 0);
    k->answer = geopic_place(c->bytes, c->length, kinds, c->kinds_length, c->tier, k->work, 2 * c->work, k->positions,
                             2 * c->positions, k->features, 6 * c->features, k->warnings, 2 * c->warnings);
}

static Call call(const Case *c)
{
    Call k = lent(c);
    place(c, &k);
    return k;
}

static void release(Call *k)
{
    free(k->kinds);
    free(k->work);
    free(k->positions);
    free(k->features);
    free(k->warnings);
}

/* Whether all bytes from `from` to `to` are the same given one. */
static int all(const void *p, size_t from, size_t to, uint8_t byte)
{
    const uint8_t *b = p;
    for (size_t i = from; i < to; i++) {
        if (b[i] != byte) {
            return 0;
        }
    }
    return 1;
}

/* Whether something that lacks room refused, and not a condition that is checked before the slices are looked at. */
static int lacks_room(uint32_t number)
{
    return number == GEOPIC_WORK_ROOM || number == GEOPIC_POSITION_ROOM || number == GEOPIC_FEATURE_ROOM ||
           number == GEOPIC_WARNING_ROOM;
}

/* What each slice holds besides the used part. */
static void check(const Case *c, const Call *k)
{
    const geopic_answer *a = &k->answer;
    size_t p = 0, f = 0, w = 0;
    uint8_t work = 0, rest = 0;
    if (a->number == 0) {
        p = 16 * a->positions;
        f = 24 * a->features;
        w = 8 * a->warnings;
        rest = PATTERN;
    } else {
        if (a->method || a->controls || a->spent || a->positions || a->features || a->warnings || a->left) {
            stop(c, "a refusal with more than its number");
        }
        if (!lacks_room(a->number)) {
            work = rest = PATTERN;
        }
    }
    if (memcmp(k->kinds, c->kinds, c->kinds_length)) {
        stop(c, "kinds");
    }
    if (!all(k->work, 0, 16 * c->work, work)) {
        stop(c, "work");
    }
    if (!all(k->positions, p, 16 * c->positions, rest)) {
        stop(c, "positions");
    }
    if (!all(k->features, f, 24 * c->features, rest)) {
        stop(c, "features");
    }
    if (!all(k->warnings, w, 8 * c->warnings, rest)) {
        stop(c, "warnings");
    }
}

static uint64_t bits(double v)
{
    uint64_t b;
    memcpy(&b, &v, sizeof b);
    return b;
}

static void print(const Case *c, const Call *k)
{
    const geopic_answer *a = &k->answer;
    if (a->number != 0) {
        printf("E %" PRIu32 "\n", a->number);
        return;
    }
    printf("R %" PRIu32 " %" PRIu32 "\n", a->method, a->controls);
    size_t at = 0;
    for (size_t i = 0; i < a->features; i++) {
        const uint32_t *f = k->features + 6 * i;
        printf("F %" PRIu32 " %" PRIu32 " %" PRIu32 " %" PRIu32 " %" PRIu32 " %" PRIu32 "\n", f[0], f[1], f[2], f[3],
               f[4], f[5]);
        for (uint32_t n = 0; n < f[5]; n++, at++) {
            double lon = k->positions[2 * at], lat = k->positions[2 * at + 1];
            printf("P %lld %lld\nQ %016" PRIx64 " %016" PRIx64 "\n", llround(lon * 1e9), llround(lat * 1e9), bits(lon),
                   bits(lat));
        }
    }
    if (at != a->positions) {
        stop(c, "the lines' counts are not the positions used");
    }
    for (size_t i = 0; i < a->warnings; i++) {
        printf("W %" PRIu32 " %" PRIu32 "\n", k->warnings[2 * i], k->warnings[2 * i + 1]);
    }
    printf("B %zu %" PRIu32 "\n", a->left, a->spent);
}

static void answer(const Case *c)
{
    printf("> %s\n", c->name);
    if (c->limit != 0 && c->length > c->limit) {
        printf("E 0\n");
        return;
    }
    Call k = call(c);
    check(c, &k);
    print(c, &k);
    release(&k);
}

static geopic_answer ask(const Case *c)
{
    Call k = call(c);
    release(&k);
    return k.answer;
}

/* The least work with which a case is accepted. */
static size_t least_work(Case c)
{
    size_t low = 0, high = c.work;
    while (low < high) {
        c.work = low + (high - low) / 2;
        if (ask(&c).number == 0) {
            high = c.work;
        } else {
            low = c.work + 1;
        }
    }
    return low;
}

/* The case with one of its four sizes changed, under a name that says which. */
static void with(const Case *c, size_t *size, size_t value, const char *what)
{
    size_t kept = *size;
    Case named = *c;
    *size = value;
    named.work = c->work;
    named.positions = c->positions;
    named.features = c->features;
    named.warnings = c->warnings;
    snprintf(named.name, sizeof named.name, "%.200s-%s-%zu", c->name, what, value);
    write_case(&named);
    *size = kept;
}

static void sizes(Case *c)
{
    geopic_answer a = ask(c);
    if (a.number != 0) {
        return;
    }
    c->limit = 0;
    c->work = least_work(*c);
    c->positions = a.positions;
    c->features = a.features;
    c->warnings = a.warnings;
    size_t *each[] = {&c->work, &c->positions, &c->features, &c->warnings};
    const char *names[] = {"work", "positions", "features", "warnings"};
    for (int i = 0; i < 4; i++) {
        with(c, each[i], *each[i], names[i]);
        with(c, each[i], 0, names[i]);
        with(c, each[i], 1, names[i]);
        if (*each[i] > 0) {
            with(c, each[i], *each[i] - 1, names[i]);
        }
    }
}

/* The call on a stack of its own, whose bytes are a pattern before. */
static uint8_t stack[1 << 20];
static ucontext_t here, there;
static const Case *asked;
static Call *answered;

static void call_there(void)
{
    place(asked, answered);
}

static size_t stack_taken(const Case *c)
{
    Call k = lent(c);
    memset(stack, PATTERN, sizeof stack);
    getcontext(&there);
    there.uc_stack.ss_sp = stack;
    there.uc_stack.ss_size = sizeof stack;
    there.uc_link = &here;
    makecontext(&there, call_there, 0);
    asked = c;
    answered = &k;
    swapcontext(&here, &there);
    release(&k);
    size_t free_bytes = 0;
    while (free_bytes < sizeof stack && stack[free_bytes] == PATTERN) {
        free_bytes++;
    }
    return sizeof stack - free_bytes;
}

int main(int argc, char **argv)
{
    const char *mode = argc == 2 ? argv[1] : "";
    Case c;
    size_t most = 0, calls = 0;
    char deepest[256] = "";
    while (next(&c)) {
        if (!strcmp(mode, "answer")) {
            answer(&c);
        } else if (!strcmp(mode, "sizes")) {
            sizes(&c);
        } else if (!strcmp(mode, "filter")) {
            if (!strcmp(c.allowance, "-")) {
                write_case(&c);
            }
        } else if (!strcmp(mode, "other")) {
            c.tier = c.tier == GEOPIC_TIER_ENTRY ? GEOPIC_TIER_LARGER : GEOPIC_TIER_ENTRY;
            write_case(&c);
        } else if (!strcmp(mode, "stack")) {
            size_t n = stack_taken(&c);
            calls++;
            if (n > most) {
                most = n;
                memcpy(deepest, c.name, sizeof deepest);
            }
        } else {
            fprintf(stderr, "host answer|sizes|filter|other|stack < CASES\n");
            return 2;
        }
        free(c.kinds);
        free(c.bytes);
    }
    if (!strcmp(mode, "stack")) {
        printf("stack: %zu calls, at most %zu bytes of %d (%s)\n", calls, most, GEOPIC_STACK, deepest);
        return most > GEOPIC_STACK;
    }
    return 0;
}
