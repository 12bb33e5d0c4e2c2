/* Calls start and run on tables of any length and any content, each in an allocation of its exact size, so
 * that valgrind sees a read or a write beyond. It also holds every answer to what the header says of it.
 *
 *   garbage [ROUNDS [SEED]]      tools/garbage builds it and runs it under valgrind */
#include "../fesolopi.h"

#include <stdio.h>
#include <stdlib.h>
#include <string.h>

enum { INPUTS, LISTS, GRAINS, QUEUE, EVENTS, ORDER, TABLES };

/* A table, what it was before a call, and the bytes of an element. */
static struct {
    unsigned char *at, *before;
    uint64_t length, size;
} t[TABLES] = {{0, 0, 0, 8}, {0, 0, 0, 8}, {0, 0, 0, 8}, {0, 0, 0, 8}, {0, 0, 0, 8}, {0, 0, 0, 1}};

static uint64_t seed, calls, answers[FESOLOPI_SPENT + 1];

static uint64_t draw(void) {
    uint64_t z = seed += 0x9E3779B97F4A7C15;
    z = (z ^ (z >> 30)) * 0xBF58476D1CE4E5B9;
    z = (z ^ (z >> 27)) * 0x94D049BB133111EB;
    return z ^ (z >> 31);
}

static uint64_t below(uint64_t n) { return draw() % n; }

static void must(bool holds, const char *what) {
    if (holds)
        return;
    printf("WRONG after %llu calls: %s\n", (unsigned long long)calls, what);
    exit(1);
}

static void *memory(size_t bytes) {
    void *at = malloc(bytes ? bytes : 1);
    if (!at)
        exit(2);
    return at;
}

/* ---- numbers of every kind */

static uint64_t number(void) {
    static const uint64_t ends[] = {0,
                                    1,
                                    2,
                                    5,
                                    8,
                                    9,
                                    16,
                                    17,
                                    32,
                                    33,
                                    255,
                                    256,
                                    257,
                                    1ull << 32,
                                    1ull << 62,
                                    1ull << 63,
                                    UINT64_MAX / 9,
                                    UINT64_MAX - 9,
                                    UINT64_MAX};
    return below(4) ? ends[below(sizeof ends / sizeof *ends)] : draw();
}

static double real(void) {
    static const uint64_t ends[] = {
        0x0000000000000000, 0x8000000000000000, 0x0000000000000001, 0x3FF0000000000000,
        0x4012000000000000, 0x4022000000000000, 0x4048000000000000, 0x4090000000000000,
        0x7FEFFFFFFFFFFFFF, 0x7FF0000000000000, 0xFFF0000000000000, 0x7FF8000000000000,
        0xFFFFFFFFFFFFFFFF, 0x7FF0000000000001, 0x3EB0000000000000, 0x4130000000000000,
        0x3FD0000000000000, 0x3FE0000000000000};
    uint64_t bits = below(4) ? ends[below(sizeof ends / sizeof *ends)] : draw();
    double x;
    memcpy(&x, &bits, 8);
    return x;
}

static double between(double low, double high) {
    return low + (high - low) * (double)(draw() >> 11) / 9007199254740992.0;
}

/* Any content for one place of a table. */
static void put(int which, uint64_t place) {
    unsigned char *at = t[which].at + place * t[which].size;
    if (which == ORDER) {
        *at = (unsigned char)(below(2) ? draw() : below(10));
    } else if (which == LISTS || which == QUEUE) {
        uint64_t n = number();
        memcpy(at, &n, 8);
    } else {
        double x = real();
        memcpy(at, &x, 8);
    }
}

/* A table of this length, in an allocation of its size, with any content. */
static void make(int which, uint64_t length) {
    free(t[which].at);
    free(t[which].before);
    t[which].length = length;
    t[which].at = malloc(length * t[which].size);
    t[which].before = memory(length * t[which].size);
    if (!t[which].at && length)
        exit(2);
    for (uint64_t place = 0; place < length; place++)
        put(which, place);
}

/* ---- the calls, held to the header */

static void keep(void) {
    for (int n = 0; n < TABLES; n++)
        memcpy(t[n].before, t[n].at, t[n].length * t[n].size);
}

static bool kept(void) {
    bool same = true;
    for (int n = 0; n < TABLES; n++)
        same = same && !memcmp(t[n].before, t[n].at, t[n].length * t[n].size);
    return same;
}

#define PART(of, which) (of *)t[which].at, t[which].length

static uint64_t start(double l0, double l1, uint64_t count, uint64_t room) {
    uint64_t grain = 77, flags = below(4);
    keep();
    uint64_t answer = fesolopi_start(l0, l1, flags & 1, flags & 2, count, room, PART(const double, INPUTS),
                                     PART(uint64_t, LISTS), PART(double, GRAINS), PART(uint64_t, QUEUE),
                                     PART(double, EVENTS), PART(uint8_t, ORDER), &grain);
    calls++;
    must(answer <= 9 && answer != 3, "a start's answer");
    answers[answer]++;
    must((answer == 4) ? grain < count : grain == 0, "the grain that is named");
    if (answer == 1 || answer == 2 || answer == 4)
        must(kept(), "a refused start changes nothing");
    return answer;
}

static uint64_t run(double rate, uint32_t budget) {
    double clock = 77;
    uint64_t done = 77, mark = 0;
    if (t[LISTS].length)
        memcpy(&mark, t[LISTS].at, 8);
    keep();
    uint64_t answer = fesolopi_run(PART(uint64_t, LISTS), PART(double, GRAINS), PART(uint64_t, QUEUE),
                                   PART(double, EVENTS), PART(uint8_t, ORDER), rate, budget, &clock, &done);
    calls++;
    must((answer <= 10 && answer != 1 && answer != 4) || answer == FESOLOPI_SPENT, "a run's answer");
    answers[answer]++;
    must(done <= budget, "no more events than the budget");
    if (answer == 2 || answer == 3 || answer == 10 || mark) {
        must(answer != 0 && answer != FESOLOPI_SPENT, "a mark is not run");
        must(kept() && clock == 0 && done == 0, "a refused run changes nothing and reports zeros");
    }
    if (answer == FESOLOPI_SPENT)
        must(done == budget, "a spent budget");
    return answer;
}

/* ---- rounds */

/* Tables as a start needs them, or one of them longer, shorter or empty. */
static uint64_t sized(double l0, double l1, uint64_t count, uint64_t room) {
    uint64_t need[TABLES];
    uint64_t answer = fesolopi_needed(l0, l1, count, room, &need[INPUTS], &need[LISTS], &need[GRAINS],
                                      &need[QUEUE], &need[EVENTS], &need[ORDER]);
    must(answer <= 2, "an answer on lengths");
    uint64_t odd = below(2 * TABLES), how = below(4);
    for (uint64_t n = 0; n < TABLES; n++) {
        uint64_t length = need[n];
        if (n == odd)
            length = how == 0 ? 0 : how == 1 ? length + below(40) : length - (length > 0);
        make((int)n, length);
    }
    return answer;
}

/* A start of garbage, and a run on whatever the tables hold then. */
static void any_start(void) {
    double l0 = below(3) ? between(9, 13) : real(), l1 = below(3) ? between(9, 13) : real();
    uint64_t count = below(3) ? below(6) : number(), room = below(3) ? 16 + below(20) : number();
    uint64_t refused = sized(l0, l1, count, room);
    uint64_t answer = start(l0, l1, count, room);
    if (refused)
        must(answer == refused, "the lengths are refused as the start is");
    run(real(), (uint32_t)below(20));
}

/* A run on garbage behind plausible counts, or behind none. */
static void any_tables(void) {
    static const uint64_t least[6] = {0, 0, 9, 16, 0, 0}, kinds[6] = {12, 8, 8, 9, 3, 3};
    uint64_t head[6];
    for (int n = 0; n < 6; n++)
        head[n] = least[n] + (n || below(2) ? below(kinds[n]) : 0);
    sized(9, 9 + 3 * (double)below(3), head[1], head[3]);
    for (uint64_t n = 0; n < 6 && n < t[LISTS].length; n++)
        if (below(20))
            memcpy(t[LISTS].at + 8 * n, &head[n], 8);
    run(below(2) ? 1 : real(), (uint32_t)below(20));
}

/* A place of a table, more often one in use: a count, an event among a cell's first, a heap place of a cell.
 */
static uint64_t aimed(int which, uint64_t cells, uint64_t room) {
    if (below(4) == 0)
        return below(t[which].length);
    switch (which) {
    case QUEUE:
        return below(cells) * (1 + 4 * room) + below(13);
    case EVENTS:
        return below(cells) * 10 * room + below(30);
    case ORDER:
        return below(2) * 256 + below(cells);
    default:
        return below(t[which].length);
    }
}

/* A sound start and sound runs; then runs that are each handed one word changed. */
static void damaged(double l0, double l1, uint64_t count, uint64_t room) {
    uint64_t need[TABLES];
    fesolopi_needed(l0, l1, count, room, &need[0], &need[1], &need[2], &need[3], &need[4], &need[5]);
    for (int n = 0; n < TABLES; n++)
        make(n, need[n]);
    for (uint64_t n = 0; n < count; n++) {
        const double low[6] = {0.5, 0.5, -2, -2, 0, 0.25}, high[6] = {l0 - 0.5, l1 - 0.5, 2, 2, 1, 0.5};
        double grain[6];
        for (int m = 0; m < 6; m++)
            grain[m] = between(low[m], high[m]);
        memcpy(t[INPUTS].at + 48 * n, grain, 48);
    }
    uint64_t cells = need[QUEUE] / (1 + 4 * room), answer = start(l0, l1, count, room);
    must(answer == 0 || (5 <= answer && answer <= 9), "a sound start is accepted");
    for (int times = 0; times < 4 && answer < 5; times++) {
        answer = run(0.25, (uint32_t)below(40));
        must(answer != 2 && answer != 3 && answer != 10, "a sound run is not refused");
        if (answer == FESOLOPI_SPENT)
            answer = 0;
    }
    for (uint64_t times = 0; times < 30; times++) {
        int which = LISTS + (int)below(TABLES - LISTS);
        uint64_t place = aimed(which, cells, room);
        unsigned char was[8];
        unsigned char *at = t[which].at + place * t[which].size;
        memcpy(was, at, t[which].size);
        put(which, place);
        answer = run(below(8) ? 1 : real(), (uint32_t)below(30));
        /* what ran keeps the standing facts, so that a run of nothing is taken */
        if (answer == 0 || answer == FESOLOPI_SPENT)
            must(run(1, 0) == FESOLOPI_SPENT, "the facts are kept");
        else if (kept())
            memcpy(at, was, t[which].size);
        else
            return;
    }
}

static void roots(void) {
    double d = real(), root = 77;
    uint64_t answer = fesolopi_square_root(d, &root);
    calls++;
    must(answer == (d >= 0 ? 0 : 5), "a root's answer");
    if (answer)
        must(root == 0, "no root is +0");
}

int main(int words, char **word) {
    uint64_t rounds = words > 1 ? strtoull(word[1], 0, 10) : 300;
    seed = words > 2 ? strtoull(word[2], 0, 10) : 1;
    for (uint64_t n = 0; n < rounds; n++) {
        any_start();
        any_tables();
        double l0 = between(9, 14), l1 = between(9, 14);
        uint64_t count = below(9), room = 16 + below(33);
        damaged(l0, l1, count, room);
        roots();
        if (n % 100 == 0)
            damaged(48, 48, 256, 256);
    }
    for (int n = 0; n < TABLES; n++)
        free(t[n].at), free(t[n].before);
    printf("calls on garbage: %llu, seed %s; answers", (unsigned long long)calls, words > 2 ? word[2] : "1");
    for (int n = 0; n < FESOLOPI_SPENT; n++)
        if (answers[n])
            printf(" %d: %llu,", n, (unsigned long long)answers[n]);
    printf(" %d: %llu\n", FESOLOPI_SPENT, (unsigned long long)answers[FESOLOPI_SPENT]);
    return 0;
}
