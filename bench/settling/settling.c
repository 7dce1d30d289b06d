// Times the proved settling beside a plain transitive closure with 64-bit words, on the same relations, in one run.
// Each call starts from a fresh copy of the relation; the copy is timed alone and taken off. Before timing, every
// settled table is compared with what the plain closure, and a breadth-first walk for step counts, give.
#define _POSIX_C_SOURCE 199309L
#include <stdint.h>
#include <stdio.h>
#include <stdlib.h>
#include <string.h>
#include <time.h>

uint8_t jam21_settle_reach(uint8_t *cells, size_t len, size_t side);
uint8_t jam21_settle_steps(uint8_t *cells, size_t len, size_t side);

enum { LARGEST = 64, RUNS = 4000, BATCHES = 9 };

static void closure(uint64_t *rows, size_t side) {
    for (size_t k = 0; k < side; k++) {
        uint64_t row = rows[k];
        for (size_t i = 0; i < side; i++) {
            if (rows[i] >> k & 1) rows[i] |= row;
        }
    }
}

static void fewest(const uint64_t *rows, uint8_t *out, size_t side) {
    memset(out, 255, side * side);
    for (size_t a = 0; a < side; a++) {
        uint64_t seen = 0, level = rows[a];
        for (unsigned count = 1; level; count++) {
            seen |= level;
            uint64_t next = 0;
            for (size_t b = 0; b < side; b++) {
                if (!(level >> b & 1)) continue;
                out[a * side + b] = (uint8_t)count;
                next |= rows[b];
            }
            level = next & ~seen;
        }
    }
}

static double now(void) {
    struct timespec t;
    clock_gettime(CLOCK_MONOTONIC, &t);
    return (double)t.tv_sec * 1e6 + (double)t.tv_nsec / 1e3;
}

static int rising(const void *a, const void *b) {
    double x = *(const double *)a, y = *(const double *)b;
    return (x > y) - (x < y);
}

static volatile uint8_t sink;

// What is timed: 0 the plain closure, 1 yes/no, 2 step count; 3 and 4 are the copies that they start from.
static double run(int which, const uint64_t *rows, const uint8_t *flags, const uint8_t *counts, size_t side) {
    static uint64_t words[LARGEST];
    static uint8_t cells[LARGEST * LARGEST];
    size_t len = side * side;
    double batch[BATCHES];
    for (int n = 0; n < BATCHES; n++) {
        double start = now();
        for (int r = 0; r < RUNS; r++) {
            switch (which) {
            case 0: memcpy(words, rows, side * sizeof *words); closure(words, side); sink = (uint8_t)words[side / 2]; break;
            case 1: memcpy(cells, flags, len); jam21_settle_reach(cells, len, side); sink = cells[len / 2]; break;
            case 2: memcpy(cells, counts, len); jam21_settle_steps(cells, len, side); sink = cells[len / 2]; break;
            case 3: memcpy(words, rows, side * sizeof *words); sink = (uint8_t)words[side / 2]; break;
            default: memcpy(cells, flags, len); sink = cells[len / 2]; break;
            }
        }
        batch[n] = (now() - start) / RUNS;
    }
    qsort(batch, BATCHES, sizeof *batch, rising);
    return batch[BATCHES / 2];
}

static int same(const uint64_t *rows, const uint8_t *flags, const uint8_t *counts, size_t side) {
    static uint64_t words[LARGEST];
    static uint8_t reach[LARGEST * LARGEST], steps[LARGEST * LARGEST], walked[LARGEST * LARGEST];
    size_t len = side * side;
    memcpy(words, rows, side * sizeof *words);
    memcpy(reach, flags, len);
    memcpy(steps, counts, len);
    closure(words, side);
    fewest(rows, walked, side);
    if (jam21_settle_reach(reach, len, side) || jam21_settle_steps(steps, len, side)) return 0;
    for (size_t a = 0; a < side; a++) {
        for (size_t b = 0; b < side; b++) {
            size_t at = a * side + b;
            if ((reach[at] != 0) != (words[a] >> b & 1)) return 0;
            if ((steps[at] > 64 ? 255 : steps[at]) != (walked[at] > 64 ? 255 : walked[at])) return 0;
        }
    }
    return 1;
}

static void draw(unsigned percent, size_t side, uint64_t *rows, uint8_t *flags, uint8_t *counts) {
    memset(rows, 0, LARGEST * sizeof *rows);
    for (size_t a = 0; a < side; a++) {
        for (size_t b = 0; b < side; b++) {
            int set = (unsigned)rand() % 100 < percent;
            rows[a] |= (uint64_t)set << b;
            flags[a * side + b] = set ? 255 : 0;
            counts[a * side + b] = set ? 1 : 255;
        }
    }
}

int main(void) {
    static uint64_t rows[LARGEST];
    static uint8_t flags[LARGEST * LARGEST], counts[LARGEST * LARGEST];
    srand(21);
    for (size_t side = 0; side <= LARGEST; side++) {
        for (unsigned percent = 1; percent < 30; percent += 4) {
            draw(percent, side, rows, flags, counts);
            if (!same(rows, flags, counts, side)) {
                printf("side %zu, %u %% set: the tables differ\n", side, percent);
                return 1;
            }
        }
    }
    puts("every table agrees with the plain closure and with a breadth-first walk");
    puts("side  set   plain closure      yes/no   ratio  step count   ratio");
    const size_t sides[] = {20, 64};
    const unsigned densities[] = {6, 20};
    for (size_t n = 0; n < 2; n++) {
        for (size_t d = 0; d < 2; d++) {
            size_t side = sides[n];
            draw(densities[d], side, rows, flags, counts);
            double plain = run(0, rows, flags, counts, side) - run(3, rows, flags, counts, side);
            double copy = run(4, rows, flags, counts, side);
            double reach = run(1, rows, flags, counts, side) - copy;
            double steps = run(2, rows, flags, counts, side) - copy;
            printf("%4zu %3u %%  %10.3f us %8.3f us %6.2f %8.3f us %6.2f\n", side, densities[d], plain, reach, reach / plain, steps, steps / plain);
        }
    }
    return 0;
}
