/*
 * How many draws trainings use, beside what bergrosk_plain_draws and bergrosk_celled_draws say is
 * enough: two dozen points, a line of docs/DRAWS.md each. The program fails if a training used more
 * than was said to be enough, or ran out of draws where fewer than all were. It takes a minute or
 * two, and only measures the header's estimate, so tests/run leaves it out.
 */
#include "bergrosk.h"

#include <stdio.h>
#include <stdlib.h>

/* Rows uniform in 0..1; near 200 points; all equal; uniform in 1000..1001. */
typedef enum { UNIFORM, CLUSTERED, EQUAL, FAR } kind;

/* A training to be measured; of a plain index cells is 0. */
typedef struct {
    kind rows;
    size_t d, n_sub, sub_bits, cells, epochs, n;
} point;

static const point points[] = {
    {UNIFORM, 128, 4, 4, 0, 100, 10000},
    {CLUSTERED, 128, 4, 4, 0, 100, 10000},
    {UNIFORM, 32, 8, 6, 0, 10, 4000},
    {CLUSTERED, 32, 8, 6, 0, 10, 4000},
    {CLUSTERED, 32, 8, 6, 0, 100, 4000},
    {UNIFORM, 128, 16, 8, 0, 2, 2000},
    {UNIFORM, 128, 16, 8, 0, 10, 2000},
    {CLUSTERED, 128, 16, 8, 0, 10, 2000},
    {CLUSTERED, 128, 16, 8, 0, 10, 10000},
    {UNIFORM, 64, 64, 8, 0, 2, 2000},
    {CLUSTERED, 64, 64, 8, 0, 5, 5000},
    {UNIFORM, 32, 8, 8, 0, 10, 100},
    {EQUAL, 32, 8, 6, 0, 10, 4000},
    {FAR, 32, 8, 6, 0, 10, 4000},
    {UNIFORM, 128, 25, 4, 256, 5, 10000},
    {CLUSTERED, 128, 25, 4, 256, 5, 10000},
    {UNIFORM, 128, 25, 4, 256, 30, 10000},
    {CLUSTERED, 128, 25, 4, 256, 30, 10000},
    {UNIFORM, 128, 25, 4, 256, 40, 10000},
    {CLUSTERED, 128, 25, 4, 16, 10, 10000},
    {UNIFORM, 64, 25, 4, 256, 5, 50000},
    {UNIFORM, 32, 8, 4, 64, 10, 6000},
    {CLUSTERED, 32, 8, 4, 64, 10, 6000},
    {UNIFORM, 32, 8, 4, 64, 100, 6000},
    {UNIFORM, 16, 4, 2, 1024, 10, 20000},
    {CLUSTERED, 16, 4, 2, 1024, 10, 20000},
    {UNIFORM, 32, 8, 8, 16, 2, 6000},
    {EQUAL, 32, 8, 4, 64, 10, 6000},
    {FAR, 32, 8, 4, 64, 10, 6000}};

/* Memory for some elements; the program ends where there is none. */
static void *elements(size_t count, size_t size) {
    void *memory = malloc(count * size + 1);
    if (memory == NULL) {
        fputs("out of memory\n", stderr);
        exit(1);
    }
    return memory;
}

/* The next number of a fixed sequence in 0 <= x < 1. */
static double chance(void) {
    static uint64_t state = 1;
    state = state * UINT64_C(6364136223846793005) + UINT64_C(1442695040888963407);
    return (double)(state >> 11) / 9007199254740992.0;
}

static float *new_rows(kind rows, size_t n, size_t d) {
    enum { CLUSTERS = 200 };
    float *made = elements(n * d, sizeof *made), *near = elements(CLUSTERS * d, sizeof *near);
    for (size_t i = 0; i < CLUSTERS * d; i++) {
        near[i] = (float)chance();
    }
    for (size_t row = 0; row < n; row++) {
        const float *center = near + (size_t)(chance() * CLUSTERS) * d;
        for (size_t j = 0; j < d; j++) {
            double x = chance();
            made[row * d + j] = rows == UNIFORM ? (float)x
                : rows == CLUSTERED ? center[j] + 0.2f * (float)(x - 0.5)
                : rows == FAR ? 1000.0f + (float)x
                : 1.0f;
        }
    }
    free(near);
    return made;
}

static bergrosk_train_answer train_plain(point p, const float *rows, const double *draws) {
    bergrosk_plain_buffers l = bergrosk_plain_lengths(p.d, p.n_sub, p.sub_bits, p.n);
    float *subs = elements(l.subs, sizeof *subs);
    uint8_t *codes = elements(l.codes, 1);
    uint32_t *work = elements(l.work, sizeof *work);
    bergrosk_train_answer answer = bergrosk_plain_train(p.d, p.n_sub, p.sub_bits, p.epochs, p.n,
        rows, l.rows, draws, BERGROSK_MOST_DRAWS, subs, l.subs, codes, l.codes, work, l.work);
    free(subs), free(codes), free(work);
    return answer;
}

static bergrosk_train_answer train_celled(point p, const float *rows, const double *draws) {
    bergrosk_celled_buffers l
        = bergrosk_celled_lengths(p.d, p.n_sub, p.sub_bits, p.cells, 1, p.n);
    float *coarse = elements(l.coarse, sizeof *coarse), *subs = elements(l.subs, sizeof *subs);
    uint32_t *starts = elements(l.starts, sizeof *starts);
    uint32_t *members = elements(l.members, sizeof *members), *work = elements(l.work, 4);
    uint8_t *codes = elements(l.codes, 1);
    bergrosk_train_answer answer = bergrosk_celled_train(p.d, p.n_sub, p.sub_bits, p.cells, 1,
        p.epochs, p.n, rows, l.rows, draws, BERGROSK_MOST_DRAWS, coarse, l.coarse, starts, l.starts,
        members, l.members, subs, l.subs, codes, l.codes, work, l.work);
    free(coarse), free(subs), free(starts), free(members), free(work), free(codes);
    return answer;
}

/* Measures a point and prints its line; whether the estimate held. */
static int measure(point p, const double *draws) {
    static const char *const words[] = {"uniform", "clustered", "equal", "far"};
    float *rows = new_rows(p.rows, p.n, p.d);
    bergrosk_train_answer a
        = p.cells == 0 ? train_plain(p, rows, draws) : train_celled(p, rows, draws);
    size_t enough = p.cells == 0 ? bergrosk_plain_draws(p.n_sub, p.sub_bits, p.epochs)
                                 : bergrosk_celled_draws(p.n_sub, p.sub_bits, p.cells, p.epochs);
    int all = enough == BERGROSK_MOST_DRAWS;
    char cells[24] = "plain", used[24] = "8, ran out";
    if (p.cells != 0) {
        snprintf(cells, sizeof cells, "%zu", p.cells);
    }
    if (a.number == BERGROSK_DONE) {
        snprintf(used, sizeof used, "%zu", a.used);
    }
    printf("| %s | %zu | %zu, %zu | %s | %zu | %zu | %s | %zu%s |\n", words[p.rows], p.d, p.n_sub,
        p.sub_bits, cells, p.n, p.epochs, used, enough, all ? ", the most" : "");
    fflush(stdout);
    free(rows);
    return (a.number == BERGROSK_DONE && a.used <= enough)
        || (a.number == BERGROSK_DRAWS_RAN_OUT && all);
}

int main(void) {
    size_t count = sizeof points / sizeof *points, held = 0;
    double *draws = elements(BERGROSK_MOST_DRAWS, sizeof *draws);
    for (size_t i = 0; i < BERGROSK_MOST_DRAWS; i++) {
        draws[i] = chance();
    }
    puts("| rows | D | n_sub, sub_bits | cells | n | epochs | draws used | said to be enough |");
    puts("|---|---|---|---|---|---|---|---|");
    for (size_t i = 0; i < count; i++) {
        held += (size_t)measure(points[i], draws);
    }
    printf("draws: enough at %zu of %zu points\n", held, count);
    free(draws);
    return held != count;
}
