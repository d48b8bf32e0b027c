/*
 * A plain index in an engine's hands: it is trained on rows, searched under a row policy, set
 * beside brute force, and handed damaged input. All comes from a fixed seed, so every run prints
 * the same.
 */
#include "scene.h"

#include <math.h>

enum {
    D = 32,       /* coordinates of a row */
    N_SUB = 8,    /* sub-spaces, each of 4 coordinates */
    SUB_BITS = 6, /* 64 centres in each, so a row is 8 codes of 6 bits */
    EPOCHS = 10,
    ROWS = 4000,
    CLUSTERS = 200,
    TENANTS = 4,
    K = 10,
    QUERIES = 100
};

/* ---- what an engine keeps of a plain index, and how it calls the library */

typedef struct {
    bergrosk_plain_buffers len;
    float *subs;
    uint8_t *codes;
} plain_index;

static plain_index new_index(void) {
    plain_index index;
    index.len = bergrosk_plain_lengths(D, N_SUB, SUB_BITS, ROWS);
    must("the lengths", index.len.number, 0);
    index.subs = elements(index.len.subs, sizeof *index.subs);
    index.codes = elements(index.len.codes, sizeof *index.codes);
    return index;
}

/* How many draws are enough for a training, whatever the rows are. */
static size_t enough_draws(void) {
    return bergrosk_plain_draws(N_SUB, SUB_BITS, EPOCHS);
}

static void free_index(plain_index index) {
    free(index.subs);
    free(index.codes);
}

static bergrosk_train_answer train(
    plain_index *index, const float *rows, const double *draws, size_t n_draws) {
    const bergrosk_plain_buffers *len = &index->len;
    uint32_t *work = elements(len->work, sizeof *work);
    bergrosk_train_answer answer = bergrosk_plain_train(D, N_SUB, SUB_BITS, EPOCHS, ROWS, rows,
        len->rows, draws, n_draws, index->subs, len->subs, index->codes, len->codes, work,
        len->work);
    free(work);
    return answer;
}

static bergrosk_search_answer search(
    const plain_index *index, const float *query, const uint8_t *mask, results *found) {
    const bergrosk_plain_buffers *len = &index->len;
    float table[N_SUB << SUB_BITS];
    return bergrosk_plain_search(D, N_SUB, SUB_BITS, ROWS, query, D, mask, ROWS, index->subs,
        len->subs, index->codes, len->codes, found->rows, found->k, found->sums, found->k, table,
        len->table);
}

/* ---- searches, beside brute force */

static void print_query(bergrosk_search_answer answer, const results *found, const results *exact) {
    printf("query 0: %s, %zu rows scored, %zu found\n\n", bergrosk_meaning(answer.number),
        answer.scored, answer.found);
    puts("place   by the index: row, sum      by brute force: row, squared distance");
    for (size_t i = 0; i < found->k; i++) {
        printf("%5zu %16lu  %8.4f %22lu  %8.4f\n", i, (unsigned long)found->rows[i],
            (double)found->sums[i], (unsigned long)exact->rows[i], (double)exact->sums[i]);
    }
}

/* Searches for every query, shows the first, and counts what brute force finds too. */
static void search_all(
    const plain_index *index, const float *rows, const float *queries, const uint8_t *mask) {
    results found = new_results(K), exact = new_results(K);
    recall r = {0, 0, 0, 0, 0};
    for (size_t q = 0; q < QUERIES; q++) {
        const float *query = queries + q * D;
        bergrosk_search_answer answer = search(index, query, mask, &found);
        must("a search", answer.number, 0);
        brute_force(rows, ROWS, D, query, mask, &exact);
        if (q == 0) {
            print_query(answer, &found, &exact);
        }
        count(&r, answer, &found, &exact, mask);
    }
    printf("\nrecall over %d queries: %zu of the %d nearest rows, and the nearest itself in %zu\n",
        (int)QUERIES, r.shared, (int)(QUERIES * K), r.nearest);
    printf("hidden rows found: %zu\n", r.hidden);
    free_results(found);
    free_results(exact);
}

/* ---- damaged input, and what it is answered */

/* Says what is answered; it must be this number. */
static void say(const char *what, uint32_t answer, uint32_t expected) {
    printf("  %-34s %2lu  %s\n", what, (unsigned long)answer, bergrosk_meaning(answer));
    must(what, answer, expected);
}

/* Searches of a damaged index, and the same damage where the policy hides it. */
static void damaged_searches(plain_index *index, const float *query, uint8_t *mask) {
    results found = new_results(K), many = new_results(5000);
    say("k = 5000", search(index, query, mask, &many).number, 5);

    uint8_t code = index->codes[0], shown = mask[0];
    index->codes[0] = 200;
    mask[0] = 1;
    say("the code 200 in a visible row", search(index, query, mask, &found).number, 10);
    mask[0] = 0;
    say("the code 200 in a hidden row", search(index, query, mask, &found).number, 0);
    mask[0] = shown;
    index->codes[0] = code;

    float center = index->subs[5];
    index->subs[5] = INFINITY;
    say("an infinity among the centres", search(index, query, mask, &found).number, 11);
    index->subs[5] = center;
    free_results(found);
    free_results(many);
}

/* Trainings that a test refuses: the index stays as it was. */
static void refused_trainings(plain_index *index, float *rows, const double *draws) {
    size_t subs_size = index->len.subs * sizeof *index->subs, codes_size = index->len.codes;
    float *subs = elements(subs_size, 1);
    uint8_t *codes = elements(codes_size, 1);
    memcpy(subs, index->subs, subs_size);
    memcpy(codes, index->codes, codes_size);

    float kept = rows[17 * D];
    rows[17 * D] = NAN;
    say("a NaN in row 17", train(index, rows, draws, enough_draws()).number, 6);
    rows[17 * D] = kept;
    index->len.subs--;
    say("sub-centres lent one float short", train(index, rows, draws, enough_draws()).number, 4);
    index->len.subs++;

    must_hold("the index is unchanged", memcmp(subs, index->subs, subs_size) == 0
        && memcmp(codes, index->codes, codes_size) == 0);
    puts("  the index afterwards: unchanged");
    free(subs);
    free(codes);
}

/* A training that runs out of draws names the place, and leaves the index zero. */
static void stopped_training(plain_index *index, const float *rows, const double *draws) {
    bergrosk_train_answer answer = train(index, rows, draws, 100);
    say("only 100 draws lent", answer.number, 8);
    printf("  met in sub-space %lu, epoch %lu, filling centre %lu\n",
        (unsigned long)answer.place.sub, (unsigned long)answer.place.epoch,
        (unsigned long)answer.place.center);
    must_hold("the index is zero", is_zero(index->codes, index->len.codes)
        && is_zero(index->subs, index->len.subs * sizeof *index->subs));
    puts("  the index afterwards: zero");
}

int main(void) {
    must_round_rightly();
    float *clusters = new_points(CLUSTERS, D);
    float *rows = new_points_near(clusters, CLUSTERS, ROWS, D);
    float *queries = new_points_near(clusters, CLUSTERS, QUERIES, D);
    double *draws = new_draws(enough_draws());
    uint8_t *mask = new_mask(ROWS, TENANTS, 2);

    plain_index index = new_index();
    bergrosk_train_answer answer = train(&index, rows, draws, enough_draws());
    must("the training", answer.number, 0);
    printf("training: %s, %zu of %zu draws used\n", bergrosk_meaning(answer.number), answer.used,
        enough_draws());
    printf("%d rows of %d bytes became codes of %d bytes\n", (int)ROWS, (int)(D * sizeof(float)),
        (int)N_SUB);

    search_all(&index, rows, queries, mask);

    puts("\ndamaged input, and what it is answered:");
    damaged_searches(&index, queries, mask);
    refused_trainings(&index, rows, draws);
    stopped_training(&index, rows, draws);

    free_index(index);
    free(clusters);
    free(rows);
    free(queries);
    free(draws);
    free(mask);
    return 0;
}
