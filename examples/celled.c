/*
 * A celled index in an engine's hands: it is trained on rows that lie in clusters, checked,
 * searched under a row policy with few and many probes, set beside brute force and beside a plain
 * index of the same rows, and damaged. All comes from a fixed seed, so every run prints the same.
 */
#include "scene.h"

#include <math.h>

enum {
    D = 32,       /* coordinates of a row */
    N_SUB = 8,    /* sub-spaces, each of 4 coordinates */
    SUB_BITS = 4, /* 16 centres in each, so a row is 8 codes of 4 bits */
    CELLS = 64,
    EPOCHS = 10,
    ROWS = 6000,
    CLUSTERS = 200,
    TENANTS = 4,
    K = 10,
    QUERIES = 100,
    PROBES = 8 /* of a search where nothing else is said */
};

/* ---- what an engine keeps of a celled index, and how it calls the library */

typedef struct {
    bergrosk_celled_buffers len;
    float *coarse;
    uint32_t *starts;
    uint32_t *members;
    float *subs;
    uint8_t *codes;
} celled_index;

static celled_index new_index(void) {
    celled_index index;
    index.len = bergrosk_celled_lengths(D, N_SUB, SUB_BITS, CELLS, PROBES, ROWS);
    must("the lengths", index.len.number, 0);
    index.coarse = elements(index.len.coarse, sizeof *index.coarse);
    index.starts = elements(index.len.starts, sizeof *index.starts);
    index.members = elements(index.len.members, sizeof *index.members);
    index.subs = elements(index.len.subs, sizeof *index.subs);
    index.codes = elements(index.len.codes, sizeof *index.codes);
    return index;
}

/* How many draws are enough for a training, whatever the rows are. */
static size_t enough_draws(void) {
    return bergrosk_celled_draws(N_SUB, SUB_BITS, CELLS, EPOCHS);
}

static void free_index(celled_index index) {
    free(index.coarse);
    free(index.starts);
    free(index.members);
    free(index.subs);
    free(index.codes);
}

static bergrosk_train_answer train(
    celled_index *index, const float *rows, const double *draws, size_t n_draws) {
    const bergrosk_celled_buffers *len = &index->len;
    uint32_t *work = elements(len->work, sizeof *work);
    bergrosk_train_answer answer = bergrosk_celled_train(D, N_SUB, SUB_BITS, CELLS, PROBES, EPOCHS,
        ROWS, rows, len->rows, draws, n_draws, index->coarse, len->coarse, index->starts,
        len->starts, index->members, len->members, index->subs, len->subs, index->codes, len->codes,
        work, len->work);
    free(work);
    return answer;
}

static uint32_t check(const celled_index *index) {
    const bergrosk_celled_buffers *len = &index->len;
    uint32_t *work = elements(len->work, sizeof *work);
    uint32_t answer = bergrosk_celled_check(D, N_SUB, SUB_BITS, CELLS, PROBES, ROWS, index->coarse,
        len->coarse, index->starts, len->starts, index->members, len->members, index->subs,
        len->subs, index->codes, len->codes, work, len->work);
    free(work);
    return answer;
}

static bergrosk_search_answer search(const celled_index *index, size_t probes, const float *query,
    const uint8_t *mask, results *found) {
    const bergrosk_celled_buffers *len = &index->len;
    float table[N_SUB << SUB_BITS];
    return bergrosk_celled_search(D, N_SUB, SUB_BITS, CELLS, probes, ROWS, query, D, mask, ROWS,
        index->coarse, len->coarse, index->starts, len->starts, index->members, len->members,
        index->subs, len->subs, index->codes, len->codes, found->rows, found->k, found->sums,
        found->k, table, len->table);
}

/* ---- the same of a plain index, to set beside it */

typedef struct {
    bergrosk_plain_buffers len;
    float *subs;
    uint8_t *codes;
} plain_index;

static plain_index new_plain_index(const float *rows, const double *draws) {
    plain_index index;
    index.len = bergrosk_plain_lengths(D, N_SUB, SUB_BITS, ROWS);
    must("the lengths of the plain index", index.len.number, 0);
    index.subs = elements(index.len.subs, sizeof *index.subs);
    index.codes = elements(index.len.codes, sizeof *index.codes);
    uint32_t *work = elements(index.len.work, sizeof *work);
    bergrosk_train_answer answer = bergrosk_plain_train(D, N_SUB, SUB_BITS, EPOCHS, ROWS, rows,
        index.len.rows, draws, bergrosk_plain_draws(N_SUB, SUB_BITS, EPOCHS), index.subs,
        index.len.subs, index.codes, index.len.codes, work, index.len.work);
    must("the training of the plain index", answer.number, 0);
    free(work);
    return index;
}

static bergrosk_search_answer search_plain(
    const plain_index *index, const float *query, const uint8_t *mask, results *found) {
    float table[N_SUB << SUB_BITS];
    return bergrosk_plain_search(D, N_SUB, SUB_BITS, ROWS, query, D, mask, ROWS, index->subs,
        index->len.subs, index->codes, index->len.codes, found->rows, found->k, found->sums,
        found->k, table, index->len.table);
}

static void free_plain_index(plain_index index) {
    free(index.subs);
    free(index.codes);
}

/* ---- searches at several probe counts, beside brute force and the plain index */

/* What is asked: the queries, of which rows, by whom, and what brute force finds. */
typedef struct {
    float *rows;
    uint8_t *mask;
    float *queries;
    results exact[QUERIES];
} workload;

static recall recall_of_celled(const celled_index *index, size_t probes, const workload *w) {
    recall r = {0, 0, 0, 0, 0};
    results found = new_results(K);
    for (size_t q = 0; q < QUERIES; q++) {
        bergrosk_search_answer a = search(index, probes, w->queries + q * D, w->mask, &found);
        must("a search", a.number, 0);
        count(&r, a, &found, &w->exact[q], w->mask);
    }
    free_results(found);
    return r;
}

static recall recall_of_plain(const plain_index *index, const workload *w) {
    recall r = {0, 0, 0, 0, 0};
    results found = new_results(K);
    for (size_t q = 0; q < QUERIES; q++) {
        bergrosk_search_answer a = search_plain(index, w->queries + q * D, w->mask, &found);
        must("a search of the plain index", a.number, 0);
        count(&r, a, &found, &w->exact[q], w->mask);
    }
    free_results(found);
    return r;
}

static void print_titles(void) {
    char nearest[40], first[40];
    snprintf(nearest, sizeof nearest, "found, of %d", (int)(QUERIES * K));
    snprintf(first, sizeof first, "found, of %d", (int)QUERIES);
    printf("%-18s %15s %17s %16s %14s\n", "", "rows scored", "of the nearest", "the first",
        "hidden rows");
    printf("%-18s %15s %17s %16s %14s\n", "index", "by a search", nearest, first, "found");
}

static void print_recall(const char *index, recall r) {
    printf("%-18s %15.1f %17zu %16zu %14zu\n", index, (double)r.scored / (double)r.searches,
        r.shared, r.nearest, r.hidden);
}

static void print_recalls(const celled_index *index, const double *draws, const workload *w) {
    static const size_t probes[] = {1, 2, 4, 8, 16, CELLS};
    printf("\n%d queries, each for the %d nearest of the rows that one of %d tenants may see:\n\n",
        (int)QUERIES, (int)K, (int)TENANTS);
    print_titles();
    for (size_t i = 0; i < sizeof probes / sizeof *probes; i++) {
        char words[40];
        snprintf(words, sizeof words, "celled, probes %zu", probes[i]);
        print_recall(words, recall_of_celled(index, probes[i], w));
    }
    plain_index plain = new_plain_index(w->rows, draws);
    print_recall("plain", recall_of_plain(&plain, w));
    free_plain_index(plain);
}

/* ---- damage, and what it is answered */

/* Says what the check and a search answer to an index as it is; it must be these numbers. */
static void say(const char *what, const celled_index *index, const workload *w, uint32_t to_check,
    uint32_t to_search) {
    results found = new_results(K);
    uint32_t checked = check(index);
    bergrosk_search_answer searched = search(index, PROBES, w->queries, w->mask, &found);
    printf("  %-42s check %2lu, search %2lu: %s\n", what, (unsigned long)checked,
        (unsigned long)searched.number, bergrosk_meaning(searched.number));
    must(what, checked, to_check);
    must(what, searched.number, to_search);
    free_results(found);
}

/* Of the cells that have rows, the nearest to a point, or the farthest. */
static size_t outermost_cell(const celled_index *index, const float *point, int farthest) {
    size_t best = CELLS;
    float least = 0;
    for (size_t cell = 0; cell < CELLS; cell++) {
        float apart = distance(point, index->coarse + cell * D, D) * (farthest ? -1.0f : 1.0f);
        if (index->starts[cell] < index->starts[cell + 1] && (best == CELLS || apart < least)) {
            best = cell;
            least = apart;
        }
    }
    return best;
}

/* One number of a list is damaged, and mended again. */
static void damaged_lists(celled_index *index, const workload *w) {
    uint32_t *near = &index->members[index->starts[outermost_cell(index, w->queries, 0)]];
    uint32_t *far = &index->members[index->starts[outermost_cell(index, w->queries, 1)]];
    uint32_t start = index->starts[1], near_row = *near, far_row = *far;
    index->starts[1] = ROWS + 1;
    say("a start past the rows", index, w, 10, 10);
    index->starts[1] = start;
    *near = ROWS;
    say("no such row, in the nearest cell", index, w, 10, 10);
    *near = near_row;
    *far = ROWS;
    say("no such row, in a cell that is not probed", index, w, 10, 0);
    *far = near_row;
    say("a row in two cells, one of them not probed", index, w, 10, 0);
    *far = far_row;
}

/* A code of a row in the nearest cell is damaged: once the row is visible, once it is hidden. */
static void damaged_code(celled_index *index, const workload *w) {
    size_t row = index->members[index->starts[outermost_cell(index, w->queries, 0)]];
    uint8_t code = index->codes[row * N_SUB], shown = w->mask[row];
    index->codes[row * N_SUB] = 200;
    w->mask[row] = 1;
    say("the code 200 in a visible row", index, w, 10, 10);
    w->mask[row] = 0;
    say("the code 200 in a hidden row", index, w, 10, 0);
    w->mask[row] = shown;
    index->codes[row * N_SUB] = code;
}

/* The centre of the cell that is farthest away; the check does not look at centres. */
static void damaged_centre(celled_index *index, const workload *w) {
    float *center = index->coarse + outermost_cell(index, w->queries, 1) * D;
    float kept = *center;
    *center = INFINITY;
    say("an infinity in the centre of a cell", index, w, 0, 11);
    *center = kept;
}

static void print_place(bergrosk_place place) {
    if (place.stage == 0) {
        printf("of the coarse k-means");
    } else {
        printf("of cell %lu, sub-space %lu", (unsigned long)place.cell, (unsigned long)place.sub);
    }
    printf(", epoch %lu, filling centre %lu\n", (unsigned long)place.epoch,
        (unsigned long)place.center);
}

static int all_zero(const celled_index *index) {
    const bergrosk_celled_buffers *len = &index->len;
    return is_zero(index->coarse, len->coarse * sizeof *index->coarse)
        && is_zero(index->starts, len->starts * sizeof *index->starts)
        && is_zero(index->members, len->members * sizeof *index->members)
        && is_zero(index->subs, len->subs * sizeof *index->subs)
        && is_zero(index->codes, len->codes * sizeof *index->codes);
}

/* Trainings that are refused: below 8 the index stays as it was, an 8 or 9 leaves it zero. */
static void refused_trainings(celled_index *index, float *rows, const double *draws) {
    float kept = rows[17 * D];
    rows[17 * D] = NAN;
    uint32_t refusal = train(index, rows, draws, enough_draws()).number;
    rows[17 * D] = kept;
    must("a training with a NaN", refusal, 6);
    must("the check after it", check(index), 0);
    printf("  a NaN in row 17: %lu, %s; the index still passes the check\n",
        (unsigned long)refusal, bergrosk_meaning(refusal));

    bergrosk_train_answer answer = train(index, rows, draws, 100000);
    must("a training with few draws", answer.number, 8);
    must("the check after it", check(index), 10);
    must_hold("the index is zero after it", all_zero(index));
    printf("  only 100000 draws: %lu, %s; the index is zero, and fails the check\n",
        (unsigned long)answer.number, bergrosk_meaning(answer.number));
    printf("    met in the split ");
    print_place(answer.place);
}

static workload new_workload(void) {
    workload w;
    float *clusters = new_points(CLUSTERS, D);
    w.rows = new_points_near(clusters, CLUSTERS, ROWS, D);
    w.queries = new_points_near(clusters, CLUSTERS, QUERIES, D);
    w.mask = new_mask(ROWS, TENANTS, 2);
    for (size_t q = 0; q < QUERIES; q++) {
        w.exact[q] = new_results(K);
        brute_force(w.rows, ROWS, D, w.queries + q * D, w.mask, &w.exact[q]);
    }
    free(clusters);
    return w;
}

static void free_workload(workload w) {
    for (size_t q = 0; q < QUERIES; q++) {
        free_results(w.exact[q]);
    }
    free(w.rows);
    free(w.queries);
    free(w.mask);
}

int main(void) {
    must_round_rightly();
    workload w = new_workload();
    double *draws = new_draws(enough_draws());
    celled_index index = new_index();
    bergrosk_train_answer answer = train(&index, w.rows, draws, enough_draws());
    must("the training", answer.number, 0);
    printf("training: %s, %zu of %zu draws used\n", bergrosk_meaning(answer.number), answer.used,
        enough_draws());
    printf("%d rows of %d bytes became codes of %d bytes in %d cells\n", (int)ROWS,
        (int)(D * sizeof(float)), (int)N_SUB, (int)CELLS);

    print_recalls(&index, draws, &w);

    puts("\ndamage, and what it is answered:");
    say("nothing is damaged", &index, &w, 0, 0);
    damaged_lists(&index, &w);
    damaged_code(&index, &w);
    damaged_centre(&index, &w);
    say("all is mended", &index, &w, 0, 0);

    puts("\ntrainings that are refused:");
    refused_trainings(&index, w.rows, draws);

    free_index(index);
    free(draws);
    free_workload(w);
    return 0;
}
