/*
 * The plain index and the ranges as C sees them: document 01's examples, each refusal with what it
 * leaves in every buffer, and each bound from both sides.
 */
#include "bergrosk.h"
#include "expect.h"

#include <float.h>
#include <math.h>
#include <stdlib.h>

LAYOUT(place_is_six_words, sizeof(bergrosk_place) == 24);
LAYOUT(place_follows_number, offsetof(bergrosk_train_answer, place) == 4);
LAYOUT(used_is_aligned, offsetof(bergrosk_train_answer, used) == 32);
LAYOUT(train_answer_is_40, sizeof(bergrosk_train_answer) == 40);
LAYOUT(search_answer_is_24, sizeof(bergrosk_search_answer) == 24);
LAYOUT(range_answer_is_24, sizeof(bergrosk_range_answer) == 24);
LAYOUT(buffers_are_48, sizeof(bergrosk_plain_buffers) == 48);
LAYOUT(params_are_24, sizeof(bergrosk_plain_params) == 24);

enum { ROOM = 64, MOST_ROWS = 100001, MOST_DRAWS = 16777216, MOST_RESULTS = 4096 };

/* ---- a call: numbers, lengths, and the buffers themselves */

/* Every buffer that a function of the plain index is lent, each with room to spare. */
typedef struct {
    float rows[ROOM];
    double draws[ROOM];
    float subs[ROOM];
    uint8_t codes[ROOM];
    uint32_t work[1024 + ROOM];
    float query[ROOM];
    uint8_t mask[ROOM];
    uint32_t found[MOST_RESULTS + ROOM];
    float sums[MOST_RESULTS + ROOM];
    float table[ROOM];
} memory;

typedef struct {
    size_t rows, draws, subs, codes, work, query, mask, found, sums, table;
} lengths;

/* What a function of the plain index is called with. */
typedef struct {
    size_t d, n_sub, sub_bits, epochs, n;
    lengths len;
    memory m;
} call;

/* A call with buffers of the right lengths, full of junk; no epochs, no draws, all rows visible. */
static call with_numbers(size_t d, size_t n_sub, size_t sub_bits, size_t n, size_t k) {
    bergrosk_plain_buffers b = bergrosk_plain_lengths(d, n_sub, sub_bits, n);
    lengths len = {b.rows, 0, b.subs, b.codes, b.work, d, n, k, k, b.table};
    call c;
    memset(&c, 7, sizeof c);
    c.d = d, c.n_sub = n_sub, c.sub_bits = sub_bits, c.epochs = 0, c.n = n, c.len = len;
    return c;
}

/* A buffer and its length, as the functions take them; an empty one is NULL. */
#define LENT(name) (c->len.name == 0 ? NULL : c->m.name), c->len.name

static bergrosk_train_answer train(call *c) {
    return bergrosk_plain_train(c->d, c->n_sub, c->sub_bits, c->epochs, c->n, LENT(rows),
        LENT(draws), LENT(subs), LENT(codes), LENT(work));
}

static bergrosk_search_answer search(call *c) {
    return bergrosk_plain_search(c->d, c->n_sub, c->sub_bits, c->n, LENT(query), LENT(mask),
        LENT(subs), LENT(codes), LENT(found), LENT(sums), LENT(table));
}

/* ---- what a call must answer and leave; each works on a copy, and compares every buffer */

#define SIZE(m, len, name) ((len)->name * sizeof *(m)->name)
#define ZERO(m, len, name) memset((m)->name, 0, SIZE(m, len, name))
#define COPY(m, len, name, from) memcpy((m)->name, from, SIZE(m, len, name))

static int same(const memory *a, const memory *b) {
    return memcmp(a, b, sizeof *a) == 0;
}

/* A training refused by a test: nothing is changed, no place is named. */
static int train_refused(call c, uint32_t number) {
    memory before = c.m;
    bergrosk_train_answer a = train(&c);
    return a.number == number && a.used == 0 && all_bytes(&a.place, sizeof a.place, 0)
        && same(&c.m, &before);
}

/* A training that an 8 or 9 stops at this place: outputs and work are zero. */
static int train_stopped(call c, uint32_t number, bergrosk_place place) {
    memory left = c.m;
    ZERO(&left, &c.len, subs);
    ZERO(&left, &c.len, codes);
    ZERO(&left, &c.len, work);
    bergrosk_train_answer a = train(&c);
    return a.number == number && a.used == 0 && memcmp(&a.place, &place, sizeof place) == 0
        && same(&c.m, &left);
}

/* A training that succeeds: the outputs, and work zero. */
static int trains_to(call c, size_t used, const float *subs, const uint8_t *codes) {
    memory left = c.m;
    COPY(&left, &c.len, subs, subs);
    COPY(&left, &c.len, codes, codes);
    ZERO(&left, &c.len, work);
    bergrosk_train_answer a = train(&c);
    return a.number == 0 && a.used == used && all_bytes(&a.place, sizeof a.place, 0)
        && same(&c.m, &left);
}

/* What a search leaves that is done: these results, then blanks, and the table zero. */
static void answered(
    memory *m, const lengths *len, size_t found, const uint32_t *rows, const float *sums) {
    for (size_t i = 0; i < len->found; i++) {
        m->found[i] = i < found ? rows[i] : BERGROSK_BLANK;
        m->sums[i] = i < found ? sums[i] : 0;
    }
    ZERO(m, len, table);
}

/* A search that is refused: from 10 on the results are blank and the table zero. */
static int search_refused(call c, uint32_t number) {
    memory left = c.m;
    if (number >= 10) {
        answered(&left, &c.len, 0, NULL, NULL);
    }
    bergrosk_search_answer a = search(&c);
    return a.number == number && a.found == 0 && a.scored == 0 && same(&c.m, &left);
}

/* A search that finds these rows with these sums. */
static int finds(call c, size_t scored, size_t found, const uint32_t *rows, const float *sums) {
    memory left = c.m;
    answered(&left, &c.len, found, rows, sums);
    bergrosk_search_answer a = search(&c);
    return a.number == 0 && a.found == found && a.scored == scored && same(&c.m, &left);
}

/* ---- numbers: version, ranges, lengths, defaults */

static void version(void) {
    char words[32];
    snprintf(words, sizeof words, "%d.%d", BERGROSK_VERSION_MAJOR, BERGROSK_VERSION_MINOR);
    EXPECT(strcmp(words, BERGROSK_VERSION) == 0);
}

static int range_is(bergrosk_range_answer r, uint32_t number, size_t begin, size_t end) {
    return r.number == number && r.begin == begin && r.end == end;
}

/* Document 01's ranges, and none past the last or outside the bounds. */
static void ranges(void) {
    static const struct {
        size_t d, n_sub;
        size_t ends[4];
    } table[] = {{10, 4, {2, 4, 6, 8}}, {11, 3, {4, 8, 11, 0}}, {11, 4, {3, 5, 7, 9}}};
    for (size_t t = 0; t < 3; t++) {
        size_t begin = 0;
        for (size_t i = 0; i < table[t].n_sub; i++) {
            bergrosk_range_answer r = bergrosk_range(table[t].d, table[t].n_sub, i);
            EXPECT_AT(t, range_is(r, 0, begin, table[t].ends[i]));
            begin = r.end;
        }
    }
    EXPECT(bergrosk_range(60, 25, 24).end == 50 && bergrosk_range(128, 25, 24).end == 128);
    EXPECT(range_is(bergrosk_range(10, 4, 4), 0, 0, 0));
    EXPECT(range_is(bergrosk_range(256, 64, 63), 0, 252, 256));
    EXPECT(range_is(bergrosk_range(256, 64, 64), 0, 0, 0));
    EXPECT(range_is(bergrosk_range(256, 64, SIZE_MAX), 0, 0, 0));
    EXPECT(range_is(bergrosk_range(3, 4, 0), 1, 0, 0));
    EXPECT(range_is(bergrosk_range(3, 0, 0), 1, 0, 0));
    EXPECT(range_is(bergrosk_range(257, 1, 0), 1, 0, 0));
    EXPECT(range_is(bergrosk_range(SIZE_MAX, SIZE_MAX, 0), 1, 0, 0));
}

static int no_lengths(bergrosk_plain_buffers b, uint32_t number) {
    return b.number == number && b.rows == 0 && b.subs == 0 && b.codes == 0 && b.work == 0
        && b.table == 0;
}

static void numbers(void) {
    bergrosk_plain_buffers b = bergrosk_plain_lengths(60, 25, 4, 100001);
    EXPECT(b.number == 0 && b.rows == 6000060 && b.subs == 16 * 50 && b.codes == 2500025);
    EXPECT(b.work == 101025 && b.table == 400);
    EXPECT(bergrosk_plain_lengths(60, 25, 4, 0).work == 1024);
    EXPECT(no_lengths(bergrosk_plain_lengths(60, 25, 4, 100002), 3));
    EXPECT(no_lengths(bergrosk_plain_lengths(60, 25, 4, SIZE_MAX), 3));
    EXPECT(no_lengths(bergrosk_plain_lengths(60, 25, 9, SIZE_MAX), 1));
    bergrosk_plain_params p = bergrosk_plain_defaults();
    EXPECT(p.n_sub == 4 && p.sub_bits == 4 && p.epochs == 100);
}

/* ---- training */

/* Document 01's rows (1, 2), (3, 4) into four centres, with the draws of its split. */
static call two_rows(size_t epochs, size_t draws) {
    static const float rows[] = {1, 2, 3, 4};
    static const double split[] = {0.0, 0.25, 0.5, 0.4};
    call c = with_numbers(2, 1, 2, 2, 1);
    memcpy(c.m.rows, rows, sizeof rows);
    memcpy(c.m.draws, split, sizeof split);
    c.epochs = epochs, c.len.draws = draws;
    return c;
}

/* The start, the average, the draws of the split, and the 8 where one is missing. */
static void document_01(void) {
    static const float start[] = {1, 2, 3, 2, 1, 2, 3, 2}, average[] = {1, 2, 3, 4, 0, 0, 0, 0};
    static const uint8_t codes[] = {0, 1};
    EXPECT(trains_to(two_rows(0, 0), 0, start, codes));
    EXPECT(trains_to(two_rows(1, 4), 0, average, codes));
    EXPECT(trains_to(two_rows(2, 4), 4, average, codes));
    EXPECT(train_stopped(two_rows(2, 3), 8, (bergrosk_place){1, 0, 0, 2, 1, 3}));
    EXPECT(train_stopped(two_rows(2, 0), 8, (bergrosk_place){1, 0, 0, 2, 1, 2}));
}

/* Rows of two coordinates, the first 0: what stops the training is met in sub-space 1. */
static call column(const float *rows, size_t n, size_t epochs) {
    call c = with_numbers(2, 2, 1, n, 1);
    for (size_t i = 0; i < n; i++) {
        c.m.rows[2 * i] = 0, c.m.rows[2 * i + 1] = rows[i];
    }
    memset(c.m.draws, 0, sizeof c.m.draws);
    c.epochs = epochs, c.len.draws = ROOM;
    return c;
}

/* Centres that are not finite, at each step. */
static void not_finite(void) {
    static const float sum[] = {3e38f, 3e38f}, largest[] = {FLT_MAX};
    /* The second row is a split centre, and without it the sum of the others overflows. */
    static const float average[] = {2.4e38f, -0x1.e102d6p+124f, 1.4e38f, -3e38f, -0x1.692b88p+127f};
    EXPECT(train_stopped(column(sum, 2, 0), 9, (bergrosk_place){1, 0, 1, 0, 0, 0}));
    EXPECT(train_stopped(column(average, 5, 2), 9, (bergrosk_place){1, 0, 1, 1, 2, 0}));
    EXPECT(train_stopped(column(largest, 1, 2), 9, (bergrosk_place){1, 0, 1, 2, 1, 1}));
}

/* ---- search: four rows whose sums from the query (0, 0) are 4, 1, 4, 0.5 */

static call four_rows(size_t k) {
    static const float subs[] = {2, 1, -2, 0.5f, 0, 0, 0, 0.5f}, query[] = {0, 0};
    static const uint8_t codes[] = {0, 0, 1, 1, 2, 2, 3, 3};
    static const float rows[] = {1, 2, 3, 4, 5, 6, 7, 8};
    call c = with_numbers(2, 2, 2, 4, k);
    memcpy(c.m.rows, rows, sizeof rows);
    c.m.draws[0] = 0.5, c.len.draws = 1, c.epochs = 1;
    memcpy(c.m.subs, subs, sizeof subs);
    memcpy(c.m.query, query, sizeof query);
    memcpy(c.m.codes, codes, sizeof codes);
    return c;
}

/* Document 01's sums: k 3, k 5 with a blank, row 3 hidden; k 0, all hidden, no rows. */
static void searches(void) {
    static const uint32_t rows[] = {3, 1, 0, 2}, without_3[] = {1, 0, 2};
    static const float sums[] = {0.5f, 1, 4, 4}, sums_without_3[] = {1, 4, 4};
    EXPECT(finds(four_rows(3), 4, 3, rows, sums));
    EXPECT(finds(four_rows(5), 4, 4, rows, sums));
    EXPECT(finds(four_rows(0), 4, 0, NULL, NULL));
    call c = four_rows(3);
    c.m.mask[3] = 0;
    EXPECT(finds(c, 3, 3, without_3, sums_without_3));
    memset(c.m.mask, 0, sizeof c.m.mask);
    memset(c.m.codes, 255, sizeof c.m.codes);
    c.m.subs[2] = NAN;
    EXPECT(finds(c, 0, 0, NULL, NULL));
    c = with_numbers(2, 2, 2, 0, 3);
    c.m.query[0] = c.m.query[1] = 0;
    EXPECT(finds(c, 0, 0, NULL, NULL) && train_refused(c, 2));
}

/* A code of K, an entry and a sum that are not finite: each refuses, but not by a hidden row. */
static void refused_searches(void) {
    for (size_t at = 0; at < 8; at++) {
        call c = four_rows(3);
        c.m.codes[at] = 4;
        EXPECT_AT(at, search_refused(c, 10));
        c.m.subs[at] = 3e38f;
        EXPECT_AT(at, search_refused(c, 10));
        c.m.codes[at] = four_rows(3).m.codes[at];
        EXPECT_AT(at, search_refused(c, 11));
        c.len.found = c.len.sums = 0;
        EXPECT_AT(at, search_refused(c, 11));
        c = four_rows(3);
        c.m.codes[at] = 255, c.m.mask[at / 2] = 0;
        EXPECT_AT(at, search(&c).scored == 3);
    }
    call c = four_rows(3);
    c.m.subs[0] = c.m.subs[4] = 1.5e19f;
    EXPECT(search_refused(c, 11));
    c.m.mask[0] = 0;
    EXPECT(search(&c).scored == 3);
}

/* ---- the tests 1 to 7 */

/* Makes the test of this number fail, and no test of a lower number. */
static void spoil(call *c, uint32_t number) {
    switch (number) {
    case 1: c->sub_bits = 9; break;
    case 2: c->n = 0; break;
    case 3: c->n = MOST_ROWS + 1; break;
    case 4: c->len.codes++; break;
    case 5: c->len.found = c->len.sums = MOST_RESULTS + 1; break;
    case 6: c->m.rows[7] = c->m.query[1] = NAN; break;
    case 7: c->m.draws[0] = 1; break;
    case 10: c->m.codes[7] = 4; break;
    case 11: c->m.subs[0] = INFINITY; break;
    }
}

/* Of two faults at once the one with the lower number is answered. */
static void order_of_tests(void) {
    static const uint32_t searching[] = {1, 3, 4, 5, 6, 10, 11}, training[] = {1, 2, 3, 4, 6, 7};
    for (size_t i = 0; i < 7; i++) {
        for (size_t j = i; j < 7; j++) {
            call c = four_rows(3);
            spoil(&c, searching[j]), spoil(&c, searching[i]);
            EXPECT_AT(10 * i + j, search_refused(c, searching[i]));
        }
    }
    for (size_t i = 0; i < 6; i++) {
        for (size_t j = i; j < 6; j++) {
            call c = four_rows(3);
            spoil(&c, training[j]), spoil(&c, training[i]);
            EXPECT_AT(10 * i + j, train_refused(c, training[i]));
        }
    }
}

/* Each buffer in turn one short, one long, and empty. */
static void wrong_lengths(void) {
    call c = four_rows(3);
    lengths *l = &c.len;
    size_t *const training[] = {&l->rows, &l->subs, &l->codes, &l->work};
    size_t *const searching[] = {
        &l->query, &l->mask, &l->subs, &l->codes, &l->found, &l->sums, &l->table};
    const lengths right = c.len;
    EXPECT(search(&c).number == 0 && train(&c).number == 0);
    for (size_t i = 0; i < 4; i++) {
        const size_t wrong[] = {*training[i] - 1, *training[i] + 1, 0};
        for (size_t j = 0; j < 3; j++) {
            *training[i] = wrong[j];
            EXPECT_AT(10 * i + j, train_refused(c, 4));
            c.len = right;
        }
    }
    for (size_t i = 0; i < 7; i++) {
        const size_t wrong[] = {*searching[i] - 1, *searching[i] + 1, 0};
        for (size_t j = 0; j < 3; j++) {
            *searching[i] = wrong[j];
            EXPECT_AT(10 * i + j, search_refused(c, 4));
            c.len = right;
        }
    }
}

/* Each coordinate of rows and query not finite, each draw out of 0 <= draw < 1. */
static void wrong_contents(void) {
    const float odd[] = {NAN, INFINITY, -INFINITY};
    const double draw[] = {0, -0.0, 0x1.fffffffffffffp-1}, no_draw[] = {1, -DBL_MIN, NAN, 2, -1};
    for (size_t at = 0; at < 8; at++) {
        call c = four_rows(3);
        c.m.rows[at] = odd[at % 3], c.m.query[at % 2] = odd[at / 3];
        EXPECT_AT(at, train_refused(c, 6) && search_refused(c, 6));
    }
    for (size_t i = 0; i < 5; i++) {
        call c = four_rows(3);
        c.len.draws = 2, c.m.draws[i % 2] = no_draw[i], c.m.draws[1 - i % 2] = 0;
        EXPECT_AT(i, train_refused(c, 7));
    }
    for (size_t i = 0; i < 3; i++) {
        call c = four_rows(3);
        c.m.draws[0] = draw[i];
        EXPECT_AT(i, train(&c).number == 0);
    }
}

/* ---- bounds */

typedef struct {
    size_t d, n_sub, sub_bits;
} shape;

static void outside(void) {
    static const shape shapes[] = {{0, 1, 0}, {257, 1, 0}, {SIZE_MAX, 1, 0}, {1, 0, 0}, {1, 2, 0},
        {65, 65, 0}, {256, SIZE_MAX, 0}, {1, 1, 9}, {1, 1, 64}, {1, 1, SIZE_MAX}};
    for (size_t i = 0; i < sizeof shapes / sizeof *shapes; i++) {
        shape s = shapes[i];
        call c = four_rows(3);
        c.d = s.d, c.n_sub = s.n_sub, c.sub_bits = s.sub_bits;
        EXPECT_AT(i, no_lengths(bergrosk_plain_lengths(s.d, s.n_sub, s.sub_bits, 5), 1));
        EXPECT_AT(i, train_refused(c, 1) && search_refused(c, 1));
    }
    EXPECT(train_refused(two_rows(1001, 4), 1) && train_refused(two_rows(SIZE_MAX, 4), 1));
}

/* Buffers as long as any call at the bounds needs, and one row more. */
static struct {
    float rows[MOST_ROWS + 1], subs[65536], query[256], sums[MOST_RESULTS + 1], table[16384];
    uint32_t work[MOST_ROWS + 1 + 1024], found[MOST_RESULTS + 1];
    uint8_t codes[MOST_ROWS + 1], mask[MOST_ROWS + 1];
} big;

/* What both functions answer to n rows in an index of these numbers, of which C is D. */
typedef struct {
    bergrosk_train_answer trained;
    bergrosk_search_answer searched;
} answers;

static answers ask(
    shape s, size_t epochs, size_t n, size_t k, const double *draws, size_t n_draws) {
    answers a;
    a.trained = bergrosk_plain_train(s.d, s.n_sub, s.sub_bits, epochs, n, big.rows, n * s.d, draws,
        n_draws, big.subs, s.d << s.sub_bits, big.codes, n * s.n_sub, big.work, n + 1024);
    a.searched = bergrosk_plain_search(s.d, s.n_sub, s.sub_bits, n, big.query, s.d, big.mask, n,
        big.subs, s.d << s.sub_bits, big.codes, n * s.n_sub, big.found, k, big.sums, k, big.table,
        s.n_sub << s.sub_bits);
    return a;
}

/* Whether all is done, and the search scored every row and filled what there is to fill. */
static int all_done(answers a, size_t n, size_t k) {
    return a.trained.number == 0 && a.searched.number == 0 && a.searched.scored == n
        && a.searched.found == (n < k ? n : k);
}

static void inside(void) {
    static const shape shapes[] = {{1, 1, 0}, {256, 1, 0}, {64, 64, 0}, {256, 64, 8}, {1, 1, 8}};
    for (size_t i = 0; i < sizeof shapes / sizeof *shapes; i++) {
        EXPECT_AT(i, all_done(ask(shapes[i], 1, 2, 3, NULL, 0), 2, 3));
    }
    EXPECT(all_done(ask(shapes[0], 1000, 2, 3, NULL, 0), 2, 3));
}

/* The most rows, results and draws, and one more of each. */
static void most(void) {
    shape s = {1, 1, 1};
    double *draws = calloc(MOST_DRAWS + 1, sizeof *draws);
    if (draws == NULL) {
        EXPECT(!"memory for the draws");
        return;
    }
    answers a = ask(s, 2, MOST_ROWS, MOST_RESULTS, draws, MOST_DRAWS);
    EXPECT(all_done(a, MOST_ROWS, MOST_RESULTS) && big.found[0] == 0 && big.found[1] == 1);
    a = ask(s, 2, MOST_ROWS, MOST_RESULTS + 1, draws, MOST_DRAWS + 1);
    EXPECT(a.trained.number == 4 && a.searched.number == 5);
    a = ask(s, 2, MOST_ROWS + 1, MOST_RESULTS, draws, 0);
    EXPECT(a.trained.number == 3 && a.searched.number == 3);
    free(draws);
}

static void bounds(void) {
    for (size_t i = 0; i < sizeof big.rows / sizeof *big.rows; i++) {
        big.rows[i] = (float)(i % 1000), big.mask[i] = 1;
    }
    outside();
    inside();
    most();
}

int main(void) {
    version();
    ranges();
    numbers();
    document_01();
    not_finite();
    searches();
    refused_searches();
    order_of_tests();
    wrong_lengths();
    wrong_contents();
    bounds();
    return report("plain");
}
