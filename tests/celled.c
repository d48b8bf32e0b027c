/*
 * The celled index as C sees it: trainings and searches worked by hand, each refusal with what it
 * leaves in every buffer, damage of every kind, and each bound from both sides.
 */
#include "bergrosk.h"
#include "expect.h"

#include <float.h>
#include <math.h>
#include <stdlib.h>

LAYOUT(buffers_are_72, sizeof(bergrosk_celled_buffers) == 72);
LAYOUT(rows_are_aligned, offsetof(bergrosk_celled_buffers, rows) == 8);
LAYOUT(table_is_last, offsetof(bergrosk_celled_buffers, table) == 64);
LAYOUT(params_are_40, sizeof(bergrosk_celled_params) == 40);

enum { ROOM = 64, MOST_ROWS = 100001, MOST_DRAWS = 16777216, MOST_RESULTS = 4096 };

/* ---- a call: numbers, lengths, and the buffers themselves */

/* Every buffer that a celled function is lent, each with room to spare. */
typedef struct {
    float rows[ROOM];
    double draws[ROOM];
    float coarse[ROOM];
    uint32_t starts[ROOM];
    uint32_t members[ROOM];
    float subs[ROOM];
    uint8_t codes[ROOM];
    uint32_t work[1024 + ROOM];
    float query[ROOM];
    uint8_t mask[ROOM];
    uint32_t found[MOST_RESULTS + ROOM];
    float sums[MOST_RESULTS + ROOM];
    float table[ROOM];
} memory;

typedef struct {
    size_t rows, draws, coarse, starts, members, subs, codes, work, query, mask, found, sums, table;
} lengths;

/* What a celled function is called with. */
typedef struct {
    size_t d, n_sub, sub_bits, cells, probes, epochs, n;
    lengths len;
    memory m;
} call;

/* A call with buffers of the right lengths, full of junk; no epochs, no draws, all rows visible. */
static call with_numbers(
    size_t d, size_t n_sub, size_t sub_bits, size_t cells, size_t probes, size_t n, size_t k) {
    bergrosk_celled_buffers b = bergrosk_celled_lengths(d, n_sub, sub_bits, cells, probes, n);
    lengths len = {
        b.rows, 0, b.coarse, b.starts, b.members, b.subs, b.codes, b.work, d, n, k, k, b.table};
    call c;
    memset(&c, 7, sizeof c);
    c.d = d, c.n_sub = n_sub, c.sub_bits = sub_bits, c.cells = cells, c.probes = probes;
    c.epochs = 0, c.n = n, c.len = len;
    return c;
}

/* A buffer and its length, as the functions take them; an empty one is NULL. */
#define LENT(name) (c->len.name == 0 ? NULL : c->m.name), c->len.name

static bergrosk_train_answer train(call *c) {
    return bergrosk_celled_train(c->d, c->n_sub, c->sub_bits, c->cells, c->probes, c->epochs, c->n,
        LENT(rows), LENT(draws), LENT(coarse), LENT(starts), LENT(members), LENT(subs),
        LENT(codes), LENT(work));
}

static uint32_t check(call *c) {
    return bergrosk_celled_check(c->d, c->n_sub, c->sub_bits, c->cells, c->probes, c->n,
        LENT(coarse), LENT(starts), LENT(members), LENT(subs), LENT(codes), LENT(work));
}

static bergrosk_search_answer search(call *c) {
    return bergrosk_celled_search(c->d, c->n_sub, c->sub_bits, c->cells, c->probes, c->n,
        LENT(query), LENT(mask), LENT(coarse), LENT(starts), LENT(members), LENT(subs), LENT(codes),
        LENT(found), LENT(sums), LENT(table));
}

/* ---- what a call must answer and leave; each works on a copy, and compares every buffer */

#define SIZE(m, len, name) ((len)->name * sizeof *(m)->name)
#define ZERO(m, len, name) memset((m)->name, 0, SIZE(m, len, name))
#define COPY(m, len, name, from) memcpy((m)->name, from, SIZE(m, len, name))

static int same(const memory *a, const memory *b) {
    return memcmp(a, b, sizeof *a) == 0;
}

/* A training refused by a test: nothing is changed, no place is named. */
static int train_refused(call c, uint32_t number) {
    memory before = c.m;
    bergrosk_train_answer a = train(&c);
    return a.number == number && a.used == 0 && all_bytes(&a.place, sizeof a.place, 0)
        && same(&c.m, &before);
}

/* A training that an 8 or 9 stops at this place: outputs and work are zero. */
static int train_stopped(call c, uint32_t number, bergrosk_place place) {
    memory left = c.m;
    ZERO(&left, &c.len, coarse);
    ZERO(&left, &c.len, starts);
    ZERO(&left, &c.len, members);
    ZERO(&left, &c.len, subs);
    ZERO(&left, &c.len, codes);
    ZERO(&left, &c.len, work);
    bergrosk_train_answer a = train(&c);
    return a.number == number && a.used == 0 && memcmp(&a.place, &place, sizeof place) == 0
        && same(&c.m, &left);
}

/* What a training that succeeds writes. */
typedef struct {
    size_t used;
    const float *coarse;
    const uint32_t *starts, *members;
    const float *subs;
    const uint8_t *codes;
} index_of;

/* A training that succeeds: the outputs, and work zero. */
static int trains_to(call c, index_of right) {
    memory left = c.m;
    COPY(&left, &c.len, coarse, right.coarse);
    COPY(&left, &c.len, starts, right.starts);
    COPY(&left, &c.len, members, right.members);
    COPY(&left, &c.len, subs, right.subs);
    COPY(&left, &c.len, codes, right.codes);
    ZERO(&left, &c.len, work);
    bergrosk_train_answer a = train(&c);
    return a.number == 0 && a.used == right.used && all_bytes(&a.place, sizeof a.place, 0)
        && same(&c.m, &left);
}

/* A check: 0 and 10 leave work zero, the other answers leave it alone. */
static int checked(call c, uint32_t number) {
    memory left = c.m;
    if (number == 0 || number == 10) {
        ZERO(&left, &c.len, work);
    }
    return check(&c) == number && same(&c.m, &left);
}

/* What a search leaves that is done: these results, then blanks, and the table zero. */
static void answered(
    memory *m, const lengths *len, size_t found, const uint32_t *rows, const float *sums) {
    for (size_t i = 0; i < len->found; i++) {
        m->found[i] = i < found ? rows[i] : BERGROSK_BLANK;
        m->sums[i] = i < found ? sums[i] : 0;
    }
    ZERO(m, len, table);
}

/* A search that is refused: from 10 on the results are blank and the table zero. */
static int search_refused(call c, uint32_t number) {
    memory left = c.m;
    if (number >= 10) {
        answered(&left, &c.len, 0, NULL, NULL);
    }
    bergrosk_search_answer a = search(&c);
    return a.number == number && a.found == 0 && a.scored == 0 && same(&c.m, &left);
}

/* A search that finds these rows with these sums. */
static int finds(call c, size_t scored, size_t found, const uint32_t *rows, const float *sums) {
    memory left = c.m;
    answered(&left, &c.len, found, rows, sums);
    bergrosk_search_answer a = search(&c);
    return a.number == 0 && a.found == found && a.scored == scored && same(&c.m, &left);
}

/* ---- numbers: lengths, defaults, version */

static int no_lengths(bergrosk_celled_buffers b, uint32_t number) {
    return b.number == number && b.rows == 0 && b.coarse == 0 && b.starts == 0 && b.members == 0
        && b.subs == 0 && b.codes == 0 && b.work == 0 && b.table == 0;
}

static void numbers(void) {
    bergrosk_celled_buffers b = bergrosk_celled_lengths(60, 25, 4, 256, 8, 100001);
    EXPECT(b.number == 0 && b.rows == 6000060 && b.coarse == 256 * 60 && b.starts == 257);
    EXPECT(b.members == 100001 && b.subs == 256 * 16 * 50 && b.codes == 2500025);
    EXPECT(b.work == 101025 && b.table == 400);
    b = bergrosk_celled_lengths(256, 64, 8, 1024, 1024, 0);
    EXPECT(b.number == 0 && b.rows == 0 && b.coarse == 262144 && b.starts == 1025);
    EXPECT(b.members == 0 && b.subs == 67108864 && b.codes == 0);
    EXPECT(b.work == 1024 && b.table == 16384);
    EXPECT(no_lengths(bergrosk_celled_lengths(60, 25, 4, 256, 8, 100002), 3));
    EXPECT(no_lengths(bergrosk_celled_lengths(60, 25, 4, 256, 8, SIZE_MAX), 3));
    EXPECT(no_lengths(bergrosk_celled_lengths(60, 25, 4, 256, 257, SIZE_MAX), 1));
    bergrosk_celled_params p = bergrosk_celled_defaults();
    EXPECT(p.n_sub == 25 && p.sub_bits == 4 && p.cells == 256 && p.probes == 8);
    EXPECT(p.epochs == 100);
}

/* ---- training */

/* Rows 5, 1, 7, 1 in two cells of two centres, which the start already parts. */
static call two_cells(void) {
    static const float rows[] = {5, 1, 7, 1};
    call c = with_numbers(1, 1, 1, 2, 2, 4, 4);
    memcpy(c.m.rows, rows, sizeof rows);
    return c;
}

/* Document 01's rows (1, 2), (3, 4) in four cells, with the draws of its split, and four more. */
static call four_cells(size_t n_sub, size_t sub_bits, size_t epochs, size_t draws) {
    static const float rows[] = {1, 2, 3, 4};
    static const double split[] = {0.0, 0.25, 0.5, 0.4, 0.9, 0.9, 0.9, 0.9};
    call c = with_numbers(2, n_sub, sub_bits, 4, 1, 2, 1);
    memcpy(c.m.rows, rows, sizeof rows);
    memcpy(c.m.draws, split, sizeof split);
    c.epochs = epochs, c.len.draws = draws;
    return c;
}

static void trainings(void) {
    static const float coarse[] = {2.5f, 4.5f}, subs[] = {-2.5f, -0.5f, 0.5f, 2.5f};
    static const uint32_t starts[] = {0, 2, 4}, members[] = {1, 3, 0, 2};
    static const uint8_t codes[] = {0, 0, 1, 0};
    EXPECT(trains_to(two_cells(), (index_of){0, coarse, starts, members, subs, codes}));
}

/* Without epochs, with one, and with the split of document 01; two cells stay empty. */
static void document_01(void) {
    static const float start[] = {1, 2, 3, 2, 1, 2, 3, 2}, average[] = {1, 2, 3, 4, 0, 0, 0, 0};
    static const float less_one[] = {-1, -1, -1, 1, 0, 0, 0, 0}, zeros[ROOM] = {0};
    static const uint32_t starts[] = {0, 1, 2, 2, 2}, members[] = {0, 1};
    static const uint8_t codes[] = {0, 0, 0, 0};
    index_of right = {0, start, starts, members, less_one, codes};
    EXPECT(trains_to(four_cells(1, 0, 0, 0), right));
    EXPECT(trains_to(four_cells(2, 0, 0, 8), right));
    right.coarse = average, right.subs = zeros;
    EXPECT(trains_to(four_cells(1, 0, 1, 0), right));
    right.used = 4;
    EXPECT(trains_to(four_cells(1, 0, 2, 4), right));
    right.used = 8;
    EXPECT(trains_to(four_cells(2, 1, 2, 8), right));
}

/* Draws that run out: in the coarse split, in the first cell, in the last sub-space of the next. */
static void no_draws(void) {
    EXPECT(train_stopped(four_cells(2, 1, 2, 3), 8, (bergrosk_place){0, 0, 0, 2, 1, 3}));
    EXPECT(train_stopped(four_cells(2, 1, 2, 4), 8, (bergrosk_place){1, 0, 0, 2, 1, 1}));
    EXPECT(train_stopped(four_cells(2, 1, 2, 7), 8, (bergrosk_place){1, 1, 1, 2, 1, 1}));
}

/* A training of some rows of one coordinate, with draws of 0. */
static call column(const float *rows, size_t n, size_t cells, size_t epochs) {
    call c = with_numbers(1, 1, 0, cells, 1, n, 1);
    memcpy(c.m.rows, rows, n * sizeof *rows);
    memset(c.m.draws, 0, sizeof c.m.draws);
    c.epochs = epochs, c.len.draws = ROOM;
    return c;
}

/* Centres that are not finite, at each step of the coarse k-means, and in a cell. */
static void not_finite(void) {
    static const float sum[] = {3e38f, 3e38f}, largest[] = {FLT_MAX};
    static const float residual[] = {3e38f, -3e38f, -3e38f};
    /* The second row is a split centre, and without it the sum of the others overflows. */
    static const float average[] = {2.4e38f, -0x1.e102d6p+124f, 1.4e38f, -3e38f, -0x1.692b88p+127f};
    EXPECT(train_stopped(column(sum, 2, 2, 0), 9, (bergrosk_place){0, 0, 0, 0, 0, 0}));
    EXPECT(train_stopped(column(average, 5, 2, 2), 9, (bergrosk_place){0, 0, 0, 1, 2, 0}));
    EXPECT(train_stopped(column(largest, 1, 2, 2), 9, (bergrosk_place){0, 0, 0, 2, 1, 1}));
    EXPECT(train_stopped(column(residual, 3, 1, 0), 9, (bergrosk_place){1, 0, 0, 0, 0, 0}));
}

/* ---- search: an index of five rows in three cells, made by hand */

/*
 * D is 3, and the two ranges cover 2 coordinates. From the query (1, 0, 0) the cells 0, 2, 1 are at
 * the distances 1, 17, 49, and the sums of their rows are
 *
 *   cell 0    row 1: 4    row 3: 8
 *   cell 2    row 2: 2
 *   cell 1    row 0: 8    row 4: 0
 */
static call five_rows(size_t probes, size_t k) {
    static const float coarse[] = {0, 0, 0, 8, 0, 0, 0, 0, 4}, query[] = {1, 0, 0};
    static const uint32_t starts[] = {0, 2, 4, 5}, members[] = {1, 3, 0, 4, 2};
    static const float subs[] = {1, 3, 0, 2, -7, -5, 0, 2, 0, 2, 1, 3};
    static const uint8_t codes[] = {1, 1, 0, 1, 1, 0, 1, 1, 0, 0};
    call c = with_numbers(3, 2, 1, 3, probes, 5, k);
    for (size_t i = 0; i < c.len.rows; i++) {
        c.m.rows[i] = (float)i;
    }
    c.m.draws[0] = 0.5, c.len.draws = 1, c.epochs = 1;
    memcpy(c.m.coarse, coarse, sizeof coarse);
    memcpy(c.m.query, query, sizeof query);
    memcpy(c.m.starts, starts, sizeof starts);
    memcpy(c.m.members, members, sizeof members);
    memcpy(c.m.subs, subs, sizeof subs);
    memcpy(c.m.codes, codes, sizeof codes);
    return c;
}

/* Probes 1, 2 and 3; a tie of two cells' rows; blanks; k 0. */
static void searches(void) {
    static const uint32_t one[] = {1, 3}, two[] = {2, 1, 3}, three[] = {4, 2, 1, 0, 3};
    static const float one_sums[] = {4, 8}, two_sums[] = {2, 4, 8}, three_sums[] = {0, 2, 4, 8, 8};
    EXPECT(checked(five_rows(1, 1), 0));
    EXPECT(finds(five_rows(1, 5), 2, 2, one, one_sums));
    EXPECT(finds(five_rows(1, 1), 2, 1, one, one_sums));
    EXPECT(finds(five_rows(2, 5), 3, 3, two, two_sums));
    EXPECT(finds(five_rows(2, 3), 3, 3, two, two_sums));
    EXPECT(finds(five_rows(2, 2), 3, 2, two, two_sums));
    EXPECT(finds(five_rows(3, 5), 5, 5, three, three_sums));
    EXPECT(finds(five_rows(3, 4), 5, 4, three, three_sums));
    EXPECT(finds(five_rows(3, 6), 5, 5, three, three_sums));
    EXPECT(finds(five_rows(3, 0), 5, 0, NULL, NULL));
}

/* Cells at one distance are probed by number, and one without rows uses up a probe. */
static void probed_cells(void) {
    static const uint32_t first[] = {1, 3};
    static const float sums[] = {4, 8};
    call c = five_rows(1, 5);
    memcpy(c.m.coarse + 6, c.m.coarse, 3 * sizeof *c.m.coarse);
    EXPECT(finds(c, 2, 2, first, sums));

    static const uint32_t starts[] = {0, 0, 4, 5}, members[] = {0, 1, 3, 4, 2}, only[] = {2};
    static const float only_sums[] = {2};
    c = five_rows(1, 5);
    memcpy(c.m.starts, starts, sizeof starts);
    memcpy(c.m.members, members, sizeof members);
    c.m.subs[0] = NAN;
    EXPECT(checked(c, 0) && finds(c, 0, 0, NULL, NULL));
    c.probes = 2;
    EXPECT(finds(c, 1, 1, only, only_sums));
}

/* Hidden rows: one, all, and one whose cell and codes are others. */
static void hidden_rows(void) {
    static const uint32_t rows[] = {2, 1}, all_cells[] = {4, 2, 1, 0};
    static const float sums[] = {2, 4}, all_sums[] = {0, 2, 4, 8};
    call c = five_rows(2, 5);
    c.m.mask[3] = 0;
    EXPECT(finds(c, 2, 2, rows, sums));
    c.m.codes[6] = 255;
    EXPECT(finds(c, 2, 2, rows, sums) && checked(c, 10));

    static const uint32_t starts[] = {0, 1, 4, 5}, members[] = {1, 0, 3, 4, 2};
    memcpy(c.m.starts, starts, sizeof starts);
    memcpy(c.m.members, members, sizeof members);
    c.m.codes[6] = 0;
    EXPECT(checked(c, 0) && finds(c, 2, 2, rows, sums));
    c.probes = 3;
    EXPECT(finds(c, 4, 4, all_cells, all_sums));

    c = five_rows(3, 5);
    memset(c.m.mask, 0, c.len.mask);
    memset(c.m.codes, 255, c.len.codes);
    c.m.subs[0] = NAN, c.m.subs[11] = INFINITY;
    EXPECT(finds(c, 0, 0, NULL, NULL));
    c.m.members[1] = 1;
    EXPECT(search_refused(c, 10));
}

/* An index without rows: a search is done, a training is not. */
static void no_rows(void) {
    call c = with_numbers(3, 2, 1, 3, 2, 0, 4);
    memset(c.m.starts, 0, c.len.starts * sizeof *c.m.starts);
    for (size_t i = 0; i < c.len.coarse; i++) {
        c.m.coarse[i] = c.m.query[i] = (float)i;
    }
    EXPECT(checked(c, 0) && finds(c, 0, 0, NULL, NULL) && train_refused(c, 2));
    c.m.coarse[8] = 3e38f;
    EXPECT(checked(c, 0) && search_refused(c, 11));
    c.m.starts[1] = 1;
    EXPECT(checked(c, 10) && search_refused(c, 10));
}

/* ---- damage */

static void damaged_starts(void) {
    static const uint32_t damaged[][4] = {
        {1, 2, 4, 5}, {0, 2, 4, 4}, {0, 2, 4, 6}, {0, 2, 1, 5}, {0, 6, 4, 5}, {0, 0, 0, 0},
        {5, 4, 2, 0}, {UINT32_MAX, 2, 4, 5}, {0, UINT32_MAX, 4, 5}, {0, 2, 4, UINT32_MAX}};
    for (size_t i = 0; i < sizeof damaged / sizeof *damaged; i++) {
        call c = five_rows(1, 2);
        memcpy(c.m.starts, damaged[i], sizeof *damaged);
        EXPECT_AT(i, checked(c, 10) && search_refused(c, 10));
        c.len.found = c.len.sums = 0;
        EXPECT_AT(i, search_refused(c, 10));
    }
}

/* Damage to a list is seen by the check always, and by a search that probes the cell. */
static void damaged_members(void) {
    static const uint32_t damaged[][5] = {
        {1, 5, 0, 4, 2}, {1, 1, 0, 4, 2}, {3, 1, 0, 4, 2}, {1, UINT32_MAX, 0, 4, 2}};
    for (size_t i = 0; i < sizeof damaged / sizeof *damaged; i++) {
        call c = five_rows(1, 2);
        memcpy(c.m.members, damaged[i], sizeof *damaged);
        EXPECT_AT(i, checked(c, 10) && search_refused(c, 10));
        c.m.mask[1] = c.m.mask[3] = 0;
        EXPECT_AT(i, search_refused(c, 10));
        c.m.query[0] = 8; /* now cell 1 is the nearest */
        EXPECT_AT(i, search(&c).number == 0);
        c.probes = 3;
        EXPECT_AT(i, search_refused(c, 10));
    }
}

/* A row in two cells and another in none: the check refuses, a search finds it in each. */
static void row_in_two_cells(void) {
    static const uint32_t rows[] = {1, 3, 3};
    static const float sums[] = {4, 8, 10};
    call c = five_rows(2, 5);
    c.m.members[4] = 3;
    EXPECT(checked(c, 10) && finds(c, 3, 3, rows, sums));
}

/* A code of K: of a visible row, of a hidden one, in a cell that is not probed. */
static void damaged_codes(void) {
    for (size_t at = 0; at < 10; at++) {
        size_t row = at / 2, in_cell_0 = row == 1 || row == 3;
        call c = five_rows(3, 2);
        c.m.codes[at] = 2;
        EXPECT_AT(at, checked(c, 10) && search_refused(c, 10));
        c.m.mask[row] = 0;
        EXPECT_AT(at, checked(c, 10) && search(&c).scored == 4);
        c = five_rows(1, 2);
        c.m.codes[at] = 255;
        EXPECT_AT(at, search(&c).number == (in_cell_0 ? 10 : 0));
    }
}

/* ---- distances that are not finite */

/* A coarse distance counts wherever its cell is; starts come before it, lists after it. */
static void far_cells(void) {
    for (size_t at = 0; at < 9; at++) {
        call c = five_rows(1, 2);
        c.m.coarse[at] = at % 2 == 0 ? 3e38f : NAN;
        EXPECT_AT(at, search_refused(c, 11) && checked(c, 0));
        c.m.members[0] = 5;
        EXPECT_AT(at, search_refused(c, 11));
        c.m.starts[0] = 1;
        EXPECT_AT(at, search_refused(c, 10));
    }
}

/* An entry counts if its cell is probed and has a visible row, used or not; lists come first. */
static void far_centres(void) {
    for (size_t at = 0; at < 12; at++) {
        size_t in_cell_0 = at < 4;
        call c = five_rows(3, 2);
        c.m.subs[at] = at % 2 == 0 ? -3e38f : INFINITY;
        EXPECT_AT(at, search_refused(c, 11) && checked(c, 0));
        c.m.members[4] = 5;
        EXPECT_AT(at, search_refused(c, 10));
        c.m.members[4] = 2;
        c.probes = 1;
        EXPECT_AT(at, search(&c).number == (in_cell_0 ? 11 : 0));
        c.m.mask[1] = c.m.mask[3] = 0;
        EXPECT_AT(at, finds(c, 0, 0, NULL, NULL));
    }
}

/* A sum of finite entries overflows: of a visible row, and of a hidden one. */
static void far_rows(void) {
    static const uint32_t row[] = {3};
    static const float sum[] = {1.5e19f * 1.5e19f};
    call c = five_rows(1, 2);
    c.m.subs[0] = -1.5e19f, c.m.subs[3] = 1.5e19f;
    EXPECT(search_refused(c, 11));
    c.m.mask[1] = 0;
    EXPECT(finds(c, 1, 1, row, sum));
}

/* ---- the tests 1 to 7 */

/* Makes the test of this number fail, and no test of a lower number. */
static void spoil(call *c, uint32_t number) {
    switch (number) {
    case 1: c->probes = c->cells + 1; break;
    case 2: c->n = 0; break;
    case 3: c->n = MOST_ROWS + 1; break;
    case 4: c->len.codes++; break;
    case 5: c->len.found = c->len.sums = MOST_RESULTS + 1; break;
    case 6: c->m.rows[14] = c->m.query[2] = NAN; break;
    case 7: c->m.draws[0] = 1; break;
    case 10: c->m.starts[0] = 1; break;
    case 11: c->m.coarse[8] = INFINITY; break;
    }
}

/* Of two faults at once the one with the lower number is answered. */
static void order_of_tests(void) {
    static const uint32_t searching[] = {1, 3, 4, 5, 6, 10, 11};
    static const uint32_t training[] = {1, 2, 3, 4, 6, 7}, checking[] = {1, 3, 4, 10};
    for (size_t i = 0; i < 7; i++) {
        for (size_t j = i; j < 7; j++) {
            call c = five_rows(2, 3);
            spoil(&c, searching[j]), spoil(&c, searching[i]);
            EXPECT_AT(10 * i + j, search_refused(c, searching[i]));
        }
    }
    for (size_t i = 0; i < 6; i++) {
        for (size_t j = i; j < 6; j++) {
            call c = five_rows(2, 3);
            spoil(&c, training[j]), spoil(&c, training[i]);
            EXPECT_AT(10 * i + j, train_refused(c, training[i]));
        }
    }
    for (size_t i = 0; i < 4; i++) {
        for (size_t j = i; j < 4; j++) {
            call c = five_rows(2, 3);
            spoil(&c, checking[j]), spoil(&c, checking[i]);
            EXPECT_AT(10 * i + j, checked(c, checking[i]));
        }
    }
}

/* Each buffer in turn one short, one long, and empty. */
static void wrong_lengths(void) {
    call c = five_rows(2, 3);
    lengths *l = &c.len;
    size_t *const training[] = {
        &l->rows, &l->coarse, &l->starts, &l->members, &l->subs, &l->codes, &l->work};
    size_t *const searching[] = {&l->query, &l->mask, &l->coarse, &l->starts, &l->members, &l->subs,
        &l->codes, &l->found, &l->sums, &l->table};
    const lengths right = c.len;
    EXPECT(train(&c).number == 0 && check(&c) == 0 && search(&c).number == 0);
    for (size_t i = 0; i < 7; i++) {
        const size_t wrong[] = {*training[i] - 1, *training[i] + 1, 0};
        for (size_t j = 0; j < 3; j++) {
            *training[i] = wrong[j];
            EXPECT_AT(10 * i + j, train_refused(c, 4) && (i == 0 || checked(c, 4)));
            c.len = right;
        }
    }
    for (size_t i = 0; i < 10; i++) {
        const size_t wrong[] = {*searching[i] - 1, *searching[i] + 1, 0};
        for (size_t j = 0; j < 3; j++) {
            *searching[i] = wrong[j];
            EXPECT_AT(10 * i + j, search_refused(c, 4));
            c.len = right;
        }
    }
}

/* Each coordinate of rows and query not finite, each draw out of 0 <= draw < 1. */
static void wrong_contents(void) {
    const float odd[] = {NAN, INFINITY, -INFINITY};
    const double draw[] = {0, -0.0, 0x1.fffffffffffffp-1}, no_draw[] = {1, -DBL_MIN, NAN, 2, -1};
    for (size_t at = 0; at < 15; at++) {
        call c = five_rows(2, 3);
        c.m.rows[at] = odd[at % 3], c.m.query[at % 3] = odd[at / 5];
        EXPECT_AT(at, train_refused(c, 6) && search_refused(c, 6) && checked(c, 0));
    }
    for (size_t i = 0; i < 5; i++) {
        call c = five_rows(2, 3);
        c.len.draws = 2, c.m.draws[i % 2] = no_draw[i], c.m.draws[1 - i % 2] = 0;
        EXPECT_AT(i, train_refused(c, 7));
    }
    for (size_t i = 0; i < 3; i++) {
        call c = five_rows(2, 3);
        c.m.draws[0] = draw[i];
        EXPECT_AT(i, train(&c).number == 0);
    }
}

/* ---- bounds */

typedef struct {
    size_t d, n_sub, sub_bits, cells, probes;
} shape;

static void outside(void) {
    static const shape shapes[] = {
        {0, 1, 0, 1, 1}, {257, 1, 0, 1, 1}, {SIZE_MAX, 1, 0, 1, 1},
        {1, 0, 0, 1, 1}, {1, 2, 0, 1, 1}, {65, 65, 0, 1, 1}, {256, SIZE_MAX, 0, 1, 1},
        {1, 1, 9, 1, 1}, {1, 1, 64, 1, 1}, {1, 1, SIZE_MAX, 1, 1},
        {1, 1, 0, 0, 0}, {1, 1, 0, 0, 1}, {1, 1, 0, 1025, 1}, {1, 1, 0, SIZE_MAX, 1},
        {1, 1, 0, 1, 0}, {1, 1, 0, 1, 2}, {1, 1, 0, 1024, 1025}, {1, 1, 0, 1, SIZE_MAX}};
    for (size_t i = 0; i < sizeof shapes / sizeof *shapes; i++) {
        shape s = shapes[i];
        call c = five_rows(2, 3);
        c.d = s.d, c.n_sub = s.n_sub, c.sub_bits = s.sub_bits;
        c.cells = s.cells, c.probes = s.probes;
        EXPECT_AT(i, no_lengths(
            bergrosk_celled_lengths(s.d, s.n_sub, s.sub_bits, s.cells, s.probes, 5), 1));
        EXPECT_AT(i, train_refused(c, 1) && checked(c, 1) && search_refused(c, 1));
    }
    static const float rows[] = {1, 2};
    EXPECT(train_refused(column(rows, 2, 1, 1001), 1));
    EXPECT(train_refused(column(rows, 2, 1, SIZE_MAX), 1));
}

/* Buffers as long as any call at the bounds needs, and one row more. */
static struct {
    float rows[MOST_ROWS + 1], coarse[1024], subs[65536], query[256], table[16384];
    float sums[MOST_RESULTS + 1];
    uint32_t starts[1025], members[MOST_ROWS + 1], work[MOST_ROWS + 1 + 1024];
    uint32_t found[MOST_RESULTS + 1];
    uint8_t codes[MOST_ROWS + 1], mask[MOST_ROWS + 1];
} big;

/* What the functions answer to n rows in an index of these numbers, of which C is D. */
typedef struct {
    bergrosk_train_answer trained;
    uint32_t checked;
    bergrosk_search_answer searched;
} answers;

static answers ask(shape s, size_t n, size_t k, const double *draws, size_t n_draws) {
    const size_t subs = (s.cells * s.d) << s.sub_bits, codes = n * s.n_sub;
    answers a;
    a.trained = bergrosk_celled_train(s.d, s.n_sub, s.sub_bits, s.cells, s.probes, 1, n, big.rows,
        n * s.d, draws, n_draws, big.coarse, s.cells * s.d, big.starts, s.cells + 1, big.members, n,
        big.subs, subs, big.codes, codes, big.work, n + 1024);
    a.checked = bergrosk_celled_check(s.d, s.n_sub, s.sub_bits, s.cells, s.probes, n, big.coarse,
        s.cells * s.d, big.starts, s.cells + 1, big.members, n, big.subs, subs, big.codes, codes,
        big.work, n + 1024);
    a.searched = bergrosk_celled_search(s.d, s.n_sub, s.sub_bits, s.cells, s.probes, n, big.query,
        s.d, big.mask, n, big.coarse, s.cells * s.d, big.starts, s.cells + 1, big.members, n,
        big.subs, subs, big.codes, codes, big.found, k, big.sums, k, big.table,
        s.n_sub << s.sub_bits);
    return a;
}

/* Whether all is done, and the search scored every row and filled what there is to fill. */
static int all_done(answers a, size_t n, size_t k) {
    return a.trained.number == 0 && a.checked == 0 && a.searched.number == 0
        && a.searched.scored == n && a.searched.found == (n < k ? n : k);
}

static void inside(void) {
    static const shape shapes[] = {{1, 1, 0, 1, 1}, {256, 1, 0, 1, 1}, {256, 64, 8, 1, 1},
        {64, 64, 0, 16, 16}, {1, 1, 6, 1024, 1024}, {1, 1, 0, 1024, 1024}};
    for (size_t i = 0; i < sizeof shapes / sizeof *shapes; i++) {
        EXPECT_AT(i, all_done(ask(shapes[i], 2, 3, NULL, 0), 2, 3));
    }
    shape one_probe = {1, 1, 0, 1024, 1};
    answers a = ask(one_probe, 2, 3, NULL, 0);
    EXPECT(a.trained.number == 0 && a.checked == 0 && a.searched.number == 0);
    static const float rows[] = {1, 2};
    call c = column(rows, 2, 1, 1000);
    EXPECT(train(&c).number == 0 && checked(c, 0));
}

/* Codes of 8 bits: 255 is a code like any other. */
static void code_255(void) {
    shape s = {1, 1, 8, 1, 1};
    EXPECT(all_done(ask(s, 1, 1, NULL, 0), 1, 1));
    big.codes[0] = 255;
    bergrosk_search_answer a = bergrosk_celled_search(1, 1, 8, 1, 1, 1, big.query, 1, big.mask, 1,
        big.coarse, 1, big.starts, 2, big.members, 1, big.subs, 256, big.codes, 1, big.found, 1,
        big.sums, 1, big.table, 256);
    EXPECT(a.number == 0 && a.scored == 1);
}

/* The most rows, results and draws, and one more of each. */
static void most(void) {
    shape s = {1, 1, 1, 2, 2};
    double *draws = calloc(MOST_DRAWS + 1, sizeof *draws);
    if (draws == NULL) {
        EXPECT(!"memory for the draws");
        return;
    }
    EXPECT(all_done(ask(s, MOST_ROWS, MOST_RESULTS, draws, MOST_DRAWS), MOST_ROWS, MOST_RESULTS));
    EXPECT(big.found[0] == 0 && big.found[1] == 1 && big.sums[0] == big.sums[1]);
    answers a = ask(s, MOST_ROWS, MOST_RESULTS + 1, draws, MOST_DRAWS + 1);
    EXPECT(a.trained.number == 4 && a.checked == 0 && a.searched.number == 5);
    a = ask(s, MOST_ROWS + 1, MOST_RESULTS, draws, 0);
    EXPECT(a.trained.number == 3 && a.checked == 3 && a.searched.number == 3);
    free(draws);
}

static void bounds(void) {
    for (size_t i = 0; i < sizeof big.rows / sizeof *big.rows; i++) {
        big.rows[i] = (float)(i % 1000), big.mask[i] = 1;
    }
    outside();
    inside();
    code_255();
    most();
}

int main(void) {
    numbers();
    trainings();
    document_01();
    no_draws();
    not_finite();
    searches();
    probed_cells();
    hidden_rows();
    no_rows();
    damaged_starts();
    damaged_members();
    row_in_two_cells();
    damaged_codes();
    far_cells();
    far_centres();
    far_rows();
    order_of_tests();
    wrong_lengths();
    wrong_contents();
    bounds();
    return report("celled");
}
