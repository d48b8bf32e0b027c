/*
 * Bergrosk: a vector index (product quantization) of which every answer is proved.
 *
 * A plain index codes every row, and a search scores all of them. A celled index first parts the
 * rows among cells, codes each row by its difference from the centre of its cell, and a search
 * scores the rows of the few cells that are nearest to the query.
 *
 * Build the archive with tests/prove and link target/staticlib/libbergrosk.a. It allocates nothing,
 * keeps no state, calls nothing but memset, and can be used from any number of threads at once, each
 * with its own buffers to be written. docs/SPECIFICATION.md says in words what each function does,
 * and README.md what is proved of it and what is not.
 *
 * Buffers. A buffer is a pointer and a length in elements, and must be exactly as long as stated:
 * bergrosk_plain_lengths and bergrosk_celled_lengths work the lengths out. The caller owes that
 * - the memory is there, as much as the length says, aligned as the type asks; where the length is
 *   0 the pointer may be NULL;
 * - a buffer to be written overlaps no other buffer of the same call: those that are only read may;
 * - the floating-point environment is the one that a C program starts with: rounding to nearest,
 *   subnormal numbers kept. bergrosk_floats_ok tells.
 * Nothing else is asked: any numbers, any lengths and any contents are safe. NaN, infinities, row
 * numbers and codes out of range, lengths that are not the right ones and memory not yet written to
 * are answered by a number, never by an access outside a buffer.
 *
 * Answers. Every function tests for itself and answers what it found. 1 to 7 are tested in that
 * order, those that apply; after each of them every buffer is as it was, work and table too. After
 * every other answer work and table are zero.
 *
 *    0  done
 *    1  d, n_sub, sub_bits, cells, probes or epochs outside its bounds
 *    2  training with n = 0
 *    3  n above 100,001
 *    4  a buffer not of its length, the two runs of results of unequal lengths (so this comes
 *       before 5), or more than 16,777,216 draws
 *    5  k above 4,096
 *    6  a row (training) or query (search) coordinate not finite
 *    7  a draw not in 0 <= draw < 1
 *    8  the training calls for a draw past the last one lent         outputs and work are zero
 *    9  a centre coordinate comes out not finite                     outputs and work are zero
 *   10  list or code damage, told of below: a search                 results blank, table zero
 *       the same: the check                                          work is zero
 *   11  a coarse distance, table entry or sum comes out not finite   results blank, table zero
 *
 * Bounds: d 1..256; n_sub 1..64 and at most d; sub_bits 0..8, for K = 2^sub_bits centres in each
 * sub-space; cells 1..1024; probes 1..cells; epochs 0..1000; n 0..100,001 rows; k 0..4,096 results.
 *
 * Row policy. A search is lent a mask, and a row is visible to it where the row's byte is not 0. A
 * hidden row is not scored, counted or found, and whatever its codes are, they refuse nothing. In a
 * plain index, and in a celled one that bergrosk_celled_check accepts, hidden rows change nothing
 * that a search answers or leaves in a buffer, neither by their codes nor by the cell that they
 * stand in. The time that a search takes is not part of this.
 */
#ifndef BERGROSK_H
#define BERGROSK_H

#include <stddef.h>
#include <stdint.h>

/*
 * The version of this interface. The first number changes with a declaration or an answer that a
 * program written before has to follow, the second with an addition that it need not know of. Bits
 * of an index or of a sum change with the first alone. Not promised: time, and what the functions
 * that are written out in this header estimate or say in words.
 */
#define BERGROSK_VERSION_MAJOR 1
#define BERGROSK_VERSION_MINOR 1
#define BERGROSK_VERSION "1.1"

/* The most of each number that is within its bounds; n_sub is besides at most d, probes cells. */
#define BERGROSK_MOST_D 256
#define BERGROSK_MOST_N_SUB 64
#define BERGROSK_MOST_SUB_BITS 8
#define BERGROSK_MOST_CELLS 1024
#define BERGROSK_MOST_EPOCHS 1000
#define BERGROSK_MOST_ROWS 100001
#define BERGROSK_MOST_RESULTS 4096
#define BERGROSK_MOST_DRAWS 16777216

/* The row number of a blank place of the results; its sum is 0. */
#define BERGROSK_BLANK UINT32_C(4294967295)

#ifdef __cplusplus
extern "C" {
#endif

/* The answer numbers; each `number` below is one of them. */
enum bergrosk_number {
    BERGROSK_DONE = 0,
    BERGROSK_BAD_PARAMETER = 1,
    BERGROSK_NO_ROWS = 2,
    BERGROSK_TOO_MANY_ROWS = 3,
    BERGROSK_BAD_LENGTH = 4,
    BERGROSK_TOO_MANY_RESULTS = 5,
    BERGROSK_COORDINATE_NOT_FINITE = 6,
    BERGROSK_BAD_DRAW = 7,
    BERGROSK_DRAWS_RAN_OUT = 8,
    BERGROSK_CENTER_NOT_FINITE = 9,
    BERGROSK_DAMAGED = 10,
    BERGROSK_DISTANCE_NOT_FINITE = 11
};

/* Where an 8 or 9 was met; all zero in every other answer. */
typedef struct bergrosk_place {
    uint32_t stage;  /* 0 the coarse k-means of a celled index, 1 that of a sub-space */
    uint32_t cell;   /* of stage 1; a plain index is cell 0 */
    uint32_t sub;    /* of stage 1: the sub-space */
    uint32_t step;   /* 0 start, 1 averaging, 2 splitting; an 8 is always splitting */
    uint32_t epoch;  /* from 1; the start is 0 */
    uint32_t center; /* of an 8: the empty one being filled */
} bergrosk_place;

/* The answer of a training. */
typedef struct bergrosk_train_answer {
    uint32_t number; /* 0, 1, 2, 3, 4, 6, 7, 8 or 9 */
    bergrosk_place place;
    size_t used; /* the draws used, if number is 0; else 0 */
} bergrosk_train_answer;

/* The answer of a search; found and scored are 0 unless number is 0. */
typedef struct bergrosk_search_answer {
    uint32_t number; /* 0, 1, 3, 4, 5, 6, 10 or 11 */
    size_t found;    /* the places of the results that are filled */
    size_t scored;   /* the candidates: the visible rows, of a celled index in the probed cells */
} bergrosk_search_answer;

/* A range of coordinates, from begin up to but not including end. */
typedef struct bergrosk_range_answer {
    uint32_t number; /* 0 or 1 */
    size_t begin;
    size_t end;
} bergrosk_range_answer;

/* The lengths of a plain index's buffers, in elements; all 0 unless number is 0. */
typedef struct bergrosk_plain_buffers {
    uint32_t number; /* 0, 1 or 3 */
    size_t rows;     /* float: n * d */
    size_t subs;     /* float: K * C, C being the coordinates that the ranges cover */
    size_t codes;    /* uint8_t: n * n_sub */
    size_t work;     /* uint32_t: n + 1024 */
    size_t table;    /* float: n_sub * K */
} bergrosk_plain_buffers;

/* The lengths of a celled index's buffers, in elements; all 0 unless number is 0. */
typedef struct bergrosk_celled_buffers {
    uint32_t number; /* 0, 1 or 3 */
    size_t rows;     /* float: n * d */
    size_t coarse;   /* float: cells * d */
    size_t starts;   /* uint32_t: cells + 1 */
    size_t members;  /* uint32_t: n */
    size_t subs;     /* float: cells * K * C */
    size_t codes;    /* uint8_t: n * n_sub */
    size_t work;     /* uint32_t: n + 1024 */
    size_t table;    /* float: n_sub * K */
} bergrosk_celled_buffers;

/* The parameters of a plain index and of its training. */
typedef struct bergrosk_plain_params {
    size_t n_sub;
    size_t sub_bits;
    size_t epochs;
} bergrosk_plain_params;

/* The parameters of a celled index and of its training. */
typedef struct bergrosk_celled_params {
    size_t n_sub;
    size_t sub_bits;
    size_t cells;
    size_t probes;
    size_t epochs;
} bergrosk_celled_params;

/* The defaults of a plain index: n_sub 4, sub_bits 4, epochs 100. */
bergrosk_plain_params bergrosk_plain_defaults(void);

/*
 * The defaults of a celled index: n_sub 25, sub_bits 4, cells 256, probes 8, epochs 100. Where the
 * cells come out small, 100 epochs call for more draws than may be lent, and 30 or fewer fit: see
 * bergrosk_celled_draws.
 */
bergrosk_celled_params bergrosk_celled_defaults(void);

/*
 * The coordinates of sub-space i: 0, 0 for an i that is not below n_sub, and in answer 1.
 * The ranges cover C coordinates from 0 on, C being the end of the last; codes, and with them the
 * sums of a search, ignore the coordinates past C (d 60 and n_sub 25 cover 50).
 */
bergrosk_range_answer bergrosk_range(size_t d, size_t n_sub, size_t i);

/* How long each buffer of a plain index of n rows must be. */
bergrosk_plain_buffers bergrosk_plain_lengths(size_t d, size_t n_sub, size_t sub_bits, size_t n);

/* How long each buffer of a celled index of n rows must be. */
bergrosk_celled_buffers bergrosk_celled_lengths(
    size_t d, size_t n_sub, size_t sub_bits, size_t cells, size_t probes, size_t n);

/*
 * Trains a plain index: the centres of each sub-space, and the code of each row in each sub-space.
 *
 *   rows    n * d        the rows, one after the other
 *   draws   any          numbers in 0 <= draw < 1, at most 16,777,216: what chance is made of
 *   subs    K * C        written: sub-space after sub-space, its K centres one after the other
 *   codes   n * n_sub    written: row after row
 *   work    n + 1024     scratch; may hold anything, and is zero after 0, 8 and 9
 *
 * subs, codes and work overlap nothing: not each other, nor rows, nor draws. The same input gives
 * the same bits, always. bergrosk_plain_draws says how many draws are enough.
 */
bergrosk_train_answer bergrosk_plain_train(
    size_t d, size_t n_sub, size_t sub_bits, size_t epochs, size_t n,
    const float *rows, size_t rows_len,
    const double *draws, size_t draws_len,
    float *subs, size_t subs_len,
    uint8_t *codes, size_t codes_len,
    uint32_t *work, size_t work_len);

/*
 * Finds the k visible rows whose codes are nearest to a query, k being the length of the results.
 *
 *   query   d            the query
 *   mask    n            a row is visible where its byte is not 0
 *   subs    K * C        as trained
 *   codes   n * n_sub    as trained
 *   rows    k            written: row numbers, nearest first, of equal sums the lower, then blanks
 *   sums    k            written: the squared distance of each
 *   table   n_sub * K    scratch; may hold anything, and is zero after 0, 10 and 11
 *
 * rows, sums and table overlap nothing: not each other, nor any other buffer of the call.
 *
 * Damage, 10, is a visible row's code that is not below K. An 11 is a table entry that is not
 * finite, used by a row or not, or such a sum of a visible row. With no visible row no table is
 * worked, so centres that are not finite are not met: the answer is 0, and nothing is found.
 */
bergrosk_search_answer bergrosk_plain_search(
    size_t d, size_t n_sub, size_t sub_bits, size_t n,
    const float *query, size_t query_len,
    const uint8_t *mask, size_t mask_len,
    const float *subs, size_t subs_len,
    const uint8_t *codes, size_t codes_len,
    uint32_t *rows, size_t rows_len,
    float *sums, size_t sums_len,
    float *table, size_t table_len);

/*
 * Trains a celled index: the centre of each cell, the list of its rows, and in each cell the
 * centres of each sub-space and the codes of its rows, both of a row less the centre of its cell.
 *
 *   rows      n * d           the rows, one after the other
 *   draws     any             as for a plain index; they run through all cells and sub-spaces
 *   coarse    cells * d       written: the centres of the cells
 *   starts    cells + 1       written: the list of cell c stands among the members from starts[c]
 *                             up to but not including starts[c + 1]
 *   members   n               written: the row numbers of cell after cell, rising in each
 *   subs      cells * K * C   written: cell after cell, each as in a plain index; zero in a cell
 *                             without rows
 *   codes     n * n_sub       written: row after row, by row number
 *   work      n + 1024        scratch; may hold anything, and is zero after 0, 8 and 9
 *
 * coarse, starts, members, subs, codes and work overlap nothing: not each other, nor rows, nor
 * draws. The probes are tested, and nothing else is done with them. What is trained passes the
 * check. The same input gives the same bits, always. bergrosk_celled_draws says how many draws are
 * enough.
 */
bergrosk_train_answer bergrosk_celled_train(
    size_t d, size_t n_sub, size_t sub_bits, size_t cells, size_t probes, size_t epochs, size_t n,
    const float *rows, size_t rows_len,
    const double *draws, size_t draws_len,
    float *coarse, size_t coarse_len,
    uint32_t *starts, size_t starts_len,
    uint32_t *members, size_t members_len,
    float *subs, size_t subs_len,
    uint8_t *codes, size_t codes_len,
    uint32_t *work, size_t work_len);

/*
 * Tests a celled index whole, as after it was stored and loaded again; answers 0, 1, 3, 4 or 10. It
 * accepts, 0, exactly if numbers and lengths are right and
 *
 *   - the starts go from 0 to n and never fall;
 *   - every row number below n stands once among the members, and the list of each cell rises;
 *   - every code is below K.
 *
 *   coarse    cells * d       as trained, like the next four
 *   starts    cells + 1
 *   members   n
 *   subs      cells * K * C
 *   codes     n * n_sub
 *   work      n + 1024        scratch; may hold anything, and is zero after 0 and 10
 *
 * work overlaps none of the others. A search of such an index is not answered 10, and finds no row
 * twice. The centres are not looked at: a search answers 11 where a distance from one is not
 * finite, and other damage to a centre cannot be seen.
 */
uint32_t bergrosk_celled_check(
    size_t d, size_t n_sub, size_t sub_bits, size_t cells, size_t probes, size_t n,
    const float *coarse, size_t coarse_len,
    const uint32_t *starts, size_t starts_len,
    const uint32_t *members, size_t members_len,
    const float *subs, size_t subs_len,
    const uint8_t *codes, size_t codes_len,
    uint32_t *work, size_t work_len);

/*
 * Finds the k visible rows whose codes are nearest to a query, among the rows of some cells. It
 * probes as many cells as `probes` says, those whose centres are nearest to the query, of equally
 * near ones the lower; a cell without rows counts too. Each search may have its own number: with
 * more probes more rows are scored, which takes longer; with probes = cells all visible rows are.
 *
 *   query     d               the query
 *   mask      n               a row is visible where its byte is not 0
 *   coarse    cells * d       as trained, like the next four
 *   starts    cells + 1
 *   members   n
 *   subs      cells * K * C
 *   codes     n * n_sub
 *   rows      k               written: as by a plain search
 *   sums      k               written: the squared distance of each
 *   table     n_sub * K       scratch; may hold anything, and is zero after 0, 10 and 11
 *
 * rows, sums and table overlap nothing: not each other, nor any other buffer of the call.
 *
 * After 1 to 6 come, in this order:
 *
 *   10  the starts do not go from 0 to n, or fall
 *   11  the distance to the centre of a cell, probed or not, is not finite
 *   10  a probed cell has a list that does not rise strictly, a member not below n, or a visible
 *       row with a code not below K
 *   11  a probed cell that has a visible row has a table entry, or a visible row's sum, that is not
 *       finite
 *
 * The lists of other cells are not looked at. So in an index that the check does not accept, a row
 * that stands in several lists can be found several times. In a cell without a visible row no table
 * is worked, so sub-centres there that are not finite are not met; the centres of all cells are.
 */
bergrosk_search_answer bergrosk_celled_search(
    size_t d, size_t n_sub, size_t sub_bits, size_t cells, size_t probes, size_t n,
    const float *query, size_t query_len,
    const uint8_t *mask, size_t mask_len,
    const float *coarse, size_t coarse_len,
    const uint32_t *starts, size_t starts_len,
    const uint32_t *members, size_t members_len,
    const float *subs, size_t subs_len,
    const uint8_t *codes, size_t codes_len,
    uint32_t *rows, size_t rows_len,
    float *sums, size_t sums_len,
    float *table, size_t table_len);

/* ---- written out here: no part of the archive, and nothing of it is proved */

/* What an answer number means, in a few words. */
static inline const char *bergrosk_meaning(uint32_t number) {
    switch (number) {
    case BERGROSK_DONE: return "done";
    case BERGROSK_BAD_PARAMETER: return "a parameter is outside its bounds";
    case BERGROSK_NO_ROWS: return "training without rows";
    case BERGROSK_TOO_MANY_ROWS: return "too many rows";
    case BERGROSK_BAD_LENGTH: return "a buffer is not of its length";
    case BERGROSK_TOO_MANY_RESULTS: return "too many results asked for";
    case BERGROSK_COORDINATE_NOT_FINITE: return "a coordinate is not finite";
    case BERGROSK_BAD_DRAW: return "a draw is not in 0 <= draw < 1";
    case BERGROSK_DRAWS_RAN_OUT: return "the draws ran out";
    case BERGROSK_CENTER_NOT_FINITE: return "a centre came out not finite";
    case BERGROSK_DAMAGED: return "a list or a code is damaged";
    case BERGROSK_DISTANCE_NOT_FINITE: return "a distance or a sum came out not finite";
    default: return "no such answer";
    }
}

/*
 * Whether this thread's floating-point environment is the one that all answers are proved in: a
 * result rounds to nearest, ties to even, and subnormal numbers are kept, as results and as
 * operands. A thread leaves it by fesetround, or by flush-to-zero or denormals-are-zero, which a
 * program or shared library linked with -ffast-math may set unasked. Then nothing is promised, and
 * bits do come out otherwise. fesetenv(FE_DFL_ENV) of <fenv.h> brings a thread back.
 */
static inline int bergrosk_floats_ok(void) {
    volatile float one = 1.0f, half_step = 5.9604644775390625e-8f; /* 2^-24, half the step at 1 */
    volatile float least = 1.1754943508222875e-38f;                /* 2^-126, the least normal */
    volatile float subnormal = 5.877471754111438e-39f;             /* 2^-127 */
    volatile float half = 0.5f, three_halves = 1.5f, two = 2.0f;
    volatile float less = half_step * half, more = half_step * three_halves, step = half_step * two;
    volatile float down = one + less, tie = one + half_step, up = one + more, next = one + step;
    volatile float second = next + step, tie_to_second = next + half_step;
    volatile float result = least * half, doubled = result * two, operand = subnormal * two;
    int rounds = down == one && tie == one && up == next && tie_to_second == second;
    return rounds && doubled == least && operand == least;
}

/*
 * How many draws are enough: an upper estimate of what a training uses, whatever its rows are, if
 * the draws are independent and uniform in 0 <= draw < 1; at most BERGROSK_MOST_DRAWS, and where it
 * is that many an 8 can come. A k-means of K centres splits in every epoch but the last, at most
 * K - 1 centres each time, and finds a donor for each in less than 1.6 * K draws on average: so 2 *
 * K * K for each split, and 64 * K once for chance. Most trainings use far less: docs/DRAWS.md.
 */
static inline size_t bergrosk_draws_of(double a_split, double centers, size_t epochs) {
    double splits = epochs > 1 ? (double)(epochs - 1) : 0;
    double all = splits * a_split + (splits > 0 ? 64 * centers : 0);
    return all < BERGROSK_MOST_DRAWS ? (size_t)all : BERGROSK_MOST_DRAWS;
}

/* How many draws are enough for a plain index, its numbers within bounds; else 0. */
static inline size_t bergrosk_plain_draws(size_t n_sub, size_t sub_bits, size_t epochs) {
    if (n_sub > BERGROSK_MOST_N_SUB || sub_bits > BERGROSK_MOST_SUB_BITS) {
        return 0;
    }
    double centers = (double)((size_t)1 << sub_bits);
    return bergrosk_draws_of(2 * centers * centers * (double)n_sub, centers, epochs);
}

/* How many draws are enough for a celled index, its numbers within bounds; else 0. */
static inline size_t bergrosk_celled_draws(
    size_t n_sub, size_t sub_bits, size_t cells, size_t epochs) {
    if (n_sub > BERGROSK_MOST_N_SUB || sub_bits > BERGROSK_MOST_SUB_BITS
        || cells > BERGROSK_MOST_CELLS) {
        return 0;
    }
    double centers = (double)((size_t)1 << sub_bits), most = (double)cells;
    double subs = 2 * centers * centers * (double)n_sub * most;
    return bergrosk_draws_of(subs + 2 * most * most, most > centers ? most : centers, epochs);
}

#ifdef __cplusplus
}
#endif

#endif
