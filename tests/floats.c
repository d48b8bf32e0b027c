/*
 * The floating-point environment: bergrosk_floats_ok sees each setting that changes an answer, and
 * two trainings show that the settings do. Then what the header writes out besides: the meaning of
 * each answer number, and how many draws are enough.
 */
#include "bergrosk.h"
#include "expect.h"

/* ---- the settings, as the machine has them */

#if defined __x86_64__
enum { USUAL = 0x1f80, FLUSH = 0x8000, ZEROS = 0x40, UP = 0x4000, DOWN = 0x2000, CUT = 0x6000 };

static void set(unsigned bits) {
    unsigned word = USUAL | bits;
    __asm__ volatile("ldmxcsr %0" : : "m"(word));
}
#elif defined __aarch64__
enum { FLUSH = 1 << 24, ZEROS = 1 << 24, UP = 1 << 22, DOWN = 2 << 22, CUT = 3 << 22 };

static void set(unsigned bits) {
    __asm__ volatile("msr fpcr, %0" : : "r"((uint64_t)bits));
}
#else
#error "say here how this machine's floating-point environment is set"
#endif

/* Whether the environment is in order under a setting, which is then taken back. */
static int ok_under(unsigned bits) {
    set(bits);
    int ok = bergrosk_floats_ok();
    set(0);
    return ok;
}

static void settings(void) {
    EXPECT(bergrosk_floats_ok());
    EXPECT(ok_under(0));
    EXPECT(!ok_under(FLUSH));
    EXPECT(!ok_under(ZEROS));
    EXPECT(!ok_under(FLUSH | ZEROS));
    EXPECT(!ok_under(UP));
    EXPECT(!ok_under(DOWN));
    EXPECT(!ok_under(CUT));
    EXPECT(!ok_under(FLUSH | ZEROS | UP));
    EXPECT(bergrosk_floats_ok());
}

/* The bits of the one centre of two rows of one coordinate, trained under a setting. */
static uint32_t center_under(unsigned bits, float first, float second) {
    const float rows[] = {first, second};
    float center = 7;
    uint8_t codes[2];
    uint32_t work[2 + 1024], word;
    set(bits);
    bergrosk_train_answer answer = bergrosk_plain_train(
        1, 1, 0, 1, 2, rows, 2, NULL, 0, &center, 1, codes, 2, work, 2 + 1024);
    set(0);
    EXPECT(answer.number == 0);
    memcpy(&word, &center, sizeof word);
    return word;
}

/* Two rows whose mean is subnormal, and two whose mean is between two floats. */
static void trainings(void) {
    EXPECT(center_under(0, 1e-40f, 3e-40f) == 0x00022d84);
    EXPECT(center_under(FLUSH | ZEROS, 1e-40f, 3e-40f) == 0);
    EXPECT(center_under(0, 0.1f, 0.3f) == 0x3e4ccccd);
    EXPECT(center_under(UP, 0.1f, 0.3f) == 0x3e4cccce);
}

/* ---- the other functions that the header writes out */

static void meanings(void) {
    for (uint32_t number = 0; number <= BERGROSK_DISTANCE_NOT_FINITE; number++) {
        for (uint32_t other = 0; other <= BERGROSK_DISTANCE_NOT_FINITE + 1; other++) {
            int alike = strcmp(bergrosk_meaning(number), bergrosk_meaning(other)) == 0;
            EXPECT_AT(100 * number + other, alike == (number == other));
        }
    }
    EXPECT(strcmp(bergrosk_meaning(UINT32_MAX), "no such answer") == 0);
}

/* Each most is within its bounds, and one more is not. */
static void mosts(void) {
    EXPECT(bergrosk_plain_lengths(BERGROSK_MOST_D, 1, 0, 1).number == 0);
    EXPECT(bergrosk_plain_lengths(BERGROSK_MOST_D + 1, 1, 0, 1).number == 1);
    EXPECT(bergrosk_plain_lengths(64, BERGROSK_MOST_N_SUB, 0, 1).number == 0);
    EXPECT(bergrosk_plain_lengths(65, BERGROSK_MOST_N_SUB + 1, 0, 1).number == 1);
    EXPECT(bergrosk_plain_lengths(1, 1, BERGROSK_MOST_SUB_BITS, 1).number == 0);
    EXPECT(bergrosk_plain_lengths(1, 1, BERGROSK_MOST_SUB_BITS + 1, 1).number == 1);
    EXPECT(bergrosk_plain_lengths(1, 1, 0, BERGROSK_MOST_ROWS).number == 0);
    EXPECT(bergrosk_plain_lengths(1, 1, 0, BERGROSK_MOST_ROWS + 1).number == 3);
    EXPECT(bergrosk_celled_lengths(1, 1, 0, BERGROSK_MOST_CELLS, 1, 1).number == 0);
    EXPECT(bergrosk_celled_lengths(1, 1, 0, BERGROSK_MOST_CELLS + 1, 1, 1).number == 1);
}

static void estimates(void) {
    EXPECT(bergrosk_plain_draws(4, 4, 0) == 0 && bergrosk_plain_draws(4, 4, 1) == 0);
    EXPECT(bergrosk_plain_draws(4, 4, 2) == 4 * 2 * 256 + 64 * 16);
    EXPECT(bergrosk_plain_draws(64, 8, 1000) == BERGROSK_MOST_DRAWS);
    EXPECT(bergrosk_plain_draws(1, 9, 2) == 0 && bergrosk_plain_draws(65, 1, 2) == 0);
    EXPECT(bergrosk_plain_draws(SIZE_MAX, SIZE_MAX, SIZE_MAX) == 0);
    EXPECT(bergrosk_plain_draws(1, 0, SIZE_MAX) == BERGROSK_MOST_DRAWS);
    EXPECT(bergrosk_celled_draws(8, 4, 64, 1) == 0);
    EXPECT(bergrosk_celled_draws(8, 4, 64, 3) == 2 * (64 * 8 * 2 * 256 + 2 * 4096) + 64 * 64);
    EXPECT(bergrosk_celled_draws(64, 8, 1024, 2) == BERGROSK_MOST_DRAWS);
    EXPECT(bergrosk_celled_draws(1, 1, 1025, 2) == 0);
}

int main(void) {
    settings();
    trainings();
    meanings();
    mosts();
    estimates();
    return report("floats");
}
