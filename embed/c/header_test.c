/* The accessors of the header: each part of a state has bytes of its own, and nothing else is touched. */
#include <string.h>

#include "check.h"
#include "tholungdek.h"

enum { WORDS = THOLUNGDEK_STATE_SIZE / 4 };

/* Sets every part to a number of its own, in the order of the words. */
static void mark(uint8_t *state, size_t n)
{
    uint32_t next = 0;
    for (unsigned r = 0; r < 16; r++)
        CHECK(tholungdek_set_register(state, n, r, next++));
    for (unsigned record = 0; record < 7; record++)
        CHECK(tholungdek_set_status(state, n, record, next++));
    for (unsigned record = 0; record < 7; record++)
        CHECK(tholungdek_set_ge(state, n, record, next++));
    for (unsigned bank = 0; bank < 6; bank++)
        for (unsigned r = 13; r < 15; r++)
            CHECK(tholungdek_set_banked(state, n, bank, r, next++));
    for (unsigned r = 8; r < 13; r++)
        CHECK(tholungdek_set_fiq(state, n, r, next++));
    for (unsigned r = 8; r < 13; r++)
        CHECK(tholungdek_set_other(state, n, r, next++));
    CHECK(next == 52);
    CHECK(tholungdek_set_tag(state, n, 53));
}

static void test_places(void)
{
    uint8_t state[THOLUNGDEK_STATE_SIZE];
    size_t n = sizeof state;
    CHECK(tholungdek_make_state(state, n));
    mark(state, n);
    for (size_t i = 0; i < 52; i++)
        CHECK(tholungdek_get_word(state, n, i) == i);
    CHECK(tholungdek_get_register(state, n, 15) == 15);
    CHECK(tholungdek_get_status(state, n, THOLUNGDEK_SAVED_UNDEFINED) == 22);
    CHECK(tholungdek_get_ge(state, n, THOLUNGDEK_CURRENT) == 23);
    CHECK(tholungdek_get_banked(state, n, THOLUNGDEK_BANK_USER, 14) == 41);
    CHECK(tholungdek_get_fiq(state, n, 8) == 42 && tholungdek_get_other(state, n, 12) == 51);
    CHECK(tholungdek_has_tag(state, n) && tholungdek_get_tag(state, n) == 53);
    CHECK(tholungdek_clear_tag(state, n) && !tholungdek_has_tag(state, n) && tholungdek_get_tag(state, n) == 0);
    CHECK(tholungdek_set_status(state, n, THOLUNGDEK_SAVED, 0x000A001F));
    CHECK(tholungdek_get_ge(state, n, THOLUNGDEK_SAVED) == 10);
}

static void test_no_such_place(void)
{
    uint8_t state[THOLUNGDEK_STATE_SIZE], before[THOLUNGDEK_STATE_SIZE];
    size_t n = sizeof state;
    mark(state, n);
    memcpy(before, state, n);
    CHECK(!tholungdek_set_word(state, n, WORDS, 1) && !tholungdek_set_word(state, n, SIZE_MAX, 1));
    CHECK(!tholungdek_set_register(state, n, 16, 1) && tholungdek_get_register(state, n, 16) == 0);
    CHECK(!tholungdek_set_status(state, n, 7, 1) && tholungdek_get_status(state, n, 7) == 0);
    CHECK(!tholungdek_set_ge(state, n, 7, 1) && tholungdek_get_ge(state, n, 7) == 0);
    CHECK(!tholungdek_set_banked(state, n, 6, 13, 1) && tholungdek_get_banked(state, n, 6, 13) == 0);
    CHECK(!tholungdek_set_banked(state, n, 0, 12, 1) && !tholungdek_set_banked(state, n, 0, 15, 1));
    CHECK(!tholungdek_set_fiq(state, n, 7, 1) && !tholungdek_set_fiq(state, n, 13, 1));
    CHECK(!tholungdek_set_other(state, n, 7, 1) && !tholungdek_set_other(state, n, 13, 1));
    CHECK(memcmp(before, state, n) == 0);
}

static void test_no_such_length(void)
{
    uint8_t state[THOLUNGDEK_STATE_SIZE + 1] = {0}, before[THOLUNGDEK_STATE_SIZE + 1] = {0};
    const size_t lengths[] = {0, 4, THOLUNGDEK_STATE_SIZE - 1, THOLUNGDEK_STATE_SIZE + 1};
    for (size_t i = 0; i < sizeof lengths / sizeof *lengths; i++) {
        CHECK(!tholungdek_make_state(state, lengths[i]));
        CHECK(!tholungdek_set_register(state, lengths[i], 0, 1));
        CHECK(!tholungdek_set_status(state, lengths[i], 0, 1));
        CHECK(!tholungdek_set_tag(state, lengths[i], 1));
    }
    CHECK(!tholungdek_make_state(NULL, THOLUNGDEK_STATE_SIZE));
    CHECK(!tholungdek_set_register(NULL, THOLUNGDEK_STATE_SIZE, 0, 1));
    CHECK(tholungdek_get_register(NULL, THOLUNGDEK_STATE_SIZE, 0) == 0);
    CHECK(memcmp(before, state, sizeof state) == 0);
}

static void test_answers(void)
{
    const uint8_t answer[THOLUNGDEK_RUN_ANSWER_SIZE] = {2, 0, 0, 0, 4, 0, 0, 0, 8, 0, 0, 0, 16, 1, 0, 0};
    CHECK(tholungdek_get_number(answer, 16) == THOLUNGDEK_UNDEFINED);
    CHECK(tholungdek_get_first(answer, 16) == 4 && tholungdek_get_second(answer, 16) == 8);
    CHECK(tholungdek_get_count(answer, 16) == 272 && tholungdek_get_count(answer, 12) == 0);
    CHECK(tholungdek_get_number(answer, 12) == THOLUNGDEK_UNDEFINED);
    CHECK(tholungdek_get_number(answer, 11) == THOLUNGDEK_NO_ANSWER);
    CHECK(tholungdek_get_number(NULL, 12) == THOLUNGDEK_NO_ANSWER);
    CHECK(tholungdek_get_first(answer, 13) == 0 && tholungdek_get_count(NULL, 16) == 0);
    CHECK(strcmp(tholungdek_answer_name(THOLUNGDEK_TRANSFER_FORM), "transfer form") == 0);
    CHECK(strcmp(tholungdek_answer_name(12), "no answer") == 0);
}

/* The calls on numbers are linked and take their arguments in this order. */
static void test_numbers(void)
{
    CHECK(tholungdek_pack(0x1F, 9) == 0x0009001F);
    CHECK(tholungdek_pack(0x1F, 16) == (uint64_t)THOLUNGDEK_BAD_STATE << 32);
    CHECK(tholungdek_unpack(0xFFFFFFFF) == ((uint64_t)15 << 32 | 0xF80F03FF));
    CHECK(tholungdek_shift_immediate(THOLUNGDEK_LSR, 0x80000000, 0, false) == (uint64_t)1 << 32);
    CHECK(tholungdek_shift_immediate(THOLUNGDEK_ROR, 1, 0, true) == ((uint64_t)1 << 32 | 0x80000000));
    CHECK(tholungdek_shift_register(THOLUNGDEK_LSL, 1, 33, true) == 0);
}

int main(void)
{
    test_places();
    test_no_such_place();
    test_no_such_length();
    test_answers();
    test_numbers();
    return failures == 0 ? 0 : 1;
}
