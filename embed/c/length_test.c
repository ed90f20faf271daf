/* The calls on bytes of every length around the right ones, each in a block of its own: valgrind sees a byte too far. */
#include <stdlib.h>
#include <string.h>

#include "check.h"
#include "tholungdek.h"

/* MOV r0, #5; STR r0, [r0, #8], the bytes 13 to 16; SWI 7. */
static const uint8_t IMAGE[] = {0x05, 0x00, 0xA0, 0xE3, 0x08, 0x00, 0x80, 0xE5, 0x07, 0x00, 0x00, 0xEF};
static const uint32_t MOV_R0_5 = 0xE3A00005;
static const uint8_t UNWRITTEN = 0xA5;

enum call { STEP, STEP_OPCODE, RUN };

static size_t answer_size(enum call call)
{
    return call == RUN ? THOLUNGDEK_RUN_ANSWER_SIZE : THOLUNGDEK_ANSWER_SIZE;
}

struct block {
    uint8_t *bytes;
    size_t length;
};

/* A block of exactly this length (of one byte, where it is 0: a lent pointer is never null). */
static struct block make_block(size_t length)
{
    struct block block = {(uint8_t *)malloc(length > 0 ? length : 1), length};
    if (block.bytes == NULL)
        abort();
    memset(block.bytes, UNWRITTEN, length);
    return block;
}

static struct block copy_block(struct block of)
{
    struct block block = make_block(of.length);
    memcpy(block.bytes, of.bytes, of.length);
    return block;
}

static bool same_and_free(struct block a, struct block b)
{
    bool same = a.length == b.length && memcmp(a.bytes, b.bytes, a.length) == 0;
    free(a.bytes);
    free(b.bytes);
    return same;
}

static struct block make_state(size_t length)
{
    uint8_t fresh[THOLUNGDEK_STATE_SIZE];
    CHECK(tholungdek_make_state(fresh, sizeof fresh));
    struct block state = make_block(length);
    memcpy(state.bytes, fresh, length < sizeof fresh ? length : sizeof fresh);
    return state;
}

static struct block make_memory(size_t length)
{
    struct block memory = make_block(length);
    memcpy(memory.bytes, IMAGE, length < sizeof IMAGE ? length : sizeof IMAGE);
    return memory;
}

static uint32_t make_call(enum call call, struct block s, struct block m, struct block a)
{
    switch (call) {
    case STEP: return tholungdek_step(s.bytes, s.length, m.bytes, m.length, a.bytes, a.length);
    case STEP_OPCODE: return tholungdek_step_opcode(s.bytes, s.length, m.bytes, m.length, MOV_R0_5, a.bytes, a.length);
    default: return tholungdek_run(s.bytes, s.length, m.bytes, m.length, 10, a.bytes, a.length);
    }
}

/* With a wrong length the call returns 0 and writes nothing. */
static void test_refused(enum call call, size_t state_len, size_t answer_len)
{
    struct block state = make_state(state_len), memory = make_memory(sizeof IMAGE), answer = make_block(answer_len);
    struct block s = copy_block(state), m = copy_block(memory), a = copy_block(answer);
    CHECK(make_call(call, state, memory, answer) == 0);
    CHECK(same_and_free(state, s));
    CHECK(same_and_free(memory, m));
    CHECK(same_and_free(answer, a));
}

/* The number that a call answers with memory of this length. */
static uint32_t answered(enum call call, size_t memory_len)
{
    struct block state = make_state(THOLUNGDEK_STATE_SIZE), memory = make_memory(memory_len);
    struct block answer = make_block(answer_size(call));
    CHECK(make_call(call, state, memory, answer) == 1);
    uint32_t number = tholungdek_get_number(answer.bytes, answer.length);
    free(state.bytes);
    free(memory.bytes);
    free(answer.bytes);
    return number;
}

static void test_call(enum call call)
{
    const size_t states[] = {0, 215, 217, 432};
    for (size_t i = 0; i < sizeof states / sizeof *states; i++)
        test_refused(call, states[i], answer_size(call));
    for (size_t length = 0; length < 20; length++)
        if (length != answer_size(call))
            test_refused(call, THOLUNGDEK_STATE_SIZE, length);
    CHECK(answered(call, THOLUNGDEK_MEMORY_LIMIT + 1) == THOLUNGDEK_MEMORY_TOO_LONG);
}

static void test_memories(void)
{
    CHECK(answered(STEP, 0) == THOLUNGDEK_FETCH);
    CHECK(answered(STEP, 3) == THOLUNGDEK_FETCH);
    CHECK(answered(STEP, 4) == THOLUNGDEK_DONE);
    CHECK(answered(STEP, THOLUNGDEK_MEMORY_LIMIT) == THOLUNGDEK_DONE);
    CHECK(answered(STEP_OPCODE, 0) == THOLUNGDEK_DONE);
    CHECK(answered(RUN, 0) == THOLUNGDEK_FETCH);
    CHECK(answered(RUN, 16) == THOLUNGDEK_BUS);
    CHECK(answered(RUN, 17) == THOLUNGDEK_SUPERVISOR);
    CHECK(answered(RUN, THOLUNGDEK_MEMORY_LIMIT) == THOLUNGDEK_SUPERVISOR);
}

int main(void)
{
    test_call(STEP);
    test_call(STEP_OPCODE);
    test_call(RUN);
    test_memories();
    return failures == 0 ? 0 : 1;
}
