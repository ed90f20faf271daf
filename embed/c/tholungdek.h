/* The proved core for a host in C: the calls of libexports.a, its numbers, and accessors to the bytes that are lent. */
#ifndef THOLUNGDEK_H
#define THOLUNGDEK_H

#include <stdbool.h>
#include <stddef.h>
#include <stdint.h>

#ifdef __cplusplus
extern "C" {
#endif

enum {
    THOLUNGDEK_STATE_SIZE = 216,     /* bytes of a machine */
    THOLUNGDEK_ANSWER_SIZE = 12,     /* bytes of a step's answer: number, first value, second value */
    THOLUNGDEK_RUN_ANSWER_SIZE = 16, /* bytes of a run's answer: the same, and the count */
    THOLUNGDEK_MEMORY_LIMIT = 65536  /* bytes of memory, at most */
};

/* An answer's number; a value that is not named is 0. */
enum {
    THOLUNGDEK_DONE = 0,            /* the step finished, or its condition failed */
    THOLUNGDEK_SUPERVISOR = 1,      /* SWI; first: its 24-bit number; r15 is at the next instruction */
    THOLUNGDEK_UNDEFINED = 2,       /* undefined instruction; first: address, second: opcode */
    THOLUNGDEK_BREAKPOINT = 3,      /* BKPT; first: address, second: its 16-bit number */
    THOLUNGDEK_COPROCESSOR = 4,     /* VFP or CP15 instruction; first: opcode */
    THOLUNGDEK_THUMB = 5,           /* T is set: the core has no Thumb state */
    THOLUNGDEK_FETCH = 6,           /* r15 is no multiple of 4, or its word is not inside memory; first: address */
    THOLUNGDEK_BUS = 7,             /* an access has a byte outside memory; first: address of the first such access */
    THOLUNGDEK_BAD_STATE = 8,       /* one of the seven GE numbers exceeds 15 */
    THOLUNGDEK_MEMORY_TOO_LONG = 9, /* memory of more than 65,536 bytes */
    THOLUNGDEK_TIMEOUT = 10,        /* a run's budget is used up */
    THOLUNGDEK_TRANSFER_FORM = 11   /* a transfer form that the core lacks; first: opcode; no opcode reaches it */
};

/* What the accessors read where no answer has been written. */
#define THOLUNGDEK_NO_ANSWER UINT32_MAX

/* The seven status records. */
enum {
    THOLUNGDEK_CURRENT = 0,
    THOLUNGDEK_SAVED = 1,
    THOLUNGDEK_SAVED_FIQ = 2,
    THOLUNGDEK_SAVED_IRQ = 3,
    THOLUNGDEK_SAVED_SUPERVISOR = 4,
    THOLUNGDEK_SAVED_ABORT = 5,
    THOLUNGDEK_SAVED_UNDEFINED = 6
};

/* The six banks of r13 and r14. */
enum {
    THOLUNGDEK_BANK_FIQ = 0,
    THOLUNGDEK_BANK_IRQ = 1,
    THOLUNGDEK_BANK_SUPERVISOR = 2,
    THOLUNGDEK_BANK_ABORT = 3,
    THOLUNGDEK_BANK_UNDEFINED = 4,
    THOLUNGDEK_BANK_USER = 5 /* and System */
};

/* The mode bits of a status word; any other number is read as User. */
enum {
    THOLUNGDEK_MODE_USER = 0x10,
    THOLUNGDEK_MODE_FIQ = 0x11,
    THOLUNGDEK_MODE_IRQ = 0x12,
    THOLUNGDEK_MODE_SUPERVISOR = 0x13,
    THOLUNGDEK_MODE_ABORT = 0x17,
    THOLUNGDEK_MODE_UNDEFINED = 0x1B,
    THOLUNGDEK_MODE_SYSTEM = 0x1F
};

/* The types of a shift; a call reads the low two bits. */
enum { THOLUNGDEK_LSL = 0, THOLUNGDEK_LSR = 1, THOLUNGDEK_ASR = 2, THOLUNGDEK_ROR = 3 };

/*
 * The calls of the archive. Each pointer has the length of its bytes behind it.
 * No pointer may be null, also with a length of 0, and the three runs of bytes must not overlap.
 *
 * A step returns 1 and writes its answer; state and memory are written after answers 0 and 1 alone.
 * A run returns 1 and writes its answer; the state is written where its count is above 0, and memory
 * as far as the counted steps wrote it. The count is the steps that answered 0 or 1.
 * Where state_len is not 216 or answer_len not 12 (for a run 16), a call returns 0 and writes nothing.
 */
uint32_t tholungdek_step(uint8_t *state, size_t state_len, uint8_t *memory, size_t memory_len,
                         uint8_t *answer, size_t answer_len);

/* A step whose opcode is given: r15 is the address it runs at, nothing is fetched, and answer 6 is not given. */
uint32_t tholungdek_step_opcode(uint8_t *state, size_t state_len, uint8_t *memory, size_t memory_len,
                                uint32_t opcode, uint8_t *answer, size_t answer_len);

/* Steps until one answers other than 0, or until the budget is used up (answer 10). */
uint32_t tholungdek_run(uint8_t *state, size_t state_len, uint8_t *memory, size_t memory_len,
                        uint32_t budget, uint8_t *answer, size_t answer_len);

/* The status word with its GE replaced; high half: answer 0, or 8 with the word 0 where ge exceeds 15. */
uint64_t tholungdek_pack(uint32_t word, uint32_t ge);

/* The status word as the core keeps it, bits that have no field dropped; high half: its GE. */
uint64_t tholungdek_unpack(uint32_t word);

/* A shifter operand: the value, and in bit 32 the carry. The low five bits of the amount count. */
uint64_t tholungdek_shift_immediate(uint32_t kind, uint32_t value, uint32_t amount, bool carry);

/* The same by a register: the low eight bits of the amount count. */
uint64_t tholungdek_shift_register(uint32_t kind, uint32_t value, uint32_t amount, bool carry);

/*
 * Accessors. A reader gives 0, and a writer gives false and writes nothing, where the pointer is null,
 * the length is not that of a state, or there is no such register, record or bank.
 */

static inline uint32_t tholungdek_get_word(const uint8_t *bytes, size_t length, size_t i)
{
    if (bytes == NULL || i >= length / 4)
        return 0;
    const uint8_t *b = bytes + 4 * i;
    return (uint32_t)b[0] | (uint32_t)b[1] << 8 | (uint32_t)b[2] << 16 | (uint32_t)b[3] << 24;
}

static inline bool tholungdek_set_word(uint8_t *bytes, size_t length, size_t i, uint32_t value)
{
    if (bytes == NULL || i >= length / 4)
        return false;
    for (unsigned k = 0; k < 4; k++)
        bytes[4 * i + k] = (uint8_t)(value >> (8 * k));
    return true;
}

/* Word i of the n words of a state that begin at word first. */
static inline uint32_t tholungdek_get_field(const uint8_t *state, size_t state_len, size_t first, size_t n, size_t i)
{
    return state_len == THOLUNGDEK_STATE_SIZE && i < n ? tholungdek_get_word(state, state_len, first + i) : 0;
}

static inline bool tholungdek_set_field(uint8_t *state, size_t state_len, size_t first, size_t n, size_t i,
                                        uint32_t value)
{
    return state_len == THOLUNGDEK_STATE_SIZE && i < n && tholungdek_set_word(state, state_len, first + i, value);
}

/* r0 to r15 as the current mode sees them; r15 is the address of the next instruction. */
static inline uint32_t tholungdek_get_register(const uint8_t *state, size_t state_len, unsigned r)
{
    return tholungdek_get_field(state, state_len, 0, 16, r);
}

static inline bool tholungdek_set_register(uint8_t *state, size_t state_len, unsigned r, uint32_t value)
{
    return tholungdek_set_field(state, state_len, 0, 16, r, value);
}

/* The GE number of a record. Above 15 each call answers 8. */
static inline uint32_t tholungdek_get_ge(const uint8_t *state, size_t state_len, unsigned record)
{
    return tholungdek_get_field(state, state_len, 23, 7, record);
}

static inline bool tholungdek_set_ge(uint8_t *state, size_t state_len, unsigned record, uint32_t ge)
{
    return tholungdek_set_field(state, state_len, 23, 7, record, ge);
}

/* The word of a record. Setting it sets the GE number too, from bits 19 to 16: a call reads GE there alone. */
static inline uint32_t tholungdek_get_status(const uint8_t *state, size_t state_len, unsigned record)
{
    return tholungdek_get_field(state, state_len, 16, 7, record);
}

static inline bool tholungdek_set_status(uint8_t *state, size_t state_len, unsigned record, uint32_t word)
{
    return tholungdek_set_field(state, state_len, 16, 7, record, word)
           && tholungdek_set_ge(state, state_len, record, word >> 16 & 15);
}

/* r13 and r14 of a bank. Those of the current mode are in r13 and r14; its bank is stale until the mode is left. */
static inline uint32_t tholungdek_get_banked(const uint8_t *state, size_t state_len, unsigned bank, unsigned r)
{
    return bank < 6 && r >= 13 ? tholungdek_get_field(state, state_len, 30 + 2 * bank, 2, r - 13) : 0;
}

static inline bool tholungdek_set_banked(uint8_t *state, size_t state_len, unsigned bank, unsigned r, uint32_t value)
{
    return bank < 6 && r >= 13 && tholungdek_set_field(state, state_len, 30 + 2 * bank, 2, r - 13, value);
}

/* r8 to r12 kept for FIQ, and those kept for the other modes while FIQ has its own. */
static inline uint32_t tholungdek_get_fiq(const uint8_t *state, size_t state_len, unsigned r)
{
    return r >= 8 ? tholungdek_get_field(state, state_len, 42, 5, r - 8) : 0;
}

static inline bool tholungdek_set_fiq(uint8_t *state, size_t state_len, unsigned r, uint32_t value)
{
    return r >= 8 && tholungdek_set_field(state, state_len, 42, 5, r - 8, value);
}

static inline uint32_t tholungdek_get_other(const uint8_t *state, size_t state_len, unsigned r)
{
    return r >= 8 ? tholungdek_get_field(state, state_len, 47, 5, r - 8) : 0;
}

static inline bool tholungdek_set_other(uint8_t *state, size_t state_len, unsigned r, uint32_t value)
{
    return r >= 8 && tholungdek_set_field(state, state_len, 47, 5, r - 8, value);
}

/* The exclusive tag: whether there is one, and its address. */
static inline bool tholungdek_has_tag(const uint8_t *state, size_t state_len)
{
    return tholungdek_get_field(state, state_len, 52, 1, 0) != 0;
}

static inline uint32_t tholungdek_get_tag(const uint8_t *state, size_t state_len)
{
    return tholungdek_has_tag(state, state_len) ? tholungdek_get_field(state, state_len, 53, 1, 0) : 0;
}

static inline bool tholungdek_set_tag(uint8_t *state, size_t state_len, uint32_t address)
{
    return tholungdek_set_field(state, state_len, 52, 1, 0, 1)
           && tholungdek_set_field(state, state_len, 53, 1, 0, address);
}

static inline bool tholungdek_clear_tag(uint8_t *state, size_t state_len)
{
    return tholungdek_set_field(state, state_len, 52, 1, 0, 0)
           && tholungdek_set_field(state, state_len, 53, 1, 0, 0);
}

/* A fresh machine: all seven records in System mode, all else 0. */
static inline bool tholungdek_make_state(uint8_t *state, size_t state_len)
{
    if (state == NULL || state_len != THOLUNGDEK_STATE_SIZE)
        return false;
    for (size_t i = 0; i < state_len; i++)
        state[i] = 0;
    for (unsigned record = 0; record < 7; record++)
        tholungdek_set_status(state, state_len, record, THOLUNGDEK_MODE_SYSTEM);
    return true;
}

/* The parts of an answer of 12 or 16 bytes; with another length the number is THOLUNGDEK_NO_ANSWER. */
static inline bool tholungdek_is_answer(const uint8_t *answer, size_t answer_len)
{
    return answer != NULL
           && (answer_len == THOLUNGDEK_ANSWER_SIZE || answer_len == THOLUNGDEK_RUN_ANSWER_SIZE);
}

static inline uint32_t tholungdek_get_number(const uint8_t *answer, size_t answer_len)
{
    return tholungdek_is_answer(answer, answer_len) ? tholungdek_get_word(answer, answer_len, 0)
                                                    : THOLUNGDEK_NO_ANSWER;
}

static inline uint32_t tholungdek_get_first(const uint8_t *answer, size_t answer_len)
{
    return tholungdek_is_answer(answer, answer_len) ? tholungdek_get_word(answer, answer_len, 1) : 0;
}

static inline uint32_t tholungdek_get_second(const uint8_t *answer, size_t answer_len)
{
    return tholungdek_is_answer(answer, answer_len) ? tholungdek_get_word(answer, answer_len, 2) : 0;
}

/* The count of a run; an answer of 12 bytes has none. */
static inline uint32_t tholungdek_get_count(const uint8_t *answer, size_t answer_len)
{
    return answer_len == THOLUNGDEK_RUN_ANSWER_SIZE ? tholungdek_get_word(answer, answer_len, 3) : 0;
}

static inline const char *tholungdek_answer_name(uint32_t number)
{
    switch (number) {
    case THOLUNGDEK_DONE: return "done";
    case THOLUNGDEK_SUPERVISOR: return "Supervisor call";
    case THOLUNGDEK_UNDEFINED: return "undefined instruction";
    case THOLUNGDEK_BREAKPOINT: return "breakpoint";
    case THOLUNGDEK_COPROCESSOR: return "coprocessor instruction";
    case THOLUNGDEK_THUMB: return "Thumb state";
    case THOLUNGDEK_FETCH: return "no instruction to fetch";
    case THOLUNGDEK_BUS: return "access outside memory";
    case THOLUNGDEK_BAD_STATE: return "bad state";
    case THOLUNGDEK_MEMORY_TOO_LONG: return "memory too long";
    case THOLUNGDEK_TIMEOUT: return "budget used up";
    case THOLUNGDEK_TRANSFER_FORM: return "transfer form";
    default: return "no answer";
    }
}

#ifdef __cplusplus
}
#endif

#endif
