/* A host in C: runs an image at address 0 of 65,536 bytes, in System mode, and prints what came of it. */
#include <inttypes.h>
#include <stdio.h>
#include <stdlib.h>

#include "tholungdek.h"

/* One byte more than the core takes, so that it refuses a longer image itself. */
static uint8_t memory[THOLUNGDEK_MEMORY_LIMIT + 1];

/* The bytes to lend: the limit, or one more where the image is longer; 0 where it cannot be read. */
static size_t load(const char *path)
{
    FILE *file = fopen(path, "rb");
    if (file == NULL)
        return 0;
    size_t length = fread(memory, 1, sizeof memory, file);
    bool failed = ferror(file) != 0;
    fclose(file);
    if (failed)
        return 0;
    return length > THOLUNGDEK_MEMORY_LIMIT ? length : THOLUNGDEK_MEMORY_LIMIT;
}

/* A decimal number of 32 bits. */
static bool read_budget(const char *text, uint32_t *budget)
{
    uint64_t value = 0;
    if (*text == '\0')
        return false;
    for (; *text != '\0'; text++) {
        if (*text < '0' || *text > '9')
            return false;
        value = 10 * value + (uint64_t)(*text - '0');
        if (value > UINT32_MAX)
            return false;
    }
    *budget = (uint32_t)value;
    return true;
}

static void print_answer(const uint8_t *answer, size_t length)
{
    uint32_t number = tholungdek_get_number(answer, length);
    uint32_t first = tholungdek_get_first(answer, length);
    uint32_t second = tholungdek_get_second(answer, length);
    printf("answer %" PRIu32 ": %s", number, tholungdek_answer_name(number));
    switch (number) {
    case THOLUNGDEK_SUPERVISOR:
        printf(" %" PRIu32, first);
        break;
    case THOLUNGDEK_UNDEFINED:
        printf(" %08" PRIX32 " at %08" PRIX32, second, first);
        break;
    case THOLUNGDEK_BREAKPOINT:
        printf(" %" PRIu32 " at %08" PRIX32, second, first);
        break;
    case THOLUNGDEK_COPROCESSOR:
    case THOLUNGDEK_TRANSFER_FORM:
        printf(" %08" PRIX32, first);
        break;
    case THOLUNGDEK_FETCH:
    case THOLUNGDEK_BUS:
        printf(" at %08" PRIX32, first);
        break;
    default:
        break;
    }
    printf("\nsteps %" PRIu32 "\n", tholungdek_get_count(answer, length));
}

static void print_state(const uint8_t *state, size_t length)
{
    for (unsigned r = 0; r < 16; r++)
        printf("r%-2u %08" PRIX32 "%s", r, tholungdek_get_register(state, length, r), r % 4 == 3 ? "\n" : "  ");
    printf("cpsr %08" PRIX32 "\n", tholungdek_get_status(state, length, THOLUNGDEK_CURRENT));
    printf("r0 in decimal %" PRIu32 "\n", tholungdek_get_register(state, length, 0));
}

int main(int argc, char **argv)
{
    uint32_t budget = 1000000;
    if (argc < 2 || argc > 3 || (argc == 3 && !read_budget(argv[2], &budget))) {
        fprintf(stderr, "usage: %s IMAGE [BUDGET]\n", argc > 0 ? argv[0] : "example");
        return 2;
    }
    size_t memory_len = load(argv[1]);
    if (memory_len == 0) {
        perror(argv[1]);
        return 2;
    }
    uint8_t state[THOLUNGDEK_STATE_SIZE];
    uint8_t answer[THOLUNGDEK_RUN_ANSWER_SIZE];
    if (!tholungdek_make_state(state, sizeof state)
        || tholungdek_run(state, sizeof state, memory, memory_len, budget, answer, sizeof answer) != 1) {
        fprintf(stderr, "the core refused the lengths\n");
        return 2;
    }
    print_answer(answer, sizeof answer);
    print_state(state, sizeof state);
    return 0;
}
