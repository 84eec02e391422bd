/* Judges presets and prints a line for each; then plays a short session on the first that holds.
 * usage: session PRESET... */
#include <inttypes.h>
#include <stdio.h>

#include "ringbench.h"

enum { MOST_BYTES = 65536, CELLS = 64 };

/* Large buffers are static: a device has them once. */
static uint8_t bytes[MOST_BYTES];
static uint8_t letters[RINGBENCH_STRIP];
static struct ringbench_entry entries[RINGBENCH_STRIP];

/* Reads a file into `bytes`, and says so where it cannot be read. */
static bool read_file(const char *path, size_t *count)
{
    FILE *file = fopen(path, "rb");
    bool whole = false;
    if (file != NULL) {
        *count = fread(bytes, 1, sizeof bytes, file);
        whole = feof(file) && !ferror(file);
        fclose(file);
    }
    if (!whole) {
        fprintf(stderr, "%s cannot be read\n", path);
    }
    return whole;
}

static void print_charge(uint64_t kind, struct ringbench_entry charge)
{
    if (kind == RINGBENCH_VOICES || kind == RINGBENCH_BOTH) {
        printf("%" PRId64, charge.signed_part);
    }
    if (kind == RINGBENCH_BOTH) {
        printf(" ");
    }
    if (kind != RINGBENCH_VOICES) {
        printf("%" PRIu64, charge.plain_part);
    }
}

/* The letters of a word by its code, the first letter most significant. */
static void print_word(size_t code, uint64_t q, uint64_t m)
{
    size_t place = 1;
    for (uint64_t i = 1; i < m; i++) {
        place *= q;
    }
    for (; place > 0; place /= q) {
        printf("%zu", code / place % q);
    }
}

/* Prints the line of a preset, and returns whether it holds. */
static bool judge(const char *path, size_t count)
{
    static struct ringbench_entry crossings[RINGBENCH_STRIP];
    uint8_t ring[RINGBENCH_MOST_SHOWN];
    struct ringbench_judge_answer verdict =
        ringbench_judge(bytes, count, crossings, RINGBENCH_STRIP, ring, RINGBENCH_MOST_SHOWN);
    if (verdict.code != 0) {
        printf("%s\trefused\t%" PRIu32 "\t%zu\n", path, verdict.code, verdict.place);
        return false;
    }
    if (!verdict.breaks) {
        printf("%s\tholds\n", path);
        return true;
    }
    struct ringbench_header header =
        ringbench_read(bytes, count, letters, RINGBENCH_STRIP, entries, RINGBENCH_STRIP).header;
    printf("%s\tbreaks\t", path);
    print_word(verdict.word, header.q, header.n + header.k - 1);
    printf("\t");
    for (size_t i = 0; i < verdict.len; i++) {
        printf("%d", ring[i]);
    }
    printf("\t");
    print_charge(header.kind, verdict.before);
    printf("\t");
    print_charge(header.kind, verdict.after);
    printf("\n");
    return false;
}

static void print_answer(uint64_t kind, struct ringbench_answer answer)
{
    switch (answer.answer) {
    case RINGBENCH_NONE:
        printf("no answer\n");
        break;
    case RINGBENCH_DONE:
        printf("done\n");
        break;
    case RINGBENCH_READING:
        printf("opening ");
        print_charge(kind, answer.opening);
        printf(", crossed ");
        print_charge(kind, answer.crossed);
        printf(", touched ");
        print_charge(kind, answer.touched);
        printf(", now ");
        print_charge(kind, answer.now);
        printf("\n");
        break;
    default:
        printf("refused %" PRIu32 " %zu\n", answer.code, answer.place);
    }
}

/* Opens 1100, steps once, reads, touches, and makes some calls that are refused or not allowed. */
static void play(size_t count)
{
    static const uint8_t rings[] = {1, 1, 0, 0, 9};
    static const struct ringbench_call script[] = {
        {.call = RINGBENCH_STEP},
        {.call = RINGBENCH_OPEN, .at = 0, .len = 5},
        {.call = RINGBENCH_OPEN, .at = 0, .len = 4},
        {.call = RINGBENCH_STEP},
        {.call = RINGBENCH_READ, .at = 1},
        {.call = RINGBENCH_READ, .at = 2},
        {.call = RINGBENCH_TOUCH, .at = 1, .letter = 1},
        {.call = RINGBENCH_READ, .at = 1},
        {.call = RINGBENCH_READ, .at = 4},
        {.call = RINGBENCH_CLOSE},
    };
    enum { CALLS = sizeof script / sizeof script[0] };
    static const char *names[] = {"", "open", "touch", "step", "read", "close"};
    struct ringbench_answer answers[CALLS];
    uint8_t cells[CELLS];
    uint64_t kind =
        ringbench_read(bytes, count, letters, RINGBENCH_STRIP, entries, RINGBENCH_STRIP).header.kind;
    ringbench_play(bytes, count, script, CALLS, rings, sizeof rings, cells, CELLS, answers, CALLS);
    for (size_t i = 0; i < CALLS; i++) {
        printf("%s: ", names[script[i].call]);
        print_answer(kind, answers[i]);
    }
}

int main(int argc, char **argv)
{
    const char *holds = NULL;
    size_t count = 0;
    for (int i = 1; i < argc; i++) {
        if (!read_file(argv[i], &count)) {
            return 1;
        }
        if (judge(argv[i], count) && holds == NULL) {
            holds = argv[i];
        }
    }
    if (holds != NULL) {
        if (!read_file(holds, &count)) {
            return 1;
        }
        printf("\n%s, played:\n", holds);
        play(count);
    }
    return 0;
}
