/* The ring bench for C: presets read, judged and played.
 *
 * Link crates/capi/out/libringbench.a, which tools/capi builds. It needs memcpy, memmove and memset, and nothing else: no heap,
 * no files, nothing kept from call to call. A call may be made from any thread, on buffers that no other thread uses.
 *
 * A buffer is a pointer and then a count of its items (of bytes for `bytes`). No pointer is NULL, a count may be 0, and a
 * buffer that a call may write overlaps no other. Whatever the buffers hold and however short they are, each call returns
 * an answer. A refusal is a code from 1 to 15 and a place, and writes nothing into any buffer; code 0 and place 0 are no
 * refusal. Numbers that an answer does not have are 0. What a call does not write, past what it writes, stays.
 *
 * Nothing checks this file against the library's source, crates/capi/src.
 */
#ifndef RINGBENCH_H
#define RINGBENCH_H

#include <stdbool.h>
#include <stddef.h>
#include <stdint.h>

#ifdef __cplusplus
extern "C" {
#endif

enum {
    RINGBENCH_STRIP = 4096,      /* letters and entries that the largest preset has; crossings that any has at most */
    RINGBENCH_MOST_SHOWN = 23,   /* cells of a ring strip that is never too short */
    RINGBENCH_MOST_CELLS = 4096  /* cells of the longest ring */
};

/* What a refusal's code says. */
enum {
    RINGBENCH_CUT_SHORT = 1,
    RINGBENCH_MISSPELT = 2,
    RINGBENCH_UNKNOWN_KIND = 3,
    RINGBENCH_BAD_ALPHABET = 4,
    RINGBENCH_BAD_WINDOW = 5,
    RINGBENCH_BAD_REACH = 6,
    RINGBENCH_BAD_WIDTH = 7,
    RINGBENCH_ALPHABETS_DIFFER = 8,
    RINGBENCH_TOO_MANY_WORDS = 9,
    RINGBENCH_SURPLUS_BYTES = 10,
    RINGBENCH_BAD_LENGTH = 11,
    RINGBENCH_SHORT_STRIP = 12,
    RINGBENCH_BAD_POSITION = 13,
    RINGBENCH_BAD_LETTER = 14,
    RINGBENCH_BAD_ENTRY = 15
};

/* Kinds of charge. */
enum { RINGBENCH_VOICES = 0, RINGBENCH_PITCH = 1, RINGBENCH_CHANNELS = 2, RINGBENCH_BOTH = 3, RINGBENCH_CENTS = 4 };

/* A charge: voices are the signed part; a pitch class, a set of channels or a number of cents (0 to 1,199) is the plain part;
 * and kind 3 has voices and a pitch class. A part that the kind lacks is 0. */
struct ringbench_entry {
    int64_t signed_part;
    uint64_t plain_part;
};

/* The kind, the alphabet size q, the rule's window n and reach l, and the density's width k. */
struct ringbench_header {
    uint64_t kind;
    uint64_t q;
    uint64_t n;
    uint64_t l;
    uint64_t k;
};

struct ringbench_read_answer {
    uint32_t code;
    size_t place;
    struct ringbench_header header;
};

/* A verdict. On a break, the failing word by its code, the length of the ring that shows it, and that ring's totals before
 * and after one step. */
struct ringbench_judge_answer {
    uint32_t code;
    bool breaks;
    size_t place;
    size_t word;
    size_t len;
    struct ringbench_entry before;
    struct ringbench_entry after;
};

/* A call of a script. Open takes `len` letters from index `at` of `rings` on; touch puts `letter` into cell `at`; read
 * reads site `at`; step and close take nothing. Another number is no call. While no ring is open, an open of no letters is
 * refused by 11 at place 0 wherever `at` points, past the end of `rings` too; while one is, it has no answer. */
enum {
    RINGBENCH_OPEN = 1,
    RINGBENCH_TOUCH = 2,
    RINGBENCH_STEP = 3,
    RINGBENCH_READ = 4,
    RINGBENCH_CLOSE = 5
};

struct ringbench_call {
    uint32_t call;
    uint8_t letter;
    size_t at;
    size_t len;
};

/* What a call of a script was answered. A reading has the charges of a site: at opening, crossed into it, touched, now. */
enum { RINGBENCH_NONE = 0, RINGBENCH_DONE = 1, RINGBENCH_READING = 2, RINGBENCH_REFUSED = 3 };

struct ringbench_answer {
    uint32_t answer;
    uint32_t code;
    size_t place;
    struct ringbench_entry opening;
    struct ringbench_entry crossed;
    struct ringbench_entry touched;
    struct ringbench_entry now;
};

/* Reads the preset that the bytes are: q^n letters to the front of `letters`, q^k entries to the front of `entries`.
 * Refused: 12 at place 0 if one of these is shorter than RINGBENCH_STRIP; 1 to 7, 9, 14 and 15 at the first byte of the
 * number at fault; 10 at the first byte after the preset.
 * Stack: 1 KiB. */
struct ringbench_read_answer ringbench_read(const uint8_t *bytes, size_t byte_count,
                                            uint8_t *letters, size_t letter_count,
                                            struct ringbench_entry *entries, size_t entry_count);

/* Judges the preset that the bytes are: whether no ring of any length changes its total in a step. In either verdict the
 * q^(n+k-2) crossings stand at the front of `crossings` afterwards, by the codes of their words, and on a break the ring
 * that shows it at the front of `ring`.
 * Refused: as ringbench_read by the bytes; then 12 at place 0 if `crossings` is shorter than q^(n+k-2) or `ring` than
 * 2(n+k)-3.
 * Stack: 256 KiB. */
struct ringbench_judge_answer ringbench_judge(const uint8_t *bytes, size_t byte_count,
                                              struct ringbench_entry *crossings, size_t crossing_count,
                                              uint8_t *ring, size_t ring_count);

/* Judges the preset that the bytes are, and where it holds answers each call of a script, in order, at the call's place in
 * `answers`. The open ring is at the front of `cells`; a ring that is longer than `cells` is refused. Under "breaks" nothing
 * is written. A call has no answer if its number is none of these, if it is open while a ring is open (whatever letters it
 * names), or another while none is.
 * Refused: as ringbench_read by the bytes; then 12 at place 0 if `answers` is shorter than the script. A call of a script
 * is refused by itself, in its answer, by the lowest code that fits: open by 11 at place 0 if it does not have 1 to
 * RINGBENCH_MOST_CELLS letters, wherever they stand, 12 at 0 if they reach past the end of `rings` or are more than `cells`,
 * and 14 at the first that is not below q; touch and read by 13 at 0 past the ring; touch by 14 at the ring's length for a
 * letter that is not below q.
 * Stack: 448 KiB. */
struct ringbench_judge_answer ringbench_play(const uint8_t *bytes, size_t byte_count,
                                             const struct ringbench_call *script, size_t call_count,
                                             const uint8_t *rings, size_t ring_letter_count,
                                             uint8_t *cells, size_t cell_count,
                                             struct ringbench_answer *answers, size_t answer_count);

#ifdef __cplusplus
}
#endif

#endif
