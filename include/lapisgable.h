/* Lapisgable: a verified machine for damage-claim worksheets.
 *
 * Five calls over six buffers that the caller owns and lends. Every call answers, whatever it is lent: any lengths,
 * any contents, any numbers. A refused call writes nothing. No call keeps a pointer, allocates, prints or fails.
 *
 * Build the archive with `tools/archive`, which proves it, and link target/staticlib/libportal.a. x86-64 only.
 */
#ifndef LAPISGABLE_H
#define LAPISGABLE_H

#include <stddef.h>
#include <stdint.h>

#ifdef __cplusplus
extern "C" {
#endif

/* The least number of elements of each buffer. Longer buffers are welcome: what lies beyond the minimum is neither
 * looked at nor written. docs/STATE.md has every field. */
#define LAPISGABLE_BOOK 72
#define LAPISGABLE_TAGS 2048
#define LAPISGABLE_WORDS 2048
#define LAPISGABLE_HEADS 256
#define LAPISGABLE_ACCS 256
#define LAPISGABLE_IMAGES 32768

/* The limits of an opening, an image and a schedule. */
#define LAPISGABLE_SEATS 8
#define LAPISGABLE_CELLS 1024     /* of one seat */
#define LAPISGABLE_ALL_CELLS 2048 /* of all seats together */
#define LAPISGABLE_THREADS 32     /* of one seat */
#define LAPISGABLE_IMAGE 4096     /* bytes */
#define LAPISGABLE_SCHEDULE 65534 /* bytes, two an entry */

/* What a call answers. */
enum {
    LAPISGABLE_DONE = 0,
    LAPISGABLE_NO_SUCH_SEAT = 20,     /* load, report, clear */
    LAPISGABLE_NOT_VACANT = 21,       /* load */
    LAPISGABLE_IMAGE_TOO_LONG = 22,   /* load */
    LAPISGABLE_BAD_IMAGE = 23,        /* load, with the place: an offset in the image */
    LAPISGABLE_SLOTS_OVER_SHARE = 24, /* load: the root frame has more slots than the seat has cells */
    LAPISGABLE_BAD_SHARES = 30,       /* open: counts or shares out of range */
    LAPISGABLE_SHORT_BUFFER = 31,     /* open: a buffer below its minimum */
    LAPISGABLE_UNSOUND = 32,          /* all but open: what was lent is no state of the machine */
    LAPISGABLE_BAD_SCHEDULE = 33,     /* run: of odd length, or over the limit */
    LAPISGABLE_SHORT_ANSWERS = 34,    /* run: fewer bytes than entries */
    LAPISGABLE_VACANT_SEAT = 35       /* clear */
};

/* What an entry of a schedule answers. Answers 0 to 3 add one to the claim's steps, no other does. */
enum {
    LAPISGABLE_RAN_ON = 0,
    LAPISGABLE_ENDED = 1,
    LAPISGABLE_WAITS = 2,
    LAPISGABLE_REFUSED_NOW = 3,
    LAPISGABLE_NO_SEAT = 4,
    LAPISGABLE_NOT_RUNNING = 5,
    LAPISGABLE_NO_THREAD = 6, /* the pick is not below the count of ready threads */
    LAPISGABLE_STEPS_FULL = 7
};

/* A claim's status. */
enum {
    LAPISGABLE_VACANT = 0,
    LAPISGABLE_RUNNING = 1,
    LAPISGABLE_FINISHED = 2,
    LAPISGABLE_DEADLOCKED = 3,
    LAPISGABLE_REFUSED = 4
};

/* Why a claim was refused. */
enum {
    LAPISGABLE_NO_SUCH_CELL = 1,
    LAPISGABLE_WRONG_CELL_KIND = 2,
    LAPISGABLE_SLOT_EMPTY = 3,
    LAPISGABLE_WRONG_VALUE_KIND = 4,
    LAPISGABLE_CELL_FULL = 5,
    LAPISGABLE_BAD_SIZE = 6,
    LAPISGABLE_NO_CELLS_LEFT = 7,
    LAPISGABLE_NO_THREADS_LEFT = 8,
    LAPISGABLE_ARITHMETIC = 9
};

/* The kind of a result. None differs from nil. */
enum {
    LAPISGABLE_NONE = 0,
    LAPISGABLE_INTEGER = 1, /* word: two's complement */
    LAPISGABLE_FLOAT = 2,   /* word: its IEEE 754 bits */
    LAPISGABLE_BOOLEAN = 3, /* word: 0 or 1 */
    LAPISGABLE_NIL = 4,     /* word: 0 */
    LAPISGABLE_LOCATION = 5 /* word: 0 to 65,535 */
};

typedef struct {
    uint64_t number;
    uint64_t place; /* 0 but with 23 */
} lapisgable_lodged;

/* Zeros, and result none, where number is not 0 and where the seat is vacant. */
typedef struct {
    uint32_t number;
    uint32_t status;
    uint32_t refusal;  /* 0 unless refused */
    uint32_t position; /* 0 unless refused */
    uint32_t used;     /* cells */
    uint32_t live;     /* threads */
    uint32_t steps;
    uint32_t kind; /* of the result */
    uint64_t word; /* of the result */
} lapisgable_told;

/* Each buffer goes as a pointer and its number of elements, the machine's six first. The buffers of one call must not
 * overlap. */

/* Shares: cells and threads of each seat in turn, two numbers a seat. What the six held is not looked at. */
uint32_t lapisgable_open(uint32_t *book, size_t n_book, uint16_t *tags, size_t n_tags, uint64_t *words, size_t n_words,
                         uint64_t *heads, size_t n_heads, uint64_t *accs, size_t n_accs, uint8_t *images, size_t n_images,
                         const uint32_t *shares, size_t n_shares);

lapisgable_lodged lapisgable_load(uint32_t *book, size_t n_book, uint16_t *tags, size_t n_tags, uint64_t *words,
                                  size_t n_words, uint64_t *heads, size_t n_heads, uint64_t *accs, size_t n_accs,
                                  uint8_t *images, size_t n_images, uint32_t seat, const uint8_t *image, size_t n_image);

/* Two bytes an entry, seat and pick; one answer byte an entry, at the front of answers. The rest of answers stays. */
uint32_t lapisgable_run(uint32_t *book, size_t n_book, uint16_t *tags, size_t n_tags, uint64_t *words, size_t n_words,
                        uint64_t *heads, size_t n_heads, uint64_t *accs, size_t n_accs, const uint8_t *images,
                        size_t n_images, const uint8_t *schedule, size_t n_schedule, uint8_t *answers, size_t n_answers);

lapisgable_told lapisgable_report(const uint32_t *book, size_t n_book, const uint16_t *tags, size_t n_tags,
                                  const uint64_t *words, size_t n_words, const uint64_t *heads, size_t n_heads,
                                  const uint64_t *accs, size_t n_accs, const uint8_t *images, size_t n_images,
                                  uint32_t seat);

/* The seat as opening gave it. */
uint32_t lapisgable_clear(uint32_t *book, size_t n_book, uint16_t *tags, size_t n_tags, uint64_t *words, size_t n_words,
                          uint64_t *heads, size_t n_heads, uint64_t *accs, size_t n_accs, uint8_t *images,
                          size_t n_images, uint32_t seat);

#ifdef __cplusplus
}
#endif

#endif
