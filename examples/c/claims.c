/* Two claims on one machine: opened, loaded, given turns one after the other, and reported.
 *
 *     tools/archive
 *     cc -I include examples/c/claims.c target/staticlib/libportal.a -o target/claims && target/claims
 */
#include <inttypes.h>
#include <stdio.h>

#include "lapisgable.h"

static uint32_t book[LAPISGABLE_BOOK];
static uint16_t tags[LAPISGABLE_TAGS];
static uint64_t words[LAPISGABLE_WORDS];
static uint64_t heads[LAPISGABLE_HEADS];
static uint64_t accs[LAPISGABLE_ACCS];
static uint8_t images[LAPISGABLE_IMAGES];

#define THE_SIX                                                                                                        \
    book, LAPISGABLE_BOOK, tags, LAPISGABLE_TAGS, words, LAPISGABLE_WORDS, heads, LAPISGABLE_HEADS, accs,              \
        LAPISGABLE_ACCS, images, LAPISGABLE_IMAGES

/* 5 + 7, the sum stored in cell 0. */
static const uint8_t sum[] = {0x80, 3, 0x81, 5, 0, 0, 0, 0, 0, 0, 0, 0x81, 7, 0, 0, 0, 0, 0, 0, 0, 0x85,
                              0x10, 1, 2, 0x07, 0, 0x00};

/* A thread that waits on a cell that nobody fills. */
static const uint8_t waiting[] = {0x80, 1, 0x85, 0x05, 0, 0x00};

static void show(uint32_t seat)
{
    lapisgable_told t = lapisgable_report(THE_SIX, seat);
    printf("seat %" PRIu32 ": answer %" PRIu32 ", status %" PRIu32 ", steps %" PRIu32 ", cells %" PRIu32
           ", threads %" PRIu32 ", result kind %" PRIu32 ", word %" PRIu64 "\n",
           seat, t.number, t.status, t.steps, t.used, t.live, t.kind, t.word);
}

int main(void)
{
    const uint32_t shares[] = {8, 4, 8, 4};
    const uint8_t schedule[] = {0, 0, 1, 0, 0, 0, 1, 0, 0, 0};
    uint8_t answers[5];

    printf("open: %" PRIu32 "\n", lapisgable_open(THE_SIX, shares, 4));
    printf("load seat 0: %" PRIu64 "\n", lapisgable_load(THE_SIX, 0, sum, sizeof sum).number);
    printf("load seat 1: %" PRIu64 "\n", lapisgable_load(THE_SIX, 1, waiting, sizeof waiting).number);
    lapisgable_lodged cut = lapisgable_load(THE_SIX, 1, sum, 3);
    printf("load seat 1 again: %" PRIu64 " at %" PRIu64 "\n", cut.number, cut.place);
    printf("run: %" PRIu32 ", answers", lapisgable_run(THE_SIX, schedule, sizeof schedule, answers, sizeof answers));
    for (size_t i = 0; i < sizeof answers; i++)
        printf(" %d", answers[i]);
    printf("\n");
    show(0);
    show(1);
    printf("clear seat 1: %" PRIu32 "\n", lapisgable_clear(THE_SIX, 1));
    cut = lapisgable_load(THE_SIX, 1, sum, 3);
    printf("load a cut image: %" PRIu64 " at %" PRIu64 "\n", cut.number, cut.place);
    show(1);
    show(2);
    return 0;
}
