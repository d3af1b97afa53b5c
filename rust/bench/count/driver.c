/* driver CASE N: opens the seats of a case, loads its sheet in each, runs the entries that make it ready, and then N
 * of the entries that repeat, or, where none repeat, N calls without an entry. All else is the same for any N. */
#include "lapisgable.h"
#include <stdio.h>
#include <stdlib.h>

/* The front of a case file: the share of each seat and the lengths of the three parts that follow. */
struct head {
    uint32_t seats, cells, threads, image, first, turns;
};

static uint32_t book[LAPISGABLE_BOOK];
static uint16_t tags[LAPISGABLE_TAGS];
static uint64_t words[LAPISGABLE_WORDS], heads[LAPISGABLE_HEADS], accs[LAPISGABLE_ACCS];
static uint8_t images[LAPISGABLE_IMAGES];
#define MACHINE                                                                                                        \
    book, LAPISGABLE_BOOK, tags, LAPISGABLE_TAGS, words, LAPISGABLE_WORDS, heads, LAPISGABLE_HEADS, accs,              \
        LAPISGABLE_ACCS, images, LAPISGABLE_IMAGES

static uint8_t image[LAPISGABLE_SCHEDULE], first[LAPISGABLE_SCHEDULE], turns[LAPISGABLE_SCHEDULE];
static uint8_t schedule[LAPISGABLE_SCHEDULE], answers[LAPISGABLE_SCHEDULE / 2];

static void need(int good, const char *what) {
    if (!good) {
        fprintf(stderr, "driver: %s\n", what);
        exit(1);
    }
}

static void part(FILE *file, uint8_t *bytes, uint32_t length) {
    need(length <= LAPISGABLE_SCHEDULE && fread(bytes, 1, length, file) == length, "a bad case file");
}

static struct head read_case(const char *name) {
    struct head head;
    FILE *file = fopen(name, "rb");
    need(file != NULL, "no such case file");
    need(fread(&head, sizeof head, 1, file) == 1, "a bad case file");
    part(file, image, head.image);
    part(file, first, head.first);
    part(file, turns, head.turns);
    fclose(file);
    return head;
}

static void run(const uint8_t *entries, size_t length) {
    need(lapisgable_run(MACHINE, entries, length, answers, sizeof answers) == LAPISGABLE_DONE, "a run is refused");
}

static void make_ready(const struct head *head) {
    uint32_t shares[2 * LAPISGABLE_SEATS];
    need(head->seats <= LAPISGABLE_SEATS, "too many seats");
    for (uint32_t seat = 0; seat < head->seats; seat++) {
        shares[2 * seat] = head->cells;
        shares[2 * seat + 1] = head->threads;
    }
    need(lapisgable_open(MACHINE, shares, 2 * head->seats) == LAPISGABLE_DONE, "the opening is refused");
    for (uint32_t seat = 0; seat < head->seats && head->image > 0; seat++)
        need(lapisgable_load(MACHINE, seat, image, head->image).number == LAPISGABLE_DONE, "a sheet is refused");
    run(first, head->first);
}

int main(int count, char **words_given) {
    need(count == 3, "driver CASE N");
    struct head head = read_case(words_given[1]);
    unsigned long n = strtoul(words_given[2], NULL, 10);
    need(n <= LAPISGABLE_SCHEDULE / 2, "too many entries");
    make_ready(&head);
    for (size_t i = 0; i < sizeof schedule && head.turns > 0; i++)
        schedule[i] = turns[i % head.turns];
    if (head.turns > 0)
        run(schedule, 2 * n);
    for (unsigned long call = 0; call < n && head.turns == 0; call++)
        run(schedule, 0);
    return 0;
}
