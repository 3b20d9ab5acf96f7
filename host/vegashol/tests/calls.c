/* Shortens the card on standard input by each call in turn. Of each it writes what was answered and all that was lent. */
#include "vegashol.h"
#include <stdio.h>
#include <string.h>

static uint8_t card[VEGASHOL_MOST_CARD], out[1000];
static uint32_t work[VEGASHOL_LEAST_WORK], list[100], entries;
static size_t length;

#define CARD card, length, VEGASHOL_CRATE, VEGASHOL_CRATE_LENGTH
#define OUT out, sizeof out
#define WORK work, sizeof work / sizeof *work
#define LIST list, sizeof list / sizeof *list, &entries

static void lend(void) {
    memset(out, 0xAA, sizeof out);
    memset(work, 0xAA, sizeof work);
    memset(list, 0xAA, sizeof list);
    memset(&entries, 0xAA, sizeof entries);
}

static void tell(uint64_t answer) {
    fwrite(&answer, sizeof answer, 1, stdout);
    fwrite(out, sizeof out, 1, stdout);
    fwrite(work, sizeof work, 1, stdout);
    fwrite(list, sizeof list, 1, stdout);
    fwrite(&entries, sizeof entries, 1, stdout);
    lend();
}

int main(void) {
    length = fread(card, 1, sizeof card, stdin);
    lend();
    tell(vegashol_shorten(CARD, OUT));
    tell(vegashol_shorten_work(CARD, OUT, WORK));
    tell(vegashol_shorten_places(CARD, OUT, LIST));
    tell(vegashol_shorten_places_work(CARD, OUT, WORK, LIST));
    tell(vegashol_straight(CARD, OUT));
    tell(vegashol_straight_work(CARD, OUT, WORK));
    tell(vegashol_straight_places(CARD, OUT, LIST));
    tell(vegashol_straight_places_work(CARD, OUT, WORK, LIST));
    return fflush(stdout) != 0;
}
