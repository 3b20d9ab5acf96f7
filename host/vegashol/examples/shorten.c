/* Shortens the card on standard input. From host: cc -I include vegashol/examples/shorten.c ../crates/console/out/libconsole.a */
#include "vegashol.h"
#include <stdio.h>

int main(void) {
    static uint8_t card[VEGASHOL_MOST_CARD + 1], out[VEGASHOL_MOST_CARD * VEGASHOL_MOST_TIMES];
    size_t length = fread(card, 1, sizeof card, stdin);
    uint64_t answer = vegashol_shorten(card, length, VEGASHOL_CRATE, VEGASHOL_CRATE_LENGTH, out, sizeof out);
    if (VEGASHOL_NUMBER(answer) != 0) {
        fprintf(stderr, "refused %u at %u\n", (unsigned)VEGASHOL_NUMBER(answer), (unsigned)VEGASHOL_VALUE(answer));
        return 1;
    }
    return fwrite(out, 1, VEGASHOL_VALUE(answer), stdout) != VEGASHOL_VALUE(answer) || fflush(stdout) != 0;
}
