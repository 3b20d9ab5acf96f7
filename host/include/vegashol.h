/*
 * Shortens the long paths of a cue card, by proved code.
 *
 * Link with the static library of the crate `console`: `rt lib` in its folder makes crates/console/out/libconsole.a.
 *
 * A card is a module tree in records, at most 32,768 bytes; a root is the path that its outermost module stands in, at most 256
 * bytes, such as VEGASHOL_CRATE. docs/FORMAT.md has the records. Any bytes get an answer.
 *
 * Each call answers one number: VEGASHOL_NUMBER of it is 0 for an acceptance, else a refusal's; VEGASHOL_VALUE is the output's
 * length, or the refusal's place in the card, 0 where it has none.
 *
 * Lent memory after a call:
 *   out    accepted: the output, and behind it as it was; refused: as it was.
 *   work   all zero; refused by 1 to 7 or 11: as it was.
 *   list   accepted: two words for each place, and behind them as it was; refused: as it was.
 *   *entries  accepted: the number of places; refused: as it was.
 *
 * A pointer is never NULL, also where its length is 0, and is valid for as many bytes or words as its length says. What a call
 * writes (out, work, list, entries) overlaps with nothing else that is lent to it. No memory is asked for and nothing is kept
 * between calls, so calls with memory of their own may run at the same time. The library needs memcpy and memset, and nothing else.
 * A call took at most 45 KB of stack on the cards tried (docs/BENCHMARKS.md); no proof speaks of the stack.
 */
#ifndef VEGASHOL_H
#define VEGASHOL_H

#include <stddef.h>
#include <stdint.h>

#ifdef __cplusplus
extern "C" {
#endif

#define VEGASHOL_NUMBER(answer) ((uint32_t)((answer) >> 32))
#define VEGASHOL_VALUE(answer) ((uint32_t)(answer))

/* Refusals. */
#define VEGASHOL_SHORT_WORK 1   /* fewer than VEGASHOL_LEAST_WORK work words */
#define VEGASHOL_LONG_CARD 2    /* a card of more than VEGASHOL_MOST_CARD bytes */
#define VEGASHOL_BAD_ROOT 3     /* not one sound path, of at most VEGASHOL_MOST_ROOT bytes and at most 8 records deep */
#define VEGASHOL_SHORT_RECORD 4 /* fewer than 6 bytes left for a record, or its length under 2 or past the record around it */
#define VEGASHOL_WRONG_KIND 5   /* a record of a kind that may not stand there */
#define VEGASHOL_TOO_DEEP 6     /* a record more than 48 deep */
#define VEGASHOL_LEFT_OVER 7    /* bytes behind the end of what a record holds */
#define VEGASHOL_FULL_TABLE 8   /* a module with more names and paths than the work words have room for */
#define VEGASHOL_NO_SPACE 9     /* an output longer than out */
#define VEGASHOL_SHORT_LIST 10  /* a list with fewer than two words for each place */
#define VEGASHOL_NO_NAME 11     /* a path's name that is empty or "!" */

#define VEGASHOL_MOST_CARD 32768
#define VEGASHOL_MOST_ROOT 256
/* No output is longer than its card so many times; by straight shortening, so many. */
#define VEGASHOL_MOST_TIMES 42
#define VEGASHOL_MOST_TIMES_STRAIGHT 4
/* Work words: with fewer every card is refused; more than the most allow no more names. */
#define VEGASHOL_LEAST_WORK 2048
#define VEGASHOL_MOST_WORK 4096
/* The root `crate`, six bytes. */
#define VEGASHOL_CRATE ((const uint8_t *)"\2\0\0\0\21")
#define VEGASHOL_CRATE_LENGTH 6

/* The second word of a place; the first is where its record starts in the output. Offsets rise. */
#define VEGASHOL_TYPE 1 /* a shortened path type: the outermost synonym put around it */
#define VEGASHOL_EXPR 2 /* an identifier put for a path expression */
#define VEGASHOL_USE 3  /* a use put ahead of a module's body */

/* As the text of Dafny has it. This and the others without `_work` bring 2,048 work words, 8 KB of stack, of their own. */
uint64_t vegashol_shorten(const uint8_t *card, size_t card_length, const uint8_t *root, size_t root_length,
                          uint8_t *out, size_t out_length);

/* The same in lent work words. A module may have a pair of name and path for every four, and at most 1,024. */
uint64_t vegashol_shorten_work(const uint8_t *card, size_t card_length, const uint8_t *root, size_t root_length,
                               uint8_t *out, size_t out_length, uint32_t *work, size_t work_length);

/* The same with a list of places. A word for every six bytes of the card always suffices, and nothing is counted first. */
uint64_t vegashol_shorten_places(const uint8_t *card, size_t card_length, const uint8_t *root, size_t root_length,
                                 uint8_t *out, size_t out_length, uint32_t *list, size_t list_length,
                                 uint32_t *entries);

uint64_t vegashol_shorten_places_work(const uint8_t *card, size_t card_length, const uint8_t *root,
                                      size_t root_length, uint8_t *out, size_t out_length, uint32_t *work,
                                      size_t work_length, uint32_t *list, size_t list_length, uint32_t *entries);

/* Straight shortening: a nested module stands under its true path, and a path type is wrapped exactly once. */
uint64_t vegashol_straight(const uint8_t *card, size_t card_length, const uint8_t *root, size_t root_length,
                           uint8_t *out, size_t out_length);

uint64_t vegashol_straight_work(const uint8_t *card, size_t card_length, const uint8_t *root, size_t root_length,
                                uint8_t *out, size_t out_length, uint32_t *work, size_t work_length);

uint64_t vegashol_straight_places(const uint8_t *card, size_t card_length, const uint8_t *root,
                                  size_t root_length, uint8_t *out, size_t out_length, uint32_t *list,
                                  size_t list_length, uint32_t *entries);

uint64_t vegashol_straight_places_work(const uint8_t *card, size_t card_length, const uint8_t *root,
                                       size_t root_length, uint8_t *out, size_t out_length, uint32_t *work,
                                       size_t work_length, uint32_t *list, size_t list_length,
                                       uint32_t *entries);

#ifdef __cplusplus
}
#endif

#endif
