/*
 * The site book behind a yearly PRTR return: what a plant released and
 * transferred of each listed substance. C11, over the archive libprtr.a.
 *
 * Units: material in grams, content in parts per million by mass (ppm),
 * substance in micrograms. A substance has a management number and a class:
 * 1 (class one) or 2 (specific class one).
 *
 * Every function ends, keeps nothing between calls and may be called from
 * several threads at once. It answers for every number and every byte it is
 * given; what is outside the limits is declined by a number, PRTR_LAYOUT and
 * so on, and then nothing that a pointer names is altered, but for the place
 * that prtr_write tells.
 *
 * What a host owes: each pointer is valid, aligned and not null for the whole
 * call, also where its length is 0, and what two pointers of one call name
 * doesn't overlap, but where both are const.
 */
#ifndef PRTR_H
#define PRTR_H

#include <stddef.h>
#include <stdint.h>

#ifdef __cplusplus
extern "C" {
#endif

/*
 * Why a call is declined, in checking order. The status of a calculation
 * (prtr_counted, prtr_split, prtr_due, prtr_loss) is 0 or one of 6 to 9, that
 * of prtr_pressure 0 or 18, that of prtr_write 0, 4, 6, 7, 13 or
 * PRTR_MALFORMED; 1 to 11 stand in the "refused" line of prtr_filing; 12 and
 * 14 are of a book's own calls, a report and a stock count, and come from no
 * function here. prtr_case, prtr_step and prtr_figure decline nothing.
 */
#define PRTR_NOT_A_BLOCK 1   /* a block isn't 512 bytes or lacks "PRTR" */
#define PRTR_CHECK_SUM 2     /* a check sum differs */
#define PRTR_NOT_NEXT 3      /* a block's kind isn't 1 to 3, or its number isn't the next */
#define PRTR_OUT_OF_TURN 4   /* a set-up block out of its turn, or posts before the set-up is whole */
#define PRTR_CLOSED 5        /* the book is closed */
#define PRTR_LAYOUT 6        /* a length, kind, form, index, count, limit, order or zero place */
#define PRTR_RANGE 7         /* a float isn't finite or is outside its range */
#define PRTR_NO_ROW 8        /* form 1 or 2 of a substance without a coefficient row */
#define PRTR_EXCESS 9        /* a vapour loss above 2,000,000 kg */
#define PRTR_FULL 10         /* 4,000 posts are accepted and this isn't the close */
#define PRTR_SHORT 11        /* a store or holding is less than what leaves it */
#define PRTR_NO_SUBSTANCE 12 /* a report names a substance that the book hasn't */
#define PRTR_NO_ROOM 13      /* a block that begins finds fewer than 512 bytes left, or 65,536 blocks written */
#define PRTR_STOCK_COUNT 14  /* a stock count exceeds 8 x 10^12 g, or its material isn't in the book */
#define PRTR_MIXTURE 18      /* no part, over eight, the named one not among them, or a value outside its range */

/* No decline: a record of prtr_write is cut short or has another tag than S, P and E. */
#define PRTR_MALFORMED 255

/* The room that prtr_filing asks for, in bytes; no text is longer. */
#define PRTR_ROOM 1336

/*
 * A material's content of a substance as it counts for the return: from
 * 10,000 ppm in class 1 and from 1,000 ppm in class 2 as it is, and else 0.
 * Answers 0 and sets *counted. Declines a class other than 1 and 2 and more
 * than 1,000,000 ppm by PRTR_LAYOUT, and *counted is as before.
 */
uint8_t prtr_counted(uint8_t class_, uint32_t ppm, uint32_t *counted);

/*
 * What treatment makes of a year's total of one stage and substance, in
 * micrograms, with the rates of removal and destruction in ppm. Of the total,
 * removed is total x removal / 10^6 rounded down, and of that, destroyed is
 * removed x destruction / 10^6 rounded down; released and residue are the
 * rests, so that the three parts add up to the total.
 * Answers 0 and sets all three. Declines a rate above 1,000,000 ppm by
 * PRTR_LAYOUT, and all three are as before. The total may be any number.
 */
uint8_t prtr_split(uint64_t total, uint32_t removal, uint32_t destruction,
                   uint64_t *released, uint64_t *destroyed, uint64_t *residue);

/*
 * How the amount of a heading is rounded, by eleven cases. In micrograms:
 *
 * case  0 below 10^10,       step 10^8 (0.1 kg)
 * case  1 10^10 up to 10^11, step 10^9 (1 kg)
 *       ..                   and so for each decade, case n from 10^(9+n)
 * case  9 10^18 up to 10^19, step 10^17
 * case 10 from 10^19,        step 10^18
 *
 * Answers the amount's step and sets *number to its case.
 */
uint64_t prtr_case(uint64_t amount, uint8_t *number);

/*
 * The step alone: 10^8 below 10^10, and else a tenth of the largest power of
 * ten that is not above the amount.
 */
uint64_t prtr_step(uint64_t amount);

/* The filed figure of a heading, in micrograms: its exact amount rounded half up to the amount's step. */
uint64_t prtr_figure(uint64_t amount);

/*
 * Whether a substance must be filed that was handled to so many micrograms:
 * from 10^12 (1 t) in class 1, from 5 x 10^11 (0.5 t) in class 2.
 * Answers 0 and sets *due to 1 or 0. Declines a class other than 1 and 2 by
 * PRTR_LAYOUT, and *due is as before.
 */
uint8_t prtr_due(uint8_t class_, uint64_t handled, uint8_t *due);

/*
 * A vapour loss in whole micrograms. number is the substance's management
 * number; w, u, p and q are doubles by their bits (memcpy them), by form:
 *
 * 1 floating roof: w diameter in m, 1 to 1,000; u content in weight percent,
 *   0 to 100; p kL drawn, 0 to 10^9; q is zero.
 * 2 filling a fixed roof: w m3, 0 to 10^9; u partial pressure in Pa, 0 to
 *   10^9; p tank pressure in Pa, 1 to 10^9; q share that escapes, 0 to 1.
 * 3 station: w and p kL received and dispensed, u and q kg per kL, each 0 to
 *   10^9.
 *
 * Answers 0 and sets *micrograms. Else declines by the first that applies,
 * and *micrograms is as before: PRTR_LAYOUT for another form or for number 0,
 * PRTR_RANGE, PRTR_NO_ROW (forms 1 and 2 know the numbers 53, 80, 300, 392
 * and 400), PRTR_EXCESS.
 */
uint8_t prtr_loss(uint8_t form, uint16_t number, uint64_t w, uint64_t u,
                  uint64_t p, uint64_t q, uint64_t *micrograms);

/*
 * The partial pressure in Pa of one part of a mixture:
 *
 *   (pressure x (its content / its M)) / sum
 *
 * where sum is content / M of each part, added from the first to the last, and
 * each operation is rounded once. contents are the n contents in weight
 * percent, 0.0001 to 100; weights are the m molecular weights M in g/mol, 1 to
 * 1,000, in the same order; named is the part's place from 0, and pressure the
 * vapour pressure of that part in Pa, 0 to 10^9. All are doubles by their
 * bits, *partial too.
 *
 * Answers 0 and sets *partial, which is meant for u of form 2 of prtr_loss. It
 * is finite, not negative and at most 2^30; -0.0 for a pressure of -0.0. Of a
 * part alone at 10^9 Pa it may lie one unit in the last place above 10^9, and
 * prtr_loss then declines it by PRTR_RANGE. Declines no part, more than eight,
 * n and m that differ, a place not below n and a value outside its range by
 * PRTR_MIXTURE, and *partial is as before.
 */
uint8_t prtr_pressure(const uint64_t *contents, size_t n, const uint64_t *weights,
                      size_t m, size_t named, uint64_t pressure, uint64_t *partial);

/*
 * The return of a journal, a row of blocks of 512 bytes: the text, in ASCII,
 * of the title and of one line for each substance, or of the one line
 * "refused", the block's place from 0 and the number of its decline.
 *
 * The text is put at the start of out and its length is the answer, which is
 * never 0; the bytes of out behind the text stay as they were. Where room is
 * less than PRTR_ROOM the answer is 0 and all of out stays as it was,
 * however short the text would have been. There is no byte 0 at the end.
 */
size_t prtr_filing(const uint8_t *journal, size_t length, uint8_t *out, size_t room);

/*
 * Writes a journal: its set-up blocks as they are given, and its posts ten to
 * a block. records is a row of records, each a tag of one byte, a length in 16
 * bits, little-endian, and that many bytes:
 *
 * S a set-up block: byte 0 its kind, 1 or 2, byte 1 its count, then its body
 *   of 500 bytes. A kind or count that is missing is 0.
 * P a post.
 * E ends the block of posts that is begun, though it hasn't ten; where none is
 *   begun it does nothing. Bytes of the record are passed over.
 *
 * The last block is ended after the last record. Block numbers, counts and
 * check sums are put in. The writer keeps no book, so that a journal it writes
 * may yet be refused: prtr_filing tells.
 *
 * Answers 0, puts the journal at the start of journal and sets *written to its
 * length, 512 for each block; the bytes behind it, and *place, are as before.
 * Else answers for the first record that isn't taken and sets *place to that
 * record's place, counted from 0; *written and all of journal are as before.
 * PRTR_MALFORMED is for a record that is cut short or has another tag. A
 * set-up block is declined by the first of: PRTR_LAYOUT for another kind,
 * PRTR_OUT_OF_TURN, PRTR_LAYOUT, PRTR_NO_ROOM; a post by the first of
 * PRTR_OUT_OF_TURN, PRTR_LAYOUT, PRTR_RANGE, PRTR_NO_ROOM. The last is asked
 * only of what begins a block.
 */
uint8_t prtr_write(const uint8_t *records, size_t length, uint8_t *journal,
                   size_t room, size_t *written, size_t *place);

#ifdef __cplusplus
}
#endif

#endif
