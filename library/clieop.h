/* CLIEOP03 payment files: check a file, add up its batches, take an item out of it, write it again.
 *
 * Each function returns one number with its answer, line and column, which the three macros below read. The answer is 0 where the file is
 * accepted; clieop(1) and docs/FORMAT.md have the table. An accepted file's line is its number of lines. What is lent is written with answer 0
 * only; any other answer leaves all of it as it was.
 *
 * Every file of every length and content, and every length of what is lent, gets an answer; no function allocates, keeps anything or
 * reads anything but what it is lent. What C cannot promise is the caller's part: no pointer is null, each has as many bytes or numbers
 * behind it as its length says, and what is lent to be written overlaps nothing else that is lent.
 */
#ifndef CLIEOP_H
#define CLIEOP_H

#include <stddef.h>
#include <stdint.h>

/* Of a number that a function returned. */
#define CLIEOP_ANSWER(r) ((uint8_t)((uint64_t)(r) & 255))
#define CLIEOP_COLUMN(r) ((uint8_t)((uint64_t)(r) >> 8 & 255))
#define CLIEOP_LINE(r) ((uint64_t)(r) >> 16)

#ifdef __cplusplus
extern "C" {
#endif

/* The answer of a file. */
uint64_t clieop_check(const uint8_t *file, size_t length);

/* The answer of a file, and what all its batches come to: to `items` how many items they have, up to 999,900,000, and to `amount` their
 * amounts in cents, up to 45,373,483,806,849,099. */
uint64_t clieop_totals(const uint8_t *file, size_t length, uint64_t *items, uint64_t *amount);

/* Item number `item` of batch number `batch`, both counted from 1.
 * numbers: type (0, 3, 5, 8, 1001 or 1002), amount in cents, payer, beneficiary; `count` is how many are lent.
 * texts: four descriptions of 32 characters, the reference in 16, the first 24 characters of the name, 168 bytes together; what there is
 * none of is spaces. Where `count` is under 4 or `room` under 168, the answer is 12 where nothing else applies. */
uint64_t clieop_item(const uint8_t *file, size_t length, uint64_t batch, uint64_t item, uint8_t *texts, size_t room,
                     uint64_t *numbers, size_t count);

/* The file written again without its city records to the front of out, each line ended by 13 and 10 whatever the file had, and to
 * `written` how many bytes that are. Where `room` is smaller, the answer is 12 where nothing else applies, and its line is the file's
 * number of lines: 52 bytes for each are room enough. */
uint64_t clieop_rewrite(const uint8_t *file, size_t length, uint8_t *out, size_t room, uint64_t *written);

#ifdef __cplusplus
}
#endif

#endif
