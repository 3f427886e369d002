/*
 * The replicated access table: two calls of the static library capi.
 * access_run runs a schedule from a saved table to the next; access_inspect says
 * what is wrong with a saved table, and where.
 *
 * `bash tests/build capi` proves the library and writes target/staticlib/libcapi.a
 * (x86-64 code). What is proved of the calls are the definitions accessRun and
 * accessInspect in crates/capi/specs/Access.antt: the number that a call returns
 * and every byte of every lent buffer, as a function of all that it is given. The
 * words below say the same.
 *
 * What the proof does not cover, and a caller in C owes:
 *
 * - every pointer is valid for its length, not null and aligned, even where
 *   the length is 0;
 * - no lent buffer (answers, image_out, lengths; finding) overlaps another one
 *   or an input. image and schedule are only read, and may overlap each other;
 * - nobody else writes to anything that a call is given, or reads a lent one,
 *   during the call;
 * - these declarations themselves: nothing holds them against the Rattle source.
 *
 * Nothing is kept between two calls, so calls on different buffers may run at
 * the same time. As compiled today a call of access_run uses less than 256
 * kilobytes of stack, one of access_inspect less than 64, and no heap; the archive
 * needs memcpy and memset and nothing else.
 */
#ifndef ACCESS_TABLE_H
#define ACCESS_TABLE_H

#include <stddef.h>
#include <stdint.h>

#ifdef __cplusplus
extern "C" {
#endif

/* The longest schedule, in bytes. A longer one is refused with 14. */
#define ACCESS_MAX_SCHEDULE 65536

/* The largest image: 105 blocks of 512 bytes (37 where the table has at most 8
 * desks). An image_out of this length is never too short. */
#define ACCESS_MAX_IMAGE 53760

/* The answers to a schedule of S bytes are never longer than this: 5 bytes for
 * each byte (an empty line is 1 byte, and its answer 5), and 9 for the name of
 * each write that came held with the image, at most 64 at each of 15 desks.
 * Proved: the law enough in crates/capi/specs/BuffersEnough.antt says that with such
 * an `answers` and an image_out of ACCESS_MAX_IMAGE no schedule that is not too
 * long is refused with 14, and rests on answers-fit in
 * crates/session/specs/AnswersBound.antt. (The proof is of that formula; nothing
 * holds this line against it.) */
#define ACCESS_ANSWERS_BOUND(S) (5 * (S) + 9 * 64 * 15)

/* How many numbers access_inspect writes. */
#define ACCESS_FINDING 5

/* The numbers that a call returns; 0, 15, 12 and 13 are found by access_inspect. */
#define ACCESS_DONE 0
/* The image's length is not a multiple of 512 (to access_inspect: or is 0). */
#define ACCESS_CUT 15
/* A block check of the image is wrong. */
#define ACCESS_DAMAGED 12
/* The image breaks another rule. */
#define ACCESS_BROKEN 13
/* The schedule is longer than ACCESS_MAX_SCHEDULE, or answers, image_out,
 * lengths or finding is too short. */
#define ACCESS_SHORT 14

/*
 * From the table in `image` (image_len 0: no table yet) runs the schedule
 * text, one step to a line, and writes
 *
 * - to the front of `answers` one answer line for each line of the schedule;
 * - to the front of `image_out` the image of the table after it, or nothing if
 *   there is no table;
 * - to lengths[0] and lengths[1] how many bytes it wrote to each (0 for the
 *   image if there is no table). lengths_len counts numbers, and is at least 2.
 *
 * What lies behind these bytes, and behind the two numbers, stays.
 *
 * Returns 0, or the refusal: 15, 12 or 13 for the image, and then 14. On a refusal
 * every lent buffer is as found. A refused line is no refusal of the call: its
 * answer is `E` and its number, and the run goes on behind it.
 */
uint64_t access_run(const uint8_t *image, size_t image_len,
                    const uint8_t *schedule, size_t schedule_len,
                    uint8_t *answers, size_t answers_len,
                    uint8_t *image_out, size_t image_out_len,
                    uint64_t *lengths, size_t lengths_len);

/*
 * Looks at `image`, and writes five numbers to the front of `finding`:
 *
 * - finding[0]: 0 if the image would be loaded, or 15, 12 or 13, tested in this
 *   order: the length, then the check of every block, then all else. No bytes
 *   are 15 here;
 * - finding[1]: the place, a block's number from 0. For 12 the first block whose
 *   check is wrong. For 13 the first block whose place, edition or kind cannot
 *   stand there (its place is its number, its edition is 1 or 2, its kind is 1 in
 *   block 0 and 2, 3 or 4 behind it); or, if there is no such block and only other
 *   rules are broken, the number of blocks, image_len / 512. For 15 and 0 it is 0;
 * - finding[2], [3] and [4]: how many desks, cells and open writes the table has,
 *   each 0 if the image is refused.
 *
 * finding_len counts numbers. What lies behind the five stays.
 *
 * Returns 0, or 14 if finding_len is less than ACCESS_FINDING; finding is then as
 * found.
 */
uint64_t access_inspect(const uint8_t *image, size_t image_len,
                        uint64_t *finding, size_t finding_len);

#ifdef __cplusplus
}
#endif

#endif
