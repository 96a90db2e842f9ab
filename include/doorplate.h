/* doorplate: door-plate guides for C. The five calls of the paper "Door-plate guides: text, plate and run" (document 01),
 * with the requests c, d, f, h, l and n of document 02, "Later changes to the base".
 *
 * Every call is proved, for every content and length of its inputs and every lent buffer, to answer and to leave in the buffer exactly
 * what its definition says (docs/DEFINITIONS.md, "The C library"). No call has a precondition of its own. What C has to see to:
 *  - each pointer points to as many elements as the length behind it says, and is not NULL, even where that length is 0;
 *  - the output buffer, and the scratch, overlap nothing else that is lent to the same call.
 * No call allocates, keeps state, reads or writes anything but what it is lent. A call may be made from any thread.
 */
#ifndef DOORPLATE_H
#define DOORPLATE_H

#include <stddef.h>
#include <stdint.h>

#ifdef __cplusplus
extern "C" {
#endif

/* Lengths that always do (documents 01 and 02). */
#define DOORPLATE_PLATE_BYTES 2953        /* no accepted plate is longer */
#define DOORPLATE_LISTING_BYTES 327680    /* no accepted plate has a longer listing */
#define DOORPLATE_TRANSCRIPT_BYTES 918016 /* no accepted guide or plate has a longer transcript */
#define DOORPLATE_SCRATCH_NUMBERS 64      /* what doorplate_run asks for */

/* Outcomes of a walk or a run. */
#define DOORPLATE_VERDICT 0   /* a verdict was shown */
#define DOORPLATE_END 1       /* the end, without a verdict */
#define DOORPLATE_WAITING 2   /* a question is asked and no answer is left */
#define DOORPLATE_OUTSIDE 3   /* the third answer outside the options of one inputs question, which is not taken */

/* What translate, write_plate and read_plate answer.
 * number 0: accepted; place is 0, and length is the length of the result, which stands at the front of the buffer.
 * Otherwise: number is the cause of document 01's table, 1 to 15, place its line, bit or 0, and length is 0. */
typedef struct {
    uint32_t number;
    uint64_t place;
    uint64_t length;
} doorplate_written;

/* What walk and run answer.
 * number 0: accepted; place is 0, length is the transcript's length, outcome one of the four above, taken the number of answers taken,
 * steps the number of steps, and wrong the number of wrong answers to the present inputs question: 3 with outcome 3, 0 to 2 while waiting, and 0
 * after a verdict or the end. Otherwise: number and place are the refusal, and every other field is 0. */
typedef struct {
    uint32_t number;
    uint64_t place;
    uint64_t length;
    uint32_t outcome;
    uint64_t taken;
    uint64_t steps;
    uint32_t wrong;
} doorplate_ran;

/* Of every call: a refusal is the first cause in document 01's order, and leaves the buffer as it was. A buffer shorter than the result
 * is 11 with place 0, and is left as it was. Bytes behind the result stay as they were. book is the phrase book: up to 256 different texts,
 * each ended by LF; it may be empty. A text, in the book, in a guide or listing and on a plate, is 1 to 64 bytes of well-formed UTF-8
 * (RFC 3629) with no byte below 32, no 127 and no comma; an own phrase of a listing or plate is of ASCII alone. */

/* The plate of a guide. Refusals: 1 to 7, 9, 10, 11; a phrase line is 6. */
doorplate_written doorplate_translate(const uint8_t *guide, size_t guide_length, const uint8_t *book, size_t book_length,
                                      uint8_t *plate, size_t plate_length);

/* The plate of a listing. Refusals: 1 to 6, 8 to 11. Reading the plate back with the same book gives the listing. */
doorplate_written doorplate_write_plate(const uint8_t *listing, size_t listing_length, const uint8_t *book, size_t book_length,
                                        uint8_t *plate, size_t plate_length);

/* The listing of a plate. Refusals: 1, 8, 10 to 15. Writing the listing again with the same book gives the plate. */
doorplate_written doorplate_read_plate(const uint8_t *plate, size_t plate_length, const uint8_t *book, size_t book_length,
                                       uint8_t *listing, size_t listing_length);

/* The transcript of a guide, walked from its text on the answers. Refusals: 1 to 7, 9, 11; a phrase line is 6. */
doorplate_ran doorplate_walk(const uint8_t *guide, size_t guide_length, const uint8_t *book, size_t book_length,
                             const int32_t *answers, size_t answers_length, uint8_t *transcript, size_t transcript_length);

/* The transcript of a plate, run on the answers. Refusals: 1, 8, 10 to 15; 11 also for fewer than 64 numbers of scratch.
 * scratch is left as it was. On the bytes that doorplate_translate wrote for a guide, with the same book and enough scratch, the answer and
 * the buffer are those of doorplate_walk on that guide, for every list of answers and every buffer. With more answers behind those of a run
 * that waits, the transcript begins with that run's; behind those of any other run, nothing changes. So it is for doorplate_walk. */
doorplate_ran doorplate_run(const uint8_t *plate, size_t plate_length, const uint8_t *book, size_t book_length,
                            const int32_t *answers, size_t answers_length, uint16_t *scratch, size_t scratch_length,
                            uint8_t *transcript, size_t transcript_length);

#ifdef __cplusplus
}
#endif

#endif
