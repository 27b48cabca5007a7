/* mqarbset: midambles, whole and by the block, chips for the signal card, who is on the air, timeslot parts, beacon timeslots, paging bits and the
 * class book of the 3.84 Mcps option of 3GPP TS 25.221.
 *
 * Every call here is proved against its definition (crates/mqarbset): for all numbers, all bytes and all lengths of lent memory it answers as
 * documents 01 and 02 say, or refuses with their number, and a refused call leaves the book and all lent memory as they
 * were. The few lines of C in this header, the functions marked `static inline`, are not part of the proof.
 *
 * Numbers are uint32_t, and any value may be handed in. A refusal is one of enum mq_refusal; 0 is none. If several apply, the lowest is given,
 * and every other number of the answer is 0, but for the place that a refused block hands back.
 * Lent memory is a pointer and a length; it may be longer than needed (only the first places are read or written) and must not overlap other
 * lent memory that is written. The pointer may be NULL where the length is 0.
 *
 * Link with -lmqarbset (pkg-config mqarbset). x86-64 only.
 *
 * Threads: no call keeps anything between calls, so any thread may call any of them at any time, on books, places and memory of its own,
 * without a lock. A book that threads share needs the caller's lock around every call on it, a list too: the book is read, changed and stored
 * again, and two calls at once can leave bytes that are no book, which every later call refuses with 12. So does a place that they share.
 * Stack: each call says how much it takes at most, with the few frames of this header; a thread needs that and its own.
 */
#ifndef MQARBSET_H
#define MQARBSET_H

#include <stddef.h>
#include <stdint.h>
#include <string.h>

#ifdef __cplusplus
extern "C" {
#endif

/* An answer that must not be ignored. */
#if defined(__GNUC__) || defined(__clang__)
#define MQ_MUST_USE __attribute__((warn_unused_result))
#else
#define MQ_MUST_USE
#endif

/* ---- version ---------------------------------------------------------------------------------------------------------------------------- */

#define MQ_VERSION_MAJOR 0
#define MQ_VERSION_MINOR 9
#define MQ_VERSION_PATCH 0
#define MQ_VERSION 900          /* major times 10000, minor times 100, patch */
#define MQ_ABI 2                /* libmqarbset.so.MQ_ABI; it changes when the book's size or a call that is there does; a new call alone does not move it */

/* The library that runs, beside the header that a program was compiled with: MQ_VERSION there, and the bytes of a book there. A program that is
 * linked with another mq_book_bytes() than MQ_BOOK_BYTES must not hand over a book. Stack: 1 KB. */
MQ_MUST_USE uint32_t mq_version(void);
MQ_MUST_USE uint32_t mq_book_bytes(void);

/* ---- sizes and limits ------------------------------------------------------------------------------------------------------------------- */

#define MQ_CELLS 128            /* cell parameters 0 to 127 */
#define MQ_TIMESLOTS 15         /* timeslots 0 to 14 */
#define MQ_LEAVES 16            /* leaves of a timeslot, 0 to 15: code (factor, index) covers 16/factor of them, from (index - 1)16/factor on */
#define MQ_CHIPS 2560           /* chips of a timeslot, 0 to 2559 */
#define MQ_LONG_MIDAMBLE 512    /* chips of a midamble, types 1 and 3 */
#define MQ_SHORT_MIDAMBLE 256   /* and type 2 */
#define MQ_LONG_PAIRS 1024      /* floats of a midamble's chips as pairs, types 1 and 3 */
#define MQ_SHORT_PAIRS 512      /* and type 2 */
#define MQ_LEVEL_LIMIT 2047     /* the highest level of a chip; the lowest is 1 */
#define MQ_SAMPLE_LIMIT 2047    /* the highest sample that is received; the lowest is -2047 */
#define MQ_PARTS 7              /* parts of a timeslot */
#define MQ_PAGE_BITS_1 244      /* paging bits of a burst, type 1: 240 carrying and 4 reserved */
#define MQ_PAGE_BITS_2 276      /* and type 2: 272 and 4 */
#define MQ_INDICATORS 68        /* the most indicators a frame holds (type 2, length 2) */
#define MQ_SEATS 16             /* seats of a class book, 0 to 15 */
#define MQ_SEAT_LIMIT 40        /* bookings a seat may hold */
#define MQ_FIRST_TEN 10         /* of which so many need no common room */
#define MQ_COMMON_LIMIT 80      /* what all seats together may hold beyond their first tens */
#define MQ_LIST_RECORDS 40      /* records to lend to a list, however few it writes */
#define MQ_RECORD_BYTES 8       /* bytes of a record */
#define MQ_BOOK_BYTES 6432      /* bytes of a class book */
#define MQ_REFUSAL_TEXT_BYTES 256   /* room for the words of any refusal, with a NUL behind them */

/* Direction. */
#define MQ_UP 0
#define MQ_DOWN 1
#define MQ_NO_DIRECTION 2       /* in a summary only: there is no booking */

/* The user that is heard where there is none. */
#define MQ_NOBODY 0

/* The parts of a timeslot, in time order. */
enum mq_part {
    MQ_DATA1 = 1,
    MQ_TFCI1 = 2,               /* first half of TFCI */
    MQ_MIDAMBLE = 3,
    MQ_TPC = 4,
    MQ_TFCI2 = 5,               /* second half of TFCI */
    MQ_DATA2 = 6,
    MQ_GUARD = 7
};

/* What a paging indicator is read as. */
enum mq_reading {
    MQ_OFF = 0,
    MQ_ON = 1,
    MQ_TORN = 2                 /* its bits differ */
};

/* ---- refusals --------------------------------------------------------------------------------------------------------------------------- */

/* Each with its words, document 01's but for 3, 4, 16 and 22 to 24, as mq_refusal_text gives them; what this interface adds stands behind a bar. */
enum mq_refusal {
    MQ_REFUSED_NONE = 0,
    MQ_REFUSED_CELL = 1,        /* cell parameter above 127 */
    MQ_REFUSED_TYPE = 2,        /* burst type not 1, 2 or 3 */
    MQ_REFUSED_COUNT = 3,       /* midamble count not 4, 8 or 16 (types 1, 3), not 3 or 6 (type 2); in opening a seat 0 is allowed too */
    MQ_REFUSED_USER = 4,        /* user not permitted under the count (in a booking: outside 1..16 for types 1, 3; 1..6 for type 2) */
    MQ_REFUSED_TIMESLOT = 5,    /* timeslot above 14 */
    MQ_REFUSED_CODE = 6,        /* spreading factor not 1, 2, 4, 8, 16; code index outside 1..factor; where a direction is given, downlink with
                                   a factor other than 1 or 16 | a direction that is neither MQ_UP nor MQ_DOWN */
    MQ_REFUSED_DOWN_TYPE = 7,   /* type 3 in downlink */
    MQ_REFUSED_CONTROL = 8,     /* TFCI bits not 0, 4, 8, 16, 32; TPC bits not 0 or 2; TPC 2 in downlink */
    MQ_REFUSED_SYNC = 9,        /* synchronisation case not 1 or 2; k above 14 (case 1) or above 6 (case 2) */
    MQ_REFUSED_RANGE = 10,      /* PICH with type 3; indicator length not 2, 4, 8; frames per block outside 1..4; indicator number too large;
                                   paging bit outside the 244 or 276; timeslot chip above 2559; midamble chip outside 1 to its length */
    MQ_REFUSED_MEMORY = 11,     /* lent memory, read or written, shorter than the call needs (a list: fewer than 40 records, however few it
                                   writes) */
    MQ_REFUSED_BOOK = 12,       /* the book breaks its conditions | it was never made, or its bytes were written over */
    MQ_REFUSED_SEAT = 13,       /* seat above 15 */
    MQ_REFUSED_CLOSED = 14,     /* seat not open */
    MQ_REFUSED_OPEN = 15,       /* seat open already */
    MQ_REFUSED_ABOVE = 16,      /* user not permitted under this seat's count */
    MQ_REFUSED_CLASH = 17,      /* clash inside this seat's own cell */
    MQ_REFUSED_BEACON = 18,     /* beacon rule */
    MQ_REFUSED_FULL = 19,       /* seat holds 40 */
    MQ_REFUSED_ROOM = 20,       /* common room used up */
    MQ_REFUSED_NONE_SUCH = 21,  /* no such booking */
    MQ_REFUSED_LEVEL = 22,      /* level not 1 to 2047 */
    MQ_REFUSED_PLACE = 23,      /* place above the midamble length */
    MQ_REFUSED_SAMPLE = 24      /* sample not a whole number from -2047 to 2047 */
};

/* A number as an answer: the refusal, or 0; and the value. */
typedef struct mq_answer {
    uint32_t refusal;
    uint32_t value;
} mq_answer;

/* The words of a refusal, exactly those of enum mq_refusal, as ASCII without a NUL, into the first places of `out`.
 *   number   any; a number that is no refusal's has no words
 *   out      `length` bytes; further bytes stay as they were
 * Value: how many bytes were written, 0 where there are no words. Refusal: 11. Stack: 2 KB. */
MQ_MUST_USE mq_answer mq_refusal_text(uint32_t number, unsigned char *out, size_t length);

/* The same as a C string, in memory of at least MQ_REFUSAL_TEXT_BYTES. Returns `text`. Stack: 2 KB. */
static inline char *mq_refusal_string(uint32_t number, char *text)
{
    mq_answer words = mq_refusal_text(number, (unsigned char *)text, MQ_REFUSAL_TEXT_BYTES - 1);
    text[words.value] = '\0';
    return text;
}

/* ---- midambles -------------------------------------------------------------------------------------------------------------------------- */

/* One chip of a user's midamble, as its power of j.
 *   cell     cell parameter, 0 to 127: the row of the basic codes
 *   burst    burst type, 1 to 3: types 1 and 3 have long midambles, type 2 short ones
 *   count    midambles in the cell: 4, 8 or 16 (types 1, 3), 3 or 6 (type 2)
 *   user     one that the count permits: 1 to count, but for the count 4, which permits the odd users 1, 3, 5 and 7
 *   chip     from 1 to MQ_LONG_MIDAMBLE, or MQ_SHORT_MIDAMBLE for type 2
 * Value: 0 to 3. Refusals: 1, 2, 3, 4, 10. Stack: 11 KB. */
MQ_MUST_USE mq_answer mq_midamble_chip(uint32_t cell, uint32_t burst, uint32_t count, uint32_t user, uint32_t chip);

/* All chips of a user's midamble, a byte each, from chip 1 on.
 *   out      at least 512 bytes, or 256 for type 2; further bytes stay as they were
 * Value: how many bytes were written, 512 or 256. Refusals: 1, 2, 3, 4, 11. Stack: 9 KB. */
MQ_MUST_USE mq_answer mq_midamble(uint32_t cell, uint32_t burst, uint32_t count, uint32_t user, unsigned char *out, size_t length);

/* ---- midambles by the block -------------------------------------------------------------------------------------------------------------- */

/* A place in a midamble, which the caller holds: which midamble it is, and how many of its chips are written already. mq_block_start makes it,
 * and each mq_block moves it on. It is plain numbers: it may be copied and kept, and written by hand to go on anywhere else. Any numbers may be
 * handed in; numbers that are no place are refused. */
typedef struct mq_block_place {
    uint32_t cell;
    uint32_t burst;
    uint32_t count;
    uint32_t user;
    uint32_t written;           /* 0 to MQ_LONG_MIDAMBLE (type 2: MQ_SHORT_MIDAMBLE), the end */
} mq_block_place;

/* Where a midamble starts; refused, every number of the place is 0. */
typedef struct mq_block_start_answer {
    uint32_t refusal;
    mq_block_place place;
} mq_block_start_answer;

/* How many chips were written into a block, and the place behind them; refused, 0 and the place that was handed in. */
typedef struct mq_block_answer {
    uint32_t refusal;
    uint32_t written;
    mq_block_place place;
} mq_block_answer;

/* The place before the first chip of a user's midamble; the numbers as for mq_midamble_chip. Refusals: 1, 2, 3, 4. Stack: 1 KB. */
MQ_MUST_USE mq_block_start_answer mq_block_start(uint32_t cell, uint32_t burst, uint32_t count, uint32_t user);

/* The call by value, as the library has it; a C program rather uses the one below, which says how much stack it takes. */
MQ_MUST_USE mq_block_answer mq_block_value(mq_block_place place, unsigned char *out, size_t length);

/* The next chips of a midamble, a byte each, as many as block and midamble have left.
 *   place    the caller's place, moved behind the chips that are written unless the call is refused; a NULL one is refused with 1
 *   out      a block of any length; of 0 bytes it takes none and the place stays. Bytes behind the chips stay as they were
 * Value: how many chips were written; 0 in every block once the midamble is at its end. However a midamble is cut into blocks, their chips
 * joined are those of mq_midamble. Refusals: 1, 2, 3, 4, 23. Stack: 9 KB. */
MQ_MUST_USE static inline mq_answer mq_block(mq_block_place *place, unsigned char *out, size_t length)
{
    mq_block_place none;
    mq_block_answer block;
    mq_answer answer;
    memset(&none, 255, sizeof none);
    block = mq_block_value(place != NULL ? *place : none, out, length);
    if (place != NULL)
        *place = block.place;
    answer.refusal = block.refusal;
    answer.value = block.written;
    return answer;
}

/* ---- chips for the signal card ---------------------------------------------------------------------------------------------------------- */

/* A complex chip at a level: its real part and its imaginary part. With a for the level, the chips of powers 0, 1, 2 and 3 are (a, 0), (0, a),
 * (-a, 0) and (0, -a). Both are whole numbers, nothing is rounded, and zero is plain zero, never minus zero; refused, both are zero. */
typedef struct mq_pair_answer {
    uint32_t refusal;
    float re;
    float im;
} mq_pair_answer;

/* One chip of a user's midamble at a level.
 *   level    a whole number, 1 to MQ_LEVEL_LIMIT; the others as for mq_midamble_chip
 * Refusals: 1, 2, 3, 4, 10, 22. Stack: 11 KB. */
MQ_MUST_USE mq_pair_answer mq_pair(uint32_t cell, uint32_t burst, uint32_t count, uint32_t user, uint32_t chip, uint32_t level);

/* All chips of a user's midamble at a level, real part then imaginary part, chip after chip from chip 1 on.
 *   out      `length` floats, at least MQ_LONG_PAIRS, or MQ_SHORT_PAIRS for type 2; further floats stay as they were, to the bit
 * Value: how many floats were written, 1024 or 512. Refusals: 1, 2, 3, 4, 11, 22. Stack: 10 KB. */
MQ_MUST_USE mq_answer mq_pairs(uint32_t cell, uint32_t burst, uint32_t count, uint32_t user, uint32_t level, float *out, size_t length);

/* ---- who is on the air ------------------------------------------------------------------------------------------------------------------ */

/* The user that is heard, and the two sums of that user: each received pair is multiplied by the conjugate of the user's chip, and all are added
 * up, the real parts and the imaginary parts. Both are whole numbers, nothing is rounded, and zero is plain zero, never minus zero; for nobody,
 * and refused, both are zero. */
typedef struct mq_hear_answer {
    uint32_t refusal;
    uint32_t user;              /* MQ_NOBODY where both sums of every user that the count permits are zero */
    float re;
    float im;
} mq_hear_answer;

/* Who is on the air: of the users that the count permits the one whose re * re + im * im is the greatest, and of several with the same the lowest.
 *   row      `length` floats, at least MQ_LONG_PAIRS, or MQ_SHORT_PAIRS for type 2: what was received at each chip of a midamble, real part then
 *            imaginary part, chip after chip from chip 1 on. Each is a whole number from -MQ_SAMPLE_LIMIT to MQ_SAMPLE_LIMIT, and minus zero
 *            reads as zero; a fraction, an infinity, or what is not a number is refused with 24. Further floats are not read, and no float is
 *            written; the others as for mq_midamble_chip
 * A clean copy of a user's midamble at a level, as mq_pairs fills it, gives that user 512 times the level (type 2: 256 times) and zero.
 * Refusals: 1, 2, 3, 11, 24. Stack: 16 KB. */
MQ_MUST_USE mq_hear_answer mq_hear(uint32_t cell, uint32_t burst, uint32_t count, const float *row, size_t length);

/* ---- timeslots -------------------------------------------------------------------------------------------------------------------------- */

/* The seven parts of a timeslot, part p (enum mq_part) at [p - 1]: its first chip and its length in chips. An empty part starts where the part
 * before it ends. And the bits of data 1 and data 2. */
typedef struct mq_parts_answer {
    uint32_t refusal;
    uint32_t start[MQ_PARTS];
    uint32_t length[MQ_PARTS];
    uint32_t bits[2];
} mq_parts_answer;

/* Where the parts of a timeslot lie.
 *   burst      1 to 3
 *   direction  MQ_UP or MQ_DOWN; what is neither is refused with 6
 *   factor     spreading factor: 1, 2, 4, 8 or 16; downlink 1 or 16
 *   tfci       TFCI bits: 0, 4, 8, 16 or 32
 *   tpc        TPC bits: 0 or 2; downlink 0
 * Refusals: 2, 6, 7, 8. Stack: 1 KB. */
MQ_MUST_USE mq_parts_answer mq_parts(uint32_t burst, uint32_t direction, uint32_t factor, uint32_t tfci, uint32_t tpc);

/* What lies at a chip: a part (enum mq_part, from 1) and the symbol's number in it; in midamble and guard the chip's offset. Symbol numbers
 * and offsets count from 0. */
typedef struct mq_place {
    uint32_t refusal;
    uint32_t part;
    uint32_t number;
} mq_place;

/* What lies at a chip of a timeslot.
 *   chip       0 to 2559; the others as for mq_parts
 * Refusals: 2, 6, 7, 8, 10. Stack: 1 KB. */
MQ_MUST_USE mq_place mq_at(uint32_t burst, uint32_t direction, uint32_t factor, uint32_t tfci, uint32_t tpc, uint32_t chip);

/* The beacon timeslots of a frame: how many, 1 or 2, and which; what is not there is 0. */
typedef struct mq_beacons {
    uint32_t refusal;
    uint32_t count;
    uint32_t first;
    uint32_t second;
} mq_beacons;

/*   sync       synchronisation case, 1 or 2
 *   k          0 to 14 in case 1, 0 to 6 in case 2
 * Refusal: 9. Stack: 1 KB. */
MQ_MUST_USE mq_beacons mq_beacon(uint32_t sync, uint32_t k);

/* ---- paging bits ------------------------------------------------------------------------------------------------------------------------ */

/* Where a paging indicator sits: its frame and its number q there, and its bits among the carrying bits, counted from 0: `length` bits from
 * `first` and `length` bits from `second`. */
typedef struct mq_indicator_answer {
    uint32_t refusal;
    uint32_t frame;
    uint32_t q;
    uint32_t first;
    uint32_t second;
    uint32_t length;
} mq_indicator_answer;

/*   burst      1 or 2
 *   length     indicator length in symbols: 2, 4 or 8
 *   frames     frames per block: 1 to 4
 *   number     below N times frames, where a frame holds N indicators: 60, 30, 15 (type 1) or 68, 34, 17 (type 2) for length 2, 4, 8
 * Refusals: 2, 10. Stack: 1 KB. */
MQ_MUST_USE mq_indicator_answer mq_indicator(uint32_t burst, uint32_t length, uint32_t frames, uint32_t number);

/* Who owns a paging bit: `reserved` is 1, or it is 0 and the bit belongs to indicator q of its frame. */
typedef struct mq_owner_answer {
    uint32_t refusal;
    uint32_t reserved;
    uint32_t q;
} mq_owner_answer;

/*   bit        its place in time order, from 0: below 244, or 276 for type 2
 * Refusals: 2, 10. Stack: 1 KB. */
MQ_MUST_USE mq_owner_answer mq_owner(uint32_t burst, uint32_t length, uint32_t bit);

/* One frame's paging bits, a byte of 0 or 1 each, in time order.
 *   settings   at least N bytes, one for each indicator: 0 is off, any other is on
 *   out        at least 244 bytes, or 276 for type 2; further bytes stay as they were
 * Value: how many bytes were written. Refusals: 2, 10, 11. Stack: 1 KB. */
MQ_MUST_USE mq_answer mq_page(uint32_t burst, uint32_t length, const unsigned char *settings, size_t settings_length, unsigned char *out, size_t out_length);

/* The indicators of one frame's paging bits, a byte (enum mq_reading) each.
 *   bits       at least 244 bytes, or 276 for type 2, in time order: 0 is 0, any other is 1
 *   out        at least N bytes; further bytes stay as they were
 * Value: N, how many bytes were written. Refusals: 2, 10, 11. Stack: 1 KB. */
MQ_MUST_USE mq_answer mq_read_page(uint32_t burst, uint32_t length, const unsigned char *bits, size_t bits_length, unsigned char *out, size_t out_length);

/* ---- the class book --------------------------------------------------------------------------------------------------------------------- */

/* A class book: 16 seats, all closed at first. The caller holds it and may copy it in memory, as any struct. What is inside is nobody else's to
 * read or write, and does not leave the program: what is kept of a book is the lines of a lesson (docs/LESSONS.md), an `open` for each seat with
 * its counts written outright and a `book` for each booking that is listed, and they give the book again (examples/lesson.c).
 * Make it with mq_empty_book. A book that was not made so, or was written over, is refused with 12. */
typedef struct mq_book {
    unsigned char inside[MQ_BOOK_BYTES];
} mq_book;

/* A booking as it is listed. */
typedef struct mq_booking {
    uint8_t timeslot;           /* 0 to 14 */
    uint8_t direction;          /* MQ_UP or MQ_DOWN */
    uint8_t burst;              /* burst type, 1 to 3 */
    uint8_t factor;             /* code (factor, index) */
    uint8_t index;
    uint8_t user;
    uint8_t tfci;               /* TFCI bits */
    uint8_t tpc;                /* TPC bits */
} mq_booking;

/* The refusal, or 0, and the book as the call leaves it: refused, the very same bytes. */
typedef struct mq_book_answer {
    uint32_t refusal;
    mq_book book;
} mq_book_answer;

/* What a seat's bookings in a timeslot cover. Refused, all is 0. */
typedef struct mq_summary_answer {
    uint32_t refusal;
    uint32_t leaves;            /* bit l, of value 2 to the power l, is set where a booking covers leaf l, 0 to 15 */
    uint32_t direction;         /* MQ_UP or MQ_DOWN, of all its bookings; MQ_NO_DIRECTION where there are none */
    uint32_t count;             /* how many bookings */
} mq_summary_answer;

/* An empty book. Stack: 11 KB. */
MQ_MUST_USE mq_book mq_empty_book(void);

/* The calls by value, as the library has them; a C program rather uses those below, which say how much stack they take. */
MQ_MUST_USE mq_book_answer mq_open_value(mq_book book, uint32_t seat, uint32_t cell, uint32_t sync, uint32_t k, uint32_t long_count, uint32_t short_count);
MQ_MUST_USE mq_book_answer mq_book_value(mq_book book, uint32_t seat, uint32_t timeslot, uint32_t direction, uint32_t burst, uint32_t factor, uint32_t index,
                                         uint32_t user, uint32_t tfci, uint32_t tpc);
MQ_MUST_USE mq_book_answer mq_cancel_value(mq_book book, uint32_t seat, uint32_t timeslot, uint32_t factor, uint32_t index);
MQ_MUST_USE mq_book_answer mq_close_value(mq_book book, uint32_t seat);
MQ_MUST_USE mq_answer mq_list_bytes(mq_book book, uint32_t seat, unsigned char *out, size_t length);
MQ_MUST_USE mq_summary_answer mq_summary_value(mq_book book, uint32_t seat, uint32_t timeslot);

/* The caller's book as it is handed over; for a NULL one that breaks its conditions. Not for callers. */
static inline mq_book mq_held(const mq_book *book)
{
    mq_book held;
    if (book != NULL)
        return *book;
    memset(&held, 255, sizeof held);
    return held;
}

/* The answer's book taken over by the caller, and the refusal. Not for callers. */
static inline uint32_t mq_taken(mq_book *book, const mq_book_answer *answer)
{
    if (book != NULL)
        *book = answer->book;
    return answer->refusal;
}

/* In the calls below `book` is the caller's book, changed in place unless the call is refused; a NULL one is refused with 12. They return the
 * refusal, or 0. */

/* Opens a seat.
 *   seat         0 to 15, not open
 *   cell         cell parameter, 0 to 127
 *   sync, k      synchronisation case and its k, as for mq_beacon
 *   long_count   midambles of types 1 and 3: 4, 8, 16, or 0 for 8
 *   short_count  midambles of type 2: 3, 6, or 0 for 3
 * Users above 8 (type 2: above 3) need 16 and 6 outright; before version 0.8.0 a count of 0 stood for these.
 * Refusals: 1, 3, 9, 12, 13, 15. Stack: 77 KB. */
MQ_MUST_USE static inline uint32_t mq_open(mq_book *book, uint32_t seat, uint32_t cell, uint32_t sync, uint32_t k, uint32_t long_count, uint32_t short_count)
{
    mq_book_answer answer = mq_open_value(mq_held(book), seat, cell, sync, k, long_count, short_count);
    return mq_taken(book, &answer);
}

/* Books a code in a timeslot for a seat.
 *   seat         0 to 15, open
 *   timeslot     0 to 14
 *   direction    MQ_UP or MQ_DOWN; what is neither is refused with 6
 *   burst        1 to 3; downlink 1 or 2
 *   factor       spreading factor: 1, 2, 4, 8 or 16; downlink 1 or 16
 *   index        1 to factor
 *   user         one that the seat's count of the burst type permits, as for mq_midamble_chip
 *   tfci, tpc    TFCI and TPC bits, as for mq_parts
 * In one timeslot two bookings of a seat clash (17) if their directions differ, or if exactly one of them is type 2 (types 1 and 3 may lie beside
 * each other), or if their codes share a leaf.
 * Refusals: 2, 4 to 8, 12 to 14, 16 to 20. Stack: 85 KB. */
MQ_MUST_USE static inline uint32_t mq_book_code(mq_book *book, uint32_t seat, uint32_t timeslot, uint32_t direction, uint32_t burst, uint32_t factor, uint32_t index,
                                                uint32_t user, uint32_t tfci, uint32_t tpc)
{
    mq_book_answer answer = mq_book_value(mq_held(book), seat, timeslot, direction, burst, factor, index, user, tfci, tpc);
    return mq_taken(book, &answer);
}

/* Cancels the booking of a seat that is named by timeslot and code; the numbers as for mq_book_code.
 * Refusals: 5, 6, 12, 13, 14, 21. Stack: 77 KB. */
MQ_MUST_USE static inline uint32_t mq_cancel(mq_book *book, uint32_t seat, uint32_t timeslot, uint32_t factor, uint32_t index)
{
    mq_book_answer answer = mq_cancel_value(mq_held(book), seat, timeslot, factor, index);
    return mq_taken(book, &answer);
}

/* Closes a seat: its bookings and its settings go. Refusals: 12, 13, 14. Stack: 77 KB. */
MQ_MUST_USE static inline uint32_t mq_close(mq_book *book, uint32_t seat)
{
    mq_book_answer answer = mq_close_value(mq_held(book), seat);
    return mq_taken(book, &answer);
}

/* Lists a seat's bookings, by timeslot, then by the first leaf of their codes. The book stays as it is.
 *   records      at least MQ_LIST_RECORDS records; those behind the bookings stay as they were
 *   count        how many records are lent
 * Value: how many bookings were written. Refusals: 11, 12, 13, 14. Stack: 47 KB. */
MQ_MUST_USE static inline mq_answer mq_list(const mq_book *book, uint32_t seat, mq_booking *records, size_t count)
{
    size_t lent = count < MQ_LIST_RECORDS ? count : MQ_LIST_RECORDS;
    return mq_list_bytes(mq_held(book), seat, (unsigned char *)records, lent * MQ_RECORD_BYTES);
}

/* Which codes of a timeslot a seat has free. The book stays as it is, and nothing of another seat is told.
 *   seat         0 to 15, open
 *   timeslot     0 to 14
 * Code (factor, index) is free where none of its leaves is covered: with n = MQ_LEAVES / factor,
 * (leaves >> ((index - 1) * n) & ((1u << n) - 1)) == 0.
 * Refusals: 5, 12, 13, 14. Stack: 47 KB. */
MQ_MUST_USE static inline mq_summary_answer mq_summary(const mq_book *book, uint32_t seat, uint32_t timeslot)
{
    return mq_summary_value(mq_held(book), seat, timeslot);
}

#ifdef __cplusplus
}
#endif

#endif
