/* A lesson over the C interface: a midamble, whole and by the block, its chips for the signal card, who is on the air, the parts of a timeslot, the class book and what is kept of it, and refusals with their words.
 *   cc -std=c99 -Iinclude examples/lesson.c target/staticlib/libmqarbset.a -o lesson */
#include <mqarbset.h>
#include <stdio.h>

/* A refusal as a line; what was asked stands before it. */
static void refused(const char *what, uint32_t refusal)
{
    char words[MQ_REFUSAL_TEXT_BYTES];
    printf("%s: refused with %u, %s\n", what, (unsigned)refusal, mq_refusal_string(refusal, words));
}

static void midamble(void)
{
    unsigned char chips[MQ_LONG_MIDAMBLE];
    mq_answer answer = mq_midamble(0, 1, 8, 8, chips, sizeof chips);
    int i;
    if (answer.refusal != 0) {
        refused("midamble", answer.refusal);
        return;
    }
    printf("midamble of cell 0, type 1, user 8 of 8: %u chips, the first", (unsigned)answer.value);
    for (i = 0; i < 8; i++)
        printf(" %d", chips[i]);
    printf("\n");
    answer = mq_midamble(0, 1, 8, 9, chips, sizeof chips);
    refused("user 9 of 8", answer.refusal);
    answer = mq_midamble(0, 1, 4, 7, chips, sizeof chips);
    printf("user 7 of 4, in a wide harbour: %u chips\n", (unsigned)answer.value);
    answer = mq_midamble(0, 1, 4, 2, chips, sizeof chips);
    refused("user 2 of 4", answer.refusal);
}

/* The card asks for 64 chips, then for 100, then for whatever it has room for. */
static void blocks(void)
{
    static const size_t asked[] = {64, 100, 0, 512, 64};
    unsigned char chips[MQ_LONG_MIDAMBLE];
    mq_block_start_answer start = mq_block_start(0, 1, 8, 8);
    mq_block_place place = start.place;
    size_t i;
    if (start.refusal != 0) {
        refused("blocks", start.refusal);
        return;
    }
    printf("user 8 of 8 in blocks:");
    for (i = 0; i < sizeof asked / sizeof asked[0]; i++) {
        mq_answer answer = mq_block(&place, chips, asked[i]);
        printf(" %u of %u", (unsigned)answer.value, (unsigned)asked[i]);
    }
    printf("; written %u\n", (unsigned)place.written);
    place.written++;
    refused("place 513", mq_block(&place, chips, sizeof chips).refusal);
    printf("the place is handed back: %u\n", (unsigned)place.written);
    refused("no place", mq_block(NULL, chips, sizeof chips).refusal);
}

static void signal_card(void)
{
    float row[MQ_LONG_PAIRS];
    mq_pair_answer chip = mq_pair(0, 1, 8, 8, 4, 1000);
    mq_answer answer = mq_pairs(0, 1, 8, 8, 1000, row, MQ_LONG_PAIRS);
    int i;
    if (chip.refusal != 0 || answer.refusal != 0) {
        refused("signal card", chip.refusal != 0 ? chip.refusal : answer.refusal);
        return;
    }
    printf("chip 4 at level 1000: %g and %g; the whole row: %u floats, the first", chip.re, chip.im, (unsigned)answer.value);
    for (i = 0; i < 8; i++)
        printf(" %g", row[i]);
    printf("\n");
    refused("level 2048", mq_pairs(0, 1, 8, 8, MQ_LEVEL_LIMIT + 1, row, MQ_LONG_PAIRS).refusal);
}

static void heard(const char *what, mq_hear_answer answer)
{
    if (answer.refusal != 0)
        refused(what, answer.refusal);
    else if (answer.user == MQ_NOBODY)
        printf("%s: nobody\n", what);
    else
        printf("%s: user %u, with %.0f and %.0f\n", what, (unsigned)answer.user, answer.re, answer.im);
}

/* What the card of user 8 sends is received, alone and with that of user 3; then nothing is, and what no card receives. */
static void on_the_air(void)
{
    float row[MQ_LONG_PAIRS], other[MQ_LONG_PAIRS];
    mq_answer sent = mq_pairs(0, 1, 8, 8, 1000, row, MQ_LONG_PAIRS);
    mq_answer besides = mq_pairs(0, 1, 8, 3, 400, other, MQ_LONG_PAIRS);
    size_t i;
    if (sent.refusal != 0 || besides.refusal != 0) {
        refused("on the air", sent.refusal != 0 ? sent.refusal : besides.refusal);
        return;
    }
    heard("user 8 at level 1000 is heard", mq_hear(0, 1, 8, row, MQ_LONG_PAIRS));
    for (i = 0; i < MQ_LONG_PAIRS; i++)
        row[i] += other[i];
    heard("and with user 3 at level 400 besides", mq_hear(0, 1, 8, row, MQ_LONG_PAIRS));
    for (i = 0; i < MQ_LONG_PAIRS; i++)
        row[i] = 0;
    heard("in silence", mq_hear(0, 1, 8, row, MQ_LONG_PAIRS));
    row[0] = MQ_SAMPLE_LIMIT + 1;
    heard("a sample of 2048", mq_hear(0, 1, 8, row, MQ_LONG_PAIRS));
    heard("no row at all", mq_hear(0, 1, 8, NULL, 0));
}

static void timeslot(void)
{
    static const char *const names[MQ_PARTS] = {"data 1", "TFCI 1", "midamble", "TPC", "TFCI 2", "data 2", "guard"};
    mq_parts_answer parts = mq_parts(1, MQ_UP, 8, 16, 2);
    mq_place place = mq_at(1, MQ_UP, 8, 16, 2, 1500);
    int i;
    printf("uplink type 1, factor 8, TFCI 16, TPC 2:\n");
    for (i = 0; i < MQ_PARTS; i++)
        printf("  %-8s from %4u, %4u chips\n", names[i], (unsigned)parts.start[i], (unsigned)parts.length[i]);
    printf("  data bits %u and %u\n", (unsigned)parts.bits[0], (unsigned)parts.bits[1]);
    printf("  at chip 1500: %s, number %u\n", names[place.part - 1], (unsigned)place.number);
    refused("direction 2", mq_parts(1, 2, 8, 16, 2).refusal);
}

static void paging(void)
{
    mq_beacons beacons = mq_beacon(2, 6);
    mq_indicator_answer where = mq_indicator(1, 4, 2, 37);
    mq_owner_answer owner = mq_owner(1, 4, 121);
    unsigned char settings[MQ_INDICATORS] = {0};
    unsigned char bits[MQ_PAGE_BITS_1];
    unsigned char readings[MQ_INDICATORS];
    mq_answer written, read;
    printf("beacon timeslots of case 2, k 6: %u, which are %u and %u\n", (unsigned)beacons.count, (unsigned)beacons.first, (unsigned)beacons.second);
    printf("indicator 37: frame %u, q %u, %u bits from %u and from %u\n", (unsigned)where.frame, (unsigned)where.q, (unsigned)where.length, (unsigned)where.first, (unsigned)where.second);
    printf("bit 121: %s\n", owner.reserved ? "reserved" : "owned");
    settings[7] = 1;
    written = mq_page(1, 4, settings, sizeof settings, bits, sizeof bits);
    bits[28] = 0;
    read = mq_read_page(1, 4, bits, sizeof bits, readings, sizeof readings);
    printf("page: %u bits written, %u indicators read; 7 with a bit turned over is %u, 8 is %u\n", (unsigned)written.value, (unsigned)read.value, readings[7], readings[8]);
}

static void list(const mq_book *book, uint32_t seat)
{
    mq_booking records[MQ_LIST_RECORDS];
    mq_answer answer = mq_list(book, seat, records, MQ_LIST_RECORDS);
    uint32_t i;
    if (answer.refusal != 0) {
        refused("list", answer.refusal);
        return;
    }
    printf("seat %u holds %u:\n", (unsigned)seat, (unsigned)answer.value);
    for (i = 0; i < answer.value; i++)
        printf("  timeslot %d, %s, type %d, code (%d, %d), user %d, TFCI %d, TPC %d\n", records[i].timeslot, records[i].direction == MQ_DOWN ? "down" : "up",
               records[i].burst, records[i].factor, records[i].index, records[i].user, records[i].tfci, records[i].tpc);
}

/* Room for a line of a lesson. */
#define LINE_BYTES 80

/* What is kept of a seat's plan: the lines of a lesson, its opening with the counts written outright and its bookings. Returns how many. */
static size_t keep(const mq_book *book, unsigned seat, const char *opening, char lines[][LINE_BYTES])
{
    mq_booking records[MQ_LIST_RECORDS];
    mq_answer listed = mq_list(book, seat, records, MQ_LIST_RECORDS);
    size_t i;
    snprintf(lines[0], LINE_BYTES, "open %u %s", seat, opening);
    for (i = 0; i < listed.value; i++)
        snprintf(lines[i + 1], LINE_BYTES, "book %u %d %s %d %d %d %d %d %d", seat, records[i].timeslot, records[i].direction == MQ_DOWN ? "down" : "up",
                 records[i].burst, records[i].factor, records[i].index, records[i].user, records[i].tfci, records[i].tpc);
    return listed.value + 1;
}

/* Which codes a seat has free in a timeslot: a digit for each leaf, leaf 0 first. */
static void summary(const mq_book *book, uint32_t seat, uint32_t timeslot)
{
    static const char *const ways[] = {"up", "down", "none"};
    mq_summary_answer s = mq_summary(book, seat, timeslot);
    uint32_t leaf;
    if (s.refusal != 0) {
        refused("summary", s.refusal);
        return;
    }
    printf("seat %u, timeslot %u: ", (unsigned)seat, (unsigned)timeslot);
    for (leaf = 0; leaf < MQ_LEAVES; leaf++)
        putchar(s.leaves >> leaf & 1 ? '1' : '0');
    printf(" %s %u\n", ways[s.direction], (unsigned)s.count);
}

/* Makes the call of such a line. Returns 1 where it is one and is not refused. */
static int make_again(mq_book *book, const char *line)
{
    char way[8];
    unsigned n[8];
    if (sscanf(line, "open %u %u %u %u %u %u", n, n + 1, n + 2, n + 3, n + 4, n + 5) == 6)
        return mq_open(book, n[0], n[1], n[2], n[3], n[4], n[5]) == 0;
    if (sscanf(line, "book %u %u %7s %u %u %u %u %u %u", n, n + 1, way, n + 2, n + 3, n + 4, n + 5, n + 6, n + 7) == 9)
        return mq_book_code(book, n[0], n[1], strcmp(way, "down") == 0 ? MQ_DOWN : MQ_UP, n[2], n[3], n[4], n[5], n[6], n[7]) == 0;
    return 0;
}

/* A plan is kept as lines, and the book is made again from them. */
static void keep_and_make_again(const mq_book *book)
{
    char lines[MQ_LIST_RECORDS + 1][LINE_BYTES];
    size_t count = keep(book, 3, "0 1 0 8 3", lines);
    mq_book again = mq_empty_book();
    size_t made = 0;
    size_t i;
    for (i = 0; i < count; i++) {
        printf("  %s\n", lines[i]);
        made += make_again(&again, lines[i]);
    }
    printf("a book made again from %u of these %u lines:\n", (unsigned)made, (unsigned)count);
    list(&again, 3);
}

static void class_book(void)
{
    mq_book book = mq_empty_book();
    mq_book kept;
    uint32_t refusal;
    refusal = mq_open(&book, 3, 0, 1, 0, 0, 0);
    printf("open seat 3: %u\n", (unsigned)refusal);
    refusal = mq_book_code(&book, 3, 2, MQ_DOWN, 1, 16, 3, 4, 0, 0);
    printf("book (16, 3) for user 4 in timeslot 2: %u\n", (unsigned)refusal);
    refusal = mq_book_code(&book, 3, 0, MQ_DOWN, 1, 16, 1, 1, 0, 0);
    printf("book (16, 1) for user 1 in timeslot 0: %u\n", (unsigned)refusal);
    refused("book (16, 4) for user 9, who needs a seat opened with 16", mq_book_code(&book, 3, 2, MQ_DOWN, 1, 16, 4, 9, 0, 0));
    list(&book, 3);
    summary(&book, 3, 2);
    summary(&book, 3, 3);
    keep_and_make_again(&book);
    kept = book;
    refused("book (1, 1) in timeslot 2", mq_book_code(&book, 3, 2, MQ_DOWN, 1, 1, 1, 5, 0, 0));
    refused("book in direction 7", mq_book_code(&book, 3, 2, 7, 1, 16, 5, 5, 0, 0));
    printf("the book after both: %s\n", memcmp(&book, &kept, sizeof book) == 0 ? "the same bytes" : "changed");
    refusal = mq_cancel(&book, 3, 2, 16, 3);
    printf("cancel (16, 3) in timeslot 2: %u\n", (unsigned)refusal);
    list(&book, 3);
    summary(&book, 3, 2);
    summary(&book, 3, MQ_TIMESLOTS);
    refusal = mq_close(&book, 3);
    printf("close seat 3: %u\n", (unsigned)refusal);
    list(&book, 3);
    memset(&book, 7, sizeof book);
    refused("a book that was never made", mq_close(&book, 3));
    refused("no book at all", mq_open(NULL, 0, 0, 1, 0, 0, 0));
    refused("a list into no memory", mq_list(&kept, 3, NULL, 0).refusal);
}

int main(void)
{
    midamble();
    blocks();
    signal_card();
    on_the_air();
    timeslot();
    paging();
    class_book();
    return 0;
}
