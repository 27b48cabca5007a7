/* How much stack each call of include/mqarbset.h takes: a call is made on a stack of its own, painted before, and what is written over afterwards
 * is counted. Prints a line `NAME BYTES` for each call; checks/stack compares them with what the header says. */
#define _GNU_SOURCE
#include "mqarbset.h"
#include <stdio.h>
#include <stdlib.h>
#include <sys/mman.h>
#include <ucontext.h>

#define ROOM (1 << 20)
#define PAINT 0xA5

static mq_book book;
static mq_booking records[MQ_LIST_RECORDS];
static unsigned char settings[MQ_PAGE_BITS_2], bytes[MQ_LONG_MIDAMBLE];
static float floats[MQ_LONG_PAIRS];
static char text[MQ_REFUSAL_TEXT_BYTES];
static volatile uint32_t kept; /* so that no call is left out */

static void nothing(void) { }
static void version(void) { kept = mq_version(); }
static void book_bytes(void) { kept = mq_book_bytes(); }
static void refusal_text(void) { kept = mq_refusal_text(10, bytes, sizeof bytes).value; }
static void refusal_string(void) { kept = (uint32_t)mq_refusal_string(10, text)[0]; }
static void midamble_chip(void) { kept = mq_midamble_chip(127, 1, 16, 16, 512).value; }
static void midamble(void) { kept = mq_midamble(127, 1, 16, 16, bytes, sizeof bytes).value; }
static void block_start(void) { kept = mq_block_start(127, 1, 16, 16).refusal; }
static void block(void)
{
    mq_block_place place = {127, 1, 16, 16, 3};
    kept = mq_block(&place, bytes, sizeof bytes).value;
}
static void pair(void) { kept = (uint32_t)mq_pair(127, 1, 16, 16, 512, MQ_LEVEL_LIMIT).re; }
static void pairs(void) { kept = mq_pairs(127, 1, 16, 16, MQ_LEVEL_LIMIT, floats, MQ_LONG_PAIRS).value; }
static void hear(void) { kept = mq_hear(127, 1, 16, floats, MQ_LONG_PAIRS).user; }
static void parts(void) { kept = mq_parts(1, MQ_UP, 8, 16, 2).start[6]; }
static void at(void) { kept = mq_at(1, MQ_UP, 8, 16, 2, 1500).number; }
static void beacon(void) { kept = mq_beacon(2, 6).second; }
static void indicator(void) { kept = mq_indicator(2, 2, 4, 271).first; }
static void owner(void) { kept = mq_owner(2, 2, 275).q; }
static void page(void) { kept = mq_page(2, 2, settings, sizeof settings, bytes, sizeof bytes).value; }
static void read_page(void) { kept = mq_read_page(2, 2, settings, sizeof settings, bytes, sizeof bytes).value; }
static void empty_book(void) { book = mq_empty_book(); }
static void opened(void) { kept = mq_open(&book, 3, 0, 1, 0, 16, 6); }
static void booked(void)
{
    for (uint32_t i = 1; i <= 16; i++)
        kept = mq_book_code(&book, 3, 2, MQ_DOWN, 1, 16, i, i, 0, 0);
}
static void listed(void) { kept = mq_list(&book, 3, records, MQ_LIST_RECORDS).value; }
static void summary(void) { kept = mq_summary(&book, 3, 2).leaves; }
static void cancelled(void) { kept = mq_cancel(&book, 3, 2, 16, 3); }
static void closed(void) { kept = mq_close(&book, 3); }

static const struct { const char *name; void (*call)(void); } calls[] = {
    {"mq_version", version}, {"mq_book_bytes", book_bytes}, {"mq_refusal_text", refusal_text}, {"mq_refusal_string", refusal_string},
    {"mq_midamble_chip", midamble_chip}, {"mq_midamble", midamble}, {"mq_block_start", block_start}, {"mq_block", block}, {"mq_pair", pair}, {"mq_pairs", pairs}, {"mq_hear", hear},
    {"mq_parts", parts}, {"mq_at", at}, {"mq_beacon", beacon},
    {"mq_indicator", indicator}, {"mq_owner", owner}, {"mq_page", page}, {"mq_read_page", read_page}, {"mq_empty_book", empty_book},
    {"mq_open", opened}, {"mq_book_code", booked}, {"mq_list", listed}, {"mq_summary", summary}, {"mq_cancel", cancelled}, {"mq_close", closed},
};

static ucontext_t here, there;

/* The bytes from the end of the stack down to the lowest that a call wrote. */
static size_t taken(void (*call)(void))
{
    unsigned char *room = mmap(NULL, ROOM, PROT_READ | PROT_WRITE, MAP_PRIVATE | MAP_ANONYMOUS, -1, 0);
    if (room == MAP_FAILED)
        exit(2);
    memset(room, PAINT, ROOM);
    getcontext(&there);
    there.uc_stack.ss_sp = room;
    there.uc_stack.ss_size = ROOM;
    there.uc_link = &here;
    makecontext(&there, call, 0);
    swapcontext(&here, &there);
    size_t lowest = 0;
    while (lowest < ROOM && room[lowest] == PAINT)
        lowest++;
    munmap(room, ROOM);
    return ROOM - lowest;
}

int main(void)
{
    for (int turn = 0; turn < 2; turn++) { /* once before: what the dynamic linker does at a first call is not the call's */
        size_t bare = taken(nothing);
        for (size_t i = 0; i < sizeof calls / sizeof calls[0]; i++) {
            size_t n = taken(calls[i].call) - bare;
            if (turn == 1)
                printf("%s %zu\n", calls[i].name, n);
        }
    }
    return 0;
}
