/* Prints the deepest stack of each call over a purchase, and fails where one is over 4 KiB and two stores: the stack below is painted, the
 * call made, and the paint that is left counted. Link with -static or -Wl,-z,now, so that no symbol is looked up within a call. */
#include <stdio.h>
#include <stdlib.h>
#include <string.h>

#include "../../include/tripodmoon.h"

#define DEPTH 65536u
#define PAINT 0xA5u
#define HEAD 14u
#define MOST (4096u + 2u * (EMV_SESSION_SIZE - HEAD))
#define BYTES(text) (const uint8_t *)(text), sizeof(text) - 1

static uint8_t session[EMV_SESSION_SIZE];
static uint8_t command[EMV_LEAST_BUFFER];
static uint8_t value[EMV_MOST_VALUE];
static const uint8_t *lent;
static size_t lent_len;
static uint32_t word;
static size_t deepest;

/* Where the painted area starts. */
static uintptr_t low;

static void paint(void)
{
    uint8_t area[DEPTH];
    volatile uint8_t *at = area;
    size_t i;
    for (i = 0; i < DEPTH; i++)
        at[i] = PAINT;
    low = (uintptr_t)at;
}

/* Called through pointers, so that each has a frame of its own. */
static void (*volatile painting)(void) = paint;

/* How much of it was written over, counted from the far end. */
static size_t depth(void)
{
    volatile uint8_t *at = (volatile uint8_t *)low;
    size_t i = 0;
    while (i < DEPTH && at[i] == PAINT)
        i++;
    return DEPTH - i;
}

static void call_open(void) { word = emv_open(session, sizeof session); }
static void call_start(void) { word = emv_start(session, sizeof session, lent, lent_len, command, sizeof command); }
static void call_answer(void) { word = emv_answer(session, sizeof session, lent, lent_len, command, sizeof command); }
static void call_link_failed(void) { word = emv_link_failed(session, sizeof session, command, sizeof command); }
static void call_stop(void) { word = emv_stop(session, sizeof session, command, sizeof command); }
static void call_count(void) { word = emv_count(session, sizeof session); }
static void call_object(void) { word = emv_object(session, sizeof session, 0x9F26, value, sizeof value); }
static void call_explain(void) { word = emv_explain(session, sizeof session); }
static void call_find(void) { word = (uint32_t)emv_find(lent, lent_len, 0x5F60); }
static void call_wipe(void) { word = emv_wipe(session, sizeof session); }

/* Makes a call, prints its depth and holds the word to what is expected. */
static void measure(const char *name, void (*call)(void), const uint8_t *bytes, size_t n, uint32_t expected)
{
    size_t used;
    lent = bytes;
    lent_len = n;
    painting();
    call();
    used = depth();
    printf("%6lu  %s\n", (unsigned long)used, name);
    if (word != expected) {
        printf("word %08lx\n", (unsigned long)word);
        exit(1);
    }
    if (deepest < used)
        deepest = used;
}

#define TERMINAL \
    "\x9A\x03\x25\x11\x15\x9C\x01\x00\x9F\x02\x06\x00\x00\x00\x00\x12\x34\x9F\x09\x02\x00\x02\x9F\x1A\x02\x00\x56\x9F\x35\x01\x22" \
    "\x9F\x37\x04\x01\x02\x03\x04\xDF\x81\x20\x05\x00\x00\x00\x00\x00\xDF\x81\x21\x05\x00\x00\x00\x00\x00\xDF\x81\x22\x05\x00\x00" \
    "\x00\x00\x00\xDF\x81\x23\x06\x00\x00\x00\x01\x00\x00\xDF\x81\x24\x06\x00\x00\x00\x02\x00\x00" \
    "\x9F\x33\x03\xE0\xF8\xC8\xDF\x81\x26\x06\x00\x00\x00\x00\x25\x00\xDF\x81\x25\x06\x99\x99\x99\x99\x99\x99\xDF\x81\x1B\x01\x20" \
    "\x9F\x6A\x04\x00\x00\x34\x56"
#define OPTIONS "\x80\x06\x10\x80\x08\x01\x02\x00\x90\x00"
#define FOUR_LEVELS "\x70\x0B\xE1\x09\xE1\x07\xE1\x05\x5F\x60\x02\x00\x02\x90\x00"
#define RECORD \
    "\x70\x22\x5F\x24\x03\x30\x12\x31\x5A\x08\x47\x61\x73\x90\x01\x01\x00\x10\x8C\x02\x95\x05" \
    "\x8E\x0C\x00\x00\x00\x00\x00\x00\x00\x00\x42\x09\x5E\x03\x90\x00" /* a PIN over 0 in the card's currency, else a signature */
#define EARLY ((EMV_METHOD_NOT_APPLICABLE << 24) + EMV_OUTCOMES + EMV_ENDED * 256u) /* an end before the choice of a method */
#define CRYPTOGRAM "\x77\x14\x9F\x27\x01\x80\x9F\x36\x02\x00\x01\x9F\x26\x08\x01\x02\x03\x04\x05\x06\x07\x08\x90\x00"

int main(void)
{
    measure("open", call_open, BYTES(""), 0);
    measure("count", call_count, BYTES(""), 0);
    measure("start", call_start, BYTES(TERMINAL), 8);
    measure("answer, processing options", call_answer, BYTES(OPTIONS), 5);
    measure("answer, a record of four levels", call_answer, BYTES(FOUR_LEVELS), 5);
    measure("answer, the last record", call_answer, BYTES(RECORD), 11);
    measure("answer, the cryptogram", call_answer, BYTES(CRYPTOGRAM), (EMV_METHOD_SIGNATURE << 24) + EMV_OUTCOMES + EMV_ONLINE_REQUEST * 256u);
    measure("object", call_object, BYTES(""), 8);
    measure("explain", call_explain, BYTES(""), EMV_EXPLAIN_CHOICES + EMV_STAGE_ONLINE * 4096u + EMV_HOLDER_CARD * 256u);
    measure("answer, refused", call_answer, BYTES(CRYPTOGRAM), EMV_REFUSALS + EMV_REFUSED_PHASE);
    measure("open", call_open, BYTES(""), 0);
    measure("start", call_start, BYTES(TERMINAL), 8);
    measure("link failed", call_link_failed, BYTES(""), EARLY + EMV_REASON_LINK);
    measure("open", call_open, BYTES(""), 0);
    measure("start", call_start, BYTES(TERMINAL), 8);
    measure("stop", call_stop, BYTES(""), EARLY + EMV_REASON_STOPPED);
    measure("find, four levels", call_find, (const uint8_t *)FOUR_LEVELS, sizeof(FOUR_LEVELS) - 3, 2);
    measure("wipe", call_wipe, BYTES(""), 0);
    printf("%6lu  deepest, of %lu at most\n", (unsigned long)deepest, (unsigned long)MOST);
    return deepest <= MOST ? 0 : 1;
}
