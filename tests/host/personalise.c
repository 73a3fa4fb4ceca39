/* Writes the card's side by the C call, linked beside the kernel's library: records and locator byte by byte, each refusal,
 * and that lent bytes stay. Prints `ok`, or the first line that fails. */
#include <stdio.h>
#include <stdlib.h>
#include <string.h>

#include "../../include/tripodmoon.h"
#include "../../include/tripodmoon_personalise.h"

#define CHECK(fact) check((fact) != 0, #fact, __LINE__)
#define BYTES(text) (const uint8_t *)(text), sizeof(text) - 1
#define BEHIND 16u
#define FILL 0xA5
#define WRITTEN(records, locator) ((uint64_t)(locator) << 32 | (records))
#define REFUSED(kind, number) ((uint64_t)(kind) << 48 | (number))

static void check(int holds, const char *fact, int line)
{
    if (!holds) {
        printf("line %d: %s\n", line, fact);
        exit(1);
    }
}

/* The lent bytes, with more behind them than a call needs. */
static uint8_t records[EMV_PERSONALISE_RECORDS_ROOM + BEHIND];
static uint8_t locator[EMV_PERSONALISE_LOCATOR_ROOM + BEHIND];

static int stays(const uint8_t *bytes, size_t n)
{
    size_t i;
    for (i = 0; i < n; i++)
        if (bytes[i] != FILL)
            return 0;
    return 1;
}

/* A call with so many bytes lent; what is not written stays, and so do all lent bytes after a refusal. */
static uint64_t lent(const uint8_t *objects, size_t n, const uint8_t *entries, size_t m, const uint8_t *placements, size_t k,
                     size_t records_len, size_t locator_len)
{
    uint64_t word;
    size_t written, located;
    memset(records, FILL, sizeof records);
    memset(locator, FILL, sizeof locator);
    word = emv_personalise(objects, n, entries, m, placements, k, records, records_len, locator, locator_len);
    written = EMV_PERSONALISE_IS_WRITTEN(word) ? EMV_PERSONALISE_RECORDS_LENGTH(word) : 0;
    located = EMV_PERSONALISE_IS_WRITTEN(word) ? EMV_PERSONALISE_LOCATOR_LENGTH(word) : 0;
    CHECK(written <= EMV_PERSONALISE_RECORDS_ROOM && located <= EMV_PERSONALISE_LOCATOR_ROOM);
    CHECK(stays(records + written, sizeof records - written));
    CHECK(stays(locator + located, sizeof locator - located));
    CHECK(memcmp(locator, entries, located) == 0);
    return word;
}

static uint64_t call(const uint8_t *objects, size_t n, const uint8_t *entries, size_t m, const uint8_t *placements, size_t k)
{
    return lent(objects, n, entries, m, placements, k, sizeof records, sizeof locator);
}

static int holds(const uint8_t *bytes, size_t n)
{
    return memcmp(records, bytes, n) == 0;
}

static void writes(void)
{
    CHECK(call(BYTES("\x9F\x08\x02\x00\x02\x5F\x24\x03\x49\x12\x31"), BYTES("\x08\x01\x01\x00"), BYTES("\x01\x01\x01\x02")) == WRITTEN(13, 4));
    CHECK(holds(BYTES("\x70\x0B\x9F\x08\x02\x00\x02\x5F\x24\x03\x49\x12\x31")));
    /* objects in the list's order, records in the locator's */
    CHECK(call(BYTES("\x57\x02\xAA\xBB\x5A\x01\x1F\x8C\x03\x9F\x37\x04"), BYTES("\x10\x01\x01\x00\x08\x05\x05\x00"),
               BYTES("\x02\x03\x01\x02\x02\x01")) == WRITTEN(16, 8));
    CHECK(holds(BYTES("\x70\x03\x5A\x01\x1F\x70\x09\x57\x02\xAA\xBB\x8C\x03\x9F\x37\x04")));
    /* no objects; a long length made short */
    CHECK(call(BYTES(""), BYTES("\x08\x01\x02\x00"), BYTES("")) == WRITTEN(4, 4));
    CHECK(holds(BYTES("\x70\x00\x70\x00")));
    CHECK(call(BYTES("\x57\x81\x02\xAA\xBB"), BYTES("\x08\x01\x01\x00"), BYTES("\x01\x01")) == WRITTEN(6, 4));
    CHECK(holds(BYTES("\x70\x04\x57\x02\xAA\xBB")));
    /* the most records */
    CHECK(call(BYTES("\x9F\x08\x02\x00\x02"), BYTES("\x08\x01\x80\x00"), BYTES("\x01\x01")) == WRITTEN(261, 4));
}

/* A CDOL1 of n bytes with its header in front, and the sequence number behind it: the length of both, or without the latter. */
static uint8_t list[3 + 252 + 4];

static size_t cdol(size_t n, int more)
{
    size_t at = 0;
    list[at++] = 0x8C;
    if (n > 127)
        list[at++] = 0x81;
    list[at++] = (uint8_t)n;
    memset(list + at, 0x95, n);
    at += n;
    memcpy(list + at, "\x5F\x34\x01\x01", 4);
    return at + (more ? 4 : 0);
}

static void lengths(void)
{
    CHECK(call(list, cdol(125, 0), BYTES("\x08\x01\x01\x00"), BYTES("\x01\x01")) == WRITTEN(129, 4));
    CHECK(holds(BYTES("\x70\x7F\x8C\x7D\x95")));
    CHECK(call(list, cdol(126, 0), BYTES("\x08\x01\x01\x00"), BYTES("\x01\x01")) == WRITTEN(131, 4));
    CHECK(holds(BYTES("\x70\x81\x80\x8C\x7E\x95")));
    CHECK(call(list, cdol(250, 0), BYTES("\x08\x01\x01\x00"), BYTES("\x01\x01")) == WRITTEN(256, 4));
    CHECK(holds(BYTES("\x70\x81\xFD\x8C\x81\xFA\x95")));
    CHECK(call(list, cdol(250, 1), BYTES("\x08\x01\x02\x00"), BYTES("\x01\x01\x01\x02")) == REFUSED(EMV_PERSONALISE_RECORD, 1));
    CHECK(call(list, cdol(250, 1), BYTES("\x08\x01\x02\x00"), BYTES("\x02\x01\x01\x02")) == WRITTEN(262, 4));
}

static void refusals(void)
{
    uint8_t entries[63 * 4];
    size_t i;
    /* the buffers come first, and by their least bytes */
    CHECK(lent(BYTES("\x57\x00\x57\x00"), BYTES(""), BYTES(""), EMV_PERSONALISE_RECORDS_ROOM - 1, EMV_PERSONALISE_LOCATOR_ROOM - 1) ==
          REFUSED(EMV_PERSONALISE_RECORDS_BUFFER, 0));
    CHECK(lent(BYTES("\x57\x00\x57\x00"), BYTES(""), BYTES(""), EMV_PERSONALISE_RECORDS_ROOM, EMV_PERSONALISE_LOCATOR_ROOM - 1) ==
          REFUSED(EMV_PERSONALISE_LOCATOR_BUFFER, 0));
    CHECK(lent(BYTES(""), BYTES("\x08\x01\x01\x00"), BYTES(""), EMV_PERSONALISE_RECORDS_ROOM, EMV_PERSONALISE_LOCATOR_ROOM) == WRITTEN(2, 4));
    /* the list, before the entries */
    CHECK(call(BYTES("\x57\x00\x57\x01\xAA"), BYTES("\x08\x01\x02\x00"), BYTES("\x01\x01\x02\x02")) == REFUSED(EMV_PERSONALISE_LIST, 0));
    CHECK(call(BYTES("\x9F\x08\x02\x00\x02\x5F\x24\x03\x49\x12\x31"), BYTES("\x08\x01\x01\x01"), BYTES("\x01\x01")) == REFUSED(EMV_PERSONALISE_LIST, 0));
    CHECK(call(BYTES("\x9F\x08\x02\x00\x02"), BYTES("\x08\x01\x02\x00"), BYTES("\x01\x01\x02\x01")) == REFUSED(EMV_PERSONALISE_LIST, 0));
    CHECK(call(BYTES("\x95\x05\x00\x00\x00\x00\x00"), BYTES("\x08\x01\x01\x00"), BYTES("\x01\x01")) == REFUSED(EMV_PERSONALISE_LIST, 0));
    CHECK(call(BYTES("\x82\x02\x00\x80"), BYTES("\x08\x01\x01\x00"), BYTES("\x01\x01")) == REFUSED(EMV_PERSONALISE_LIST, 0));
    /* entries */
    CHECK(call(BYTES("\x9F\x08\x02\x00\x02"), BYTES("\x08\x01\x03\x00\x08\x03\x04\x00"), BYTES("\x01\x01")) == REFUSED(EMV_PERSONALISE_ENTRY, 2));
    CHECK(call(BYTES("\x9F\x08\x02\x00\x02"), BYTES("\x08\x01\x03\x00\x10\x03\x04\x00"), BYTES("\x01\x01")) == WRITTEN(15, 8));
    CHECK(call(BYTES("\x9F\x08\x02\x00\x02"), BYTES("\x08\x01\x80\x00\x10\x01\x01\x00"), BYTES("\x01\x01")) == REFUSED(EMV_PERSONALISE_ENTRY, 2));
    CHECK(call(BYTES("\x9F\x08\x02\x00\x02"), BYTES(""), BYTES("\x01\x01")) == REFUSED(EMV_PERSONALISE_ENTRY, 1));
    for (i = 0; i < 63; i++)
        memcpy(entries + 4 * i, "\x08\x00\x00\x00", 4), entries[4 * i + 1] = entries[4 * i + 2] = (uint8_t)(i + 1);
    CHECK(call(BYTES("\x9F\x08\x02\x00\x02"), entries, 63 * 4, BYTES("\x01\x01")) == REFUSED(EMV_PERSONALISE_ENTRY, 63));
    CHECK(call(BYTES("\x9F\x08\x02\x00\x02"), entries, 62 * 4, BYTES("\x01\x01")) == WRITTEN(129, 248));
    /* records */
    CHECK(call(BYTES("\x9F\x08\x02\x00\x02\x5F\x34\x01\x01"), BYTES("\x08\x01\x02\x00"), BYTES("\x01\x01\x02\x02\x01\x09")) ==
          REFUSED(EMV_PERSONALISE_RECORD, 1));
    CHECK(call(BYTES("\x9F\x08\x02\x00\x02\x5F\x34\x01\x01"), BYTES("\x08\x01\x02\x00"), BYTES("\x01\x01\x03\x02")) == REFUSED(EMV_PERSONALISE_RECORD, 3));
}

int main(void)
{
    static uint8_t session[EMV_SESSION_SIZE];
    CHECK(emv_open(session, sizeof session) == 0);
    writes();
    lengths();
    refusals();
    printf("ok\n");
    return 0;
}
