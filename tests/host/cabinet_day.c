/* A vending cabinet's day in one page: it is opened with a cap on offline approvals, customers come one after the other, and what is left of
 * the cap is told after each. The start objects come out of the site's list and the maker's defaults. The cards are made up here: a cabinet
 * has its radio in place of `exchange`. Prints a line for each customer; 0 where the day ends with what is left as it should be. */
#include <stdio.h>
#include <string.h>

#include "../../include/tripodmoon.h"
#include "../../include/tripodmoon_cabinet.h"

/* ---- the set-up: what a start takes from the lists, tag by tag */
static const uint32_t wanted[] = {0x5F2A, 0x9C,     0x9F09,   0x9F1A,   0x9F33,   0x9F35,   0x9F40,  0xDF811B,
                                  0xDF8120, 0xDF8121, 0xDF8122, 0xDF8123, 0xDF8124, 0xDF8125, 0xDF8126};

/* Of this site: the country 0840, the currency 0840, a transaction limit of 20.00 and no additional capabilities, which an empty value says. */
static const uint8_t site[] = {0x9F, 0x1A, 0x02, 0x08, 0x40, 0x5F, 0x2A, 0x02, 0x08, 0x40, 0xDF, 0x81, 0x24,
                               0x06, 0x00, 0x00, 0x00, 0x00, 0x20, 0x00, 0x9F, 0x40, 0x00};

/* Of the maker: goods, type 25, no method of verification, action codes of zeros, limits of 100.00, mag-stripe mode off. */
static const uint8_t defaults[] = {
    0x9C, 0x01, 0x00, 0x9F, 0x09, 0x02, 0x00, 0x02, 0x9F, 0x1A, 0x02, 0x00, 0x56, 0x9F, 0x33, 0x03, 0x00, 0x08, 0x00, 0x9F, 0x35, 0x01,
    0x25, 0x9F, 0x40, 0x05, 0x60, 0x00, 0x00, 0x00, 0x00, 0xDF, 0x81, 0x1B, 0x01, 0x80, 0xDF, 0x81, 0x20, 0x05, 0x00, 0x00, 0x00, 0x00,
    0x00, 0xDF, 0x81, 0x21, 0x05, 0x00, 0x00, 0x00, 0x00, 0x00, 0xDF, 0x81, 0x22, 0x05, 0x00, 0x00, 0x00, 0x00, 0x00, 0xDF, 0x81, 0x23,
    0x06, 0x00, 0x00, 0x00, 0x01, 0x00, 0x00, 0xDF, 0x81, 0x24, 0x06, 0x00, 0x00, 0x00, 0x01, 0x00, 0x00, 0xDF, 0x81, 0x25, 0x06, 0x00,
    0x00, 0x00, 0x01, 0x00, 0x00, 0xDF, 0x81, 0x26, 0x06, 0x00, 0x00, 0x00, 0x01, 0x00, 0x00};

/* Puts an object behind the n start bytes, and gives the new length. */
static size_t put(uint8_t *start, size_t n, uint32_t tag, const uint8_t *value, size_t len)
{
    if (tag > 0xFFFF)
        start[n++] = (uint8_t)(tag >> 16);
    if (tag > 0xFF)
        start[n++] = (uint8_t)(tag >> 8);
    start[n++] = (uint8_t)tag;
    start[n++] = (uint8_t)len;
    memcpy(start + n, value, len);
    return n + len;
}

/* Prints how many of the wanted objects each list has; 1 where neither list has one of them, which is a fault of the set-up. */
static int set_up(void)
{
    size_t i, count[4] = {0};
    for (i = 0; i < sizeof wanted / sizeof *wanted; i++)
        count[CABINET_FOUND_SOURCE(cabinet_find(site, sizeof site, defaults, sizeof defaults, wanted[i]))]++;
    printf("start objects: %u of the site, %u of the defaults, %u nowhere\n", (unsigned)count[CABINET_SOURCE_SITE],
           (unsigned)count[CABINET_SOURCE_DEFAULTS], (unsigned)count[CABINET_SOURCE_NOWHERE]);
    return count[CABINET_SOURCE_NOWHERE] > 0;
}

/* The start bytes of a sale: what the lists have, the site's before the defaults', and the sale's own date, amount and numbers. */
static size_t start_bytes(uint8_t *start, unsigned long cents, uint8_t number)
{
    uint8_t amount[6] = {0}, binary[4] = {0x5A, 0x3C, 0x96, 0x00}, digits[4] = {0};
    size_t i, n = 0;
    for (i = 0; i < sizeof wanted / sizeof *wanted; i++) {
        uint64_t found = cabinet_find(site, sizeof site, defaults, sizeof defaults, wanted[i]);
        if (CABINET_FOUND_LENGTH(found) > 0)
            n = put(start, n, wanted[i], CABINET_FOUND_VALUE(found, site, sizeof site, defaults), CABINET_FOUND_LENGTH(found));
    }
    for (i = 6; i > 0; i--, cents /= 100)
        amount[i - 1] = (uint8_t)(cents % 10 + cents / 10 % 10 * 16);
    binary[3] = digits[3] = number; /* a cabinet draws these, and a purchase of its own has the day's date */
    n = put(start, n, 0x9A, (const uint8_t *)"\x25\x06\x15", 3);
    n = put(start, n, 0x9F02, amount, sizeof amount);
    n = put(start, n, 0x9F37, binary, sizeof binary);
    return put(start, n, 0x9F6A, digits, sizeof digits);
}

#define CAP 3000u /* 30.00 */

/* ---- the customers: what each is to pay, and what the card says to GENERATE AC */
enum { APPROVES = 0x40, GOES_ONLINE = 0x80, DECLINES = 0x00, IS_TAKEN_AWAY = 0xFF };
static const struct {
    unsigned long cents;
    uint8_t card;
} customers[] = {{250, APPROVES}, {2800, APPROVES}, {300, GOES_ONLINE}, {400, IS_TAKEN_AWAY}, {2001, APPROVES},
                 {120, DECLINES}, {2000, APPROVES}, {750, APPROVES},    {1, APPROVES}};

/* The card's answer to a command, and its length; 0 where the link failed. */
static size_t exchange(const uint8_t *command, uint8_t says, uint8_t *card)
{
    static const uint8_t options[] = {0x80, 0x06, 0x00, 0x80, 0x08, 0x01, 0x01, 0x00, 0x90, 0x00};
    static const uint8_t record[] = {0x70, 0x1D, 0x5F, 0x24, 0x03, 0x49, 0x12, 0x31, 0x5A, 0x08, 0x47, 0x61, 0x73, 0x90, 0x01, 0x01,
                                     0x00, 0x10, 0x8C, 0x03, 0x9F, 0x37, 0x04, 0x9F, 0x0F, 0x05, 0x00, 0x00, 0x00, 0x00, 0x00, 0x90, 0x00};
    static const uint8_t cryptogram[] = {0x80, 0x0B, 0x00, 0x00, 0x01, 0x11, 0x22, 0x33, 0x44, 0x55, 0x66, 0x77, 0x88, 0x90, 0x00};
    const uint8_t *answer = command[1] == 0xA8 ? options : command[1] == 0xB2 ? record : cryptogram;
    size_t n = command[1] == 0xA8 ? sizeof options : command[1] == 0xB2 ? sizeof record : sizeof cryptogram;
    memcpy(card, answer, n);
    if (answer == cryptogram)
        card[2] = says;
    return answer == cryptogram && says == IS_TAKEN_AWAY ? 0 : n;
}

static void print_amount(const char *before, uint64_t cents)
{
    printf("%s%lu.%02lu", before, (unsigned long)(cents / 100), (unsigned long)(cents % 100));
}

static void print_bytes(const char *before, const uint8_t *bytes, size_t n)
{
    size_t i;
    printf("%s", before);
    for (i = 0; i < n; i++)
        printf(" %02X", (unsigned)bytes[i]);
    printf("\n");
}

int main(void)
{
    static const char *const outcomes[] = {"approved", "online request", "declined", "ended", "select next"};
    static uint8_t state[CABINET_STATE_SIZE], command[EMV_LEAST_BUFFER], card[258], start[EMV_MOST_TERMINAL], cryptogram[8];
    size_t i, n;
    uint64_t left;
    if (set_up() != 0 || cabinet_open(state, sizeof state, CAP) != 0)
        return 1;
    print_amount("opened with ", cabinet_left(state, sizeof state));
    printf("\n");
    for (i = 0; i < sizeof customers / sizeof *customers; i++) {
        uint32_t word;
        n = start_bytes(start, customers[i].cents, (uint8_t)(i + 1));
        if (i == 0)
            print_bytes("start bytes:", start, n);
        word = cabinet_start(state, sizeof state, start, n, command, sizeof command); /* after an end it opens a fresh session */
        while (EMV_IS_COMMAND(word)) {
            n = exchange(command, customers[i].card, card);
            word = n ? cabinet_answer(state, sizeof state, card, n, command, sizeof command)
                     : cabinet_link_failed(state, sizeof state, command, sizeof command);
        }
        print_amount("", customers[i].cents);
        if (EMV_IS_REFUSAL(word)) /* 30: there is too little left for it, and the session before stays as it is */
            printf(": refused, %u", (unsigned)EMV_REFUSAL(word));
        else
            printf(": %s, reason %u", outcomes[EMV_OUTCOME(word)], (unsigned)EMV_REASON(word));
        print_amount(", left ", cabinet_left(state, sizeof state));
        if (EMV_IS_OUTCOME(word) && EMV_OUTCOME(word) == EMV_ONLINE_REQUEST && /* the kernel's calls read the session in front */
            emv_object(state, sizeof state, 0x9F26, cryptogram, sizeof cryptogram) == sizeof cryptogram)
            print_bytes(", sent on:", cryptogram, sizeof cryptogram);
        else
            printf("\n");
    }
    left = cabinet_left(state, sizeof state);
    print_amount("closed, approved ", CAP - left);
    printf("\n");
    emv_wipe(state, sizeof state); /* the PAN is in it */
    return left == 0 && cabinet_left(state, sizeof state) == CABINET_NO_LEFT ? 0 : 1;
}
