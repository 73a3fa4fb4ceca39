/* Runs the cabinet's calls, linked beside the kernel's library: the table of examples with every command and both amounts, each
 * refusal, lookups, and that lent bytes stay. Prints `ok`, or the first line that fails. */
#include <stdio.h>
#include <stdlib.h>
#include <string.h>

#include "../../include/tripodmoon.h"
#include "../../include/tripodmoon_cabinet.h"

#define CHECK(fact) check((fact) != 0, #fact, __LINE__)
#define BYTES(text) (const uint8_t *)(text), sizeof(text) - 1
#define BEHIND 16u
#define OUTCOME_OF(method, outcome, reason) (((method) << 24) + EMV_OUTCOMES + (outcome) * 256u + (reason))
#define DECIDED(outcome) OUTCOME_OF(EMV_METHOD_NO_CVM, outcome, EMV_REASON_NONE)
#define ENDED_EARLY(reason) OUTCOME_OF(EMV_METHOD_NOT_APPLICABLE, EMV_ENDED, reason)
#define REFUSED(number) (EMV_REFUSALS + (number))

static void check(int holds, const char *fact, int line)
{
    if (!holds) {
        printf("line %d: %s\n", line, fact);
        exit(1);
    }
}

/* The lent bytes, with more behind them than a call needs. */
static uint8_t state[CABINET_STATE_SIZE + BEHIND];
static uint8_t command[EMV_LEAST_BUFFER + BEHIND];
static uint8_t state_before[sizeof state];
static uint8_t command_before[sizeof command];

static void remember(void)
{
    memcpy(state_before, state, sizeof state);
    memcpy(command_before, command, sizeof command);
}

static int all_stays(void)
{
    return memcmp(state_before, state, sizeof state) == 0 && memcmp(command_before, command, sizeof command) == 0;
}

/* What holds after every call: the bytes behind the state stay, those behind a command too, and with no command the whole buffer. */
static uint32_t after(uint32_t word, int commanding)
{
    size_t n = commanding && EMV_IS_COMMAND(word) ? word : 0;
    CHECK(n <= EMV_LEAST_BUFFER);
    CHECK(memcmp(state + CABINET_STATE_SIZE, state_before + CABINET_STATE_SIZE, BEHIND) == 0);
    CHECK(memcmp(command + n, command_before + n, sizeof command - n) == 0);
    if (EMV_IS_REFUSAL(word))
        CHECK(all_stays());
    return word;
}

static uint32_t open_with(uint64_t cap)
{
    remember();
    return after(cabinet_open(state, sizeof state, cap), 0);
}

static uint32_t start(const uint8_t *bytes, size_t n)
{
    remember();
    return after(cabinet_start(state, sizeof state, bytes, n, command, sizeof command), 1);
}

static uint32_t answer(const uint8_t *bytes, size_t n)
{
    remember();
    return after(cabinet_answer(state, sizeof state, bytes, n, command, sizeof command), 1);
}

static uint32_t link_failed(void)
{
    remember();
    return after(cabinet_link_failed(state, sizeof state, command, sizeof command), 1);
}

static uint32_t stop(void)
{
    remember();
    return after(cabinet_stop(state, sizeof state, command, sizeof command), 1);
}

/* The word is a command of exactly these bytes. */
static int commands(uint32_t word, const uint8_t *bytes, size_t n)
{
    return word == n && memcmp(command, bytes, n) == 0;
}

/* The amounts behind the record: what is left, then what is set aside, 8 bytes each, high byte first. */
#define LEFT_AT EMV_SESSION_SIZE
#define ASIDE_AT (EMV_SESSION_SIZE + 8u)

static uint64_t number_at(size_t at)
{
    uint64_t n = 0;
    size_t i;
    for (i = 0; i < 8; i++)
        n = n * 256 + state[at + i];
    return n;
}

static void set_number(size_t at, uint64_t n)
{
    size_t i;
    for (i = 8; i > 0; i--, n /= 256)
        state[at + i - 1] = (uint8_t)(n % 256);
}

static int holds(uint64_t left, uint64_t aside)
{
    return number_at(LEFT_AT) == left && number_at(ASIDE_AT) == aside && cabinet_left(state, sizeof state) == left;
}

/* A fresh session, as the kernel opens it. */
static int is_fresh(void)
{
    static uint8_t session[EMV_SESSION_SIZE];
    return emv_open(session, sizeof session) == 0 && memcmp(session, state, sizeof session) == 0;
}

static void open_afresh(uint64_t cap)
{
    size_t i;
    for (i = 0; i < sizeof state; i++)
        state[i] = (uint8_t)(i * 7 + 1);
    for (i = 0; i < sizeof command; i++)
        command[i] = (uint8_t)(i * 5 + 3);
    CHECK(open_with(cap) == 0 && holds(cap, 0) && is_fresh());
}

/* The start objects of the examples, with the 9A in front, and a list that is broken behind all that a start must bring. */
#define DATE_SIZE 5u
#define AMOUNT_AT 11u
#define TYPE_AT 30u
#define LIMIT_AT 79u
#define CAPABILITIES_AT 89u
#define TERMINAL_SIZE (sizeof terminal - 4u)
static uint8_t terminal[] = {
    0x9A, 0x03, 0x25, 0x06, 0x15, 0x9C, 0x01, 0x00, 0x9F, 0x02, 0x06, 0x00, 0x00, 0x00, 0x00, 0x00, 0x00, 0x9F, 0x09, 0x02, 0x00, 0x02,
    0x9F, 0x1A, 0x02, 0x00, 0x56, 0x9F, 0x35, 0x01, 0x22, 0x9F, 0x37, 0x04, 0x5A, 0x3C, 0x96, 0xE1, 0xDF, 0x81, 0x20, 0x05, 0x00, 0x00,
    0x00, 0x00, 0x00, 0xDF, 0x81, 0x21, 0x05, 0x00, 0x00, 0x00, 0x00, 0x00, 0xDF, 0x81, 0x22, 0x05, 0x00, 0x00, 0x00, 0x00, 0x00, 0xDF,
    0x81, 0x23, 0x06, 0x99, 0x99, 0x99, 0x99, 0x99, 0x99, 0xDF, 0x81, 0x24, 0x06, 0x99, 0x99, 0x99, 0x99, 0x99, 0x99, 0x9F, 0x33, 0x03,
    0x00, 0x00, 0x00, 0xDF, 0x81, 0x25, 0x06, 0x99, 0x99, 0x99, 0x99, 0x99, 0x99, 0xDF, 0x81, 0x26, 0x06, 0x99, 0x99, 0x99, 0x99, 0x99,
    0x99, 0xDF, 0x81, 0x1B, 0x01, 0x00, 0x9F, 0x6A, 0x04, 0x00, 0x00, 0x00, 0x00, 0x9F, 0x38, 0x01, 0x9F,
};

/* T(n): the start bytes of an amount. */
static const uint8_t *t(uint64_t n)
{
    size_t i;
    for (i = 6; i > 0; i--, n /= 100)
        terminal[AMOUNT_AT + i - 1] = (uint8_t)(n % 10 + n / 10 % 10 * 16);
    return terminal;
}

#define ASK_OPTIONS "\x80\xA8\x00\x00\x02\x83\x00\x00"
#define ASK_RECORD "\x00\xB2\x01\x0C\x00"
#define ASK_OFFLINE "\x80\xAE\x40\x00\x04\x5A\x3C\x96\xE1\x00"
#define OPTIONS "\x80\x06\x00\x80\x08\x01\x01\x00\x90\x00"
#define OBJECTS \
    "\x5F\x24\x03\x49\x12\x31\x5A\x08\x47\x61\x73\x90\x01\x01\x00\x10\x8C\x03\x9F\x37\x04\x9F\x0D\x05\x00\x00\x00\x00\x00" \
    "\x9F\x0E\x05\x00\x00\x00\x00\x00\x9F\x0F\x05\x00\x00\x00\x00\x00"
#define RECORD "\x70\x2D" OBJECTS "\x90\x00"
#define CRYPTOGRAM(type) "\x80\x0B" type "\x00\x01\x11\x22\x33\x44\x55\x66\x77\x88\x90\x00"

/* A start of an amount that is taken. */
static void begin(uint64_t amount)
{
    uint64_t left = number_at(LEFT_AT);
    CHECK(commands(start(t(amount), TERMINAL_SIZE), BYTES(ASK_OPTIONS)) && holds(left - amount, amount));
}

/* The running session as far as the cryptogram, which is asked for offline. */
static void ask(void)
{
    uint64_t left = number_at(LEFT_AT), aside = number_at(ASIDE_AT);
    CHECK(commands(answer(BYTES(OPTIONS)), BYTES(ASK_RECORD)) && holds(left, aside));
    CHECK(commands(answer(BYTES(RECORD)), BYTES(ASK_OFFLINE)) && holds(left, aside));
}

/* ---- the table of examples, row by row */
static void sessions(void)
{
    open_afresh(1000); /* approved offline: spent */
    CHECK(start(t(1001), TERMINAL_SIZE) == REFUSED(CABINET_REFUSED_LEFT) && is_fresh());
    begin(1000);
    CHECK(holds(0, 1000));
    ask();
    CHECK(answer(BYTES(CRYPTOGRAM("\x40"))) == DECIDED(EMV_APPROVED) && holds(0, 0));
    CHECK(start(t(1), TERMINAL_SIZE) == REFUSED(CABINET_REFUSED_LEFT));
    begin(0);
    CHECK(holds(0, 0));

    open_afresh(1000); /* an online request: given back */
    begin(400);
    ask();
    CHECK(answer(BYTES(CRYPTOGRAM("\x80"))) == DECIDED(EMV_ONLINE_REQUEST) && holds(1000, 0));

    open_afresh(1000); /* a failed link: given back */
    begin(400);
    CHECK(link_failed() == ENDED_EARLY(EMV_REASON_LINK) && holds(1000, 0));
    CHECK(stop() == REFUSED(EMV_REFUSED_PHASE));

    open_afresh(1000); /* a signature: the method's bits do not count */
    terminal[CAPABILITIES_AT] = 0x20;
    CHECK(commands(start(t(400), TERMINAL_SIZE), BYTES(ASK_OPTIONS)));
    terminal[CAPABILITIES_AT] = 0x00;
    CHECK(commands(answer(BYTES("\x80\x06\x10\x80\x08\x01\x01\x00\x90\x00")), BYTES(ASK_RECORD)));
    CHECK(commands(answer(BYTES("\x70\x39" OBJECTS "\x8E\x0A\x00\x00\x00\x00\x00\x00\x00\x00\x5E\x00\x90\x00")), BYTES(ASK_OFFLINE)));
    CHECK(answer(BYTES(CRYPTOGRAM("\x40"))) == OUTCOME_OF(EMV_METHOD_SIGNATURE, EMV_APPROVED, EMV_REASON_NONE) && holds(600, 0));
}

static void refused_starts(void)
{
    open_afresh(1000); /* 30 comes last */
    CHECK(start(t(1001) + DATE_SIZE, TERMINAL_SIZE - DATE_SIZE) == REFUSED(EMV_REFUSED_ABSENT));
    CHECK(start(t(1001), TERMINAL_SIZE - 1) == REFUSED(EMV_REFUSED_BYTES));
    terminal[TYPE_AT] = 0x17;
    CHECK(start(t(1001), TERMINAL_SIZE) == REFUSED(EMV_REFUSED_OBJECT));
    terminal[TYPE_AT] = 0x22;
    remember();
    CHECK(cabinet_start(state, sizeof state, t(1001), TERMINAL_SIZE, command, 260) == REFUSED(EMV_REFUSED_BUFFER) && all_stays());

    open_afresh(1000); /* and before reason 7 */
    CHECK(start(t(1001), sizeof terminal) == REFUSED(CABINET_REFUSED_LEFT) && is_fresh());
    CHECK(start(t(1000), sizeof terminal) == ENDED_EARLY(EMV_REASON_DATA_LIST) && holds(1000, 0));

    open_afresh(1000); /* on a running session */
    begin(1000);
    CHECK(start(t(1001), TERMINAL_SIZE) == REFUSED(EMV_REFUSED_PHASE));

    open_afresh(1000); /* after an end, which stays */
    begin(400);
    CHECK(stop() == ENDED_EARLY(EMV_REASON_STOPPED) && holds(1000, 0));
    CHECK(start(t(1001), TERMINAL_SIZE) == REFUSED(CABINET_REFUSED_LEFT));
    CHECK(start(BYTES("")) == REFUSED(EMV_REFUSED_ABSENT));
}

static void openings(void)
{
    open_afresh(1000);
    CHECK(open_with(UINT64_C(1000000000000)) == REFUSED(CABINET_REFUSED_CAP));
    CHECK(open_with(UINT64_MAX) == REFUSED(CABINET_REFUSED_CAP));
    remember();
    CHECK(cabinet_open(state, CABINET_STATE_SIZE - 1, UINT64_C(1000000000000)) == REFUSED(EMV_REFUSED_RANGES) && all_stays());

    open_afresh(CABINET_MOST_CAP);
    begin(CABINET_MOST_CAP);
    CHECK(holds(0, CABINET_MOST_CAP));
    CHECK(open_with(5) == 0 && holds(5, 0) && is_fresh());
}

/* Each call but open with so many bytes of state and buffer gives this refusal, and leaves all bytes. */
static void all_refuse(size_t state_len, size_t command_len, uint32_t word)
{
    remember();
    CHECK(cabinet_start(state, state_len, t(1), TERMINAL_SIZE, command, command_len) == word);
    CHECK(cabinet_answer(state, state_len, BYTES(OPTIONS), command, command_len) == word);
    CHECK(cabinet_link_failed(state, state_len, command, command_len) == word);
    CHECK(cabinet_stop(state, state_len, command, command_len) == word);
    if (word == REFUSED(EMV_REFUSED_RANGES))
        CHECK(cabinet_left(state, state_len) == CABINET_NO_LEFT);
    CHECK(all_stays());
}

static void no_state(void)
{
    all_refuse(sizeof state, sizeof command, REFUSED(EMV_REFUSED_RANGES));
    all_refuse(sizeof state, EMV_LEAST_BUFFER - 1, REFUSED(EMV_REFUSED_BUFFER));
}

static void changed_amounts(void)
{
    open_afresh(1000); /* a running session with 1 set aside */
    begin(1);
    set_number(ASIDE_AT, 0);
    no_state();
    set_number(ASIDE_AT, 2);
    no_state();
    set_number(ASIDE_AT, 1);
    set_number(LEFT_AT, CABINET_MOST_CAP);
    no_state();
    set_number(LEFT_AT, UINT64_MAX); /* a sum that would wrap */
    no_state();
    set_number(LEFT_AT, CABINET_MOST_CAP - 1);
    CHECK(commands(answer(BYTES(OPTIONS)), BYTES(ASK_RECORD)) && holds(CABINET_MOST_CAP - 1, 1));
    CHECK(stop() == ENDED_EARLY(EMV_REASON_STOPPED) && holds(CABINET_MOST_CAP, 0));
    set_number(ASIDE_AT, 1); /* after the end */
    no_state();

    open_afresh(1000); /* a fresh one with 1 set aside */
    set_number(ASIDE_AT, 1);
    no_state();
    set_number(ASIDE_AT, 0);
    set_number(LEFT_AT, CABINET_MOST_CAP + 1);
    no_state();
}

/* ---- beside the table */
static void other_ends(void)
{
    open_afresh(1000);
    begin(400);
    ask();
    CHECK(answer(BYTES(CRYPTOGRAM("\x00"))) == DECIDED(EMV_DECLINED) && holds(1000, 0));
    begin(400);
    ask();
    CHECK(answer(BYTES(CRYPTOGRAM("\xC0"))) == OUTCOME_OF(EMV_METHOD_NO_CVM, EMV_ENDED, EMV_REASON_CRYPTOGRAM) && holds(1000, 0));
    begin(400);
    CHECK(answer(BYTES("\x69\x85")) == ENDED_EARLY(EMV_REASON_STATUS) && holds(1000, 0));
    begin(400);
    CHECK(commands(answer(BYTES(OPTIONS)), BYTES(ASK_RECORD)) && answer(BYTES("\x70\x00\x90\x00")) == ENDED_EARLY(EMV_REASON_MISSING));
    CHECK(holds(1000, 0));
    memset(terminal + LIMIT_AT, 0x00, 6); /* a transaction limit of 0 */
    begin(400);
    memset(terminal + LIMIT_AT, 0x99, 6);
    CHECK(commands(answer(BYTES(OPTIONS)), BYTES(ASK_RECORD)));
    CHECK(answer(BYTES(RECORD)) == OUTCOME_OF(EMV_METHOD_NOT_APPLICABLE, EMV_SELECT_NEXT, EMV_REASON_ABOVE_LIMIT) && holds(1000, 0));
    begin(300); /* three approvals, and what is left after each */
    ask();
    CHECK(answer(BYTES(CRYPTOGRAM("\x40"))) == DECIDED(EMV_APPROVED) && holds(700, 0));
    begin(700);
    ask();
    CHECK(stop() == OUTCOME_OF(EMV_METHOD_NO_CVM, EMV_ENDED, EMV_REASON_STOPPED) && holds(700, 0));
    begin(0);
    ask();
    CHECK(answer(BYTES(CRYPTOGRAM("\x40"))) == DECIDED(EMV_APPROVED) && holds(700, 0));
    begin(700);
    ask();
    CHECK(answer(BYTES(CRYPTOGRAM("\x40"))) == DECIDED(EMV_APPROVED) && holds(0, 0));
}

/* The kernel's calls read the record in front of a state, and take no notice of what is behind it. */
static void beside_the_kernel(void)
{
    uint8_t value[EMV_MOST_VALUE];
    open_afresh(1000);
    begin(400);
    ask();
    CHECK(answer(BYTES(CRYPTOGRAM("\x80"))) == DECIDED(EMV_ONLINE_REQUEST));
    CHECK(emv_count(state, sizeof state) == 3 && emv_explain(state, sizeof state) == EMV_EXPLAIN_LOWER_CRYPTOGRAM);
    CHECK(emv_object(state, sizeof state, 0x9F26, value, sizeof value) == 8 && memcmp(value, "\x11\x22\x33\x44\x55\x66\x77\x88", 8) == 0);
    CHECK(emv_wipe(state, sizeof state) == 0);
    no_state();
    CHECK(cabinet_size() == CABINET_STATE_SIZE && cabinet_size() == emv_session_size() + CABINET_AMOUNTS_SIZE);
}

static void lent_bytes(void)
{
    open_afresh(1000);
    all_refuse(sizeof state, EMV_LEAST_BUFFER - 1, REFUSED(EMV_REFUSED_BUFFER));
    all_refuse(CABINET_STATE_SIZE - 1, sizeof command, REFUSED(EMV_REFUSED_RANGES));
    all_refuse(CABINET_STATE_SIZE - 1, EMV_LEAST_BUFFER - 1, REFUSED(EMV_REFUSED_BUFFER));
    all_refuse(EMV_SESSION_SIZE, sizeof command, REFUSED(EMV_REFUSED_RANGES)); /* a record alone */
    all_refuse(0, sizeof command, REFUSED(EMV_REFUSED_RANGES));
    state[0] ^= 1; /* another version */
    no_state();
    state[0] ^= 1;
    state[4] = 1; /* a fresh record with a count */
    no_state();
    state[4] = 0;
    CHECK(answer(BYTES(OPTIONS)) == REFUSED(EMV_REFUSED_PHASE) && link_failed() == REFUSED(EMV_REFUSED_PHASE));
    CHECK(cabinet_start(state, CABINET_STATE_SIZE, t(1000), TERMINAL_SIZE, command, EMV_LEAST_BUFFER) == 8 && holds(0, 1000));
}

/* ---- looking up a start object */
#define DEFAULTS "\x9C\x01\x20\x9F\x1A\x02\x00\x56"

/* The word has this source; the value starts there, counted over site and defaults, and has these bytes, in the list of the source. */
static int finds(const uint8_t *site, size_t n, const uint8_t *defaults, size_t m, uint32_t tag, unsigned source, size_t at,
                 const uint8_t *value, size_t len)
{
    uint64_t found = cabinet_find(site, n, defaults, m, tag);
    const uint8_t *part = CABINET_FOUND_VALUE(found, site, n, defaults);
    return found == ((uint64_t)at << 32 | (uint64_t)source << 16 | len) && CABINET_FOUND_SOURCE(found) == source &&
           CABINET_FOUND_START(found) == at && CABINET_FOUND_LENGTH(found) == len &&
           part == (source == CABINET_SOURCE_SITE ? site + at : defaults + (at - n)) && memcmp(part, value, len) == 0;
}

#define SITE CABINET_SOURCE_SITE
#define MAKER CABINET_SOURCE_DEFAULTS
#define NOWHERE CABINET_SOURCE_NOWHERE

static void lookups(void)
{
    CHECK(finds(BYTES("\x9A\x03\x25\x06\x15\x9C\x01\x00"), BYTES(DEFAULTS), 0x9C, SITE, 7, BYTES("\x00")));
    CHECK(finds(BYTES("\x9A\x03\x25\x06\x15\x9C\x01\x00"), BYTES(DEFAULTS), 0x9F1A, MAKER, 8 + 6, BYTES("\x00\x56")));
    CHECK(finds(BYTES("\x9A\x03\x25\x06\x15\x9C\x01\x00"), BYTES(DEFAULTS), 0x9F35, NOWHERE, 8, BYTES("")));
    CHECK(finds(BYTES("\x9F\x1A\x02\x08\x40\x70\x00\x9C\x01\x01"), BYTES(DEFAULTS), 0x9C, MAKER, 10 + 2,
                BYTES("\x20"))); /* behind a template */
    CHECK(finds(BYTES("\x00\x9C\x01\x01"), BYTES(DEFAULTS), 0x9C, MAKER, 4 + 2, BYTES("\x20")));
    CHECK(finds(BYTES("\x9C\x01\x01\x9C\x01\x02"), BYTES(DEFAULTS), 0x9C, SITE, 2, BYTES("\x01"))); /* the first of two */
    CHECK(finds(BYTES("\x9C\x01\x01\x9F\x02\x06\x00\x00"), BYTES("\x9C\x01\x20\x9F\x02\x06\x00\x00\x00\x00\x12\x34"), 0x9C, SITE, 2,
                BYTES("\x01")));
    CHECK(finds(BYTES("\x9C\x01\x01\x9F\x02\x06\x00\x00"), BYTES("\x9C\x01\x20\x9F\x02\x06\x00\x00\x00\x00\x12\x34"), 0x9F02, MAKER, 8 + 6,
                BYTES("\x00\x00\x00\x00\x12\x34")));
    CHECK(finds(BYTES(""), BYTES(""), 0x9C, NOWHERE, 0, BYTES("")) && finds(BYTES(""), BYTES(DEFAULTS), 0x9C, MAKER, 2, BYTES("\x20")));
    CHECK(finds(BYTES("\x70\x03\x9C\x01\x01"), BYTES("\x70\x00"), 0x70, NOWHERE, 5, BYTES(""))); /* no template is found */
    CHECK(finds(BYTES("\xDF\x01\x81\x01\x41\x9F\x7F\x82\x00\x01\x42"), BYTES(""), 0x9F7F, SITE, 10,
                BYTES("\x42"))); /* unknown tags, long lengths */
}

/* An empty value is there: at the end of either list its word differs from that of a tag in neither. */
static void empty_values(void)
{
    CHECK(finds(BYTES("\x9C\x00"), BYTES(DEFAULTS), 0x9C, SITE, 2, BYTES("")));
    CHECK(finds(BYTES("\x9C\x00"), BYTES(DEFAULTS), 0x9F35, NOWHERE, 2, BYTES("")));
    CHECK(finds(BYTES("\x9C\x00"), BYTES("\x9F\x1A\x00"), 0x9F1A, MAKER, 2 + 3, BYTES("")));
    CHECK(finds(BYTES("\x9C\x00"), BYTES(""), 0x9C, SITE, 2, BYTES("")) && finds(BYTES("\x9C\x00"), BYTES(""), 0x9A, NOWHERE, 2, BYTES("")));
    CHECK(finds(BYTES(""), BYTES("\x9C\x00"), 0x9C, MAKER, 2, BYTES("")) && finds(BYTES(""), BYTES("\x9C\x00"), 0x9A, NOWHERE, 0, BYTES("")));
    CHECK(finds(BYTES("\x9C\x00\x9A\x00"), BYTES(DEFAULTS), 0x9C, SITE, 2, BYTES(""))); /* in front of another */
}

/* The longest value, of 65,535 bytes, fills the length's bits and no others; in either list, with an empty value behind it. */
static void long_values(void)
{
    static uint8_t list[5 + 65535 + 2] = {0x9F, 0x38, 0x82, 0xFF, 0xFF};
    memset(list + 5, 0x5A, 65535);
    list[5 + 65535] = 0x9C;
    CHECK(finds(list, sizeof list, BYTES(DEFAULTS), 0x9F38, SITE, 5, list + 5, 65535));
    CHECK(finds(BYTES(DEFAULTS), list, sizeof list, 0x9F38, MAKER, 8 + 5, list + 5, 65535));
    CHECK(finds(list, sizeof list, BYTES(DEFAULTS), 0x9C, SITE, sizeof list, BYTES("")));
    CHECK(finds(BYTES(""), list, sizeof list, 0x9C, MAKER, sizeof list, BYTES("")));
    CHECK(finds(list, sizeof list, BYTES(DEFAULTS), 0x9A, NOWHERE, sizeof list, BYTES("")));
}

/* Bytes that are too many are not looked at, so that few behind a pointer do; and one less than too many, where the machine lends them. */
static void many_bytes(void)
{
    static const uint8_t few[] = {0x9C, 0x01, 0x01};
    const size_t limit = (size_t)1 << 32;
    uint8_t *zeros;
    CHECK(cabinet_find(few, limit, few, 0, 0x9C) == CABINET_FIND_TOO_MANY && cabinet_find(few, 0, few, limit, 0x9C) == CABINET_FIND_TOO_MANY);
    CHECK(cabinet_find(few, limit - 3, few, 3, 0x9C) == CABINET_FIND_TOO_MANY && cabinet_find(few, 3, few, limit - 3, 0x9C) == CABINET_FIND_TOO_MANY);
    CHECK(cabinet_find(few, SIZE_MAX, few, 3, 0x9C) == CABINET_FIND_TOO_MANY && cabinet_find(few, 3, few, SIZE_MAX - 2, 0x9C) == CABINET_FIND_TOO_MANY);
    CHECK(cabinet_find(few, SIZE_MAX, few, SIZE_MAX, 0x9C) == CABINET_FIND_TOO_MANY);
    zeros = calloc(1, limit - 1); /* the first byte is no object */
    if (zeros == NULL)
        return;
    CHECK(finds(zeros, limit - 1, few, 0, 0x9C, NOWHERE, limit - 1, BYTES("")));
    CHECK(finds(zeros, limit - 4, few, 3, 0x9C, MAKER, limit - 2, BYTES("\x01")));
    CHECK(finds(few, 3, zeros, limit - 4, 0x9C, SITE, 2, BYTES("\x01")));
    free(zeros);
}

int main(void)
{
    sessions();
    refused_starts();
    openings();
    changed_amounts();
    other_ends();
    beside_the_kernel();
    lent_bytes();
    lookups();
    empty_values();
    long_values();
    many_bytes();
    printf("ok\n");
    return 0;
}
