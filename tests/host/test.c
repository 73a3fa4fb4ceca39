/* Runs the C calls: whole purchases with every command byte, each refusal, objects read back and found, explanations, and that
 * lent bytes stay.
 * Prints `ok`, or the first line that fails. */
#include <stdio.h>
#include <stdlib.h>
#include <string.h>

#include "../../include/tripodmoon.h"

#define CHECK(fact) check((fact) != 0, #fact, __LINE__)
#define BYTES(text) (const uint8_t *)(text), sizeof(text) - 1
#define BEHIND 16u
#define OUTCOME_OF(method, outcome, reason) (((method) << 24) + EMV_OUTCOMES + (outcome) * 256u + (reason))
#define ENDED_EARLY(reason) OUTCOME_OF(EMV_METHOD_NOT_APPLICABLE, EMV_ENDED, reason)
#define REFUSED(number) (EMV_REFUSALS + (number))

static void check(int holds, const char *fact, int line)
{
    if (!holds) {
        printf("line %d: %s\n", line, fact);
        exit(1);
    }
}

/* The lent bytes, with more behind them than a call needs. */
static uint8_t session[EMV_SESSION_SIZE + BEHIND];
static uint8_t command[EMV_LEAST_BUFFER + BEHIND];
static uint8_t session_before[sizeof session];
static uint8_t command_before[sizeof command];

static void remember(void)
{
    memcpy(session_before, session, sizeof session);
    memcpy(command_before, command, sizeof command);
}

static int all_stays(void)
{
    return memcmp(session_before, session, sizeof session) == 0 && memcmp(command_before, command, sizeof command) == 0;
}

/* What holds after every call: the bytes behind the record stay, those behind a command too, and with no command the whole buffer. */
static uint32_t after(uint32_t word)
{
    size_t n = EMV_IS_COMMAND(word) ? word : 0;
    CHECK(n <= EMV_LEAST_BUFFER);
    CHECK(memcmp(session + EMV_SESSION_SIZE, session_before + EMV_SESSION_SIZE, BEHIND) == 0);
    CHECK(memcmp(command + n, command_before + n, sizeof command - n) == 0);
    if (EMV_IS_REFUSAL(word))
        CHECK(all_stays());
    return word;
}

static uint32_t start(const uint8_t *bytes, size_t n)
{
    remember();
    return after(emv_start(session, sizeof session, bytes, n, command, sizeof command));
}

static uint32_t answer(const uint8_t *bytes, size_t n)
{
    remember();
    return after(emv_answer(session, sizeof session, bytes, n, command, sizeof command));
}

static uint32_t link_failed(void)
{
    remember();
    return after(emv_link_failed(session, sizeof session, command, sizeof command));
}

static uint32_t stop(void)
{
    remember();
    return after(emv_stop(session, sizeof session, command, sizeof command));
}

static uint32_t count(void)
{
    return emv_count(session, sizeof session);
}

/* The word is a command of exactly these bytes. */
static int commands(uint32_t word, const uint8_t *bytes, size_t n)
{
    return word == n && memcmp(command, bytes, n) == 0;
}

static void reopen(void)
{
    size_t i;
    for (i = 0; i < sizeof session; i++)
        session[i] = (uint8_t)(i * 7 + 1);
    for (i = 0; i < sizeof command; i++)
        command[i] = (uint8_t)(i * 5 + 3);
    remember();
    CHECK(emv_open(session, sizeof session) == 0);
    CHECK(memcmp(session + EMV_SESSION_SIZE, session_before + EMV_SESSION_SIZE, BEHIND) == 0);
}

/* All that a start must bring: type 22, an amount of 12.34, floor limit 100.00, transaction limit 200.00, action codes of zeros,
 * capabilities E0 F8 C8 with every method; phones are taken, with a limit of 500.00. */
#define TYPE_AT 30
static uint8_t terminal[] = {
    0x9A, 0x03, 0x25, 0x11, 0x15, 0x9C, 0x01, 0x00, 0x9F, 0x02, 0x06, 0x00, 0x00, 0x00, 0x00, 0x12, 0x34, 0x9F,
    0x09, 0x02, 0x00, 0x02, 0x9F, 0x1A, 0x02, 0x00, 0x56, 0x9F, 0x35, 0x01, 0x22, 0x9F, 0x37, 0x04, 0x01, 0x02,
    0x03, 0x04, 0xDF, 0x81, 0x20, 0x05, 0x00, 0x00, 0x00, 0x00, 0x00, 0xDF, 0x81, 0x21, 0x05, 0x00, 0x00, 0x00,
    0x00, 0x00, 0xDF, 0x81, 0x22, 0x05, 0x00, 0x00, 0x00, 0x00, 0x00, 0xDF, 0x81, 0x23, 0x06, 0x00, 0x00, 0x00,
    0x01, 0x00, 0x00, 0xDF, 0x81, 0x24, 0x06, 0x00, 0x00, 0x00, 0x02, 0x00, 0x00, 0x9F, 0x33, 0x03, 0xE0, 0xF8,
    0xC8, 0xDF, 0x81, 0x26, 0x06, 0x00, 0x00, 0x00, 0x00, 0x25, 0x00, 0xDF, 0x81, 0x25, 0x06, 0x00, 0x00, 0x00,
    0x05, 0x00, 0x00, 0xDF, 0x81, 0x1B, 0x01, 0x20, 0x9F, 0x6A, 0x04, 0x00, 0x00, 0x34, 0x56,
};

#define OPTIONS "\x80\x06\x00\x80\x08\x01\x01\x00\x90\x00"
#define RECORD_ONLINE "\x70\x14\x5F\x24\x03\x30\x12\x31\x5A\x08\x47\x61\x73\x90\x01\x01\x00\x10\x8C\x02\x95\x05\x90\x00"
#define RECORD_OFFLINE \
    "\x70\x1C\x5F\x24\x03\x30\x12\x31\x5A\x08\x47\x61\x73\x90\x01\x01\x00\x10\x8C\x02\x95\x05\x9F\x0F\x05\x00\x00\x00\x00\x00\x90\x00"
#define CRYPTOGRAM(type) "\x80\x0B" type "\x00\x01\x01\x02\x03\x04\x05\x06\x07\x08\x90\x00"

/* A start and the answer to processing options: the first record is asked for. */
static void begin(uint8_t type)
{
    reopen();
    CHECK(count() == 0);
    terminal[TYPE_AT] = type;
    CHECK(commands(start(terminal, sizeof terminal), BYTES("\x80\xA8\x00\x00\x02\x83\x00\x00")));
    CHECK(count() == 1);
    CHECK(commands(answer(BYTES(OPTIONS)), BYTES("\x00\xB2\x01\x0C\x00")));
    CHECK(count() == 2);
}

static void purchases(void)
{
    begin(0x22);
    CHECK(commands(answer(BYTES(RECORD_OFFLINE)), BYTES("\x80\xAE\x40\x00\x05\x80\x00\x00\x00\x00\x00")));
    CHECK(count() == 3);
    CHECK(answer(BYTES(CRYPTOGRAM("\x40"))) == OUTCOME_OF(EMV_METHOD_NO_CVM, EMV_APPROVED, EMV_REASON_NONE));
    CHECK(count() == 3);

    begin(0x22);
    CHECK(commands(answer(BYTES(RECORD_ONLINE)), BYTES("\x80\xAE\x80\x00\x05\x80\x00\x00\x00\x00\x00")));
    CHECK(answer(BYTES(CRYPTOGRAM("\x80"))) == OUTCOME_OF(EMV_METHOD_NO_CVM, EMV_ONLINE_REQUEST, EMV_REASON_NONE));

    begin(0x23);
    CHECK(commands(answer(BYTES(RECORD_ONLINE)), BYTES("\x80\xAE\x00\x00\x05\x80\x00\x00\x00\x00\x00")));
    CHECK(answer(BYTES(CRYPTOGRAM("\x00"))) == OUTCOME_OF(EMV_METHOD_NO_CVM, EMV_DECLINED, EMV_REASON_NONE));
}

static void reasons(void)
{
    uint32_t word;
    begin(0x22);
    CHECK(answer(BYTES("\x70\x80\x00\x00\x90\x00")) == ENDED_EARLY(EMV_REASON_MALFORMED));
    begin(0x22);
    CHECK(answer(BYTES("\x70\x03\x95\x01\x00\x90\x00")) == ENDED_EARLY(EMV_REASON_NOT_ALLOWED));
    begin(0x22);
    CHECK(link_failed() == ENDED_EARLY(EMV_REASON_LINK));
    begin(0x22);
    CHECK(stop() == ENDED_EARLY(EMV_REASON_STOPPED));
    CHECK(stop() == REFUSED(EMV_REFUSED_PHASE));
    terminal[14] = 0x02; /* 212.34, above the limit of 200.00 */
    begin(0x22);
    word = answer(BYTES(RECORD_ONLINE));
    terminal[14] = 0x00;
    CHECK(EMV_IS_OUTCOME(word) && EMV_OUTCOME(word) == EMV_SELECT_NEXT && EMV_REASON(word) == EMV_REASON_ABOVE_LIMIT);
    CHECK(EMV_METHOD(word) == EMV_METHOD_NOT_APPLICABLE && !EMV_IS_COMMAND(word) && !EMV_IS_REFUSAL(word));
}

/* The card supports cardholder verification; its list has one rule, with this code. The command carries 9F34 and 95. */
static void verify(uint8_t code, const uint8_t *asked, size_t n)
{
    uint8_t record[] = "\x70\x23\x5F\x24\x03\x30\x12\x31\x5A\x08\x47\x61\x73\x90\x01\x01\x00\x10\x8C\x05\x9F\x34\x03\x95\x05"
                       "\x8E\x0A\x00\x00\x00\x00\x00\x00\x00\x00\x00\x00\x90\x00";
    record[sizeof record - 5] = code;
    reopen();
    terminal[TYPE_AT] = 0x22;
    (void)start(terminal, sizeof terminal);
    CHECK(commands(answer(BYTES("\x80\x06\x10\x80\x08\x01\x01\x00\x90\x00")), BYTES("\x00\xB2\x01\x0C\x00")));
    CHECK(commands(answer(record, sizeof record - 1), asked, n));
}

static void methods(void)
{
    uint32_t word;
    verify(0x42, BYTES("\x80\xAE\x80\x00\x08\x42\x00\x00\x80\x00\x04\x00\x00\x00"));
    CHECK(session[5] == EMV_METHOD_ONLINE_PIN);
    word = answer(BYTES(CRYPTOGRAM("\x80")));
    CHECK(EMV_IS_OUTCOME(word) && EMV_OUTCOME(word) == EMV_ONLINE_REQUEST && EMV_METHOD(word) == EMV_METHOD_ONLINE_PIN);
    CHECK(session[5] == 0);
    verify(0x1E, BYTES("\x80\xAE\x80\x00\x08\x1E\x00\x00\x80\x00\x00\x00\x00\x00"));
    CHECK(link_failed() == OUTCOME_OF(EMV_METHOD_SIGNATURE, EMV_ENDED, EMV_REASON_LINK));
    verify(0x1F, BYTES("\x80\xAE\x80\x00\x08\x1F\x00\x02\x80\x00\x00\x00\x00\x00"));
    CHECK(stop() == OUTCOME_OF(EMV_METHOD_NO_CVM, EMV_ENDED, EMV_REASON_STOPPED));
    verify(0x04, BYTES("\x80\xAE\x80\x00\x08\x04\x00\x00\x80\x00\x00\x00\x00\x00"));
    CHECK(answer(BYTES("\x6A\x83")) == OUTCOME_OF(EMV_METHOD_OFFLINE_PIN, EMV_ENDED, EMV_REASON_STATUS));
    verify(0x00, BYTES("\x80\xAE\x80\x00\x08\x00\x00\x01\x80\x00\x80\x00\x00\x00"));
    session[5] = 5; /* a number that no method has */
    CHECK(count() == EMV_NO_COUNT);
}

/* The limit in force that the record holds, eight bytes, high byte first. */
static uint64_t limit(void)
{
    uint64_t n = 0;
    size_t i;
    for (i = 6; i < 14; i++)
        n = n * 256 + session[i];
    return n;
}

/* A phone that checks its holder itself, and a card: each has its own limit. */
#define PHONE "\x80\x06\x12\x80\x08\x01\x01\x00\x90\x00"
static void phones(void)
{
    uint32_t word;
    terminal[14] = 0x03; /* 312.34, above 200.00 and below 500.00 */
    reopen();
    terminal[TYPE_AT] = 0x22;
    (void)start(terminal, sizeof terminal);
    CHECK(limit() == 0);
    CHECK(commands(answer(BYTES(PHONE)), BYTES("\x00\xB2\x01\x0C\x00")));
    CHECK(limit() == 50000);
    CHECK(commands(answer(BYTES(RECORD_ONLINE)), BYTES("\x80\xAE\x80\x00\x05\x80\x00\x00\x80\x00\x00")));
    CHECK(limit() == 50000 && session[5] == EMV_METHOD_CONFIRMATION_CODE);
    word = answer(BYTES(CRYPTOGRAM("\x80")));
    CHECK(word == OUTCOME_OF(EMV_METHOD_CONFIRMATION_CODE, EMV_ONLINE_REQUEST, EMV_REASON_NONE));
    CHECK(limit() == 0 && session[5] == 0);

    begin(0x22);
    CHECK(limit() == 20000);
    word = answer(BYTES(RECORD_ONLINE));
    CHECK(word == OUTCOME_OF(EMV_METHOD_NOT_APPLICABLE, EMV_SELECT_NEXT, EMV_REASON_ABOVE_LIMIT));
    terminal[14] = 0x00;
}

/* The head of a record of each phase, by its offsets; the method is 0 in all of them. */
static int head(uint8_t phase, uint8_t datum, uint8_t reason, uint8_t n, uint64_t held)
{
    return session[0] == 5 && session[1] == phase && session[2] == datum && session[3] == reason && session[4] == n && session[5] == 0 &&
           limit() == held;
}

/* An old magnetic stripe card. The DF811B and the hundreds of the amount can be set; T is the track, and BITMAPS its
 * 9F65, 9F66 and 9F67. */
#define CONFIGURATION_AT (sizeof terminal - 8)
#define STRIPE "\x80\x06\x00\x00\x08\x01\x01\x00\x90\x00"
#define T "\x54\x13\x12\x34\x56\x78\x48\x00\xD2\x51\x21\x01\x00\x00\x00\x00\x00\x00\x0F"
#define TRACK "\x9F\x6B\x13" T
#define BITMAPS "\x9F\x65\x02\x00\x0E\x9F\x66\x02\x0F\xF0\x9F\x67\x01\x04"
#define UNSOUND "\x9F\x65\x02\x00\x0E\x9F\x66\x02\x2F\xF0\x9F\x67\x01\x05"
#define CHECKSUM "\x80\x2A\x8E\x80\x04\x00\x00\x34\x56\x00"
#define BOTH "\x77\x0A\x9F\x36\x02\x00\x2A\x9F\x61\x02\x1F\x35\x90\x00"
#define COUNTER_ALONE "\x77\x05\x9F\x36\x02\x00\x2A\x90\x00"
#define CODE_ALONE "\x77\x05\x9F\x61\x02\x1F\x35\x90\x00"
#define STRIPED(outcome, reason) OUTCOME_OF(EMV_METHOD_NOT_APPLICABLE, outcome, reason)

/* A start with this DF811B and an amount of so many hundreds; then the answer to processing options. */
static uint32_t stripe_options(uint8_t configuration, uint8_t hundreds, const uint8_t *options, size_t n)
{
    uint32_t word;
    reopen();
    terminal[TYPE_AT] = 0x22;
    terminal[14] = hundreds;
    terminal[CONFIGURATION_AT] = configuration;
    CHECK(commands(start(terminal, sizeof terminal), BYTES("\x80\xA8\x00\x00\x02\x83\x00\x00")));
    word = answer(options, n);
    terminal[14] = 0x00;
    terminal[CONFIGURATION_AT] = 0x20;
    return word;
}

/* With these objects in its record: what is answered to it. */
static uint32_t stripe(const uint8_t *objects, size_t n)
{
    uint8_t record[258];
    CHECK(commands(stripe_options(0x20, 0x00, BYTES(STRIPE)), BYTES("\x00\xB2\x01\x0C\x00")));
    record[0] = 0x70;
    record[1] = 0x81;
    record[2] = (uint8_t)n;
    memcpy(record + 3, objects, n);
    record[n + 3] = 0x90;
    record[n + 4] = 0x00;
    return answer(record, n + 5);
}

static void stripe_lists(void)
{
    CHECK(commands(stripe(BYTES(TRACK BITMAPS "\x9F\x69\x05\x9F\x6A\x02\x95\x05")), BYTES("\x80\x2A\x8E\x80\x07\x34\x56\x00\x00\x00\x00\x00\x00")));
    CHECK(commands(stripe(BYTES(TRACK BITMAPS "\x9F\x69\x06\x9F\x6A\x06\x9F\x02\x02")), BYTES("\x80\x2A\x8E\x80\x08\x00\x00\x00\x00\x34\x56\x12\x34\x00")));
    CHECK(commands(stripe(BYTES(TRACK BITMAPS "\x9F\x69\x00")), BYTES(CHECKSUM)));
    CHECK(stripe(BYTES(TRACK BITMAPS "\x9F\x69\x03\x9F\x6A\x00")) == STRIPED(EMV_ENDED, EMV_REASON_DATA_LIST));
    CHECK(stripe(BYTES(TRACK BITMAPS "\x9F\x69\x02\x9F\x6A")) == STRIPED(EMV_ENDED, EMV_REASON_DATA_LIST));
    CHECK(stripe(BYTES(TRACK BITMAPS "\x9F\x69\x06\x9F\x6A\xFF\x9F\x6A\x01")) == STRIPED(EMV_ENDED, EMV_REASON_DATA_LIST));
    CHECK(stripe(BYTES(TRACK "\x9F\x65\x02\x00\x0E\x9F\x66\x02\x0F\xF0\x9F\x69\x02\x9F\x6A")) == STRIPED(EMV_ENDED, EMV_REASON_MISSING));
    CHECK(stripe(BYTES("\x9F\x6B\x00" BITMAPS)) == STRIPED(EMV_ENDED, EMV_REASON_MISSING));
    CHECK(stripe(BYTES(TRACK BITMAPS "\x9F\x61\x02\x1F\x35")) == STRIPED(EMV_ENDED, EMV_REASON_NOT_ALLOWED));
}

static void layout(void)
{
    size_t i;
    CHECK(emv_session_size() == EMV_SESSION_SIZE);
    reopen();
    CHECK(head(0, 0, 0, 0, 0));
    for (i = 14; i < EMV_SESSION_SIZE; i++)
        CHECK(session[i] == 0);
    terminal[TYPE_AT] = 0x22;
    (void)start(terminal, sizeof terminal);
    CHECK(head(1, 0, 0, 1, 0));
    (void)answer(BYTES(OPTIONS));
    CHECK(head(2, 1, 0, 2, 20000));
    (void)answer(BYTES(RECORD_OFFLINE));
    CHECK(head(3, 0x40, 0, 3, 20000));
    (void)answer(BYTES(CRYPTOGRAM("\xC0")));
    CHECK(head(4, EMV_ENDED, EMV_REASON_CRYPTOGRAM, 3, 0));
}

static void refusals(void)
{
    static uint8_t long_start[EMV_MOST_TERMINAL + 1];
    reopen();
    CHECK(start(BYTES("\xE1\x00")) == REFUSED(EMV_REFUSED_BYTES));
    CHECK(start(long_start, sizeof long_start) == REFUSED(EMV_REFUSED_BYTES));
    CHECK(start(BYTES("\x95\x05\x00\x00\x00\x00\x00")) == REFUSED(EMV_REFUSED_OBJECT));
    CHECK(start(BYTES("")) == REFUSED(EMV_REFUSED_ABSENT));
    CHECK(answer(BYTES("\x90\x00")) == REFUSED(EMV_REFUSED_PHASE));
    CHECK(link_failed() == REFUSED(EMV_REFUSED_PHASE));
    CHECK(stop() == REFUSED(EMV_REFUSED_PHASE));
    CHECK(commands(start(terminal, sizeof terminal), BYTES("\x80\xA8\x00\x00\x02\x83\x00\x00")));
    CHECK(start(terminal, sizeof terminal) == REFUSED(EMV_REFUSED_PHASE));
}

/* Each call with so many bytes of session and buffer gives this refusal, and leaves all bytes. */
static void all_refuse(size_t session_len, size_t command_len, uint32_t word)
{
    remember();
    CHECK(emv_start(session, session_len, terminal, sizeof terminal, command, command_len) == word);
    CHECK(emv_answer(session, session_len, BYTES(OPTIONS), command, command_len) == word);
    CHECK(emv_link_failed(session, session_len, command, command_len) == word);
    CHECK(emv_stop(session, session_len, command, command_len) == word);
    CHECK(all_stays());
}

/* One byte of a fresh record changed: none of the calls takes it. */
static void no_record(size_t at, uint8_t value)
{
    reopen();
    session[at] = value;
    CHECK(count() == EMV_NO_COUNT);
    all_refuse(sizeof session, sizeof command, REFUSED(EMV_REFUSED_RANGES));
    all_refuse(sizeof session, EMV_LEAST_BUFFER - 1, REFUSED(EMV_REFUSED_BUFFER));
}

static void lent_bytes(void)
{
    reopen();
    all_refuse(sizeof session, EMV_LEAST_BUFFER - 1, REFUSED(EMV_REFUSED_BUFFER));
    all_refuse(EMV_SESSION_SIZE - 1, sizeof command, REFUSED(EMV_REFUSED_RANGES));
    all_refuse(EMV_SESSION_SIZE - 1, EMV_LEAST_BUFFER - 1, REFUSED(EMV_REFUSED_BUFFER));
    all_refuse(0, sizeof command, REFUSED(EMV_REFUSED_RANGES));
    CHECK(emv_open(session, EMV_SESSION_SIZE - 1) == REFUSED(EMV_REFUSED_RANGES));
    CHECK(all_stays());
    CHECK(emv_count(session, EMV_SESSION_SIZE - 1) == EMV_NO_COUNT);
    no_record(0, 0); /* no version */
    no_record(0, 4); /* another version */
    no_record(0, 6);
    no_record(1, 6); /* no phase */
    no_record(2, 1); /* a fresh record with a number */
    no_record(3, 1); /* a fresh record with a reason */
    no_record(5, 1); /* a fresh record with a method */
    no_record(6, 1); /* a fresh record with a limit */
    no_record(13, 1);

    reopen(); /* a record that breaks its ranges */
    session[4] = 1;
    CHECK(count() == 1);
    all_refuse(sizeof session, sizeof command, REFUSED(EMV_REFUSED_RANGES));
    reopen();
    session[EMV_SESSION_SIZE - 1] = 1;
    all_refuse(sizeof session, sizeof command, REFUSED(EMV_REFUSED_RANGES));

    begin(0x22); /* another limit than that of its store, while a record and while the cryptogram is awaited */
    session[13] ^= 1;
    CHECK(count() == 2);
    all_refuse(sizeof session, sizeof command, REFUSED(EMV_REFUSED_RANGES));
    session[13] ^= 1;
    CHECK(commands(answer(BYTES(RECORD_ONLINE)), BYTES("\x80\xAE\x80\x00\x05\x80\x00\x00\x00\x00\x00")));
    session[12] = 0xC3; /* the phone's */
    session[13] = 0x50;
    CHECK(count() == 3);
    all_refuse(sizeof session, sizeof command, REFUSED(EMV_REFUSED_RANGES));

    reopen(); /* exactly enough of both */
    CHECK(emv_start(session, EMV_SESSION_SIZE, terminal, sizeof terminal, command, EMV_LEAST_BUFFER) == 8);
}

/* Lends so many bytes for an object's value: the bytes that are no part of the value, and the session, stay. */
#define UNWRITTEN 0xEEu
static uint8_t value[EMV_MOST_VALUE + BEHIND];

static uint32_t object_in(uint32_t tag, size_t lent)
{
    uint32_t word;
    size_t i;
    remember();
    memset(value, UNWRITTEN, sizeof value);
    word = emv_object(session, sizeof session, tag, value, lent);
    CHECK(all_stays());
    for (i = EMV_IS_VALUE(word) ? EMV_LENGTH(word) : 0; i < sizeof value; i++)
        CHECK(value[i] == UNWRITTEN);
    return word;
}

/* The object has exactly these bytes: read whole, refused with a byte less, and told to be needed. */
static int holds(uint32_t tag, const uint8_t *bytes, size_t n)
{
    if (n != 0)
        CHECK(object_in(tag, n - 1) == EMV_NEEDED + n);
    return object_in(tag, n) == n && memcmp(value, bytes, n) == 0 && object_in(tag, sizeof value) == n;
}

static void objects(void)
{
    static const uint32_t sent_online[] = {0x9F26, 0x9F27, 0x9F10, 0x9F36, 0x95, 0x9A, 0x9C, 0x9F02, 0x5F2A, 0x82, 0x9F1A};
    size_t i;
    reopen(); /* a fresh session holds nothing */
    for (i = 0; i < sizeof sent_online / sizeof *sent_online; i++)
        CHECK(object_in(sent_online[i], sizeof value) == EMV_ABSENT && object_in(sent_online[i], 0) == EMV_ABSENT);
    CHECK(EMV_IS_ABSENT(object_in(0x5A, 0)));
    CHECK(object_in(0x9F13, sizeof value) == EMV_UNKNOWN && EMV_IS_UNKNOWN(object_in(0, 0)));
    CHECK(object_in(0x70, sizeof value) == EMV_UNKNOWN && object_in(0x1009F26, sizeof value) == EMV_UNKNOWN);

    begin(0x22);
    CHECK(holds(0x9F02, BYTES("\x00\x00\x00\x00\x12\x34")) && holds(0x9F35, BYTES("\x22")));
    CHECK(holds(0x95, BYTES("\x00\x00\x00\x00\x00")) && holds(0x94, BYTES("\x08\x01\x01\x00")));
    CHECK(object_in(0x9F26, sizeof value) == EMV_ABSENT);
    CHECK(commands(answer(BYTES(RECORD_ONLINE)), BYTES("\x80\xAE\x80\x00\x05\x80\x00\x00\x00\x00\x00")));
    CHECK(holds(0x5A, BYTES("\x47\x61\x73\x90\x01\x01\x00\x10")) && holds(0x95, BYTES("\x80\x00\x00\x00\x00")));
    CHECK(answer(BYTES("\x77\x17\x9F\x27\x01\x80\x9F\x36\x02\x00\x01\x9F\x26\x08\x01\x02\x03\x04\x05\x06\x07\x08\x9F\x10\x00\x90\x00")) ==
          OUTCOME_OF(EMV_METHOD_NO_CVM, EMV_ONLINE_REQUEST, EMV_REASON_NONE));
    CHECK(holds(0x9F26, BYTES("\x01\x02\x03\x04\x05\x06\x07\x08")) && holds(0x9F36, BYTES("\x00\x01")) && holds(0x9F27, BYTES("\x80")));
    CHECK(holds(0x9F10, BYTES(""))); /* there, and empty */

    CHECK(emv_object(session, EMV_SESSION_SIZE - 1, 0x9F26, value, sizeof value) == REFUSED(EMV_REFUSED_RANGES));
    CHECK(emv_object(session, 0, 0x9F13, value, 0) == REFUSED(EMV_REFUSED_RANGES));
    session[4] = 131; /* a count that no session reaches */
    CHECK(object_in(0x9F26, sizeof value) == REFUSED(EMV_REFUSED_RANGES) && object_in(0x9F13, 0) == REFUSED(EMV_REFUSED_RANGES));
    session[4] = 3;
    session[0] = 2; /* another version */
    CHECK(object_in(0x9F26, sizeof value) == REFUSED(EMV_REFUSED_RANGES));
}

/* Waiting on the checksum of a track: with these bitmaps. */
static void on_checksum(const uint8_t *objects, size_t n)
{
    CHECK(commands(stripe(objects, n), BYTES(CHECKSUM)) && count() == 3 && head(5, 0, 0, 3, 20000));
}

/* Nothing of an answer was kept: neither counter nor code, and the track and 95 are as they were. */
static int nothing_kept(void)
{
    return object_in(0x9F36, sizeof value) == EMV_ABSENT && object_in(0x9F61, sizeof value) == EMV_ABSENT && holds(0x9F6B, BYTES(T)) && holds(0x95, BYTES("\x00\x00\x00\x00\x00"));
}

static void stripes(void)
{
    on_checksum(BYTES(TRACK BITMAPS));
    CHECK(emv_explain(session, sizeof session) == EMV_EXPLAIN_NO_CHOICE);
    CHECK(answer(BYTES(BOTH)) == STRIPED(EMV_ONLINE_REQUEST, EMV_REASON_NONE) && count() == 3);
    CHECK(holds(0x9F6B, BYTES("\x54\x13\x12\x34\x56\x78\x48\x00\xD2\x51\x21\x01\x00\x04\x23\x45\x69\x89\x4F")));
    CHECK(holds(0x9F36, BYTES("\x00\x2A")) && holds(0x9F61, BYTES("\x1F\x35")) && holds(0x95, BYTES("\x00\x00\x00\x00\x00")));
    CHECK(object_in(0x9F34, sizeof value) == EMV_ABSENT);
    CHECK(emv_explain(session, sizeof session) == EMV_EXPLAIN_NO_CHOICE);

    on_checksum(BYTES(TRACK BITMAPS));
    CHECK(answer(BYTES(COUNTER_ALONE)) == STRIPED(EMV_DECLINED, EMV_REASON_NONE) && holds(0x9F36, BYTES("\x00\x2A")) && holds(0x9F6B, BYTES(T)));
    on_checksum(BYTES(TRACK BITMAPS));
    CHECK(answer(BYTES(CODE_ALONE)) == STRIPED(EMV_ENDED, EMV_REASON_MISSING) && holds(0x9F61, BYTES("\x1F\x35")) && holds(0x9F6B, BYTES(T)));
    on_checksum(BYTES(TRACK BITMAPS));
    CHECK(answer(BYTES("\x77\x00\x90\x00")) == STRIPED(EMV_ENDED, EMV_REASON_MISSING));
    on_checksum(BYTES(TRACK BITMAPS));
    CHECK(answer(BYTES("\x80\x04\x00\x2A\x1F\x35\x90\x00")) == STRIPED(EMV_ENDED, EMV_REASON_MALFORMED) && nothing_kept());
    on_checksum(BYTES(TRACK BITMAPS));
    CHECK(answer(BYTES("\x77\x0E\x9F\x36\x02\x00\x2A\x9F\x61\x02\x1F\x35\x9F\x27\x01\x80\x90\x00")) == STRIPED(EMV_ENDED, EMV_REASON_NOT_ALLOWED) && nothing_kept());
    on_checksum(BYTES(TRACK BITMAPS));
    CHECK(answer(BYTES("\x69\x85")) == STRIPED(EMV_ENDED, EMV_REASON_STATUS));
    on_checksum(BYTES(TRACK BITMAPS));
    CHECK(link_failed() == STRIPED(EMV_ENDED, EMV_REASON_LINK));
    on_checksum(BYTES(TRACK BITMAPS));
    CHECK(stop() == STRIPED(EMV_ENDED, EMV_REASON_STOPPED) && start(terminal, sizeof terminal) == REFUSED(EMV_REFUSED_PHASE));

    on_checksum(BYTES(TRACK UNSOUND)); /* a track that cannot take the digits */
    CHECK(answer(BYTES(BOTH)) == STRIPED(EMV_ENDED, EMV_REASON_NOT_ALLOWED) && nothing_kept());
    on_checksum(BYTES(TRACK UNSOUND));
    CHECK(answer(BYTES(COUNTER_ALONE)) == STRIPED(EMV_ENDED, EMV_REASON_NOT_ALLOWED) && nothing_kept());
    on_checksum(BYTES(TRACK UNSOUND));
    CHECK(answer(BYTES(CODE_ALONE)) == STRIPED(EMV_ENDED, EMV_REASON_NOT_ALLOWED) && nothing_kept());
    on_checksum(BYTES(TRACK UNSOUND));
    CHECK(answer(BYTES("\x77\x00\x90\x00")) == STRIPED(EMV_ENDED, EMV_REASON_NOT_ALLOWED) && nothing_kept());
    on_checksum(BYTES(TRACK UNSOUND));
    CHECK(answer(BYTES("\x69\x85")) == STRIPED(EMV_ENDED, EMV_REASON_STATUS) && nothing_kept());
    on_checksum(BYTES(TRACK UNSOUND));
    CHECK(answer(BYTES("\x80\x04\x00\x2A\x1F\x35\x90\x00")) == STRIPED(EMV_ENDED, EMV_REASON_MALFORMED) && nothing_kept());
}

static void stripe_modes(void)
{
    CHECK(stripe_options(0x80, 0, BYTES(STRIPE)) == ENDED_EARLY(EMV_REASON_MODE));
    CHECK(stripe_options(0x80, 0, BYTES("\x80\x06\x00\x00\x08\x00\x01\x00\x90\x00")) == ENDED_EARLY(EMV_REASON_MODE)); /* a bad locator */
    CHECK(stripe_options(0x00, 0, BYTES("\x80\x06\x00\x00\x08\x00\x01\x00\x90\x00")) == ENDED_EARLY(EMV_REASON_LOCATOR));
    CHECK(commands(stripe_options(0x7F, 0, BYTES(STRIPE)), BYTES("\x00\xB2\x01\x0C\x00")));
    CHECK(commands(stripe_options(0xC0, 0, BYTES(OPTIONS)), BYTES("\x00\xB2\x01\x0C\x00"))); /* EMV mode, whatever DF811B says */
    CHECK(commands(answer(BYTES(RECORD_ONLINE)), BYTES("\x80\xAE\x80\x00\x05\x80\x00\x00\x00\x00\x00")));
    CHECK(stripe_options(0x20, 0, BYTES("\x77\x0F\x82\x02\x00\x00\x94\x04\x08\x01\x01\x00\x9F\x61\x02\x1F\x35\x90\x00")) == ENDED_EARLY(EMV_REASON_NOT_ALLOWED));
    CHECK(commands(stripe_options(0x20, 2, BYTES(STRIPE)), BYTES("\x00\xB2\x01\x0C\x00"))); /* 212.34, above the limit of 200.00 */
    CHECK(answer(BYTES("\x70\x00\x90\x00")) == STRIPED(EMV_SELECT_NEXT, EMV_REASON_ABOVE_LIMIT));
    CHECK(commands(stripe_options(0x20, 2, BYTES("\x80\x06\x02\x00\x08\x01\x01\x00\x90\x00")), BYTES("\x00\xB2\x01\x0C\x00"))); /* a phone's is 500.00 */
    CHECK(answer(BYTES("\x70\x00\x90\x00")) == STRIPED(EMV_ENDED, EMV_REASON_MISSING));

    on_checksum(BYTES(TRACK BITMAPS)); /* a record that breaks its ranges: another limit, another count, EMV mode */
    session[13] ^= 1;
    all_refuse(sizeof session, sizeof command, REFUSED(EMV_REFUSED_RANGES));
    session[13] ^= 1;
    session[4] = 2;
    all_refuse(sizeof session, sizeof command, REFUSED(EMV_REFUSED_RANGES));
    session[4] = 3;
    session[1] = 3; /* on the cryptogram */
    all_refuse(sizeof session, sizeof command, REFUSED(EMV_REFUSED_RANGES));
}

/* ---- explaining */

#define CHOSE(stage, holder, bit) (EMV_EXPLAIN_CHOICES + (stage) * 4096u + (holder) * 256u + (bit))
#define UNFORCED(stage) CHOSE(stage, EMV_HOLDER_NOBODY, EMV_EXPLAIN_NO_BIT)
#define REASONED(reason) (EMV_EXPLAIN_REASONS + (reason))
#define ZEROS "\x00\x00\x00\x00\x00"

/* Where the length byte of a tag stands whose value has n bytes: the one place of an ended record at which n + 1 makes it there. */
static size_t place_of(uint32_t tag, size_t n)
{
    static uint8_t scratch[EMV_SESSION_SIZE];
    size_t at;
    CHECK(emv_open(scratch, sizeof scratch) == 0);
    scratch[1] = 4;
    scratch[2] = EMV_ENDED;
    scratch[3] = EMV_REASON_LINK;
    for (at = 4; at < sizeof scratch; at++) {
        uint8_t was = scratch[at];
        scratch[at] = (uint8_t)(n + 1);
        if (emv_object(scratch, sizeof scratch, tag, value, sizeof value) == n)
            return at;
        scratch[at] = was;
    }
    CHECK(!"a tag of the dictionary");
    return 0;
}

static void put(uint32_t tag, const uint8_t *bytes, size_t n)
{
    size_t at = place_of(tag, n);
    session[at] = (uint8_t)(n + 1);
    memcpy(session + at + 1, bytes, n);
}

static void take_out(uint32_t tag, size_t n)
{
    session[place_of(tag, n)] = 0;
}

/* The session is only looked at. */
static uint32_t explained(void)
{
    uint32_t word;
    remember();
    word = emv_explain(session, sizeof session);
    CHECK(all_stays());
    return word;
}

/* Waiting on the cryptogram behind two records, with no action code of the card: as the calls leave it, but with this P1, type and 95. */
static void wait_with(uint8_t p1, uint8_t type, const uint8_t *results, size_t n)
{
    reopen();
    terminal[TYPE_AT] = 0x22;
    (void)start(terminal, sizeof terminal);
    (void)answer(BYTES("\x80\x06\x00\x80\x08\x01\x02\x00\x90\x00"));
    (void)answer(BYTES("\x70\x00\x90\x00"));
    CHECK(commands(answer(BYTES(RECORD_ONLINE)), BYTES("\x80\xAE\x80\x00\x05\x80\x00\x00\x00\x00\x00")) && count() == 4);
    session[2] = p1;
    put(0x9F35, &type, 1);
    put(0x95, results, n);
}

static void explain_waiting(void)
{
    wait_with(0x80, 0x22, BYTES("\x80\x00\x00\x00\x00"));
    CHECK(explained() == CHOSE(EMV_STAGE_ONLINE, EMV_HOLDER_CARD, 0u) && explained() == 0x00063100u);
    session[2] = 0x40; /* the other choice than the one that an absent code, all ones, gives */
    CHECK(explained() == REFUSED(EMV_REFUSED_RANGES));
    put(0x9F0F, BYTES(ZEROS));
    CHECK(explained() == UNFORCED(EMV_STAGE_ONLINE));
    wait_with(0x80, 0x22, BYTES("\x80\x40\x00\x00\x00"));
    put(0x9F0F, BYTES(ZEROS));
    put(0xDF8122, BYTES("\x00\x40\x00\x00\x00"));
    CHECK(explained() == CHOSE(EMV_STAGE_ONLINE, EMV_HOLDER_TERMINAL, 9u));
    wait_with(0x00, 0x22, BYTES("\x80\x40\x00\x80\x00"));
    put(0x9F0E, BYTES("\x00\x00\x00\x80\x00"));
    put(0xDF8121, BYTES("\x00\x40\x00\x80\x00"));
    CHECK(explained() == CHOSE(EMV_STAGE_DENIAL, EMV_HOLDER_TERMINAL, 9u));
    put(0x95, BYTES("\x80\x00\x00\x80\x00"));
    CHECK(explained() == CHOSE(EMV_STAGE_DENIAL, EMV_HOLDER_BOTH, 24u));
    put(0x9F35, BYTES("\x21")); /* denial comes before the type */
    CHECK(explained() == CHOSE(EMV_STAGE_DENIAL, EMV_HOLDER_BOTH, 24u));
    wait_with(0x80, 0x21, BYTES("\x80\x00\x00\x00\x00"));
    CHECK(explained() == UNFORCED(EMV_STAGE_ONLINE_ONLY) && explained() == 0x000610FFu);
    wait_with(0x00, 0x23, BYTES("\x80\x00\x00\x00\x00"));
    CHECK(explained() == CHOSE(EMV_STAGE_DEFAULT, EMV_HOLDER_CARD, 0u));
    wait_with(0x00, 0x26, BYTES("\x80\x00\x00\x00\x01"));
    put(0x9F0D, BYTES("\x00\x00\x00\x00\x01"));
    put(0xDF8120, BYTES("\x00\x00\x00\x00\x01"));
    CHECK(explained() == CHOSE(EMV_STAGE_DEFAULT, EMV_HOLDER_BOTH, 39u));
    wait_with(0x40, 0x36, BYTES("\x80\x00\x00\x00\x00"));
    put(0x9F0D, BYTES("\x7F\xFF\xFF\xFF\xFF"));
    CHECK(explained() == UNFORCED(EMV_STAGE_DEFAULT));
}

/* The same record, ended with an outcome and reason 0, with counter, cryptogram and this 9F27. */
static void end_with(uint8_t outcome, uint8_t information)
{
    wait_with(0x80, 0x22, BYTES("\x80\x00\x00\x00\x00"));
    session[1] = 4;
    session[2] = outcome;
    memset(session + 6, 0, 8); /* no limit is held */
    put(0x9F36, BYTES("\x00\x01"));
    put(0x9F26, BYTES("\x01\x02\x03\x04\x05\x06\x07\x08"));
    put(0x9F27, &information, 1);
}

static void explain_ended(void)
{
    end_with(EMV_ONLINE_REQUEST, 0x80);
    CHECK(explained() == CHOSE(EMV_STAGE_ONLINE, EMV_HOLDER_CARD, 0u));
    put(0x9F0F, BYTES(ZEROS));
    CHECK(explained() == EMV_EXPLAIN_LOWER_CRYPTOGRAM);
    end_with(EMV_DECLINED, 0x00);
    CHECK(explained() == EMV_EXPLAIN_LOWER_CRYPTOGRAM);
    end_with(EMV_APPROVED, 0x40);
    CHECK(explained() == REFUSED(EMV_REFUSED_RANGES));
    put(0x9F0F, BYTES(ZEROS));
    CHECK(explained() == UNFORCED(EMV_STAGE_ONLINE));
    end_with(EMV_DECLINED, 0x80);
    CHECK(explained() == REFUSED(EMV_REFUSED_RANGES));
    end_with(EMV_ONLINE_REQUEST, 0x80);
    take_out(0x9F27, 1);
    CHECK(explained() == REFUSED(EMV_REFUSED_RANGES));
    end_with(EMV_ONLINE_REQUEST, 0x80);
    take_out(0xDF8122, 5);
    CHECK(explained() == REFUSED(EMV_REFUSED_RANGES));
    end_with(EMV_ONLINE_REQUEST, 0x80);
    take_out(0x95, 5);
    CHECK(explained() == REFUSED(EMV_REFUSED_RANGES));
    end_with(EMV_ONLINE_REQUEST, 0x80); /* what no stage consulted needs may be absent */
    take_out(0xDF8120, 5);
    CHECK(explained() == CHOSE(EMV_STAGE_ONLINE, EMV_HOLDER_CARD, 0u));
}

/* As calls leave them, and bytes that hold no record. */
static void explain_others(void)
{
    size_t n;
    reopen();
    CHECK(explained() == EMV_EXPLAIN_NO_CHOICE);
    begin(0x22);
    CHECK(explained() == EMV_EXPLAIN_NO_CHOICE);
    CHECK(link_failed() == ENDED_EARLY(EMV_REASON_LINK) && explained() == REASONED(EMV_REASON_LINK));
    CHECK(EMV_EXPLAIN_IS_REASON(explained()) && EMV_EXPLAIN_REASON(explained()) == EMV_REASON_LINK);
    session[3] = EMV_REASON_ABOVE_LIMIT; /* which goes with select next alone */
    CHECK(explained() == REFUSED(EMV_REFUSED_RANGES));
    session[2] = EMV_SELECT_NEXT;
    CHECK(explained() == REASONED(EMV_REASON_ABOVE_LIMIT));
    begin(0x22);
    (void)answer(BYTES(RECORD_ONLINE));
    CHECK(EMV_EXPLAIN_IS_CHOICE(explained()) && EMV_EXPLAIN_STAGE(explained()) == EMV_STAGE_ONLINE);
    CHECK(EMV_EXPLAIN_HOLDER(explained()) == EMV_HOLDER_CARD && EMV_EXPLAIN_BIT(explained()) == 0u);
    (void)answer(BYTES(CRYPTOGRAM("\x40")));
    CHECK(explained() == REASONED(EMV_REASON_CRYPTOGRAM));

    begin(0x22); /* the last answer brings a denial code that was absent, so the final store does not give the outcome */
    (void)answer(BYTES(RECORD_OFFLINE));
    CHECK(answer(BYTES("\x77\x1E\x9F\x27\x01\x40\x9F\x36\x02\x00\x01\x9F\x26\x08\x01\x02\x03\x04\x05\x06\x07\x08\x70\x08\x9F\x0E\x05"
                       "\x80\x00\x00\x00\x00\x90\x00")) == OUTCOME_OF(EMV_METHOD_NO_CVM, EMV_APPROVED, EMV_REASON_NONE));
    CHECK(explained() == REFUSED(EMV_REFUSED_RANGES));

    for (n = 0; n < EMV_SESSION_SIZE; n++)
        CHECK(emv_explain(session, n) == REFUSED(EMV_REFUSED_RANGES));
    session[0] = 0; /* no version */
    CHECK(explained() == REFUSED(EMV_REFUSED_RANGES));
}

static void wiping(void)
{
    size_t i, n;
    begin(0x22);
    remember();
    for (n = 0; n <= sizeof session; n += sizeof session / 4) {
        CHECK(emv_wipe(session, n) == 0);
        for (i = 0; i < sizeof session; i++)
            CHECK(session[i] == (i < n ? 0 : session_before[i]));
        CHECK(count() == (n == 0 ? 2 : EMV_NO_COUNT));
    }
    CHECK(object_in(0x9F02, sizeof value) == REFUSED(EMV_REFUSED_RANGES));
    all_refuse(sizeof session, sizeof command, REFUSED(EMV_REFUSED_RANGES));
}

/* The value of the first object of a tag starts at this place and has this length. */
static int finds(const uint8_t *bytes, size_t n, uint32_t tag, size_t place, size_t length)
{
    uint64_t found = emv_find(bytes, n, tag);
    return EMV_IS_FOUND(found) && EMV_FOUND_PLACE(found) == place && EMV_FOUND_LENGTH(found) == length;
}

static void finding(void)
{
    static uint8_t many[65536];
    CHECK(finds(BYTES("\x6F\x0B\x84\x02\x41\x42\xA5\x05\x50\x00\x50\x01\x43"), 0x50, 10, 0)); /* the first of two */
    CHECK(finds(BYTES("\x6F\x0B\x84\x02\x41\x42\xA5\x05\x50\x00\x50\x01\x43"), 0xA5, 8, 5));
    CHECK(emv_find(BYTES("\x6F\x02\x84\x00"), 0x9F38) == EMV_FIND_NONE && emv_find(BYTES(""), 0x9F38) == EMV_FIND_NONE);
    CHECK(emv_find(BYTES("\x6F\x02\x84\x00\x50"), 0x84) == EMV_FIND_MALFORMED); /* behind the object */
    CHECK(finds(BYTES("\xE1\x06\xE1\x04\xE1\x02\xE1\x00"), 0xE1, 2, 6));
    CHECK(emv_find(BYTES("\xE1\x08\xE1\x06\xE1\x04\xE1\x02\xE1\x00"), 0xE1) == EMV_FIND_MALFORMED);
    CHECK(finds(BYTES("\x00\x6F\x07\x00\x84\x01\x41\x00\x50\x00\x00"), 0x84, 6, 1)); /* padding counts in a place */
    many[0] = 0x50;
    many[1] = 0x82;
    many[2] = 0xFF;
    many[3] = 0xFB;
    CHECK(finds(many, 65535, 0x50, 4, 65531));
    CHECK(emv_find(many, 65536, 0x50) == EMV_FIND_MALFORMED);
}

static void versions(void)
{
    uint32_t word = emv_version();
    CHECK(word == EMV_VERSION);
    CHECK(EMV_VERSION_MAJOR(word) == 0 && EMV_VERSION_MINOR(word) == 1 && EMV_VERSION_PATCH(word) == 0);
    reopen();
    CHECK(EMV_VERSION_LAYOUT(word) == session[0]);
}

int main(void)
{
    versions();
    layout();
    purchases();
    reasons();
    methods();
    phones();
    stripe_lists();
    stripes();
    stripe_modes();
    refusals();
    lent_bytes();
    objects();
    explain_waiting();
    explain_ended();
    explain_others();
    wiping();
    finding();
    printf("ok\n");
    return 0;
}
