/* A whole reader in one page, from SELECT to what is sent online; docs/HOST.md says which part is the host's. The card is a table of commands
 * and answers here: a reader has its radio in place of `exchange`. Prints the bytes on both ways; 0 where the purchase goes online. */
#include <stdio.h>
#include <string.h>

#include "../../include/tripodmoon.h"

#define BYTES(text) (const uint8_t *)(text), sizeof(text) - 1
#define MOST_NAME 16u /* bytes of an application's name */

static void show(const char *what, const uint8_t *bytes, size_t n)
{
    size_t i;
    printf("%-8s", what);
    for (i = 0; i < n; i++)
        printf(" %02X", (unsigned)bytes[i]);
    printf("\n");
}

/* ---- the card */
static const struct {
    const uint8_t *command;
    size_t command_len;
    const uint8_t *answer;
    size_t answer_len;
} played[] = {
    {BYTES("\x00\xA4\x04\x00\x0E" "2PAY.SYS.DDF01" "\x00"), /* the directory: one application, F0 01 02 03 04 05 */
     BYTES("\x6F\x22\x84\x0E" "2PAY.SYS.DDF01" "\xA5\x10\xBF\x0C\x0D\x61\x0B\x4F\x06\xF0\x01\x02\x03\x04\x05\x87\x01\x01\x90\x00")},
    {BYTES("\x00\xA4\x04\x00\x06\xF0\x01\x02\x03\x04\x05\x00"), /* the application: 9F38 asks for amount and country */
     BYTES("\x6F\x16\x84\x06\xF0\x01\x02\x03\x04\x05\xA5\x0C\x50\x01\x41\x9F\x38\x06\x9F\x02\x06\x9F\x1A\x02\x90\x00")},
    {BYTES("\x80\xA8\x00\x00\x0A\x83\x08\x00\x00\x00\x00\x12\x34\x00\x56\x00"), BYTES("\x77\x0A\x82\x02\x19\x80\x94\x04\x08\x01\x01\x00\x90\x00")},
    {BYTES("\x00\xB2\x01\x0C\x00"), /* the record: a PIN over 10.00 in the card's currency, else no method */
     BYTES("\x70\x2A\x5F\x24\x03\x30\x12\x31\x5A\x08\x47\x61\x73\x90\x01\x01\x00\x10\x8C\x05\x95\x05\x9F\x34\x03"
           "\x8E\x0C\x00\x00\x03\xE8\x00\x00\x00\x00\x42\x07\x1F\x00\x9F\x42\x02\x09\x78\x90\x00")},
    {BYTES("\x80\xAE\x80\x00\x08\x80\x00\x04\x00\x00\x42\x07\x00\x00"),
     BYTES("\x77\x1E\x9F\x27\x01\x80\x9F\x36\x02\x00\x01\x9F\x26\x08\x01\x02\x03\x04\x05\x06\x07\x08\x9F\x10\x07\x06\x01\x0A\x03\xA0\xA0\x00\x90\x00")},
};

/* Sends a command, and gives the length of what came back; 0 where the link failed. */
static size_t exchange(const uint8_t *command, size_t n, uint8_t *card, size_t card_size)
{
    size_t i;
    show("command", command, n);
    for (i = 0; i < sizeof played / sizeof *played; i++) {
        if (played[i].command_len == n && memcmp(played[i].command, command, n) == 0 && played[i].answer_len <= card_size) {
            memcpy(card, played[i].answer, played[i].answer_len);
            show("answer", card, played[i].answer_len);
            return played[i].answer_len;
        }
    }
    return 0;
}

/* ---- the host */

/* Puts an object of at most 254 bytes behind the n bytes of a message, and gives the new length. */
static size_t put(uint8_t *message, size_t n, uint32_t tag, const uint8_t *value, size_t len)
{
    if (tag > 0xFFFF)
        message[n++] = (uint8_t)(tag >> 16);
    if (tag > 0xFF)
        message[n++] = (uint8_t)(tag >> 8);
    message[n++] = (uint8_t)tag;
    if (len > 0x7F)
        message[n++] = 0x81;
    message[n++] = (uint8_t)len;
    memcpy(message + n, value, len);
    return n + len;
}

/* Selects by name, and finds the first object of a tag in the answer; bytes that are no answer count as malformed. */
static uint64_t select_and_find(const uint8_t *name, size_t name_len, uint32_t tag, uint8_t *card, size_t card_size)
{
    uint8_t command[5 + MOST_NAME + 1] = {0x00, 0xA4, 0x04, 0x00};
    size_t n;
    command[4] = (uint8_t)name_len;
    memcpy(command + 5, name, name_len);
    n = exchange(command, 5 + name_len + 1, card, card_size);
    if (n < 2 || card[n - 2] != 0x90 || card[n - 1] != 0x00)
        return EMV_FIND_MALFORMED;
    return emv_find(card, n - 2, tag);
}

/* What this purchase and the reader's set-up bring: all that a start must, the currency and the capabilities. */
#define TERMINAL \
    "\x9A\x03\x25\x11\x15\x9C\x01\x00\x9F\x02\x06\x00\x00\x00\x00\x12\x34\x5F\x2A\x02\x09\x78\x9F\x09\x02\x00\x02\x9F\x1A\x02\x00\x56" \
    "\x9F\x33\x03\xE0\x68\xC8\x9F\x35\x01\x22\x9F\x37\x04\x01\x02\x03\x04\xDF\x81\x20\x05\x00\x00\x00\x00\x00\xDF\x81\x21\x05\x00\x00" \
    "\x00\x00\x00\xDF\x81\x22\x05\x00\x00\x00\x00\x00\xDF\x81\x23\x06\x00\x00\x00\x01\x00\x00\xDF\x81\x24\x06\x00\x00\x00\x02\x00\x00" \
    "\xDF\x81\x25\x06\x00\x00\x00\x05\x00\x00\xDF\x81\x26\x06\x00\x00\x00\x00\x10\x00\xDF\x81\x1B\x01\x20" \
    "\x9F\x6A\x04\x00\x00\x34\x56"

/* What goes online: the session's objects that an acquirer asks for, those that are there. */
static size_t online(const uint8_t *session, size_t session_len, uint8_t *message)
{
    static const uint32_t asked[] = {0x5A, 0x5F24, 0x5F34, 0x57, 0x82, 0x95, 0x9A, 0x9C, 0x5F2A, 0x9F02, 0x9F03, 0x9F10,
                                     0x9F1A, 0x9F26, 0x9F27, 0x9F33, 0x9F34, 0x9F35, 0x9F36, 0x9F37};
    uint8_t value[EMV_MOST_VALUE];
    size_t i, n = 0;
    for (i = 0; i < sizeof asked / sizeof *asked; i++) {
        uint32_t word = emv_object(session, session_len, asked[i], value, sizeof value);
        if (EMV_IS_VALUE(word))
            n = put(message, n, asked[i], value, EMV_LENGTH(word));
    }
    emv_wipe(value, sizeof value);
    return n;
}

int main(void)
{
    static uint8_t session[EMV_SESSION_SIZE], command[EMV_LEAST_BUFFER], card[258], terminal[EMV_MOST_TERMINAL], message[512];
    uint8_t name[MOST_NAME];
    size_t name_len, n = sizeof(TERMINAL) - 1;
    uint32_t word;
    uint64_t found = select_and_find(BYTES("2PAY.SYS.DDF01"), 0x4F, card, sizeof card); /* a reader takes the best of all that it supports */
    if (!EMV_IS_FOUND(found) || EMV_FOUND_LENGTH(found) > sizeof name)
        return 1;
    name_len = EMV_FOUND_LENGTH(found);
    memcpy(name, card + EMV_FOUND_PLACE(found), name_len);
    found = select_and_find(name, name_len, 0x9F38, card, sizeof card);
    memcpy(terminal, TERMINAL, n);
    if (found == EMV_FIND_MALFORMED || (EMV_IS_FOUND(found) && EMV_FOUND_LENGTH(found) > 240))
        return 1;
    if (EMV_IS_FOUND(found))
        n = put(terminal, n, 0x9F38, card + EMV_FOUND_PLACE(found), EMV_FOUND_LENGTH(found));

    emv_open(session, sizeof session);
    word = emv_start(session, sizeof session, terminal, n, command, sizeof command);
    while (EMV_IS_COMMAND(word)) {
        n = exchange(command, word, card, sizeof card);
        word = n ? emv_answer(session, sizeof session, card, n, command, sizeof command)
                 : emv_link_failed(session, sizeof session, command, sizeof command);
    }
    if (EMV_IS_REFUSAL(word)) /* a start that is wrong: this program's fault, and not the card's */
        printf("refused  %u\n", (unsigned)EMV_REFUSAL(word));
    else
        printf("outcome  %u, reason %u, method %u\n", (unsigned)EMV_OUTCOME(word), (unsigned)EMV_REASON(word), (unsigned)EMV_METHOD(word));
    if (EMV_IS_OUTCOME(word) && EMV_OUTCOME(word) == EMV_ONLINE_REQUEST && EMV_METHOD(word) == EMV_METHOD_ONLINE_PIN)
        printf("PIN      asked for, and sent along\n"); /* a reader has its PIN pad here */
    if (EMV_IS_OUTCOME(word) && EMV_OUTCOME(word) == EMV_ONLINE_REQUEST)
        show("online", message, online(session, sizeof session, message));
    emv_wipe(session, sizeof session);
    emv_wipe(card, sizeof card);
    emv_wipe(message, sizeof message);
    return EMV_IS_OUTCOME(word) && EMV_OUTCOME(word) == EMV_ONLINE_REQUEST ? 0 : 1;
}
