/* The session in EMV mode and in the track 2 part of mag-stripe mode, for a host in C: target/staticlib/libhost.a, built by `bin/archive host`.
 * docs/HOST.md has the record's layout, the words and how to embed it.
 *
 * The session lies in bytes that the host lends to every call. No call keeps anything between calls,
 * allocates, or does input or output. Lent slices must not overlap. A pointer with length 0 is not read or
 * written, and must not be null. */
#ifndef TRIPODMOON_H
#define TRIPODMOON_H

#include <stddef.h>
#include <stdint.h>

/* The library takes lengths of 64 bits: a host with a shorter size_t stops here, not at a call. */
#if defined(SIZE_MAX) && SIZE_MAX < 0xFFFFFFFFFFFFFFFF
#error "tripodmoon needs a size_t of 64 bits: the library is built for x86-64"
#endif
typedef char emv_size_t_has_64_bits[sizeof(size_t) == 8 ? 1 : -1];

#ifdef __cplusplus
extern "C" {
#endif

/* Sizes in bytes. EMV_SESSION_SIZE is what emv_session_size gives for version 5 of the layout. */
#define EMV_SESSION_SIZE 6022u
#define EMV_LEAST_BUFFER 261u
#define EMV_MOST_TERMINAL 1024u

/* A word: a command's length, an outcome with its reason and the method of cardholder verification, or a refusal.
 * Bits 16 to 23 tell which; bits 24 to 31 are an outcome's method, and 0 in every other word. */
#define EMV_OUTCOMES 0x00010000u
#define EMV_REFUSALS 0x00020000u
#define EMV_IS_COMMAND(word) ((((word) >> 16) & 0xFFu) == 0u)
#define EMV_IS_OUTCOME(word) ((((word) >> 16) & 0xFFu) == 1u)
#define EMV_IS_REFUSAL(word) ((((word) >> 16) & 0xFFu) == 2u)
#define EMV_OUTCOME(word) (((word) >> 8) & 0xFFu)
#define EMV_REASON(word) ((word) & 0xFFu)
#define EMV_METHOD(word) (((word) >> 24) & 0xFFu)
#define EMV_REFUSAL(word) ((word) & 0xFFu)

/* The words of emv_object beside a length and a refusal, told by the same bits. */
#define EMV_ABSENT 0x00030000u
#define EMV_UNKNOWN 0x00040000u
#define EMV_NEEDED 0x00050000u
#define EMV_IS_VALUE(word) ((((word) >> 16) & 0xFFu) == 0u)
#define EMV_IS_ABSENT(word) ((((word) >> 16) & 0xFFu) == 3u)
#define EMV_IS_UNKNOWN(word) ((((word) >> 16) & 0xFFu) == 4u)
#define EMV_IS_NEEDED(word) ((((word) >> 16) & 0xFFu) == 5u)
#define EMV_LENGTH(word) ((word) & 0xFFFFu)

/* The words of emv_explain beside a refusal, told by the same bits: a reason other than 0, no choice, a cryptogram lower than
 * the one asked for, and a choice with its stage, its holder and its bit, EMV_EXPLAIN_NO_BIT where none forced it. */
#define EMV_EXPLAIN_REASONS 0x00030000u
#define EMV_EXPLAIN_NO_CHOICE 0x00040000u
#define EMV_EXPLAIN_LOWER_CRYPTOGRAM 0x00050000u
#define EMV_EXPLAIN_CHOICES 0x00060000u
#define EMV_EXPLAIN_IS_REASON(word) ((((word) >> 16) & 0xFFu) == 3u)
#define EMV_EXPLAIN_IS_CHOICE(word) ((((word) >> 16) & 0xFFu) == 6u)
#define EMV_EXPLAIN_REASON(word) ((word) & 0xFFu)
#define EMV_EXPLAIN_STAGE(word) (((word) >> 12) & 0xFu)
#define EMV_EXPLAIN_HOLDER(word) (((word) >> 8) & 0xFu)
#define EMV_EXPLAIN_BIT(word) ((word) & 0xFFu)
#define EMV_EXPLAIN_NO_BIT 255u

/* The stages of a choice, and whose code holds a bit. */
#define EMV_STAGE_DENIAL 0u
#define EMV_STAGE_ONLINE_ONLY 1u /* the terminal's type, which has no codes */
#define EMV_STAGE_DEFAULT 2u
#define EMV_STAGE_ONLINE 3u
#define EMV_HOLDER_NOBODY 0u
#define EMV_HOLDER_CARD 1u
#define EMV_HOLDER_TERMINAL 2u
#define EMV_HOLDER_BOTH 3u

/* The most bytes that a value has. */
#define EMV_MOST_VALUE 254u

/* What emv_find gives where no object has the tag, where the bytes are malformed, and where one was found. */
#define EMV_FIND_NONE UINT64_MAX
#define EMV_FIND_MALFORMED (UINT64_MAX - 1u)
#define EMV_IS_FOUND(found) ((found) < EMV_FIND_MALFORMED)
#define EMV_FOUND_PLACE(found) ((size_t)((found) >> 32))
#define EMV_FOUND_LENGTH(found) ((size_t)((found) & 0xFFFFFFFFu))

/* A version word taken apart: the library's version in three parts, and the record layout's. */
#define EMV_VERSION_MAJOR(word) (((word) >> 24) & 0xFFu)
#define EMV_VERSION_MINOR(word) (((word) >> 16) & 0xFFu)
#define EMV_VERSION_PATCH(word) (((word) >> 8) & 0xFFu)
#define EMV_VERSION_LAYOUT(word) ((word) & 0xFFu)

/* The version that this header is of, as emv_version gives it. */
#define EMV_VERSION 0x00010005u

/* Outcomes. */
#define EMV_APPROVED 0u
#define EMV_ONLINE_REQUEST 1u
#define EMV_DECLINED 2u
#define EMV_ENDED 3u
#define EMV_SELECT_NEXT 4u

/* Methods of cardholder verification. A decision in EMV mode always has one of the first five; an end before the choice of the
 * method and every end in mag-stripe mode have none. A confirmation code was verified by the cardholder's phone. Nobody has verified an offline PIN: its result is
 * unknown. */
#define EMV_METHOD_NO_CVM 0u
#define EMV_METHOD_SIGNATURE 1u
#define EMV_METHOD_ONLINE_PIN 2u
#define EMV_METHOD_CONFIRMATION_CODE 3u
#define EMV_METHOD_OFFLINE_PIN 4u
#define EMV_METHOD_NOT_APPLICABLE 15u

/* Reasons: 0 where a decision was reached, 6 where another application is to be selected, else why the session ended. */
#define EMV_REASON_NONE 0u
#define EMV_REASON_STATUS 1u
#define EMV_REASON_MALFORMED 2u
#define EMV_REASON_NOT_ALLOWED 3u
#define EMV_REASON_MISSING 4u
#define EMV_REASON_LOCATOR 5u
#define EMV_REASON_ABOVE_LIMIT 6u
#define EMV_REASON_DATA_LIST 7u
#define EMV_REASON_CRYPTOGRAM 8u
#define EMV_REASON_LINK 9u
#define EMV_REASON_STOPPED 10u
#define EMV_REASON_MODE 11u

/* Refusals: the call was not taken, and all lent bytes are as they were. */
#define EMV_REFUSED_BYTES 20u  /* more than 1,024 start bytes, or other than whole primitive objects */
#define EMV_REFUSED_PHASE 21u  /* a start once the session has begun, or another call before it has or after its end */
#define EMV_REFUSED_BUFFER 22u /* the command buffer has no room for the longest command */
#define EMV_REFUSED_OBJECT 23u /* a start object of the dictionary that is not a start's, does not fit or comes again; or a terminal type outside the list */
#define EMV_REFUSED_ABSENT 24u /* a mandatory start object is missing */
#define EMV_REFUSED_RANGES 25u /* the session's bytes are too few, or hold no record within its ranges */

/* What emv_count gives where the bytes hold no record. */
#define EMV_NO_COUNT 0xFFFFFFFFu

/* How many bytes to lend for a session. */
size_t emv_session_size(void);

/* Writes a fresh session into the front of the bytes, whatever they held: 0.
 * Refusal: 25, too few bytes. */
uint32_t emv_open(uint8_t *session, size_t session_len);

/* Starts a fresh session with the terminal's objects, a run of tag, length and value.
 * Gives a command or an outcome. Refusals in order: 22, 25, 21, 20, 23, 24. */
uint32_t emv_start(uint8_t *session, size_t session_len, const uint8_t *terminal, size_t terminal_len,
                   uint8_t *command, size_t command_len);

/* Takes the card's answer to the command that was handed out last, with its two status bytes.
 * Gives the next command or an outcome. Refusals in order: 22, 25, 21. */
uint32_t emv_answer(uint8_t *session, size_t session_len, const uint8_t *card, size_t card_len,
                    uint8_t *command, size_t command_len);

/* The link to the card failed: a running session ends with reason 9.
 * The buffer's length is checked and its bytes stay. Refusals in order: 22, 25, 21. */
uint32_t emv_link_failed(uint8_t *session, size_t session_len, uint8_t *command, size_t command_len);

/* The terminal stops the session: a running one ends with reason 10.
 * The buffer's length is checked and its bytes stay. Refusals in order: 22, 25, 21. */
uint32_t emv_stop(uint8_t *session, size_t session_len, uint8_t *command, size_t command_len);

/* How many commands the session has handed out, 0 to 255; EMV_NO_COUNT where the bytes hold no record.
 * The record's ranges are not tested: a count of a record in its ranges is at most 130. */
uint32_t emv_count(const uint8_t *session, size_t session_len);

/* Why the session is where it is. Ended with a reason other than 0: EMV_EXPLAIN_REASONS + the reason. Before the cryptogram is asked
 * for, and in mag-stripe mode, ended with reason 0 too: EMV_EXPLAIN_NO_CHOICE. A cryptogram of lower rank (AAC, ARQC, TC) than asked for: EMV_EXPLAIN_LOWER_CRYPTOGRAM. Else the
 * choice, EMV_EXPLAIN_CHOICES + stage * 4096 + holder * 256 + bit: the stage that decided, the lowest bit of 95 that forced it, 0
 * (byte 1 b8) to 39 (byte 5 b1), and whose code holds that bit. Refusal: 25, bytes that hold no record within its ranges, and one
 * that lacks what the answer needs, or whose choice or outcome the rest of it does not give. */
uint32_t emv_explain(const uint8_t *session, size_t session_len);

/* Reads an object of the session back by its tag, as 0x9F26: the length of its value, 0 to 254, with the value in
 * front of the lent bytes and the rest as it was. Otherwise all lent bytes stay, and the word is the first of
 * refusal 25; EMV_UNKNOWN, a tag that the dictionary does not have; EMV_ABSENT; EMV_NEEDED + the length, where
 * fewer bytes are lent. */
uint32_t emv_object(const uint8_t *session, size_t session_len, uint32_t tag, uint8_t *value, size_t value_len);

/* Writes 0 over all lent bytes, of any number and whatever they held: 0. They hold no record then. */
uint32_t emv_wipe(uint8_t *session, size_t session_len);

/* The first object of a tag in a card's bytes, as in the answer to SELECT without its status bytes: the place where
 * its value starts, counted from 0, in bits 32 to 63, and the value's length in bits 0 to 31. Templates are objects
 * too, and come before what they hold; they nest four levels. Bytes of 00 between objects are passed over; places
 * count them. EMV_FIND_NONE where no object has the tag; EMV_FIND_MALFORMED where the bytes are malformed anywhere,
 * or over 65,535. */
uint64_t emv_find(const uint8_t *bytes, size_t len, uint32_t tag);

/* The library's version in bits 24 to 31, 16 to 23 and 8 to 15, and the record layout's in bits 0 to 7. */
uint32_t emv_version(void);

#ifdef __cplusplus
}
#endif

#endif
