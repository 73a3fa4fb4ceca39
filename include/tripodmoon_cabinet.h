/* The vending cabinet, for a host in C: target/staticlib/libcabinet.a, built by `bin/archive cabinet`: one session at a time, and a
 * cap on what is approved offline since opening. The archive stands beside the kernel's and needs nothing of it; of the kernel's
 * header come the words, the outcomes, the reasons and the refusals. docs/HOST.md has the rules and an example.
 *
 * The state lies in bytes that the host lends to every call: the kernel's record, which every call of the kernel that only reads
 * takes as it is, then what is left of the cap and what is set aside for the running session, 8 bytes each, high byte first. No
 * call keeps anything between calls, allocates, or does input or output. Lent slices must not overlap. A pointer with length 0 is
 * not read or written, and must not be null. */
#ifndef TRIPODMOON_CABINET_H
#define TRIPODMOON_CABINET_H

#include <stddef.h>
#include <stdint.h>

#include "tripodmoon.h"

#ifdef __cplusplus
extern "C" {
#endif

/* Sizes in bytes: of the two amounts, and of the state, as cabinet_size gives it for this header's version of the record. */
#define CABINET_AMOUNTS_SIZE 16u
#define CABINET_STATE_SIZE (EMV_SESSION_SIZE + CABINET_AMOUNTS_SIZE)

/* The greatest cap: twelve digits. */
#define CABINET_MOST_CAP UINT64_C(999999999999)

/* Refusals beside the kernel's 20 to 25: the call was not taken, and all lent bytes are as they were. */
#define CABINET_REFUSED_LEFT 30u /* less is left than the amount of the start */
#define CABINET_REFUSED_CAP 31u  /* a cap over 999,999,999,999 */

/* What cabinet_left gives where the bytes hold no state. */
#define CABINET_NO_LEFT UINT64_MAX

/* What cabinet_find gives for too many bytes; every other word is taken apart by the macros below. */
#define CABINET_FIND_TOO_MANY UINT64_MAX

/* Which list has the tag: bits 16 and 17. */
#define CABINET_SOURCE_NOWHERE 0u  /* neither list */
#define CABINET_SOURCE_SITE 1u     /* the site's list */
#define CABINET_SOURCE_DEFAULTS 2u /* the defaults, and not the site's list */
#define CABINET_FOUND_SOURCE(found) ((unsigned)((found) >> 16 & 3u))

/* Where the value starts, counted over the site's bytes and then the defaults': bits 32 to 63; and its length, at most 65,535: bits 0
 * to 15. */
#define CABINET_FOUND_START(found) ((size_t)((found) >> 32))
#define CABINET_FOUND_LENGTH(found) ((size_t)((found) & 0xFFFFu))

/* Where the value stands, as a pointer into the list that has the tag; nowhere, to the front of the defaults. */
#define CABINET_FOUND_VALUE(found, site, site_len, defaults)                                  \
    (CABINET_FOUND_SOURCE(found) == CABINET_SOURCE_SITE ? (site) + CABINET_FOUND_START(found) \
                                                        : (defaults) + (CABINET_FOUND_START(found) - (site_len)))

/* How many bytes to lend for a state. */
size_t cabinet_size(void);

/* Opens the cabinet with a cap, whatever the bytes held, a running session too: a fresh session, all of the cap left, nothing set
 * aside: 0. Refusals in order: 25, too few bytes; 31. */
uint32_t cabinet_open(uint8_t *state, size_t state_len, uint64_t cap);

/* Starts a session with the terminal's objects, after an end a fresh one, and sets its amount, 9F02, aside. A refused start keeps the
 * ended session. Gives a command or an outcome. Refusals in order: 22, 25, 21, 20, 23, 24, 30. */
uint32_t cabinet_start(uint8_t *state, size_t state_len, const uint8_t *terminal, size_t terminal_len, uint8_t *command,
                       size_t command_len);

/* Takes the card's answer to the command that was handed out last, with its two status bytes. Where it ends the session, approved
 * spends what is set aside, and every other outcome gives it back. Gives the next command or an outcome.
 * Refusals in order: 22, 25, 21. */
uint32_t cabinet_answer(uint8_t *state, size_t state_len, const uint8_t *card, size_t card_len, uint8_t *command,
                        size_t command_len);

/* The link to the card failed: a running session ends with reason 9, and what is set aside is given back.
 * The buffer's length is checked and its bytes stay. Refusals in order: 22, 25, 21. */
uint32_t cabinet_link_failed(uint8_t *state, size_t state_len, uint8_t *command, size_t command_len);

/* The terminal stops the session: a running one ends with reason 10, and what is set aside is given back.
 * The buffer's length is checked and its bytes stay. Refusals in order: 22, 25, 21. */
uint32_t cabinet_stop(uint8_t *state, size_t state_len, uint8_t *command, size_t command_len);

/* What is left of the cap; CABINET_NO_LEFT where the other calls refuse the state with 25: too few bytes, a record out of its ranges,
 * an amount set aside other than the running session's 9F02, or than 0 where none runs, or more than 999,999,999,999 left and set
 * aside together. */
uint64_t cabinet_left(const uint8_t *state, size_t state_len);

/* The value of a start object, by its tag as 0x9F1A: the site's where the site has one, an empty one too, else the defaults'. Each is a
 * list of whole primitive objects without padding; bytes from a broken object or a template on hold nothing, and the first of a tag
 * counts. Gives the value's start in bits 32 to 63, its source in bits 16 and 17, and its length in bits 0 to 15; bits 18 to 31 are 0.
 * A tag in neither has source 0 and length 0 at the front of the defaults; an empty value has the source of its list.
 * CABINET_FIND_TOO_MANY, and nothing is looked at, where both have 2 to the 32 bytes or more together. */
uint64_t cabinet_find(const uint8_t *site, size_t site_len, const uint8_t *defaults, size_t defaults_len, uint32_t tag);

#ifdef __cplusplus
}
#endif

#endif
