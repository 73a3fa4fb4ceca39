/* Writing the card's side, for a host in C: target/staticlib/libpersonalise.a, built by `bin/archive personalise`.
 * The archive stands beside the kernel's and needs nothing of it. docs/HOST.md has the rules and an example.
 *
 * The call keeps nothing between calls, allocates nothing, and does no input or output. Lent slices must not overlap.
 * A pointer with length 0 is not read or written, and must not be null. */
#ifndef TRIPODMOON_PERSONALISE_H
#define TRIPODMOON_PERSONALISE_H

#include <stddef.h>
#include <stdint.h>

/* The library takes lengths of 64 bits: a host with a shorter size_t stops here, not at a call. */
#if defined(SIZE_MAX) && SIZE_MAX < 0xFFFFFFFFFFFFFFFF
#error "tripodmoon needs a size_t of 64 bits: the library is built for x86-64"
#endif
typedef char emv_personalise_size_t_has_64_bits[sizeof(size_t) == 8 ? 1 : -1];

#ifdef __cplusplus
extern "C" {
#endif

/* The least bytes to lend for the records, and for the locator. */
#define EMV_PERSONALISE_RECORDS_ROOM 32768u
#define EMV_PERSONALISE_LOCATOR_ROOM 248u

/* The kind of an answer. All but the first are refusals: nothing was written. */
#define EMV_PERSONALISE_KIND(word) ((unsigned)(((word) >> 48) & 0xFFu))
#define EMV_PERSONALISE_WRITTEN 0u
#define EMV_PERSONALISE_RECORDS_BUFFER 1u /* fewer bytes lent for the records than the least */
#define EMV_PERSONALISE_LOCATOR_BUFFER 2u /* fewer bytes lent for the locator than the least */
#define EMV_PERSONALISE_LIST 3u           /* an object is bad, comes twice, or is not placed exactly once */
#define EMV_PERSONALISE_ENTRY 4u          /* an entry is bad, or there is none */
#define EMV_PERSONALISE_RECORD 5u         /* a record is bad, or is not one of the locator's */
#define EMV_PERSONALISE_IS_WRITTEN(word) (EMV_PERSONALISE_KIND(word) == EMV_PERSONALISE_WRITTEN)

/* What was written: the bytes in front of the two buffers. */
#define EMV_PERSONALISE_RECORDS_LENGTH(word) ((size_t)((word) & 0xFFFFFFFFu))
#define EMV_PERSONALISE_LOCATOR_LENGTH(word) ((size_t)(((word) >> 32) & 0xFFFFu))

/* Which entry, counted from 1, or which record, counted from 1 in locator order; a record of number 0, too, is bad
 * where a placement names it. */
#define EMV_PERSONALISE_NUMBER(word) ((unsigned)((word) & 0xFFFFFFFFu))

/* Writes a list of objects as the records and the file locator of a card, by a layout that is not trusted.
 * objects: tag, length and value, one behind the other, of tags that a card sets in template 70, each at most once.
 * entries: the locator as proposed, four bytes each, byte 4 included.
 * placements: two bytes each, a record and an object, both counted from 1, records in locator order and objects in
 * the list's order.
 * Gives the lengths of what stands in front of records and locator; the bytes behind stay. Refusals in the order of
 * their kinds leave all lent bytes as they were. */
uint64_t emv_personalise(const uint8_t *objects, size_t objects_len, const uint8_t *entries, size_t entries_len,
                         const uint8_t *placements, size_t placements_len, uint8_t *records, size_t records_len,
                         uint8_t *locator, size_t locator_len);

#ifdef __cplusplus
}
#endif

#endif
