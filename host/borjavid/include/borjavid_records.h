/* The records that a host hands to borjavid_step: their layouts, what their fields may hold, and a builder for each kind.
 * borjavid.h includes this file.
 *
 * A record is a mark of two octets, the length of its body in two octets, and the body. Numbers are little-endian; behind a
 * field stands how many octets it has. A name or line takes what is left of the body.
 *
 *   Mark  Builder        Body                                                                    Octets of the body
 *   MB    create         id 2, attributes 1, quiet 1, UIDVALIDITY 4, counter 8, name             16 and the name
 *   DL    delete         id 2, quiet 1                                                           3
 *   RN    rename         id 2, quiet 1, name                                                     3 and the name
 *   SB    subscribe      id 2, subscribed 1, quiet 1                                             4
 *   RT    rights         id 2, rights 1                                                          3
 *   ME    message        id 2, UID 4, flags 1, size 4, counter 8                                 19
 *   XP    expunge        id 2, UID 4, counter 8                                                  14
 *   FL    flags          id 2, UID 4, flags 1, counter 8                                         15
 *   SE    select         id 2                                                                    2
 *   CE    command_ended  class 1                                                                 1
 *   CM    command        line                                                                    the line
 *   DR    drained        count 4                                                                 4
 *
 *   id           1 to 65,535, the host's own number for a mailbox; in SE also 0, for none
 *   attributes   the six bits below, no other
 *   rights       BORJAVID_LOOKUP and BORJAVID_READ, no other bit
 *   quiet        0 or 1: BORJAVID_OWED, BORJAVID_QUIET
 *   subscribed   0 or 1
 *   UIDVALIDITY  not 0
 *   UID          1 to BORJAVID_UID_MOST
 *   flags        the five bits below, no other
 *   size, count  any
 *   counter      1 to BORJAVID_COUNTER_MOST
 *   class        0 or 1: BORJAVID_CLASS_FETCH, BORJAVID_CLASS_REST
 *   name         1 to 64 octets from 0x20 to 0x7E, in parts divided by `/`, none of them empty. INBOX in any case is INBOX
 *   line         0 to 1,024 octets, without the line's end
 *
 * docs/HOSTS.md says which record is sent when. */
#ifndef BORJAVID_RECORDS_H
#define BORJAVID_RECORDS_H

#include <stddef.h>
#include <stdint.h>
#include <string.h>

/* Attribute bits of a mailbox; the last two are the user's rights. */
#define BORJAVID_SELECTABLE 1
#define BORJAVID_PERSONAL 2
#define BORJAVID_DELIVERY 4
#define BORJAVID_SUBSCRIBED 8
#define BORJAVID_LOOKUP 16 /* the right l: the user may list it */
#define BORJAVID_READ 32   /* the right r: the user may read it */

/* Flag bits of a message. */
#define BORJAVID_ANSWERED 1
#define BORJAVID_FLAGGED 2
#define BORJAVID_DELETED 4
#define BORJAVID_SEEN 8
#define BORJAVID_DRAFT 16

/* Whether a notice is owed: none is for children that a rename carries along, the fresh INBOX, the client's own act. */
#define BORJAVID_OWED 0
#define BORJAVID_QUIET 1

/* The class of a command that ends. */
#define BORJAVID_CLASS_FETCH 0 /* FETCH, STORE, SEARCH and ESEARCH: no EXPUNGE may come */
#define BORJAVID_CLASS_REST 1  /* all others, the UID forms of these too */

/* Limits. */
#define BORJAVID_UID_MOST UINT32_C(4294967294)
#define BORJAVID_COUNTER_MOST UINT64_C(9223372036854775807)
#define BORJAVID_NAME_MOST 64
#define BORJAVID_LINE_MOST 1024
#define BORJAVID_RECORD_MOST 1028 /* octets of the longest record that is not refused, a CM */

#ifdef __cplusplus
extern "C" {
#endif

/* ---- what the builders are made of */

/* Mark and length of a record whose body has `fields` octets and a tail; answers where the body begins. NULL, and nothing is
 * written, where a length field can't say the body's length or the whole record has no room. */
static inline uint8_t *borjavid_put_head(uint8_t *to, size_t room, const char *mark, size_t fields, size_t tail) {
    if (tail > 65535 - fields || room < 4 + fields + tail) return NULL;
    to[0] = (uint8_t)mark[0];
    to[1] = (uint8_t)mark[1];
    to[2] = (uint8_t)(fields + tail);
    to[3] = (uint8_t)((fields + tail) >> 8);
    return to + 4;
}

/* A number in so many octets; answers where they end. */
static inline uint8_t *borjavid_put_number(uint8_t *at, uint64_t number, int octets) {
    for (int place = 0; place < octets; place++) at[place] = (uint8_t)(number >> 8 * place);
    return at + octets;
}

/* A name or line, which may be NULL where it has no octets. */
static inline uint8_t *borjavid_put_tail(uint8_t *at, const void *octets, size_t length) {
    if (length > 0) memcpy(at, octets, length);
    return at + length;
}

/* ---- the builders
 *
 * Each writes one record into a buffer of the host's that has `room` octets, and answers how long the record is. It answers 0
 * and writes nothing where the record has no room, or its name or line is longer than a length field can say. Fields are
 * written as they are: what is out of its range is refused by the step, with 2. A name or line must not lie in the buffer. */

/* MB: a mailbox comes to be. */
static inline size_t borjavid_put_create(uint8_t *to, size_t room, uint16_t id, uint8_t attributes, uint8_t quiet,
                                         uint32_t uidvalidity, uint64_t counter, const void *name, size_t name_len) {
    uint8_t *at = borjavid_put_head(to, room, "MB", 16, name_len);
    if (at == NULL) return 0;
    at = borjavid_put_number(at, id, 2);
    at = borjavid_put_number(at, attributes, 1);
    at = borjavid_put_number(at, quiet, 1);
    at = borjavid_put_number(at, uidvalidity, 4);
    at = borjavid_put_number(at, counter, 8);
    return (size_t)(borjavid_put_tail(at, name, name_len) - to);
}

/* DL: it is gone, with its messages. */
static inline size_t borjavid_put_delete(uint8_t *to, size_t room, uint16_t id, uint8_t quiet) {
    uint8_t *at = borjavid_put_head(to, room, "DL", 3, 0);
    if (at == NULL) return 0;
    at = borjavid_put_number(at, id, 2);
    return (size_t)(borjavid_put_number(at, quiet, 1) - to);
}

/* RN: it has another name. */
static inline size_t borjavid_put_rename(uint8_t *to, size_t room, uint16_t id, uint8_t quiet, const void *name,
                                         size_t name_len) {
    uint8_t *at = borjavid_put_head(to, room, "RN", 3, name_len);
    if (at == NULL) return 0;
    at = borjavid_put_number(at, id, 2);
    at = borjavid_put_number(at, quiet, 1);
    return (size_t)(borjavid_put_tail(at, name, name_len) - to);
}

/* SB: it is subscribed to (1), or no longer (0). */
static inline size_t borjavid_put_subscribe(uint8_t *to, size_t room, uint16_t id, uint8_t subscribed, uint8_t quiet) {
    uint8_t *at = borjavid_put_head(to, room, "SB", 4, 0);
    if (at == NULL) return 0;
    at = borjavid_put_number(at, id, 2);
    at = borjavid_put_number(at, subscribed, 1);
    return (size_t)(borjavid_put_number(at, quiet, 1) - to);
}

/* RT: these are the user's rights there. */
static inline size_t borjavid_put_rights(uint8_t *to, size_t room, uint16_t id, uint8_t rights) {
    uint8_t *at = borjavid_put_head(to, room, "RT", 3, 0);
    if (at == NULL) return 0;
    at = borjavid_put_number(at, id, 2);
    return (size_t)(borjavid_put_number(at, rights, 1) - to);
}

/* ME: a message comes. Its counter, like that of every later change, is above all that the mailbox was given. */
static inline size_t borjavid_put_message(uint8_t *to, size_t room, uint16_t id, uint32_t uid, uint8_t flags, uint32_t size,
                                          uint64_t counter) {
    uint8_t *at = borjavid_put_head(to, room, "ME", 19, 0);
    if (at == NULL) return 0;
    at = borjavid_put_number(at, id, 2);
    at = borjavid_put_number(at, uid, 4);
    at = borjavid_put_number(at, flags, 1);
    at = borjavid_put_number(at, size, 4);
    return (size_t)(borjavid_put_number(at, counter, 8) - to);
}

/* XP: a message is gone. */
static inline size_t borjavid_put_expunge(uint8_t *to, size_t room, uint16_t id, uint32_t uid, uint64_t counter) {
    uint8_t *at = borjavid_put_head(to, room, "XP", 14, 0);
    if (at == NULL) return 0;
    at = borjavid_put_number(at, id, 2);
    at = borjavid_put_number(at, uid, 4);
    return (size_t)(borjavid_put_number(at, counter, 8) - to);
}

/* FL: a message has these flags. */
static inline size_t borjavid_put_flags(uint8_t *to, size_t room, uint16_t id, uint32_t uid, uint8_t flags, uint64_t counter) {
    uint8_t *at = borjavid_put_head(to, room, "FL", 15, 0);
    if (at == NULL) return 0;
    at = borjavid_put_number(at, id, 2);
    at = borjavid_put_number(at, uid, 4);
    at = borjavid_put_number(at, flags, 1);
    return (size_t)(borjavid_put_number(at, counter, 8) - to);
}

/* SE: the client has this mailbox open, or none (0). */
static inline size_t borjavid_put_select(uint8_t *to, size_t room, uint16_t id) {
    uint8_t *at = borjavid_put_head(to, room, "SE", 2, 0);
    if (at == NULL) return 0;
    return (size_t)(borjavid_put_number(at, id, 2) - to);
}

/* CE: a command of this class ends; its tagged line is not yet written. */
static inline size_t borjavid_put_command_ended(uint8_t *to, size_t room, uint8_t command_class) {
    uint8_t *at = borjavid_put_head(to, room, "CE", 1, 0);
    if (at == NULL) return 0;
    return (size_t)(borjavid_put_number(at, command_class, 1) - to);
}

/* CM: a NOTIFY or ESEARCH of the client, without its line end. */
static inline size_t borjavid_put_command(uint8_t *to, size_t room, const void *line, size_t line_len) {
    uint8_t *at = borjavid_put_head(to, room, "CM", 0, line_len);
    if (at == NULL) return 0;
    return (size_t)(borjavid_put_tail(at, line, line_len) - to);
}

/* DR: so many octets were written out. More than four octets can say is more than any queue holds, and is said as the most. */
static inline size_t borjavid_put_drained(uint8_t *to, size_t room, uint64_t count) {
    uint8_t *at = borjavid_put_head(to, room, "DR", 4, 0);
    if (at == NULL) return 0;
    return (size_t)(borjavid_put_number(at, count < UINT32_MAX ? count : UINT32_MAX, 4) - to);
}

#ifdef __cplusplus
}
#endif

#endif
