/* The push side of an IMAP server, proved. Link libborjavid.a of the folder that host/dist makes, or what it is a copy of,
 * target/staticlib/libexported.a (x86-64, System V). borjavid_records.h has the records and what builds them; docs/HOSTS.md
 * says which record to send when, and what to do with each answer.
 *
 * The library keeps nothing: all it knows lies in what the host lends for a call, and stays the host's between calls. It
 * takes no lock, allocates nothing, calls nothing of the host's and stops for nothing. One session is one caller at a time;
 * sessions that share no memory may be called at once from any threads.
 *
 * This is asked of the host:
 *   - every slice is a pointer and a count. Pointers are not NULL, not even of empty slices, and are aligned as C aligns their
 *     types. No two pieces of what is lent overlap, the record included;
 *   - a thread that calls borjavid_step has 1 MB of stack. A client's line decides how much of it is used: some 0.7 MB
 *     was the most that we measured. With less, such a line would end the thread;
 *   - header and library have one layout: borjavid_fits, asked once before anything is lent.
 * Nothing more: any contents of that memory and any octets as a record get a clear answer. */
#ifndef BORJAVID_H
#define BORJAVID_H

#include <stddef.h>
#include <stdint.h>

#include "borjavid_records.h"

#ifdef __cplusplus
extern "C" {
#endif

/* The version of header and library, and as a number: 10,000 times its first part, 100 times the second, the third. CHANGELOG.md
 * says what each changed. */
#define BORJAVID_VERSION "0.2.0"
#define BORJAVID_VERSION_NUMBER 200

/* The layout of lent memory. The number rises when a struct below, an entry or the body of a record changes its layout. */
#define BORJAVID_LAYOUT 2

/* The layout by which the library was made. */
uint32_t borjavid_layout(void);

/* Whether header and library have one layout, 1 or 0. At 0 lend nothing: the library would look for fields where they are not.
 * (A library from before 0.2.0 does not link, as it has no borjavid_layout.) */
static inline int borjavid_fits(void) {
    return borjavid_layout() == BORJAVID_LAYOUT;
}

/* Bounds: longer tables and another queue are refused with 1. Shorter tables are lawful, none at all too. */
#define BORJAVID_MAILBOXES 64
#define BORJAVID_MESSAGES 1024
#define BORJAVID_ENTRY 6 /* words of an entry: mailbox, UID, flags, size, states (1 expunged, 2 its flags wait), counter */
#define BORJAVID_QUEUE_LEAST 1024
#define BORJAVID_QUEUE_MOST 65536

/* A row of the mailbox table, 84 octets. The library zeroes rows that it frees. */
typedef struct {
    uint16_t id;
    uint8_t attributes;
    uint8_t namelen;
    uint32_t uidvalidity;
    uint32_t uidnext;     /* one above all UIDs ever used there */
    uint32_t counterlow;  /* the change counter in two halves, as a whole would need padding: borjavid_row_counter */
    uint32_t counterhigh;
    uint8_t name[64]; /* zeros behind the first namelen octets */
} borjavid_mailbox;

/* The change counter of a row: the highest that the mailbox was given. */
static inline uint64_t borjavid_row_counter(const borjavid_mailbox *row) {
    return (uint64_t)row->counterhigh << 32 | row->counterlow;
}
static inline void borjavid_row_set_counter(borjavid_mailbox *row, uint64_t counter) {
    row->counterlow = (uint32_t)counter;
    row->counterhigh = (uint32_t)(counter >> 32);
}

/* A group of NOTIFY SET. Selectors: 0 selected, 1 selected-delayed, 2 inboxes, 3 personal, 4 subscribed, 5 subtree,
 * 6 mailboxes; the last two have `count` of the session's names, from `first` on. */
typedef struct {
    uint8_t selector;
    uint8_t first;
    uint8_t count;
    uint8_t events;
    uint8_t attributes;
} borjavid_group;

/* A name of a group; empty where the command's argument could name no mailbox. */
typedef struct {
    uint8_t len;
    uint8_t octets[64];
} borjavid_name;

/* What the session knows of its client, 1,088 octets. All zeros at the start. */
typedef struct {
    uint16_t selected;  /* id of the selected mailbox, 0 for none */
    uint8_t notified;   /* 1 once a NOTIFY was accepted */
    uint8_t groupcount; /* groups in use */
    uint32_t told;      /* the client knows the selected mailbox's messages with a lower UID */
    borjavid_group groups[8];
    borjavid_name names[16];
} borjavid_session;

/* How much of the lent memory is in use. All zeros at the start. */
typedef struct {
    uint64_t mailboxes; /* rows */
    uint64_t messages;  /* entries, of six words each */
    uint64_t filled;    /* octets of the queue, from its front: what the host has to write out */
} borjavid_counts;

/* What a call answers. */
typedef struct {
    uint32_t refusal; /* 0: done. 1 to 8: refused, and not an octet of what was lent has changed */
    uint32_t counted; /* 1: a count is given, which only CE does; else 0 */
    uint64_t count;   /* lines still owed to the class of CE; 0 where no count is given */
} borjavid_answer;

/* The refusals, of which the lowest that applies is given. */
enum {
    BORJAVID_DONE = 0,
    BORJAVID_UNLAWFUL_MEMORY = 1, /* a size or count is out of bounds, a field in use out of its range, or fields don't go
                                   * together, such as two rows with one id: docs/HOSTS.md, 'Lawful memory' */
    BORJAVID_BAD_RECORD = 2,      /* unknown mark, wrong length, a field out of range, a bad name */
    BORJAVID_WRONG_ID = 3,        /* the id is in use (MB) or unknown (others) */
    BORJAVID_NAME_HELD = 4,       /* another mailbox has the name */
    BORJAVID_WRONG_UID = 5,       /* ME: the UID is not above all ever used there. XP, FL: no such message. All three: the
                                   * counter is not above the mailbox's */
    BORJAVID_WRONG_STATE = 6,     /* SE: unselectable or unreadable. DL: it is selected. DR: more than is filled */
    BORJAVID_TABLE_FULL = 7,      /* no row (MB) or no entry (ME) is free */
    BORJAVID_NO_ROOM = 8          /* CM: its answer doesn't fit beside what the queue holds */
};

/* One record, of record_len octets, on the memory of one session.
 *   rows     the mailbox table: its first counts->mailboxes rows are in use
 *   words    the message table, six words an entry: its first counts->messages entries are in use. Words behind the last
 *            whole entry are never touched
 *   counts, session
 *   queue    its first counts->filled octets are to be written out to the client, in order
 *   record   is only read
 * Rows, words and octets of the queue behind those in use are neither judged nor touched, but where the call puts them to
 * use; those that it frees in the tables become zeros. */
borjavid_answer borjavid_step(borjavid_mailbox *rows, size_t rows_len, uint64_t *words, size_t words_len,
                              borjavid_counts *counts, borjavid_session *session, uint8_t *queue, size_t queue_len,
                              const uint8_t *record, size_t record_len);

/* The place of the first of the used rows (counts->mailboxes) with the id, or with just these octets as its name. Where
 * there is none, how many rows were searched: `used`, or rows_len or 64 where that is less. */
size_t borjavid_find_id(const borjavid_mailbox *rows, size_t rows_len, size_t used, uint16_t id);
size_t borjavid_find_name(const borjavid_mailbox *rows, size_t rows_len, size_t used, const uint8_t *name,
                          size_t name_len);

/* Row `at` becomes `row`; where there is no such row nothing changes. The next step judges it as it judges all memory. */
void borjavid_set_row(borjavid_mailbox *rows, size_t rows_len, size_t at, borjavid_mailbox row);

/* No octet is padding, and every field lies where the library looks for it. */
#if defined(__cplusplus)
#define BORJAVID_ASSERT(what) static_assert(what, #what)
#else
#define BORJAVID_ASSERT(what) _Static_assert(what, #what)
#endif
#define BORJAVID_AT(type, field, place) BORJAVID_ASSERT(offsetof(type, field) == (place))

BORJAVID_ASSERT(sizeof(size_t) == 8);

BORJAVID_ASSERT(sizeof(borjavid_mailbox) == 84);
BORJAVID_AT(borjavid_mailbox, id, 0);
BORJAVID_AT(borjavid_mailbox, attributes, 2);
BORJAVID_AT(borjavid_mailbox, namelen, 3);
BORJAVID_AT(borjavid_mailbox, uidvalidity, 4);
BORJAVID_AT(borjavid_mailbox, uidnext, 8);
BORJAVID_AT(borjavid_mailbox, counterlow, 12);
BORJAVID_AT(borjavid_mailbox, counterhigh, 16);
BORJAVID_AT(borjavid_mailbox, name, 20);

BORJAVID_ASSERT(sizeof(borjavid_group) == 5);
BORJAVID_AT(borjavid_group, selector, 0);
BORJAVID_AT(borjavid_group, first, 1);
BORJAVID_AT(borjavid_group, count, 2);
BORJAVID_AT(borjavid_group, events, 3);
BORJAVID_AT(borjavid_group, attributes, 4);

BORJAVID_ASSERT(sizeof(borjavid_name) == 65);
BORJAVID_AT(borjavid_name, len, 0);
BORJAVID_AT(borjavid_name, octets, 1);

BORJAVID_ASSERT(sizeof(borjavid_session) == 1088);
BORJAVID_AT(borjavid_session, selected, 0);
BORJAVID_AT(borjavid_session, notified, 2);
BORJAVID_AT(borjavid_session, groupcount, 3);
BORJAVID_AT(borjavid_session, told, 4);
BORJAVID_AT(borjavid_session, groups, 8);
BORJAVID_AT(borjavid_session, names, 48);

BORJAVID_ASSERT(sizeof(borjavid_counts) == 24);
BORJAVID_AT(borjavid_counts, mailboxes, 0);
BORJAVID_AT(borjavid_counts, messages, 8);
BORJAVID_AT(borjavid_counts, filled, 16);

BORJAVID_ASSERT(sizeof(borjavid_answer) == 16);
BORJAVID_AT(borjavid_answer, refusal, 0);
BORJAVID_AT(borjavid_answer, counted, 4);
BORJAVID_AT(borjavid_answer, count, 8);

#ifdef __cplusplus
}
#endif

#endif
