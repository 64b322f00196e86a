/* Builds the records whose fields it reads, for tests/builders.rs, which has built the same in Rust. A line of standard input has a
 * mark and its numbers in the order of the layout; where a name or line ends the record, its length is the last of them, and its
 * octets follow. Out goes each record behind its length in four octets. Buffers that are too small are tried on the way. */
#include "borjavid.h"
#include <inttypes.h>
#include <stdio.h>
#include <stdlib.h>
#include <string.h>

enum { FILL = 0xAA, MOST = 70000, NUMBERS = 5 };

static const struct {
    const char *mark;
    int numbers;
    int tail; /* 1 where a name or line ends it */
} kinds[] = {{"MB", 5, 1}, {"DL", 2, 0}, {"RN", 2, 1}, {"SB", 3, 0}, {"RT", 2, 0}, {"ME", 5, 0},
             {"XP", 3, 0}, {"FL", 4, 0}, {"SE", 1, 0}, {"CE", 1, 0}, {"CM", 0, 1}, {"DR", 1, 0}};

/* what was read: the kind's place among the kinds, its numbers, its name or line */
static size_t kind;
static uint64_t number[NUMBERS];
static uint8_t tail[MOST];
static size_t tail_len;

static void fail(const char *what, size_t room) {
    fprintf(stderr, "builders.c: %s: %s, with room for %zu\n", kinds[kind].mark, what, room);
    exit(1);
}

static size_t build(uint8_t *to, size_t room) {
    const uint64_t *n = number;
    uint16_t id = (uint16_t)n[0];
    uint8_t second = (uint8_t)n[1], third = (uint8_t)n[2];
    uint32_t uid = (uint32_t)n[1];
    switch (kind) {
    case 0: return borjavid_put_create(to, room, id, second, third, (uint32_t)n[3], n[4], tail, tail_len);
    case 1: return borjavid_put_delete(to, room, id, second);
    case 2: return borjavid_put_rename(to, room, id, second, tail, tail_len);
    case 3: return borjavid_put_subscribe(to, room, id, second, third);
    case 4: return borjavid_put_rights(to, room, id, second);
    case 5: return borjavid_put_message(to, room, id, uid, third, (uint32_t)n[3], n[4]);
    case 6: return borjavid_put_expunge(to, room, id, uid, n[2]);
    case 7: return borjavid_put_flags(to, room, id, uid, third, n[3]);
    case 8: return borjavid_put_select(to, room, id);
    case 9: return borjavid_put_command_ended(to, room, (uint8_t)n[0]);
    case 10: return borjavid_put_command(to, room, tail_len ? tail : NULL, tail_len);
    default: return borjavid_put_drained(to, room, n[0]);
    }
}

static size_t kind_of(const char *mark) {
    for (size_t place = 0; place < sizeof kinds / sizeof *kinds; place++) {
        if (strcmp(kinds[place].mark, mark) == 0) return place;
    }
    exit(2);
}

/* 1 where a record could be read, 0 at the end */
static int next(void) {
    char mark[3];
    if (scanf("%2s", mark) != 1) return 0;
    kind = kind_of(mark);
    for (int place = 0; place < kinds[kind].numbers; place++) {
        if (scanf("%" SCNu64, &number[place]) != 1) exit(2);
    }
    tail_len = 0;
    if (kinds[kind].tail && (scanf("%zu", &tail_len) != 1 || tail_len > sizeof tail)) exit(2);
    if (getchar() != '\n' || fread(tail, 1, tail_len, stdin) != tail_len) exit(2);
    return 1;
}

/* the octets are still those that the buffer was filled with */
static int filled(const uint8_t *octets, size_t length) {
    for (size_t place = 0; place < length; place++) {
        if (octets[place] != FILL) return 0;
    }
    return 1;
}

/* A buffer of this room, in the middle of a larger one: it takes the record whole if that fits, and else nothing. */
static void try_room(const uint8_t *record, size_t length, size_t room) {
    static uint8_t buffer[8 + MOST + 8];
    uint8_t *to = buffer + 8;
    size_t written = length <= room ? length : 0;
    memset(buffer, FILL, 8 + length + 8);
    if (build(to, room) != written) fail("another length", room);
    if (memcmp(to, record, written) != 0) fail("other octets", room);
    if (!filled(buffer, 8) || !filled(to + written, length + 8 - written)) fail("an octet too many is written", room);
}

/* The first 64 sizes, the 64 up to the record's own, and the largest: it is not enough for what no length field can say. */
static void try_rooms(const uint8_t *record, size_t length) {
    for (size_t size = 0; size < 64; size++) {
        try_room(record, length, size);
        if (size <= length) try_room(record, length, length - size);
    }
    try_room(record, length, MOST);
}

static void put(const uint8_t *record, size_t length) {
    uint8_t head[4];
    borjavid_put_number(head, length, 4);
    fwrite(head, 1, sizeof head, stdout);
    fwrite(record, 1, length, stdout);
}

/* the number is the version's */
static int version_is_one(void) {
    char text[16];
    int version = BORJAVID_VERSION_NUMBER;
    snprintf(text, sizeof text, "%d.%d.%d", version / 10000, version / 100 % 100, version % 100);
    return strcmp(text, BORJAVID_VERSION) == 0;
}

int main(void) {
    static uint8_t record[MOST];
    if (!version_is_one()) fail("version and number differ", 0);
    while (next()) {
        size_t length = build(record, sizeof record);
        try_rooms(record, length);
        put(record, length);
    }
    return fflush(stdout) != 0;
}
