/* What tests/lengths.rs tries, from C: every length that a host hands over arrives, answers come back in their fields, and no
 * octet changes that should not. All memory is filled with 0xAA first, with guards on both sides of each piece. */
#include "borjavid.h"
#include <stdio.h>
#include <stdlib.h>
#include <string.h>

enum { GUARD = 64, FILL = 0xAA, MOST_ROWS = 70, MOST_WORDS = 6 * 1024 + 18, MOST_QUEUE = 70000 };

/* the five pieces, each behind a guard and before one */
static struct {
    uint8_t before_rows[GUARD];
    borjavid_mailbox rows[MOST_ROWS];
    uint64_t before_words[GUARD / 8];
    uint64_t words[MOST_WORDS];
    uint64_t before_counts[GUARD / 8];
    borjavid_counts counts;
    uint8_t before_session[GUARD];
    borjavid_session session;
    uint8_t before_queue[GUARD];
    uint8_t queue[MOST_QUEUE];
    uint8_t after_queue[GUARD];
} lent, wanted;

static int tried;

/* counters go on from here, every octet of it another */
static const uint64_t FIRST = 0x0102030405060708;

#define CHECK(what, ...)                                                                                               \
    do {                                                                                                               \
        tried++;                                                                                                       \
        if (!(what)) {                                                                                                 \
            printf("lengths.c:%d: %s: ", __LINE__, #what);                                                             \
            printf(__VA_ARGS__);                                                                                       \
            printf("\n");                                                                                              \
            exit(1);                                                                                                   \
        }                                                                                                              \
    } while (0)

/* the empty start in memory of this octet; all of it is expected to stay */
static void start(int octet) {
    memset(&lent, octet, sizeof lent);
    memset(&lent.counts, 0, sizeof lent.counts);
    memset(&lent.session, 0, sizeof lent.session);
    wanted = lent;
}

static borjavid_answer step(size_t rows, size_t words, size_t queue, const void *record, size_t length) {
    return borjavid_step(lent.rows, rows, lent.words, words, &lent.counts, &lent.session, lent.queue, queue, record, length);
}

static int unchanged(void) { return memcmp(&lent, &wanted, sizeof lent) == 0; }

/* the name of the mailbox with this id, three octets, and one more that is not part of it */
static void name_of(size_t id, uint8_t name[4]) {
    name[0] = 'm';
    name[1] = (uint8_t)('a' + id / 26 % 26);
    name[2] = (uint8_t)('a' + id % 26);
    name[3] = 'x';
}

static uint32_t create(size_t rows, size_t words, size_t queue, size_t id) {
    uint8_t octets[32], name[4];
    name_of(id, name);
    return step(rows, words, queue, octets, borjavid_put_create(octets, sizeof octets, (uint16_t)id, 0x33, 0, 7, FIRST, name, 3))
        .refusal;
}

static uint32_t arrive(size_t words, size_t uid) {
    uint8_t octets[32];
    return step(1, words, 1024, octets, borjavid_put_message(octets, sizeof octets, 1, (uint32_t)uid, 3, 9, FIRST + uid)).refusal;
}

static void rows_arrive(void) {
    for (size_t rows = 0; rows <= MOST_ROWS; rows++) {
        start(FILL);
        for (size_t place = 0; place <= rows; place++) {
            uint32_t refusal = rows > 64 ? 1 : place < rows ? 0 : 7;
            CHECK(create(rows, 50, 1024, place + 1) == refusal, "row %zu of %zu", place, rows);
            if (refusal == 0) {
                uint8_t name[4];
                name_of(place + 1, name);
                borjavid_mailbox row = {(uint16_t)(place + 1), 0x33, 3, 7, 1, 0, 0, {name[0], name[1], name[2]}};
                borjavid_row_set_counter(&row, FIRST);
                CHECK(borjavid_row_counter(&row) == FIRST && row.counterhigh == FIRST >> 32, "row %zu", place);
                wanted.rows[place] = row;
                wanted.counts.mailboxes++;
            }
            CHECK(unchanged(), "row %zu of %zu", place, rows);
        }
    }
}

static void words_arrive(void) {
    for (size_t words = 0; words <= MOST_WORDS; words++) {
        size_t entries = words / 6, used = entries ? entries - 1 : 0;
        start(FILL);
        CHECK(create(1, 0, 1024, 1) == 0, "one mailbox");
        for (size_t place = 0; place < used; place++) {
            uint64_t entry[6] = {1, place + 1, 0, 9, 0, FIRST + place + 1};
            memcpy(lent.words + 6 * place, entry, sizeof entry);
        }
        lent.counts.messages = used;
        lent.rows[0].uidnext = (uint32_t)(used + 1);
        borjavid_row_set_counter(&lent.rows[0], FIRST + used);
        wanted = lent;
        CHECK(arrive(words, used + 1) == (entries > 1024 ? 1u : entries ? 0u : 7u), "%zu words", words);
        if (0 < entries && entries <= 1024) {
            uint64_t entry[6] = {1, used + 1, 3, 9, 0, FIRST + used + 1};
            memcpy(wanted.words + 6 * used, entry, sizeof entry);
            wanted.counts.messages++;
            wanted.rows[0].uidnext++;
            borjavid_row_set_counter(&wanted.rows[0], FIRST + used + 1);
        }
        CHECK(unchanged(), "%zu words", words);
        CHECK(arrive(words, used + 2) == (entries > 1024 ? 1u : 7u), "%zu words", words);
        CHECK(unchanged(), "%zu words", words);
    }
}

static void queues_arrive(void) {
    static const size_t sizes[] = {0, 1, 63, 64, 1023, 1024, 1025, 1026, 2000, 65535, 65536, 65537, MOST_QUEUE};
    static const char line[] = "* BAD refused\r\n";
    for (size_t k = 0; k < sizeof sizes / sizeof *sizes; k++) {
        size_t queue = sizes[k], answers = 0;
        start(FILL);
        if (queue < 1024 || queue > 65536) {
            CHECK(step(4, 50, queue, "CM\0\0", 4).refusal == 1, "Q %zu", queue);
            CHECK(unchanged(), "Q %zu", queue);
            continue;
        }
        while (step(4, 50, queue, "CM\0\0", 4).refusal == 0) {
            memcpy(wanted.queue + 15 * answers++, line, 15);
            wanted.counts.filled += 15;
            CHECK(answers > 20 || unchanged(), "Q %zu", queue);
        }
        CHECK(answers == (queue - 64) / 15, "Q %zu: %zu answers", queue, answers);
        CHECK(unchanged(), "Q %zu", queue);
        CHECK(step(4, 50, queue, "CM\0\0", 4).refusal == 8, "Q %zu", queue);
    }
}

/* every length of record, in one buffer: a length that is read too long finds more of the same */
static void records_arrive(void) {
    static uint8_t octets[70001];
    memset(octets, 'x', sizeof octets);
    memcpy(octets, "CM", 2);
    start(FILL);
    for (size_t length = 0; length <= 70000; length++) {
        octets[2] = octets[3] = 'x';
        if (length >= 4) {
            octets[2] = (uint8_t)(length - 4);
            octets[3] = (uint8_t)((length - 4) >> 8);
        }
        borjavid_answer answer = step(4, 50, 1024, octets, length);
        if (4 <= length && length <= 1028) {
            CHECK(answer.refusal == 0 && lent.counts.filled == 15, "%zu octets", length);
            lent = wanted;
        } else {
            CHECK(answer.refusal == 2 && answer.counted == 0 && answer.count == 0, "%zu octets", length);
            if (length < 2000 || length % 97 == 0) CHECK(unchanged(), "%zu octets", length);
        }
    }
    CHECK(unchanged(), "after all lengths");
}

/* the fields of an answer: a count, and none */
static void answers_arrive(void) {
    start(FILL);
    CHECK(create(4, 50, 1024, 1) == 0 && step(4, 50, 1024, "SE\2\0\1\0", 6).refusal == 0, "selected");
    borjavid_answer answer = step(4, 50, 1024, "CE\1\0\1", 5);
    CHECK(answer.refusal == 0 && answer.counted == 1 && answer.count == 0, "nothing is owed");
    lent.counts.filled = 1000; /* no room: the EXISTS stays owed */
    CHECK(arrive(50, 1) == 0, "a message");
    answer = step(4, 50, 1024, "CE\1\0\0", 5);
    CHECK(answer.refusal == 0 && answer.counted == 1 && answer.count == 1, "one line is owed");
    answer = step(4, 50, 1024, "SE\2\0\0\0", 6);
    CHECK(answer.refusal == 0 && answer.counted == 0 && answer.count == 0, "no count");
    CHECK(lent.session.selected == 0 && lent.session.told == 0, "none selected");
}

static void rows_are_found(void) {
    start(FILL);
    for (unsigned id = 1; id <= 64; id++) CHECK(create(64, 0, 1024, id) == 0, "%u", id);
    wanted = lent;
    for (size_t used = 0; used <= 64; used++) {
        for (uint16_t id = 1; id <= 65; id++) {
            uint8_t name[4];
            size_t place = id <= used ? id - 1u : used;
            name_of(id, name);
            CHECK(borjavid_find_id(lent.rows, 64, used, id) == place, "id %u of %zu", id, used);
            CHECK(borjavid_find_name(lent.rows, 64, used, name, 3) == place, "name %u of %zu", id, used);
            CHECK(borjavid_find_name(lent.rows, 64, used, name, 4) == used, "longer name %u", id);
            CHECK(borjavid_find_id(lent.rows, used, 64, id) == place, "id %u in %zu rows", id, used);
        }
    }
    CHECK(unchanged(), "a search changes nothing");
    borjavid_mailbox row = lent.rows[3];
    row.uidnext = 77;
    borjavid_set_row(lent.rows, 64, 64, row);
    borjavid_set_row(lent.rows, 3, 3, row);
    CHECK(unchanged(), "no such row");
    borjavid_set_row(lent.rows, 64, 9, row);
    wanted.rows[9] = row;
    CHECK(unchanged(), "row 9 and nothing else");
}

int main(void) {
    CHECK(borjavid_fits(), "layout %u", (unsigned)borjavid_layout());
    rows_arrive();
    words_arrive();
    queues_arrive();
    records_arrive();
    answers_arrive();
    rows_are_found();
    printf("lengths.c: %d checks\n", tried);
    return 0;
}
