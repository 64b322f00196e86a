/* A client watches one folder, an alarm comes in there, and the notice goes out. */
#include <borjavid.h>
#include <stdio.h>
#include <string.h>

/* the five pieces that a session is lent: zeros are its empty start */
static borjavid_mailbox rows[BORJAVID_MAILBOXES];
static uint64_t words[BORJAVID_ENTRY * BORJAVID_MESSAGES];
static borjavid_counts counts;
static borjavid_session session;
static uint8_t queue[BORJAVID_QUEUE_MOST];

static uint8_t record[BORJAVID_RECORD_MOST];

/* hands over the record in the buffer; a length of 0, for one that had no room there, is refused like any other bad record */
static uint32_t step(size_t length) {
    return borjavid_step(rows, BORJAVID_MAILBOXES, words, BORJAVID_ENTRY * BORJAVID_MESSAGES, &counts, &session, queue,
                         sizeof queue, record, length)
        .refusal;
}

/* writes out what the queue holds, and only then drains it */
static int drain(void) {
    size_t filled = (size_t)counts.filled;
    if (fwrite(queue, 1, filled, stdout) != filled || fflush(stdout)) return 0;
    return step(borjavid_put_drained(record, sizeof record, filled)) == BORJAVID_DONE;
}

int main(void) {
    const char *name = "Ops/Alarms";
    const char *line = "a NOTIFY SET (mailboxes Ops/Alarms (MessageNew MessageExpunge))";
    uint8_t attributes = BORJAVID_SELECTABLE | BORJAVID_LOOKUP | BORJAVID_READ;
    if (!borjavid_fits()) {
        fprintf(stderr, "alarm: the library has layout %u, its header %d\n", (unsigned)borjavid_layout(), BORJAVID_LAYOUT);
        return 2;
    }
    if (step(borjavid_put_create(record, sizeof record, 1, attributes, BORJAVID_QUIET, 7, 1, name, strlen(name)))) return 1;
    if (step(borjavid_put_command(record, sizeof record, line, strlen(line))) || !drain()) return 1;
    if (step(borjavid_put_message(record, sizeof record, 1, 5, 0, 120, 2)) || !drain()) return 1;
    return 0;
}
