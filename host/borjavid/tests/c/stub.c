/* A library that has the number of a layout, ANSWER, and no more: to see that a host asks for it before it lends anything. */
#include "borjavid.h"
#include <stdlib.h>

uint32_t borjavid_layout(void) { return ANSWER; }

borjavid_answer borjavid_step(borjavid_mailbox *rows, size_t rows_len, uint64_t *words, size_t words_len,
                              borjavid_counts *counts, borjavid_session *session, uint8_t *queue, size_t queue_len,
                              const uint8_t *record, size_t record_len) {
    (void)rows, (void)rows_len, (void)words, (void)words_len, (void)counts, (void)session;
    (void)queue, (void)queue_len, (void)record, (void)record_len;
    exit(99);
}
