/*
 * The open batch's test of the state, and an addition, written by hand in C for speed: the measure of the library's,
 * and a second opinion on its answers. Nothing here is proved.
 */
#ifndef REPLAY_H
#define REPLAY_H

#include "fuganorezi.h" /* for the types alone */

/* What each call but opening looks at first: 235, 238, 237 or, where the batch may be worked on, 0. */
uint32_t replay_state_check(const uint8_t *file, size_t file_length, const uint8_t *journal, size_t journal_length,
                            fuganorezi_counts counts, const uint32_t *table, size_t entries);

/* As fuganorezi_batch_add. */
fuganorezi_outcome replay_batch_add(uint8_t *file, size_t file_length, uint8_t *journal, size_t journal_length,
                                    fuganorezi_counts counts, const uint8_t *record, size_t length,
                                    const uint32_t *table, size_t entries);

#endif
