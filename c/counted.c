/*
 * Counts the calls that the command makes while it runs a sheet, for a test that
 * a run by stretches takes few calls however many slots it has. Link it with the
 * command and the archive by -Wl,--wrap=jb_slot,--wrap=jb_forward. When the
 * program ends it writes both counts to standard error.
 */
#include "jasminebrace.h"

#include <stdio.h>
#include <stdlib.h>

uint32_t __real_jb_slot(const uint32_t table[388], const uint8_t order[64], uint32_t state[193], uint32_t supply, uint32_t *row);
uint32_t __real_jb_forward(const uint32_t table[388], const uint8_t order[64], uint32_t state[193], const uint32_t *supplies,
                           size_t count, uint32_t *worked);
uint32_t __wrap_jb_slot(const uint32_t table[388], const uint8_t order[64], uint32_t state[193], uint32_t supply, uint32_t *row);
uint32_t __wrap_jb_forward(const uint32_t table[388], const uint8_t order[64], uint32_t state[193], const uint32_t *supplies,
                           size_t count, uint32_t *worked);

static unsigned long slot_calls;
static unsigned long forward_calls;
static unsigned long forward_slots; /* slots that all these calls worked, tried ones too */

static void say_counts(void) {
    fprintf(stderr, "slot %lu forward %lu slots %lu\n", slot_calls, forward_calls, forward_slots);
}

__attribute__((constructor)) static void begin(void) {
    atexit(say_counts);
}

uint32_t __wrap_jb_slot(const uint32_t table[388], const uint8_t order[64], uint32_t state[193], uint32_t supply, uint32_t *row) {
    slot_calls++;
    return __real_jb_slot(table, order, state, supply, row);
}

uint32_t __wrap_jb_forward(const uint32_t table[388], const uint8_t order[64], uint32_t state[193], const uint32_t *supplies,
                           size_t count, uint32_t *worked) {
    const uint32_t number = __real_jb_forward(table, order, state, supplies, count, worked);
    forward_calls++;
    forward_slots += *worked;
    return number;
}
