/* What the parts of the boundary's test share. */
#ifndef BOUNDARY_H
#define BOUNDARY_H

#include <stdbool.h>
#include <stdio.h>
#include <stdlib.h>
#include <string.h>

#include "tarravane.h"

typedef struct tarravane_handler handler;

/* ---- Checks: the first that does not hold ends the test ---- */

void check_at(bool holds, const char *fact, const char *file, int line);
#define CHECK(fact) check_at((fact), #fact, __FILE__, __LINE__)

/* ---- Wires and samples ---- */

/* The same bits in every word. */
struct tarravane_wires wires_of(uint64_t pos, uint64_t neg);

/* Other bits in every word. */
struct tarravane_wires wires_apart(uint64_t pos, uint64_t neg);

extern const struct tarravane_sample at_rest;

/* The alerts' wires, and every other input at rest. */
struct tarravane_sample sample_of(struct tarravane_wires alerts);

/* Alert i at (1,0), the others at (0,1). */
struct tarravane_sample raised(int i);

/* At rest, with the receive pairs that sound receivers send in the coming tick of this state. */
struct tarravane_sample sounding(const handler *h);

/* ---- States and ticks ---- */

/* Byte by byte: there is no padding. */
bool same(const handler *a, const handler *b);

/* The bit of alert i in its word. */
uint64_t bit_of_alert(size_t i);

handler new_handler(size_t n);
int64_t read_of(const handler *h, int number);
int64_t write_of(handler *h, int number, uint32_t value);

/* The two equal writes that a shadowed register takes; answers what the second does. */
int64_t configure(handler *h, int number, uint32_t value);

/* ---- The ping timer ---- */

/* A word that sets a turn: the ticks to its ping less one, and the alert. The top 8 bits count for nothing. */
uint32_t drawing(uint32_t alert, uint32_t ticks);

/* A handler of n alerts whose first turn is to come: alert i is locked and enabled, local alerts 0 and 1 are enabled. */
handler with_timer(size_t n, int i, uint32_t timeout);

/* ---- Stages ---- */

/* A shadowed register: its number, that of the REGWEN that guards it, its bits, and the place of its stage in a state. */
struct shadowed {
    int number, guard, bits;
    size_t offset, bytes;
};

#define SHADOWED (1 + 2 * (TARRAVANE_ALERTS + TARRAVANE_LOCALS) + TARRAVANE_CLASSES * (3 + TARRAVANE_PHASES))

/* All of them. */
const struct shadowed *all_shadowed(void);

/* The code of its stage: 0 for none, else the value plus 1. */
uint64_t stage_of(const handler *h, const struct shadowed *s);
void set_stage(handler *h, const struct shadowed *s, uint64_t code);

/* ---- Boots ---- */

/* The lifecycles; a number from here on is none. */
#define LIFECYCLES 6

/* What a boot writes, in its order: first the shadowed registers, then the locks. */
#define BOOT_SHADOWED (2 * TARRAVANE_ALERTS_BOOT + TARRAVANE_CLASSES * (3 + TARRAVANE_PHASES))
struct boot_entry {
    int number; /* of the register */
    uint32_t value;
};
struct boot_entry boot_entry(int lifecycle, int e);

/* How many entries there are. */
int boot_entries(int lifecycle);

/* The state with the first e entries installed, put into their fields without a tick. */
handler booted(handler h, int lifecycle, int e);

/* ---- Records ---- */

/* The word of a tick says what the tick gave. */
void word_says(uint64_t word, const struct tarravane_answered *t);

/* What a record of the newest edition holds; kind 3 for a malformed one. */
struct access {
    uint8_t kind;
    uint16_t number;
    uint32_t value;
    struct tarravane_sample sample;
};

/* The writer's bytes of one access, or its refusal. */
int64_t written(const struct access *a, uint8_t record[TARRAVANE_RECORD_WIRES]);

/* ---- The parts ---- */

void test_accesses(void);
void test_bytes(void);
void test_links(void);
void test_waves(void);
void test_timer(void);
void test_timer_states(void);
void test_timer_records(void);
void test_senders(void);
void test_line_states(void);
void test_line_receivers(void);
void test_line_records(void);
void test_states(void);
void test_stages(void);
void test_threshold(void);
void test_boot(void);
void test_boot_stops(void);
void test_writer(void);
void test_calm(void);
void test_dump(void);
void test_trace(const char *trace, const char *printed);

#endif
