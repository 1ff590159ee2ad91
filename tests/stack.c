/* How much stack a call of the library takes. Each call is made on a stack of its own that was filled with a pattern; the
 * lowest byte that lost it, seen from the caller's frame, is how deep the call went. Prints the most that the function took. */
#define _GNU_SOURCE
#include "tarravane.h"
#include <stdbool.h>
#include <stdio.h>
#include <stdlib.h>
#include <string.h>
#include <ucontext.h>

#define STACK ((size_t)1 << 17)
#define SPARE 4096 /* bytes at the end that no call may reach */
#define PATTERN 0xA5
#define RECORDS 300

static unsigned char *stack;
static unsigned char *frame; /* the caller's, noted before its call */
static uint8_t bytes[RECORDS * TARRAVANE_RECORD_WIRES];
static uint64_t words[RECORDS];

/* What a call is given. */
static struct tarravane_handler state;
static uint8_t kinds[RECORDS];
static uint16_t registers[RECORDS];
static uint32_t values[RECORDS];
static uint64_t positive[RECORDS * TARRAVANE_WORDS], negative[RECORDS * TARRAVANE_WORDS];
static uint32_t entropy[RECORDS];
static uint8_t receive_positive[RECORDS];
static uint8_t receive_negative[RECORDS];
static struct tarravane_sample sample = TARRAVANE_SAMPLE_AT_REST;
static size_t entries;
static int64_t recorded; /* what the writer answered */
static struct tarravane_heard heard;
static struct tarravane_listened listened;
static int64_t dumped; /* what the writer of dumps answered */
static struct tarravane_content content;

/* A call that is measured: what makes its bytes, the most alerts, and whether it runs where the ping timer is on. */
struct call {
    const char *name;
    void (*call)(void);
    void (*pack)(void);
    size_t alerts;
    bool timer;
};

/* A call takes its argument of 2072 bytes and its result from the caller's frame: both are counted. */
#define NOTE_FRAME() frame = __builtin_frame_address(0)

static void call_new(void)
{
    NOTE_FRAME();
    state = tarravane_new(entries).handler;
}

static void call_tick(void)
{
    NOTE_FRAME();
    state = tarravane_tick(state, kinds[0], registers[0], values[0], sample).handler;
}

static void call_hear(void)
{
    NOTE_FRAME();
    heard = tarravane_hear(state, kinds[0], registers[0], values[0], sample);
}

static void call_batch_24(void)
{
    NOTE_FRAME();
    state = tarravane_batch_24(state, bytes, entries * TARRAVANE_RECORD_24, words, RECORDS).handler;
}

static void call_batch_70(void)
{
    NOTE_FRAME();
    state = tarravane_batch_70(state, bytes, entries * TARRAVANE_RECORD_70, words, RECORDS).handler;
}

static void call_batch_pings(void)
{
    NOTE_FRAME();
    state = tarravane_batch_pings(state, bytes, entries * TARRAVANE_RECORD_PINGS, words, RECORDS).handler;
}

static void call_batch_wires(void)
{
    NOTE_FRAME();
    state = tarravane_batch_wires(state, bytes, entries * TARRAVANE_RECORD_WIRES, words, RECORDS).handler;
}

static void call_receive(void)
{
    NOTE_FRAME();
    listened = tarravane_receive(listened.receivers, sample.receive_positive, sample.receive_negative);
}

static void call_record(void)
{
    NOTE_FRAME();
    size_t wire_words = entries * TARRAVANE_WORDS;
    recorded = tarravane_record(kinds, entries, registers, entries, values, entries, positive, wire_words, negative,
                                wire_words, entropy, entries, receive_positive, entries, receive_negative, entries, bytes,
                                sizeof bytes);
}

static void call_install(void)
{
    NOTE_FRAME();
    state = tarravane_install(state, (uint8_t)(entries % 8)).handler;
}

static void call_calm(void)
{
    NOTE_FRAME();
    state = tarravane_calm(state, sample.alerts, values[0], words, RECORDS).handler;
}

static void call_dump(void)
{
    NOTE_FRAME();
    dumped = tarravane_dump(state, bytes, sizeof bytes);
}

static void call_read_dump(void)
{
    NOTE_FRAME();
    content = tarravane_read_dump(bytes, dumped < 0 ? 0 : (size_t)dumped);
}

static const unsigned char *lowest_changed(void)
{
    size_t low = 0;
    while (low < STACK && stack[low] == PATTERN)
        low++;
    if (low < SPARE) {
        fputs("stack: a call takes more than the stack that it is measured on\n", stderr);
        exit(1);
    }
    return stack + low;
}

/* The bytes below the caller's frame that the call changed. */
static size_t depth_of(void (*call)(void))
{
    ucontext_t here, there;
    memset(stack, PATTERN, STACK);
    if (getcontext(&there) != 0) {
        perror("stack");
        exit(1);
    }
    there.uc_stack.ss_sp = stack;
    there.uc_stack.ss_size = STACK;
    there.uc_link = &here;
    makecontext(&there, call, 0);
    swapcontext(&here, &there);
    return (size_t)(frame - lowest_changed());
}

static uint64_t next_random(void)
{
    static uint64_t seed = 88172645463325252u;
    seed ^= seed << 13;
    seed ^= seed >> 7;
    seed ^= seed << 17;
    return seed;
}

/* A value that fits few bits half of the time, so that registers of one bit take it. */
static uint32_t draw_value(void)
{
    uint64_t bits = next_random();
    return (uint32_t)(bits % 2 == 0 ? bits >> 62 : bits >> (next_random() % 64));
}

/* Accesses of every kind to every register, a quarter of them to the register before, so that stages commit and differ; wires
 * that move; and words of short waits, with receive pairs. */
static void draw_input(void)
{
    entries = next_random() % (RECORDS + 1);
    for (size_t i = 0; i < RECORDS; i++) {
        kinds[i] = (uint8_t)(next_random() % 3);
        registers[i] = kinds[i] == TARRAVANE_NONE ? 0 : (uint16_t)(next_random() % (next_random() % 8 == 0 ? 8 : 1536));
        values[i] = kinds[i] == TARRAVANE_WRITE ? draw_value() : 0;
        if (i > 0 && kinds[i - 1] == TARRAVANE_WRITE && next_random() % 4 == 0) {
            kinds[i] = TARRAVANE_WRITE;
            registers[i] = registers[i - 1];
            values[i] = values[i - 1] ^ (uint32_t)(next_random() % 2);
        }
    }
    for (size_t i = 0; i < RECORDS * TARRAVANE_WORDS; i++) {
        positive[i] = next_random();
        negative[i] = ~positive[i] ^ (next_random() & next_random() & next_random());
    }
    memcpy(sample.alerts.pos, positive, sizeof sample.alerts.pos);
    memcpy(sample.alerts.neg, negative, sizeof sample.alerts.neg);
    for (size_t i = 0; i < RECORDS; i++) {
        entropy[i] = (uint32_t)next_random() & 0xFFFF0003u;
        receive_positive[i] = (uint8_t)next_random();
        receive_negative[i] = (uint8_t)~receive_positive[i];
    }
    sample.word = entropy[0];
    sample.receive_positive = receive_positive[0];
    sample.receive_negative = receive_negative[0];
}

/* A state of up to so many alerts, in every second round with the access made before, so that a write finds its stage; where
 * the call can meet a timer that is on, it is on in every third, with a ping that is due; in the first round one of zeros, as
 * making one binds memcpy. */
static void draw_state(int round, const struct call *c)
{
    if (round == 0)
        return;
    state = tarravane_new(1 + next_random() % c->alerts).handler;
    if (c->timer && round % 3 == 0) {
        state.timer.enable = 1;
        state.timer.timeout = 1;
        state.links.turn.number = (uint8_t)next_random();
        state.alerts.en[0] = 1;
        state.alerts.regwen[0] = 0;
    }
    if (round % 2 == 1)
        state = tarravane_tick(state, kinds[0], registers[0], values[0] ^ (uint32_t)(next_random() % 2), sample).handler;
}

/* Records of 70 bytes: those that the library writes, without what is behind the wires. */
static void pack_70(void)
{
    call_record();
    for (size_t i = 1; i < entries; i++)
        memmove(bytes + i * TARRAVANE_RECORD_70, bytes + i * TARRAVANE_RECORD_WIRES, TARRAVANE_RECORD_70);
}

/* Records of 254: those that the library writes, with answers where the pairs stand. */
static void pack_pings(void)
{
    call_record();
    for (size_t i = 0; i < entries; i++)
        bytes[i * TARRAVANE_RECORD_PINGS + TARRAVANE_RECORD_PINGS - 1] &= 15;
}

/* Records of 24 bytes of the accesses, with document 01's numbers. */
static void pack_24(void)
{
    memset(bytes, 0, sizeof bytes);
    for (size_t i = 0; i < entries; i++) {
        uint8_t *at = bytes + i * TARRAVANE_RECORD_24;
        uint32_t head = (uint32_t)kinds[i] << 30 | (uint32_t)(registers[i] % 384) << 20;
        for (int b = 0; b < 4; b++) {
            at[b] = (uint8_t)(head >> (24 - 8 * b));
            at[4 + b] = (uint8_t)(values[i] >> (24 - 8 * b));
        }
        memcpy(at + 8, &positive[i], 8);
        memcpy(at + 16, &negative[i], 8);
    }
}

/* Classes in every state, all alerts and local alert 2 enabled, and as many ticks as any 32 bits say. */
static void run_classes(void)
{
    static const uint32_t states[] = {TARRAVANE_IDLE, TARRAVANE_TIMEOUT, TARRAVANE_TERMINAL, TARRAVANE_PHASE(0),
                                      TARRAVANE_PHASE(1), TARRAVANE_PHASE(2), TARRAVANE_PHASE(3)};
    for (int k = 0; k < TARRAVANE_CLASSES; k++) {
        struct tarravane_class *c = &state.classes[k];
        c->ctrl = 0x393D;
        c->state = states[next_random() % 7];
        c->count = c->state == TARRAVANE_IDLE || c->state == TARRAVANE_TERMINAL ? 0 : 1;
        c->thresh = (uint16_t)next_random();
        c->timeout = draw_value();
        for (int p = 0; p < TARRAVANE_PHASES; p++)
            c->lengths[p] = draw_value();
    }
    memset(state.alerts.en, 1, sizeof state.alerts.en);
    state.locals.en[2] = 1;
    state.interrupts.state = next_random() % 16;
    values[0] = draw_value();
}

static const struct call calls[] = {
    {"tarravane_new", call_new, call_record, TARRAVANE_ALERTS, true},
    {"tarravane_tick", call_tick, call_record, TARRAVANE_ALERTS, true},
    {"tarravane_hear", call_hear, call_record, TARRAVANE_ALERTS, true},
    {"tarravane_batch_24", call_batch_24, pack_24, TARRAVANE_ALERTS_24, false},
    {"tarravane_batch_70", call_batch_70, pack_70, TARRAVANE_ALERTS, false},
    {"tarravane_batch_pings", call_batch_pings, pack_pings, TARRAVANE_ALERTS, true},
    {"tarravane_batch_wires", call_batch_wires, call_record, TARRAVANE_ALERTS, true},
    {"tarravane_receive", call_receive, call_record, TARRAVANE_ALERTS, true},
    {"tarravane_record", call_record, call_record, TARRAVANE_ALERTS, true},
    {"tarravane_install", call_install, call_record, TARRAVANE_ALERTS, true},
    {"tarravane_calm", call_calm, run_classes, TARRAVANE_ALERTS, false},
    {"tarravane_dump", call_dump, call_record, TARRAVANE_ALERTS, true},
    {"tarravane_read_dump", call_read_dump, call_dump, TARRAVANE_ALERTS, true},
};

static size_t most_of(const struct call *c)
{
    size_t most = 0;
    for (int round = 0; round < 200; round++) {
        draw_input();
        draw_state(round, c);
        c->pack();
        size_t depth = depth_of(c->call);
        if (depth > most)
            most = depth;
    }
    return most;
}

int main(int count, char **words_given)
{
    stack = aligned_alloc(4096, STACK);
    if (stack == NULL || count != 2)
        return 2;
    for (size_t i = 0; i < sizeof calls / sizeof calls[0]; i++) {
        if (strcmp(calls[i].name, words_given[1]) == 0) {
            printf("%zu\n", most_of(&calls[i]));
            return 0;
        }
    }
    return 2;
}
