/* The ping timer in records of 75 bytes: what is written is read back tick by tick, word, answers and receive pairs where they
 * stand; and that older records reach none of its registers. */
#include "boundary.h"

#define TICKS 4000

static uint64_t next_random(void) {
    static uint64_t seed = 0x9E3779B97F4A7C15u;
    seed ^= seed << 13;
    seed ^= seed >> 7;
    return seed ^= seed << 17;
}

/* A tick of a timer that is on: short waits, alerts below 4 and others, right answers mostly and others, rises, and
 * accesses to the timer's registers and to the locks and enables of the first alerts. */
static struct access some_access(const handler *h) {
    static const uint16_t numbers[] = {4, 5, 5, 5, 6, 6, 256, 257, 512, 512, 513, 40, 41};
    struct access a = {.sample = at_rest};
    uint64_t bits = next_random();
    a.kind = bits % 4 == 0 ? TARRAVANE_WRITE : bits % 4 == 1 ? TARRAVANE_READ : TARRAVANE_NONE;
    if (a.kind != TARRAVANE_NONE) a.number = numbers[(bits >> 8) % (sizeof numbers / sizeof *numbers)];
    if (a.kind == TARRAVANE_WRITE) a.value = a.number == 4 ? 1 : a.number == 5 ? 3 : (uint32_t)(bits >> 20 & 1);
    if (bits >> 21 & 1) a.sample = raised((int)(bits >> 22 & 3));
    a.sample.word = drawing((uint32_t)(bits >> 24 & 3) * (bits >> 26 & 1 ? 1 : 83), (uint32_t)(bits >> 27 & 3));
    a.sample.receive_positive = sounding(h).receive_positive;
    a.sample.receive_negative = sounding(h).receive_negative;
    if ((bits >> 30 & 31) == 0) a.sample.receive_positive = (uint16_t)(bits >> 40);
    if ((bits >> 35 & 31) == 0) a.sample.receive_negative = (uint16_t)(bits >> 48);
    return a;
}

static uint64_t pings[2]; /* opened, of alerts and of lines */

static void count_pings(const handler *before, const handler *after) {
    uint64_t levels = before->links.receivers.level[0] ^ after->links.receivers.level[0];
    pings[0] += levels != 0;
    pings[1] += (after->links.lines & ~before->links.lines & 15) != 0;
}

/* All ticks in one batch, and one by one: the same words and the same state. */
static void both_ways(size_t n) {
    static uint8_t records[TICKS * TARRAVANE_RECORD_WIRES];
    static uint64_t words[TICKS];
    static struct tarravane_answered given[TICKS];
    handler h = with_timer(n, 0, 3), first;
    for (int j = 0; j < 2; j++) h.classes[j].ctrl = 0x393D;
    h.locals.class_of[1] = 1;
    h.locals.en[3] = 1;
    first = h;
    for (size_t i = 0; i < TICKS; i++) {
        struct access a = some_access(&h);
        CHECK(written(&a, records + i * TARRAVANE_RECORD_WIRES) == TARRAVANE_RECORD_WIRES);
        given[i] = tarravane_tick(h, a.kind, a.number, a.value, a.sample);
        count_pings(&h, &given[i].handler);
        h = given[i].handler;
    }
    struct tarravane_batched b = tarravane_batch_wires(first, records, sizeof records, words, TICKS);
    CHECK(b.answer == 0);
    for (size_t i = 0; i < TICKS; i++) word_says(words[i], &given[i]);
    CHECK(same(&h, &b.handler));
}

/* One record by its bytes: after the wires the word, most significant byte first, and a byte whose bit 3 is line 0's answer. */
static void by_bytes(void) {
    uint8_t record[TARRAVANE_RECORD_PINGS] = {0};
    uint64_t word;
    handler h = with_timer(1, 0, 0);
    memset(record + 39, 0xFF, 31);
    record[0] = 0x80; /* a write of 1 to 6 */
    record[1] = 6 << 3;
    record[7] = 1;
    record[70] = 0xFF;
    record[71] = 0x21;
    record[72] = 0x43;
    record[73] = 0x65;
    struct tarravane_batched b = tarravane_batch_pings(h, record, sizeof record, &word, 1);
    CHECK(b.answer == 0 && word == 0 && b.handler.timer.enable == 1);
    CHECK(b.handler.links.turn.alert == 0x21 && b.handler.links.turn.count == 0x4365);
    memset(record, 0, 8);
    for (unsigned e = 0; e < TARRAVANE_LINES; e++)
        for (unsigned byte = 0; byte < 256; byte++) {
            handler open = b.handler;
            open.links.turn = (struct tarravane_turn){(uint8_t)(2 * e + 1), 0, 5};
            open.links.lines = 1u << e;
            record[74] = (uint8_t)byte;
            struct tarravane_batched c = tarravane_batch_pings(open, record, sizeof record, &word, 1);
            bool answered = byte >> (3 - e) & 1;
            /* A zero bit that is not 0 makes the record malformed; word and answers count all the same. */
            CHECK(c.answer == 0 && TARRAVANE_WORD_REFUSAL(word) == (byte > 15 ? TARRAVANE_BAD_RECORD : 0));
            CHECK(c.handler.links.lines == (answered ? 0 : open.links.lines));
            CHECK(c.handler.links.turn.count == (answered ? 0x4365 : 6));
        }
}

/* 4, 5 and 6 are unassigned in older records, read or written. */
static void older_records(void) {
    for (unsigned number = 4; number <= 6; number++)
        for (unsigned kind = 1; kind <= 2; kind++) {
            uint8_t newer[TARRAVANE_RECORD_70] = {(uint8_t)(kind << 6), (uint8_t)(number << 3)};
            uint8_t older[TARRAVANE_RECORD_24] = {(uint8_t)(kind << 6), (uint8_t)(number << 4)};
            uint64_t words[2];
            handler h = new_handler(1);
            memset(newer + 39, 0xFF, 31);
            memset(older + 16, 0xFF, 8);
            struct tarravane_batched b = tarravane_batch_70(h, newer, sizeof newer, words, 1);
            CHECK(b.answer == 0 && same(&b.handler, &h));
            b = tarravane_batch_24(h, older, sizeof older, words + 1, 1);
            CHECK(b.answer == 0 && same(&b.handler, &h));
            for (int i = 0; i < 2; i++) CHECK(TARRAVANE_WORD_REFUSAL(words[i]) == TARRAVANE_NO_REGISTER);
        }
}

void test_timer_records(void) {
    static const size_t counts[] = {1, 2, 4, 64, 248};
    for (size_t c = 0; c < sizeof counts / sizeof *counts; c++) both_ways(counts[c]);
    CHECK(pings[0] > 100 && pings[1] > 100);
    by_bytes();
    older_records();
}
