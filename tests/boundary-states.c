/* Refusal 7: each damaged field gets it, by a tick and by a batch; entries at N and above are not looked at. */
#include "boundary.h"

/* No interrupt and no line is on, and all pairs are (0,1). */
#define LOW {{0, 0, 0, 0}, {UINT64_MAX, UINT64_MAX, UINT64_MAX, UINT64_MAX}}
static const struct tarravane_output nothing = {0, 0, LOW, LOW, {0, 15}};

static void refused(const handler *h) {
    static const uint8_t record[TARRAVANE_RECORD_WIRES];
    uint64_t word = 7;
    struct tarravane_answered t = tarravane_tick(*h, TARRAVANE_READ, TARRAVANE_INTR_STATE, 0, at_rest);
    CHECK(t.answer == -TARRAVANE_BAD_STATE);
    CHECK(memcmp(&t.output, &nothing, sizeof nothing) == 0);
    CHECK(same(&t.handler, h));
    /* 7 comes before 8, 8 before 9 */
    struct tarravane_batched b = tarravane_batch_pings(*h, record, TARRAVANE_RECORD_PINGS - 1, &word, 0);
    CHECK(b.answer == -TARRAVANE_BAD_STATE);
    CHECK(same(&b.handler, h));
    b = tarravane_batch_wires(*h, record, TARRAVANE_RECORD_WIRES - 1, &word, 0);
    CHECK(b.answer == -TARRAVANE_BAD_STATE);
    CHECK(same(&b.handler, h));
    b = tarravane_batch_70(*h, record, TARRAVANE_RECORD_70 - 1, &word, 0);
    CHECK(b.answer == -TARRAVANE_BAD_STATE);
    CHECK(same(&b.handler, h));
    b = tarravane_batch_24(*h, record, TARRAVANE_RECORD_24 - 1, &word, 0);
    CHECK(b.answer == -TARRAVANE_BAD_STATE);
    CHECK(same(&b.handler, h));
    CHECK(word == 7);
}

static void accepted(const handler *h) {
    CHECK(tarravane_tick(*h, TARRAVANE_NONE, 0, 0, at_rest).answer == 0);
}

/* A register of few bits in 16: each bit above them is refused, what fits is not. */
static void narrow_16(handler *h, uint16_t *field, int bits) {
    uint16_t old = *field;
    for (int b = 0; b < 16; b++) {
        *field = (uint16_t)(old | 1u << b);
        if (b < bits) accepted(h);
        else refused(h);
    }
    *field = old;
}

/* A register of 8 bits that fits its first `bits`: each bit above them is refused, what fits is not. */
static void narrow(handler *h, uint8_t *field, int bits) {
    uint8_t old = *field;
    for (int b = 0; b < 8; b++) {
        *field = (uint8_t)(old | 1u << b);
        if (b < bits) accepted(h);
        else refused(h);
    }
    *field = old;
}

static void damage_columns(handler *h, uint8_t *regwen, uint8_t *en, uint8_t *class_of, uint8_t *cause, size_t entries) {
    for (size_t i = 0; i < entries; i++) {
        narrow(h, &regwen[i], 1);
        narrow(h, &en[i], 1);
        narrow(h, &class_of[i], 2);
        narrow(h, &cause[i], 1);
    }
}

/* STATE's number and ESC_CNT: 2 and what is over 7 is refused, and a count that the state rules out. */
static void damage_place(handler *h, struct tarravane_class *c) {
    struct tarravane_class old = *c;
    for (unsigned state = 0; state < 256; state++) {
        bool still = state == TARRAVANE_IDLE || state == TARRAVANE_TERMINAL;
        bool known = state < 8 && state != 2;
        c->state = state;
        c->count = 0;
        if (known && still) accepted(h);
        else refused(h);
        for (int b = 0; b < 32; b++) {
            c->count = UINT32_C(1) << b;
            if (known && !still) accepted(h);
            else refused(h);
        }
    }
    /* Bits above the 3 of STATE, over a state that its count suits. */
    for (int b = 3; b < 32; b++) {
        c->count = 0;
        c->state = TARRAVANE_IDLE | UINT32_C(1) << b;
        refused(h);
        c->count = 1;
        c->state = TARRAVANE_PHASE(0) | UINT32_C(1) << b;
        refused(h);
    }
    *c = old;
}

static void damage_class(handler *h, struct tarravane_class *c) {
    struct tarravane_class old = *c;
    narrow(h, &c->regwen, 1);
    narrow(h, &c->clrwen, 1);
    for (int b = 0; b < 16; b++) {
        c->ctrl = (uint16_t)(old.ctrl | 1u << b);
        if (b < 14) accepted(h);
        else refused(h);
    }
    *c = old;
    c->accum = c->thresh = UINT16_MAX;
    c->timeout = UINT32_MAX;
    memset(c->lengths, 0xFF, sizeof c->lengths);
    accepted(h);
    *c = old;
    damage_place(h, c);
}

/* A staged value over its field is refused; the largest that fits is not. */
static void damage_stage(handler *h, const struct shadowed *s) {
    uint64_t most = UINT64_C(1) << s->bits;
    for (uint64_t over = 1; over != 0 && over < UINT64_C(1) << (8 * s->bytes - 1); over <<= 1) {
        set_stage(h, s, most + over);
        refused(h);
    }
    set_stage(h, s, UINT64_MAX);
    refused(h);
    set_stage(h, s, most);
    accepted(h);
    set_stage(h, s, 1);
    accepted(h);
    set_stage(h, s, 0);
}

/* The ping timer's registers: the timeout has 16 bits in 32. */
static void damage_timer(handler *h) {
    struct tarravane_timer old = h->timer;
    narrow_16(h, &h->timer.regwen, 1);
    narrow_16(h, &h->timer.enable, 1);
    for (int b = 0; b < 32; b++) {
        h->timer.timeout = UINT32_C(1) << b;
        if (b < 16) accepted(h);
        else refused(h);
    }
    h->timer = old;
}

static void damages(void) {
    static const size_t over[] = {249, 250, 256, (size_t)1 << 32, (size_t)1 << 63, SIZE_MAX};
    handler h = new_handler(TARRAVANE_ALERTS);
    accepted(&h);
    struct tarravane_alerts *a = &h.alerts;
    damage_columns(&h, a->regwen, a->en, a->class_of, a->cause, TARRAVANE_ALERTS);
    struct tarravane_locals *l = &h.locals;
    damage_columns(&h, l->regwen, l->en, l->class_of, l->cause, TARRAVANE_LOCALS);
    for (int k = 0; k < TARRAVANE_CLASSES; k++) damage_class(&h, &h.classes[k]);
    for (int i = 0; i < SHADOWED; i++) damage_stage(&h, &all_shadowed()[i]);
    narrow_16(&h, &h.interrupts.state, 4);
    narrow_16(&h, &h.interrupts.enable, 4);
    damage_timer(&h);
    for (size_t i = 0; i < sizeof over / sizeof *over; i++) {
        h.n = over[i];
        refused(&h);
    }
    h.n = 0;
    accepted(&h);
}

/* Entries and places at N and above are no registers and no wires: not judged, not changed. */
static void entries_above(size_t n) {
    handler h = new_handler(n);
    for (size_t i = n; i < TARRAVANE_ALERTS; i++) {
        h.alerts.regwen[i] = h.alerts.en[i] = h.alerts.class_of[i] = h.alerts.cause[i] = 0xA5;
        h.stages.alerts.en[i] = h.stages.alerts.class_of[i] = 0xA5;
    }
    handler wanted = h;
    for (size_t i = 0; i < n; i++) wanted.links.receivers.busy[i / 64] |= UINT64_C(1) << (63 - i % 64);
    struct tarravane_answered t =
        tarravane_tick(h, TARRAVANE_WRITE, (uint16_t)TARRAVANE_ALERT_EN(n), 1, sample_of(wires_of(UINT64_MAX, 0)));
    CHECK(t.answer == -TARRAVANE_NO_REGISTER);
    CHECK(same(&t.handler, &wanted));
}

/* Every byte of a state crosses. */
static void patterns(void) {
    for (int byte = 0; byte < 256; byte++) {
        handler h;
        memset(&h, byte, sizeof h);
        if (byte == 0) accepted(&h);
        else refused(&h);
        h.n = TARRAVANE_ALERTS;
        if (byte == 0) accepted(&h);
        else refused(&h);
        /* Without stages and open pings of alerts, and with the byte alone where a field is wider than its register: a 1 fits
         * everywhere. Line 0's ping is open then, and it is its turn. */
        memset(&h.stages, 0, sizeof h.stages);
        h.interrupts.state = h.interrupts.enable = (uint16_t)byte;
        h.timer = (struct tarravane_timer){(uint32_t)byte, (uint16_t)byte, (uint16_t)byte};
        memset(h.links.receivers.pending, 0, sizeof h.links.receivers.pending);
        for (int k = 0; k < TARRAVANE_CLASSES; k++) h.classes[k].state = (uint32_t)byte;
        if (byte <= 1) accepted(&h);
        else refused(&h);
    }
    for (unsigned seed = 1; seed < 256; seed++) {
        unsigned char bytes[sizeof(handler)];
        handler h;
        for (size_t i = 0; i < sizeof bytes; i++) bytes[i] = (unsigned char)(i * 37 + i / 251 + seed);
        memcpy(&h, bytes, sizeof h);
        refused(&h);
    }
}

/* An old batch answers 7 to a sound state of more than 64 alerts, before 8 and 9 and with no bytes too. */
static void old_batches(void) {
    static const uint8_t records[2 * TARRAVANE_RECORD_24];
    static const size_t lengths[] = {0, 1, TARRAVANE_RECORD_24, sizeof records};
    for (size_t n = 1; n <= TARRAVANE_ALERTS; n++) {
        handler h = new_handler(n);
        uint64_t word = 7;
        for (size_t i = 0; i < sizeof lengths / sizeof *lengths; i++) {
            int64_t wanted = i == 1 ? -TARRAVANE_BAD_LENGTH : i == 3 ? -TARRAVANE_SHORT_LIST : 0;
            struct tarravane_batched b = tarravane_batch_24(h, records, lengths[i], &word, 1);
            CHECK(b.answer == (n > TARRAVANE_ALERTS_24 ? -TARRAVANE_BAD_STATE : wanted));
            CHECK(b.answer == 0 || same(&b.handler, &h));
            CHECK(word == (b.answer == 0 && lengths[i] > 0 ? 0 : 7));
            word = 7;
        }
        accepted(&h);
        CHECK(tarravane_batch_70(h, records, 0, &word, 0).answer == 0);
        CHECK(tarravane_batch_pings(h, records, 0, &word, 0).answer == 0);
        CHECK(tarravane_batch_wires(h, records, 0, &word, 0).answer == 0);
    }
}

void test_states(void) {
    patterns();
    damages();
    for (size_t n = 1; n < TARRAVANE_ALERTS; n++) entries_above(n);
    old_batches();
}
