/* Making, each field by the register of its name, the wires of each alert, and the answers of an access. */
#include "boundary.h"

/* ---- Each field stands where the register of its name reads and writes it ---- */

/* Receivers in every place; the turn's ping is open, and beside it what is no alert's and no line's. */
static void links_told_apart(handler *h) {
    for (unsigned v = 0; v < TARRAVANE_WORDS; v++) {
        h->links.receivers.pausing[v] = UINT64_C(0x0123456789ABCDEF) * (v + 1);
        h->links.receivers.busy[v] = UINT64_C(0x13579BDF02468ACE) * (v + 1);
        h->links.receivers.level[v] = UINT64_C(0xFEDCBA9876543210) * (v + 1);
    }
    h->links.turn = (struct tarravane_turn){0x12, 77, 0x3456};
    h->links.receivers.pending[1] = bit_of_alert(77);
    h->links.receivers.pending[3] = 0xA5;
    h->links.lines = 0x87654320u;
    h->timer = (struct tarravane_timer){0xBEEF, 0, 1};
}

static handler told_apart(void) {
    handler h = new_handler(TARRAVANE_ALERTS);
    for (unsigned i = 0; i < TARRAVANE_ALERTS; i++) {
        h.alerts.regwen[i] = i % 2;
        h.alerts.en[i] = i / 2 % 2;
        h.alerts.class_of[i] = i / 4 % 4;
        h.alerts.cause[i] = i / 16 % 2;
    }
    for (unsigned j = 0; j < TARRAVANE_LOCALS; j++) {
        h.locals.regwen[j] = j % 2;
        h.locals.en[j] = j / 2 % 2;
        h.locals.class_of[j] = 3 - j % 4;
        h.locals.cause[j] = j / 4;
    }
    for (unsigned k = 0; k < 4; k++) {
        struct tarravane_class *c = &h.classes[k];
        for (unsigned p = 0; p < 4; p++) c->lengths[p] = 0x10203040u * (k + 1) + 0x01010101u * p;
        c->timeout = 0x0F1E2D3Cu + k;
        c->count = 0x11223344u + k;
        c->ctrl = (uint16_t)(0x1234 + k);
        c->accum = (uint16_t)(0xABC0 + k);
        c->thresh = (uint16_t)(0x5670 + k);
        c->regwen = k % 2;
        c->clrwen = k / 2;
        c->state = (uint8_t)TARRAVANE_PHASE(k);
    }
    h.interrupts.state = 0x6;
    h.interrupts.enable = 0xD;
    links_told_apart(&h);
    /* The largest value staged, which no read shows. */
    for (int i = 0; i < SHADOWED; i++) set_stage(&h, &all_shadowed()[i], UINT64_C(1) << all_shadowed()[i].bits);
    return h;
}

static void fields_of_a_class(const handler *h, int k) {
    const struct tarravane_class *c = &h->classes[k];
    CHECK(read_of(h, TARRAVANE_CLASS_REGWEN(k)) == c->regwen);
    CHECK(read_of(h, TARRAVANE_CLASS_CTRL(k)) == c->ctrl);
    CHECK(read_of(h, TARRAVANE_CLASS_CLR_REGWEN(k)) == c->clrwen);
    CHECK(read_of(h, TARRAVANE_CLASS_CLR(k)) == -TARRAVANE_WRONG_WAY);
    CHECK(read_of(h, TARRAVANE_CLASS_ACCUM_CNT(k)) == c->accum);
    CHECK(read_of(h, TARRAVANE_CLASS_ACCUM_THRESH(k)) == c->thresh);
    CHECK(read_of(h, TARRAVANE_CLASS_TIMEOUT_CYC(k)) == c->timeout);
    for (int p = 0; p < 4; p++) CHECK(read_of(h, TARRAVANE_CLASS_PHASE_CYC(k, p)) == c->lengths[p]);
    CHECK(read_of(h, TARRAVANE_CLASS_ESC_CNT(k)) == c->count);
    CHECK(read_of(h, TARRAVANE_CLASS_STATE(k)) == c->state);
    CHECK(read_of(h, TARRAVANE_CLASS_STATE(k) + 1) == -TARRAVANE_NO_REGISTER);
}

static void fields(void) {
    handler h = told_apart();
    for (int i = 0; i < TARRAVANE_ALERTS; i++) {
        CHECK(read_of(&h, TARRAVANE_ALERT_REGWEN(i)) == h.alerts.regwen[i]);
        CHECK(read_of(&h, TARRAVANE_ALERT_EN(i)) == h.alerts.en[i]);
        CHECK(read_of(&h, TARRAVANE_ALERT_CLASS(i)) == h.alerts.class_of[i]);
        CHECK(read_of(&h, TARRAVANE_ALERT_CAUSE(i)) == h.alerts.cause[i]);
    }
    for (int j = 0; j < TARRAVANE_LOCALS; j++) {
        CHECK(read_of(&h, TARRAVANE_LOC_ALERT_REGWEN(j)) == h.locals.regwen[j]);
        CHECK(read_of(&h, TARRAVANE_LOC_ALERT_EN(j)) == h.locals.en[j]);
        CHECK(read_of(&h, TARRAVANE_LOC_ALERT_CLASS(j)) == h.locals.class_of[j]);
        CHECK(read_of(&h, TARRAVANE_LOC_ALERT_CAUSE(j)) == h.locals.cause[j]);
    }
    for (int k = 0; k < 4; k++) fields_of_a_class(&h, k);
    CHECK(read_of(&h, TARRAVANE_INTR_STATE) == h.interrupts.state);
    CHECK(read_of(&h, TARRAVANE_INTR_ENABLE) == h.interrupts.enable);
    CHECK(read_of(&h, TARRAVANE_INTR_TEST) == -TARRAVANE_WRONG_WAY);
    CHECK(read_of(&h, TARRAVANE_PING_TIMER_REGWEN) == h.timer.regwen);
    CHECK(read_of(&h, TARRAVANE_PING_TIMEOUT_CYC) == h.timer.timeout);
    CHECK(read_of(&h, TARRAVANE_PING_TIMER_EN) == h.timer.enable);
    struct tarravane_answered t = tarravane_tick(h, TARRAVANE_NONE, 0, 0, at_rest);
    CHECK(t.handler.links.lines == h.links.lines && t.handler.links.turn.count == h.links.turn.count + 1);
}

/* How a register is written: once, or where it is shadowed by `configure`. */
typedef int64_t writing(handler *, int, uint32_t);

/* A write to an alert's register changes its entry, is read there, and changes nothing else. */
static void entry_of(writing *by, int number, size_t offset, uint8_t before, uint8_t value, uint8_t after) {
    handler h = new_handler(TARRAVANE_ALERTS);
    uint8_t *entry = (uint8_t *)&h.alerts + offset;
    *entry = before;
    handler wanted = h;
    CHECK(by(&h, number, value) == 0);
    ((uint8_t *)&wanted.alerts)[offset] = after;
    CHECK(same(&h, &wanted));
    CHECK(read_of(&h, number) == after);
}

static void entries(void) {
    for (size_t i = 0; i < TARRAVANE_ALERTS; i++) {
        int at = (int)i;
        entry_of(write_of, TARRAVANE_ALERT_REGWEN(at), offsetof(struct tarravane_alerts, regwen) + i, 1, 0, 0);
        entry_of(configure, TARRAVANE_ALERT_EN(at), offsetof(struct tarravane_alerts, en) + i, 0, 1, 1);
        entry_of(configure, TARRAVANE_ALERT_CLASS(at), offsetof(struct tarravane_alerts, class_of) + i, 0, 3, 3);
        entry_of(write_of, TARRAVANE_ALERT_CAUSE(at), offsetof(struct tarravane_alerts, cause) + i, 1, 1, 0);
    }
}

/* Alert i's wires and its receiver stand at its place: an event of each alert that is ready, enabled and without an open ping,
 * and of no other. The last places of the last word are no alert's, and stay. */
static void wires(void) {
    handler h = told_apart();
    const struct tarravane_receivers *r = &h.links.receivers;
    memset(h.alerts.cause, 0, sizeof h.alerts.cause);
    for (int i = 0; i < TARRAVANE_ALERTS; i++) {
        int w = i / 64;
        uint64_t one = UINT64_C(1) << (63 - i % 64);
        struct tarravane_answered t = tarravane_tick(h, TARRAVANE_NONE, 0, 0, raised(i));
        bool event = ((r->pausing[w] | r->busy[w] | r->pending[w]) & one) == 0 && h.alerts.en[i] == 1;
        for (int m = 0; m < TARRAVANE_ALERTS; m++) CHECK(t.handler.alerts.cause[m] == (m == i && event));
        const struct tarravane_receivers *after = &t.handler.links.receivers;
        CHECK((after->pausing[3] & 255) == (r->pausing[3] & 255) && (after->busy[3] & 255) == (r->busy[3] & 255));
        CHECK((after->level[3] & 255) == (r->level[3] & 255) && (after->pending[3] & 255) == (r->pending[3] & 255));
    }
}

/* ---- Making, and the answers of an access ---- */

static void making(void) {
    static const size_t bad[] = {0, 249, 256, (size_t)1 << 32, SIZE_MAX};
    for (size_t n = 1; n <= TARRAVANE_ALERTS; n++) {
        handler h = new_handler(n);
        for (int k = 0; k < 4; k++) CHECK(read_of(&h, TARRAVANE_CLASS_CTRL(k)) == 0x393C);
        CHECK(read_of(&h, TARRAVANE_ALERT_REGWEN((int)n - 1)) == 1);
        CHECK(read_of(&h, TARRAVANE_ALERT_REGWEN((int)n)) == -TARRAVANE_NO_REGISTER);
        for (size_t i = 0; i < TARRAVANE_ALERTS; i++)
            CHECK(h.alerts.regwen[i] == 1 && h.alerts.en[i] + h.alerts.class_of[i] + h.alerts.cause[i] == 0);
        static const struct tarravane_links ready;
        CHECK(memcmp(&h.links, &ready, sizeof ready) == 0);
        CHECK(h.timer.timeout == 0 && h.timer.regwen == 1 && h.timer.enable == 0);
        for (int i = 0; i < SHADOWED; i++) CHECK(stage_of(&h, &all_shadowed()[i]) == 0);
    }
    handler none = new_handler(1);
    none.n = 0;
    for (size_t i = 0; i < sizeof bad / sizeof *bad; i++) {
        struct tarravane_made m = tarravane_new(bad[i]);
        CHECK(m.answer == -TARRAVANE_BAD_COUNT);
        CHECK(same(&m.handler, &none));
    }
}

static void answers(void) {
    static const int none[] = {3, 7, 15, 255, 257, 504, 1025, 1279, 1293, 1344, 2047, 2048, 65535};
    handler h = new_handler(1);
    CHECK(configure(&h, TARRAVANE_CLASS_TIMEOUT_CYC(3), UINT32_MAX) == 0);
    CHECK(read_of(&h, TARRAVANE_CLASS_TIMEOUT_CYC(3)) == INT64_C(4294967295));
    CHECK(configure(&h, TARRAVANE_CLASS_ACCUM_THRESH(0), 65535) == 0);
    CHECK(write_of(&h, TARRAVANE_CLASS_ACCUM_THRESH(0), 65536) == -TARRAVANE_TOO_WIDE);
    CHECK(read_of(&h, TARRAVANE_CLASS_ACCUM_THRESH(0)) == 65535);
    CHECK(write_of(&h, TARRAVANE_CLASS_REGWEN(0), 0) == 0);
    CHECK(write_of(&h, TARRAVANE_CLASS_CTRL(0), 1) == -TARRAVANE_LOCKED);
    CHECK(write_of(&h, TARRAVANE_CLASS_ACCUM_CNT(0), 0) == -TARRAVANE_WRONG_WAY);
    for (size_t i = 0; i < sizeof none / sizeof *none; i++) CHECK(write_of(&h, none[i], 0) == -TARRAVANE_NO_REGISTER);
    CHECK(configure(&h, TARRAVANE_ALERT_EN(0), 1) == 0);
    struct tarravane_sample all_raised = sample_of(wires_of(UINT64_MAX, 0));
    for (unsigned kind = 3; kind < 256; kind++) {
        struct tarravane_answered t = tarravane_tick(h, (uint8_t)kind, TARRAVANE_CLASS_CTRL(1), 1, all_raised);
        CHECK(t.answer == -TARRAVANE_BAD_RECORD);
        CHECK(t.handler.alerts.cause[0] == 1); /* the tick runs */
        CHECK(t.handler.classes[1].ctrl == 0x393C);
    }
    CHECK(tarravane_tick(h, TARRAVANE_NONE, 2047, 9, at_rest).answer == 0);
    CHECK(tarravane_tick(h, TARRAVANE_READ, TARRAVANE_CLASS_CTRL(1), 9, at_rest).answer == 0x393C);
}

void test_accesses(void) {
    making();
    answers();
    fields();
    entries();
    wires();
}
