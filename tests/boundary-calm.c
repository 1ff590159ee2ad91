/* Calm ticks in one go from C's side, request (xii): beside as many calls of tarravane_tick, and beyond them by numbers that are
 * written out here; the list keeps its later entries, and what is refused changes nothing. */
#include "boundary.h"

#define GUARD 4
#define LIST (TARRAVANE_CHANGES + 1)
#define MOST 4294967295u
#define EACH_LINE 0x393D /* EN and all line enables, line p in phase p */

/* ---- What a call is given and leaves ---- */

/* A list with guards before and behind it. */
struct list {
    uint64_t words[GUARD + LIST + GUARD];
};

static struct list new_list(void) {
    struct list l;
    for (size_t i = 0; i < GUARD + LIST + GUARD; i++) l.words[i] = UINT64_C(0xFEEDFACE00000000) + i;
    return l;
}

static struct tarravane_calmed calm(const handler *h, struct tarravane_wires w, uint32_t ticks, struct list *l) {
    return tarravane_calm(*h, w, ticks, l->words + GUARD, LIST);
}

static uint64_t next_random(void) {
    static uint64_t seed = 0x9E3779B97F4A7C15u;
    seed ^= seed << 13;
    seed ^= seed >> 7;
    seed ^= seed << 17;
    return seed;
}

/* ---- Plain ticks ---- */

/* Tick 0: what the classes of the state drive, and all pairs at (0,1). */
static struct tarravane_calmed before_first(const handler *h) {
    struct tarravane_calmed c = {.handler = *h};
    for (int v = 0; v < TARRAVANE_WORDS; v++) c.output.acknowledge.neg[v] = c.output.ping.neg[v] = UINT64_MAX;
    c.output.escalation.neg = 15;
    c.output.interrupts = h->interrupts.state & h->interrupts.enable;
    for (int k = 0; k < TARRAVANE_CLASSES; k++)
        for (int e = 0; e < TARRAVANE_LINES; e++)
            if (h->classes[k].ctrl >> (2 + e) & 1 && h->classes[k].state == 4u + (h->classes[k].ctrl >> (6 + 2 * e) & 3))
                c.output.lines |= 1u << e;
    return c;
}

/* One more plain tick: no access, the wires, the word 0, and what the senders expect; a word where a line changed. */
static void one_more(struct tarravane_calmed *c, struct tarravane_wires w, uint32_t tick, struct list *l) {
    struct tarravane_sample s = sounding(&c->handler);
    s.alerts = w;
    struct tarravane_answered t = tarravane_tick(c->handler, TARRAVANE_NONE, 0, 0, s);
    CHECK(t.answer == 0);
    if (t.output.lines != c->output.lines) {
        uint64_t word = tick;
        for (int e = 0; e < TARRAVANE_LINES; e++) word |= (uint64_t)(t.output.lines >> e & 1) << (63 - e);
        l->words[GUARD + c->answer++] = word;
    }
    c->handler = t.handler;
    c->output = t.output;
}

/* Every number of ticks up to this one: state, answer, outputs and every entry, guards too. */
static void beside_plain(const handler *h, struct tarravane_wires w, uint32_t ticks) {
    struct tarravane_calmed wanted = before_first(h);
    struct list words = new_list();
    for (uint32_t t = 0; t <= ticks; t++) {
        struct list l = new_list();
        struct tarravane_calmed c = calm(h, w, t, &l);
        CHECK(memcmp(&c, &wanted, sizeof c) == 0);
        CHECK(memcmp(&l, &words, sizeof l) == 0);
        if (t < ticks) one_more(&wanted, w, t + 1, &words);
    }
}

/* ---- States ---- */

/* Alert 0 enabled in class 0, whose phases have P7's lengths. */
static handler ready(void) {
    handler h = new_handler(1);
    h.alerts.en[0] = 1;
    h.interrupts.enable = 15;
    h.classes[0].ctrl = EACH_LINE;
    uint32_t lengths[TARRAVANE_PHASES] = {0, 10, 10, 5};
    memcpy(h.classes[0].lengths, lengths, sizeof lengths);
    return h;
}

/* The wires with alert 0 at this pair. */
static struct tarravane_wires alert_0(bool pos, bool neg) {
    struct tarravane_wires w = wires_of(0, UINT64_MAX);
    w.pos[0] = (uint64_t)pos << 63;
    w.neg[0] = UINT64_MAX >> 1 | (uint64_t)neg << 63;
    return w;
}

/* A class with counts near their ends. */
static void draw_class(handler *h, int k) {
    static const uint32_t states[] = {0, 1, 3, 4, 5, 6, 7};
    struct tarravane_class *c = &h->classes[k];
    c->ctrl = (uint16_t)(next_random() % 2 ? EACH_LINE : next_random() & 0x3FFF);
    for (int p = 0; p < TARRAVANE_PHASES; p++) c->lengths[p] = next_random() % 4 ? (uint32_t)next_random() % 9 : MOST;
    c->timeout = (uint32_t)next_random() % 9;
    c->state = states[next_random() % 7];
    c->count = c->state == TARRAVANE_IDLE || c->state == TARRAVANE_TERMINAL ? 0 : 1 + (uint32_t)next_random() % 9;
    c->accum = (uint16_t)(next_random() % 2 ? 65530 + next_random() % 6 : next_random() % 9);
    c->thresh = (uint16_t)(next_random() % 2 ? 65535 - next_random() % 6 : next_random() % 20);
}

static handler draw_state(void) {
    static const size_t alerts[] = {1, 2, 5, 64, 65, 248};
    handler h = new_handler(alerts[next_random() % 6]);
    for (size_t i = 0; i < h.n; i++) {
        h.alerts.en[i] = next_random() & 1;
        h.alerts.class_of[i] = next_random() & 3;
    }
    h.locals.en[2] = next_random() & 1;
    h.locals.en[3] = 1; /* it occurs nowhere */
    h.locals.class_of[2] = next_random() & 3;
    for (int k = 0; k < TARRAVANE_CLASSES; k++) draw_class(&h, k);
    h.interrupts.state = next_random() & 15;
    h.interrupts.enable = next_random() & 15;
    for (int v = 0; v < TARRAVANE_WORDS; v++) {
        h.links.receivers.pausing[v] = next_random();
        h.links.receivers.busy[v] = next_random();
        h.links.receivers.level[v] = next_random();
    }
    /* Any bits are senders, and those from 4 up count for nothing. */
    h.links.senders = (struct tarravane_senders){(uint32_t)next_random(), (uint32_t)next_random(), (uint32_t)next_random(),
                                                 (uint32_t)next_random(), (uint32_t)next_random()};
    h.links.right = (uint32_t)next_random();
    h.links.lines = (uint32_t)next_random() & ~15u;
    return h;
}

/* ---- The tests ---- */

static void any_states(void) {
    for (int i = 0; i < 120; i++) {
        handler h = draw_state();
        uint64_t pos = next_random() & next_random(), neg = ~pos;
        if (i % 3 == 0) neg ^= next_random() & next_random() & next_random();
        beside_plain(&h, i % 4 == 0 ? wires_of(0, UINT64_MAX) : wires_apart(pos, neg), 40);
    }
}

/* Alert 0 is stored at (1,0) and stays so: P7 from tick 1 on. */
static void words_of_a_start(void) {
    handler h = ready();
    struct list l = new_list();
    struct tarravane_calmed c = calm(&h, alert_0(1, 0), 1000, &l);
    static const uint64_t wanted[] = {UINT64_C(0x8000000000000001), UINT64_C(0x4000000000000002), UINT64_C(0x200000000000000C),
                                      UINT64_C(0x1000000000000016), UINT64_C(0x000000000000001B)};
    CHECK(c.answer == 5 && memcmp(l.words + GUARD, wanted, sizeof wanted) == 0);
    CHECK(TARRAVANE_CHANGE_TICK(l.words[GUARD + 3]) == 22);
    for (int e = 0; e < TARRAVANE_LINES; e++) CHECK(TARRAVANE_CHANGE_LINE(l.words[GUARD + 3], e) == (e == 3));
    CHECK(c.handler.classes[0].state == TARRAVANE_TERMINAL && c.output.lines == 0 && c.output.interrupts == 1);
    CHECK(c.output.acknowledge.pos[0] == UINT64_C(1) << 63);
}

/* The last phase as long as can be: it begins in tick 22, and its line is on to the last tick, where its count is 4294967274. */
static void the_longest_phase(void) {
    handler h = ready();
    h.classes[0].lengths[3] = MOST;
    struct list l = new_list();
    struct tarravane_calmed c = calm(&h, alert_0(1, 0), MOST, &l);
    CHECK(c.answer == 4 && c.handler.classes[0].state == TARRAVANE_PHASE(3) && c.handler.classes[0].count == MOST - 21);
    CHECK(c.output.lines == 8 && c.output.escalation.pos == 8 && c.output.escalation.neg == 7);
    /* Its answer turns in every tick: the last one is that of any odd number of ticks. */
    struct tarravane_calmed odd = calm(&h, alert_0(1, 0), 101, &l), even = calm(&h, alert_0(1, 0), 100, &l);
    CHECK(c.handler.links.senders.answer == odd.handler.links.senders.answer);
    CHECK((odd.handler.links.senders.answer ^ even.handler.links.senders.answer) == 8);
    /* One that ends in the last tick. */
    h.classes[0].lengths[3] = MOST - 22;
    l = new_list();
    c = calm(&h, alert_0(1, 0), MOST, &l);
    CHECK(c.answer == 5 && l.words[GUARD + 4] == MOST && c.handler.classes[0].state == TARRAVANE_TERMINAL);
}

/* Equal wires: an event in every tick, so the threshold is exceeded in tick 301, and the accumulator stays at 65535. */
static void equal_wires(void) {
    for (int level = 0; level < 2; level++) {
        handler h = ready();
        h.locals.en[2] = h.locals.class_of[2] = 1;
        h.classes[1] = h.classes[0];
        h.classes[1].thresh = 300;
        struct list l = new_list();
        struct tarravane_calmed c = calm(&h, alert_0(level, level), 300, &l);
        CHECK(c.answer == 0 && c.handler.classes[1].accum == 300 && c.handler.classes[1].state == TARRAVANE_IDLE);
        c = calm(&h, alert_0(level, level), MOST, &l);
        CHECK(c.answer == 5 && l.words[GUARD] == UINT64_C(0x800000000000012D));
        CHECK(c.handler.classes[1].accum == 65535 && c.handler.classes[1].state == TARRAVANE_TERMINAL);
        CHECK(c.handler.locals.cause[2] == 1 && c.handler.alerts.cause[0] == 0 && c.handler.classes[0].accum == 0);
        /* In Timeout from tick 1 on: what comes first starts it, the threshold in tick 301 or the count in tick 101. */
        h.classes[1].timeout = 1000;
        c = calm(&h, alert_0(level, level), MOST, &l);
        CHECK(c.answer == 5 && l.words[GUARD] == UINT64_C(0x800000000000012D));
        h.classes[1].timeout = 100;
        c = calm(&h, alert_0(level, level), MOST, &l);
        CHECK(c.answer == 5 && l.words[GUARD] == UINT64_C(0x8000000000000065));
        h.locals.en[2] = 0;
        c = calm(&h, alert_0(level, level), MOST, &l);
        CHECK(c.answer == 0 && c.handler.classes[1].accum == 0 && c.output.interrupts == 0);
    }
}

/* Classes in Timeout that start one after another: five changes for each. */
static void twenty_changes(void) {
    handler h = new_handler(3);
    h.interrupts.state = 15;
    for (int k = 0; k < TARRAVANE_CLASSES; k++) {
        h.classes[k].ctrl = EACH_LINE;
        h.classes[k].timeout = 1 + 1000000000u * (uint32_t)k;
        h.classes[k].state = TARRAVANE_TIMEOUT;
        h.classes[k].count = 1;
    }
    struct list l = new_list();
    struct tarravane_calmed c = calm(&h, at_rest.alerts, MOST, &l);
    CHECK(c.answer == TARRAVANE_CHANGES);
    for (int i = 0; i < TARRAVANE_CHANGES; i++) {
        uint64_t lines = i % 5 == 4 ? 0 : UINT64_C(8) >> i % 5;
        CHECK(l.words[GUARD + i] == (lines << 60 | (1 + 1000000000u * (uint64_t)(i / 5) + (uint64_t)(i % 5))));
    }
    struct list later = new_list();
    CHECK(l.words[GUARD + TARRAVANE_CHANGES] == later.words[GUARD + TARRAVANE_CHANGES]);
}

/* A call of m ticks and then one of n give what one of m + n gives; of 0 ticks nobody asks for the pairs. */
static void two_calls(void) {
    for (int i = 0; i < 400; i++) {
        handler h = draw_state();
        struct tarravane_wires w = wires_apart(next_random(), next_random());
        uint32_t m = (uint32_t)next_random() >> next_random() % 32, n = (uint32_t)next_random() >> next_random() % 32;
        if (i % 5 == 0) n = 0;
        if (n > MOST - m) n = MOST - m;
        struct list l = new_list(), first = new_list(), second = new_list();
        struct tarravane_calmed c = calm(&h, w, m + n, &l), a = calm(&h, w, m, &first), b = calm(&a.handler, w, n, &second);
        CHECK(c.answer == a.answer + b.answer && c.answer <= TARRAVANE_CHANGES);
        for (int j = 0; j < a.answer; j++) CHECK(l.words[GUARD + j] == first.words[GUARD + j]);
        for (int j = 0; j < b.answer; j++) CHECK(l.words[GUARD + a.answer + j] == second.words[GUARD + j] + m);
        CHECK(same(&c.handler, &b.handler));
        CHECK(c.output.interrupts == b.output.interrupts && c.output.lines == b.output.lines);
        if (n > 0) CHECK(memcmp(&c.output, &b.output, sizeof c.output) == 0);
    }
}

/* Refused, whatever the ticks: state and list as they were, outputs as on 7. */
static void refused(const handler *h, size_t length, int64_t number) {
    static const uint32_t ticks[] = {0, 1, MOST};
    for (int i = 0; i < 3; i++) {
        struct list l = new_list(), before = l;
        struct tarravane_calmed c = tarravane_calm(*h, alert_0(1, 0), ticks[i], l.words + GUARD, length);
        struct tarravane_calmed none = before_first(h);
        none.output.interrupts = none.output.lines = 0;
        none.answer = -number;
        CHECK(memcmp(&c, &none, sizeof c) == 0 && memcmp(&l, &before, sizeof l) == 0);
    }
}

static void refusals(void) {
    handler running = ready();
    running.classes[0].state = TARRAVANE_PHASE(0);
    running.classes[0].count = 1;
    running.interrupts.state = 15;
    handler on = running, bad = running, both;
    on.timer.enable = 1;
    bad.classes[3].state = 2;
    both = bad;
    both.timer.enable = 1;
    for (size_t length = 0; length <= LIST; length++) {
        refused(&bad, length, TARRAVANE_BAD_STATE);
        refused(&both, length, TARRAVANE_BAD_STATE);
        refused(&on, length, TARRAVANE_TIMER_ON);
        if (length < TARRAVANE_CHANGES) refused(&running, length, TARRAVANE_FEW_ENTRIES);
    }
    struct list l = new_list();
    CHECK(tarravane_calm(running, at_rest.alerts, 9, l.words + GUARD, TARRAVANE_CHANGES).answer == 1);
    CHECK(l.words[GUARD + TARRAVANE_CHANGES] == new_list().words[GUARD + TARRAVANE_CHANGES]);
}

/* Tick 0 is the given state: its lines are there before tick 1, whatever its senders hold. */
static void no_ticks(void) {
    handler h = ready();
    h.classes[0].state = TARRAVANE_PHASE(2);
    h.classes[0].count = 1;
    h.interrupts.state = 5;
    h.links.receivers.busy[0] = UINT64_MAX;
    h.links.receivers.level[0] = UINT64_MAX;
    for (uint32_t on = 0; on < 16; on++) {
        h.links.senders.on = h.links.senders.last = on;
        struct list l = new_list();
        struct tarravane_calmed c = calm(&h, alert_0(1, 0), 0, &l);
        CHECK(same(&c.handler, &h) && c.answer == 0 && c.output.lines == 4 && c.output.interrupts == 5);
        CHECK(c.output.escalation.pos == 0 && c.output.acknowledge.pos[0] == 0 && c.output.ping.pos[0] == 0);
        beside_plain(&h, alert_0(1, 0), 12);
    }
}

void test_calm(void) {
    any_states();
    words_of_a_start();
    the_longest_phase();
    equal_wires();
    twenty_changes();
    two_calls();
    refusals();
    no_ticks();
}
