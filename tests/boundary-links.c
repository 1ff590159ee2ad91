/* The alerts' receivers from C's side: every alert in every place of the handshake, on every pair of wires, and the turn's
 * alert with its ping open, due or to come, beside a receiver that is written here from request (viii)'s words; and what is at
 * N and above. */
#include "boundary.h"

#define PLACES (64 * TARRAVANE_WORDS)

/* ---- One receiver, apart from the library's ---- */

enum place { READY, ACKNOWLEDGED, FIRST_PAUSE, SECOND_PAUSE };

struct receiver {
    enum place place;
    bool level, open;
};

/* What goes into a receiver in a tick. */
struct given {
    bool ask, pos, neg;
};

/* What comes out of it. */
struct shown {
    bool acknowledge, ping, event, answer;
};

static struct shown receive(struct receiver *r, struct given in) {
    struct shown out = {.acknowledge = r->place == ACKNOWLEDGED};
    if (in.ask && !r->open) {
        r->level = !r->level;
        r->open = true;
    }
    out.ping = r->level;
    if (in.pos == in.neg) return out;
    if (r->place == FIRST_PAUSE) {
        r->place = SECOND_PAUSE;
    } else if (r->place == SECOND_PAUSE) {
        r->place = READY;
    } else if (r->place == ACKNOWLEDGED) {
        if (in.neg) r->place = FIRST_PAUSE;
    } else if (in.pos) {
        r->place = ACKNOWLEDGED;
        out.answer = r->open;
        out.event = !r->open;
        r->open = false;
    }
    return out;
}

/* ---- Its place in the words ---- */

static bool bit_of(const uint64_t words[TARRAVANE_WORDS], size_t i) {
    return words[i / 64] >> (63 - i % 64) & 1;
}

static void set_bit(uint64_t words[TARRAVANE_WORDS], size_t i, bool bit) {
    uint64_t one = UINT64_C(1) << (63 - i % 64);
    words[i / 64] = bit ? words[i / 64] | one : words[i / 64] & ~one;
}

static void put(struct tarravane_receivers *all, size_t i, struct receiver r) {
    set_bit(all->pausing, i, r.place == FIRST_PAUSE || r.place == SECOND_PAUSE);
    set_bit(all->busy, i, r.place == ACKNOWLEDGED || r.place == FIRST_PAUSE);
    set_bit(all->level, i, r.level);
    set_bit(all->pending, i, r.open);
}

/* The pair at a place: (1,0) or (0,1), and nothing else. */
static void pair_is(const struct tarravane_wires *w, size_t i, bool high) {
    CHECK(bit_of(w->pos, i) == high);
    CHECK(bit_of(w->neg, i) == !high);
}

/* ---- Every place, on every input ---- */

#define CASES (4 * 2 * 2 * 2 * 4) /* place, level, open, due, pair of wires */

static struct receiver receiver_of(size_t number) {
    return (struct receiver){(enum place)(number % 4), number / 4 % 2, number / 8 % 2};
}

static struct given given_of(size_t number) {
    return (struct given){number / 16 % 2, number / 32 % 2, number / 64 % 2};
}

/* Below N the turn's alert alone has its ping open, or due where it is not. */
static struct receiver receiver_at(size_t n, size_t shift, size_t i, size_t drawn) {
    struct receiver r = receiver_of(i + shift);
    r.open &= i >= n || i == drawn;
    return r;
}

static struct given given_at(size_t n, size_t shift, size_t i, size_t drawn) {
    struct given in = given_of(i + shift);
    in.ask &= i == drawn && i < n;
    return in;
}

/* Each place of the words, those that are no alert's too, gets its own case. The drawn alert is locked and enabled; its ping
 * waits for its answer. */
static void set_up(size_t shift, size_t drawn, handler *h, struct tarravane_sample *s) {
    for (size_t i = 0; i < PLACES; i++) {
        struct given in = given_of(i + shift);
        put(&h->links.receivers, i, receiver_at(h->n, shift, i, drawn));
        set_bit(s->alerts.pos, i, in.pos);
        set_bit(s->alerts.neg, i, in.neg);
    }
    for (size_t i = 0; i < TARRAVANE_ALERTS; i++) h->alerts.en[i] = i == drawn || i / 8 % 2;
    if (drawn < TARRAVANE_ALERTS) h->alerts.regwen[drawn] = 0;
    h->locals.en[2] = 1;
    h->timer.enable = 1;
    h->links.turn = (struct tarravane_turn){0, (uint8_t)drawn, given_of(drawn + shift).ask ? 0 : 9};
    s->word = drawing(77, 5);
}

/* The turn after the tick: an answer, and a due ping of what is no alert, end it; else its count moves on. */
static struct tarravane_turn turn_after(const handler *h, bool was_open, bool answered) {
    struct tarravane_turn t = h->links.turn;
    bool is_due = !was_open && t.count == 0;
    if (answered || (is_due && t.alert >= h->n)) return (struct tarravane_turn){1, 77, 5};
    if (was_open) t.count++;
    else if (!is_due) t.count--;
    return t;
}

/* One tick of n alerts: each does what the receiver above does; places from n up show (0,1), hear nothing and keep their bits. */
static void every_place(size_t n, size_t shift, size_t drawn) {
    handler h = new_handler(n);
    struct tarravane_sample s = at_rest;
    set_up(shift, drawn, &h, &s);
    handler wanted = h;
    bool was_open = drawn < n && receiver_at(n, shift, drawn, drawn).open, answered = false;
    struct tarravane_answered t = tarravane_tick(h, TARRAVANE_NONE, 0, 0, s);
    struct tarravane_heard heard = tarravane_hear(h, TARRAVANE_NONE, 0, 0, s);
    bool equal = false;
    for (size_t i = 0; i < PLACES; i++) {
        struct receiver r = receiver_at(n, shift, i, drawn);
        struct given in = given_at(n, shift, i, drawn);
        struct shown out = {0};
        if (i < n) {
            out = receive(&r, in);
            equal |= in.pos == in.neg && h.alerts.en[i];
            if (out.event && h.alerts.en[i]) wanted.alerts.cause[i] = 1;
        }
        answered |= out.answer;
        put(&wanted.links.receivers, i, r);
        pair_is(&t.output.acknowledge, i, out.acknowledge);
        pair_is(&t.output.ping, i, out.ping);
        CHECK(bit_of(heard.events, i) == out.event);
        CHECK(bit_of(heard.answers, i) == out.answer);
    }
    wanted.locals.cause[2] = equal;
    wanted.links.turn = turn_after(&h, was_open, answered);
    CHECK(heard.locals == (equal ? 1u << 2 : 0) && heard.answer == 0);
    CHECK(t.answer == 0 && same(&t.handler, &wanted));
}

/* ---- At rest, and on refusal 7 ---- */

static bool all_low(const struct tarravane_wires *w) {
    struct tarravane_wires rest = wires_of(0, UINT64_MAX);
    return memcmp(w, &rest, sizeof rest) == 0;
}

static void at_reset(size_t n) {
    handler h = new_handler(n);
    struct tarravane_answered t = tarravane_tick(h, TARRAVANE_NONE, 0, 0, at_rest);
    CHECK(all_low(&t.output.acknowledge) && all_low(&t.output.ping));
    CHECK(same(&t.handler, &h));
}

/* A broken state shows (0,1) everywhere and hears nothing; mended, its levels show again. */
static void refused(size_t shift) {
    static const struct tarravane_heard nothing = {.answer = -TARRAVANE_BAD_STATE};
    handler h = new_handler(TARRAVANE_ALERTS), broken;
    struct tarravane_sample s = at_rest;
    set_up(shift, 9, &h, &s);
    broken = h;
    broken.interrupts.enable = 16;
    struct tarravane_answered t = tarravane_tick(broken, TARRAVANE_NONE, 0, 0, s);
    CHECK(t.answer == -TARRAVANE_BAD_STATE && same(&t.handler, &broken));
    CHECK(t.output.interrupts == 0 && t.output.lines == 0);
    CHECK(all_low(&t.output.acknowledge) && all_low(&t.output.ping));
    struct tarravane_heard heard = tarravane_hear(broken, TARRAVANE_NONE, 0, 0, s);
    CHECK(memcmp(&heard, &nothing, sizeof heard) == 0);
    struct tarravane_sample quiet = at_rest;
    t = tarravane_tick(h, TARRAVANE_NONE, 0, 0, quiet);
    for (size_t i = 0; i < TARRAVANE_ALERTS; i++)
        if (i != 9) pair_is(&t.output.ping, i, receiver_of(i + shift).level);
}

void test_links(void) {
    static const size_t counts[] = {1, 2, 63, 64, 65, 127, 128, 129, 191, 192, 193, 247, 248};
    for (size_t c = 0; c < sizeof counts / sizeof *counts; c++) {
        at_reset(counts[c]);
        const size_t drawn[] = {0, counts[c] - 1, counts[c], 247, 248, 255};
        for (size_t shift = 0; shift < CASES; shift++) {
            every_place(counts[c], shift, shift * 37 % 256);
            for (size_t d = 0; d < sizeof drawn / sizeof *drawn; d++) every_place(counts[c], shift, drawn[d]);
        }
    }
    for (size_t shift = 0; shift < CASES; shift++) refused(shift);
}
