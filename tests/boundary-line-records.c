/* Records of 253 and of 254 beside each other: where the receive pairs stand, what older records check, and states that meet
 * both. */
#include "boundary.h"

/* A record of 75 bytes without access, its wires at rest, with this last byte. */
struct record {
    uint8_t bytes[TARRAVANE_RECORD_WIRES];
};

static struct record with_last(unsigned last) {
    struct record r = {{0}};
    memset(r.bytes + 39, 0xFF, 31);
    r.bytes[74] = (uint8_t)last;
    return r;
}

static handler after_wires(handler h, unsigned last) {
    struct record r = with_last(last);
    uint64_t word;
    struct tarravane_batched b = tarravane_batch_wires(h, r.bytes, sizeof r.bytes, &word, 1);
    CHECK(b.answer == 0 && TARRAVANE_WORD_REFUSAL(word) == 0);
    return b.handler;
}

static handler after_pings(handler h, unsigned last) {
    struct record r = with_last(last);
    uint64_t word;
    struct tarravane_batched b = tarravane_batch_pings(h, r.bytes, sizeof r.bytes, &word, 1);
    CHECK(b.answer == 0 && TARRAVANE_WORD_REFUSAL(word) == 0);
    return b.handler;
}

/* The byte of these pairs: p0 n0 p1 n1 p2 n2 p3 n3. */
static unsigned byte_of(unsigned positive, unsigned negative) {
    unsigned byte = 0;
    for (int e = 0; e < TARRAVANE_LINES; e++) byte = byte << 2 | (positive >> e & 1) << 1 | (negative >> e & 1);
    return byte;
}

/* The byte of the right answers. */
static unsigned right_byte(const handler *h) {
    return byte_of(sounding(h).receive_positive, sounding(h).receive_negative);
}

static handler checked(size_t n) {
    handler h = new_handler(n);
    h.locals.en[1] = h.locals.en[3] = 1;
    h.locals.class_of[1] = h.locals.class_of[3] = 1;
    return h;
}

/* Line e is on in the coming tick, or off. */
static void set_line(handler *h, int e, bool on) {
    h->classes[0].ctrl = (uint16_t)(1 | 4u << e);
    h->classes[0].lengths[0] = UINT32_MAX;
    h->classes[0].state = on ? TARRAVANE_PHASE(0) : TARRAVANE_IDLE;
    h->classes[0].count = on;
}

/* Every byte is a well-formed end, and says to each line what a tick is told by two numbers. */
static void every_byte(void) {
    for (unsigned answers = 0; answers < 16; answers++)
        for (unsigned positive = 0; positive < 16; positive++)
            for (unsigned negative = 0; negative < 16; negative++) {
                handler h = checked(1);
                h.links.senders.answer = answers;
                struct tarravane_sample s = at_rest;
                s.receive_positive = (uint16_t)positive;
                s.receive_negative = (uint16_t)negative;
                handler by_tick = tarravane_tick(h, TARRAVANE_NONE, 0, 0, s).handler;
                handler by_record = after_wires(h, byte_of(positive, negative));
                CHECK(same(&by_tick, &by_record));
                CHECK(by_tick.locals.cause[3] == (positive != answers || negative != (15 & ~answers)));
            }
}

/* Older records: local 3 never occurs, whatever is right, and the senders send in them as in any other tick. */
static void unchecked(int e) {
    static const char line[] = "0101101110010000";
    handler older = checked(1), newer = older, second = older, first = older;
    uint64_t word;
    uint8_t wires70[TARRAVANE_RECORD_70] = {0}, wires24[TARRAVANE_RECORD_24] = {0};
    memset(wires70 + 39, 0xFF, 31);
    memset(wires24 + 16, 0xFF, 8);
    for (int t = 0; line[t] != 0; t++) {
        set_line(&older, e, line[t] == '1');
        set_line(&newer, e, line[t] == '1');
        set_line(&second, e, line[t] == '1');
        set_line(&first, e, line[t] == '1');
        newer = after_wires(newer, right_byte(&newer));
        older = after_pings(older, t % 16);
        second = tarravane_batch_70(second, wires70, sizeof wires70, &word, 1).handler;
        first = tarravane_batch_24(first, wires24, sizeof wires24, &word, 1).handler;
        CHECK(same(&older, &newer) && same(&second, &newer) && same(&first, &newer));
        CHECK(older.locals.cause[3] == 0);
    }
    /* So the next checked tick asks for the answers to what was sent. */
    set_line(&older, e, true);
    older = after_pings(older, 0);
    CHECK(older.links.senders.answer == 1u << e);
    CHECK(after_wires(older, right_byte(&older)).locals.cause[3] == 0);
    CHECK(after_wires(older, byte_of(0, 15)).locals.cause[3] == 1);
}

/* A handler in which line e's ping opens in the coming tick. */
static handler due(int e, uint32_t timeout) {
    handler h = checked(1);
    h.timer.enable = 1;
    h.timer.timeout = timeout;
    h.links.turn = (struct tarravane_turn){(uint8_t)(2 * e + 1), 0, 0};
    return h;
}

static bool open(const handler *h, int e) {
    return h->links.lines == 1u << e;
}

/* "an answer that nobody checked is no right one": an unchecked tick from the ping's own to the fourth after it, and the ping is
 * answered by a bit or not at all. */
static void mixed(int e, int unchecked_at) {
    handler h = due(e, 0);
    for (int age = 0; age <= 4; age++)
        h = age == unchecked_at ? after_pings(h, 0) : after_wires(h, right_byte(&h));
    CHECK(open(&h, e) == (unchecked_at >= 0 && unchecked_at <= 4));
    CHECK(h.locals.cause[3] == 0);
    if (!open(&h, e)) return;
    for (int age = 5; age < 9; age++) h = after_wires(h, right_byte(&h));
    CHECK(open(&h, e));
    h = after_pings(h, 8u >> e);
    CHECK(h.links.lines == 0 && h.links.turn.number == (2 * e + 2) % 8 && h.locals.cause[1] == 0);
}

/* A line that is on closes no ping of older records and keeps none from opening; a checked tick closes it unfailed. */
static void line_and_ping(int e) {
    handler h = due(e, 9), wires;
    set_line(&h, e, true);
    wires = after_wires(h, right_byte(&h));
    CHECK(wires.links.lines == 0 && wires.links.turn.number == (2 * e + 2) % 8);
    h = after_pings(h, 0);
    CHECK(open(&h, e));
    h = after_pings(h, 15u & ~(8u >> e));
    CHECK(open(&h, e));
    h = after_wires(h, right_byte(&h));
    CHECK(h.links.lines == 0 && h.links.turn.number == (2 * e + 2) % 8);
    CHECK(h.locals.cause[1] == 0 && h.locals.cause[3] == 0);
}

void test_line_records(void) {
    every_byte();
    for (int e = 0; e < TARRAVANE_LINES; e++) {
        unchecked(e);
        for (int age = -1; age <= 5; age++) mixed(e, age);
        line_and_ping(e);
    }
}
