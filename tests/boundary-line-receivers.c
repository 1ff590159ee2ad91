/* The receivers at the lines' ends, beside one that is written here from document 004's words: any pairs, any receivers. */
#include "boundary.h"

static uint64_t next_random(void) {
    static uint64_t seed = 0x2545F4914F6CDD1Du;
    seed ^= seed << 13;
    seed ^= seed >> 7;
    return seed ^= seed << 17;
}

/* ---- One receiver, apart from the library's ---- */

enum stands { QUIET, CHECKING, ANSWERING, ESCALATING };

struct receiver {
    enum stands stands;
    bool answer; /* in the coming tick */
    bool broken; /* its wires were equal */
};

/* What it shows in a tick in which its wires are these. */
struct shown {
    bool positive, negative, seen;
};

static bool on_before(const struct receiver *r) {
    return !r->broken && (r->stands == CHECKING || r->stands == ESCALATING);
}

/* Sound wires: the answer toggles while the pair is on, and to the end of a ping's 1010. */
static void follow(struct receiver *r, bool on) {
    enum stands was = r->broken ? QUIET : r->stands;
    bool answer = !r->broken && r->answer;
    bool goes_on = on || was == CHECKING || was == ANSWERING;
    r->answer = goes_on && !answer;
    if (on) r->stands = was == CHECKING || was == ESCALATING ? ESCALATING : CHECKING;
    else r->stands = was == CHECKING ? ANSWERING : QUIET;
    r->broken = false;
}

static struct shown listens(struct receiver *r, bool positive, bool negative) {
    struct shown out = {r->answer, r->broken ? r->answer : !r->answer, false};
    if (positive == negative) {
        out.seen = true;
        r->answer = r->broken && !r->answer;
        r->broken = true;
        r->stands = QUIET;
    } else {
        out.seen = positive && on_before(r);
        follow(r, positive);
    }
    return out;
}

/* ---- Four of them ---- */

static struct receiver receiver_at(const struct tarravane_line_receivers *all, int e) {
    unsigned last = all->last >> e & 1, deep = all->deep >> e & 1;
    enum stands stands = last ? (deep ? ESCALATING : CHECKING) : deep ? ANSWERING : QUIET;
    return (struct receiver){stands, all->answer >> e & 1, all->broken >> e & 1};
}

static void compare(struct tarravane_line_receivers all, uint32_t positive, uint32_t negative) {
    struct tarravane_listened l = tarravane_receive(all, positive, negative);
    for (int e = 0; e < TARRAVANE_LINES; e++) {
        struct receiver r = receiver_at(&all, e), is = receiver_at(&l.receivers, e);
        struct shown out = listens(&r, positive >> e & 1, negative >> e & 1);
        CHECK((l.positive >> e & 1u) == out.positive && (l.negative >> e & 1u) == out.negative);
        CHECK((l.seen >> e & 1u) == out.seen);
        CHECK(is.answer == r.answer && is.broken == r.broken);
        CHECK(r.broken || is.stands == r.stands);
    }
    CHECK((l.positive | l.negative | l.seen) < 16);
    CHECK((l.receivers.last | l.receivers.deep | l.receivers.answer | l.receivers.broken) < 16);
}

/* Any bits are receivers, and bits from 4 up count for nothing. */
static void any_bits(void) {
    for (int i = 0; i < 20000; i++) {
        uint64_t a = next_random(), b = next_random(), pairs = next_random();
        struct tarravane_line_receivers all = {(uint32_t)a, (uint32_t)(a >> 32), (uint32_t)b, (uint32_t)(b >> 32)}, low = all;
        compare(all, (uint32_t)pairs, (uint32_t)(pairs >> 32));
        low.last &= 15;
        low.deep &= 15;
        low.answer &= 15;
        low.broken &= 15;
        struct tarravane_listened l = tarravane_receive(all, (uint32_t)pairs, (uint32_t)(pairs >> 32));
        struct tarravane_listened m = tarravane_receive(low, (uint32_t)pairs & 15, (uint32_t)(pairs >> 32) & 15);
        CHECK(memcmp(&l, &m, sizeof l) == 0);
    }
}

/* From new ones over any pairs, mostly sound; what is sent in a tick does not hang on its pairs. */
static void from_new(void) {
    struct tarravane_line_receivers r = {0, 0, 0, 0};
    for (int t = 0; t < 20000; t++) {
        uint32_t positive = (uint32_t)next_random() & (uint32_t)next_random(), negative = ~positive;
        if (next_random() % 8 == 0) negative = (uint32_t)next_random();
        compare(r, positive, negative);
        struct tarravane_listened l = tarravane_receive(r, positive, negative), other = tarravane_receive(r, 0, 15);
        CHECK(l.positive == other.positive && l.negative == other.negative);
        r = l.receivers;
    }
}

/* Document 004: equal wires are an escalation at once, answered (0,0), (1,1) and so on from the next tick. */
static void equal_wires(void) {
    struct tarravane_line_receivers r = {0, 0, 0, 0};
    for (unsigned t = 0; t < 9; t++) {
        struct tarravane_listened l = tarravane_receive(r, 0, 14);
        CHECK((l.seen & 1) == 1);
        CHECK((l.positive & 1) == (t == 0 ? 0 : t % 2 == 0));
        CHECK((l.negative & 1) == (t == 0 ? 1 : t % 2 == 0));
        r = l.receivers;
    }
    /* The first sound tick still sends what was due; the receiver starts as a new one with its pair. */
    struct tarravane_listened sound = tarravane_receive(r, 1, 14), next = tarravane_receive(sound.receivers, 0, 15);
    CHECK((sound.positive & 1) == (sound.negative & 1) && (sound.seen & 1) == 0);
    CHECK((next.positive & 1) == 1 && (next.negative & 1) == 0 && next.seen == 0);
}

void test_line_receivers(void) {
    any_bits();
    from_new();
    equal_wires();
}
