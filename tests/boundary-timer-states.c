/* Refusal 7 and the ping timer: an open ping that isn't the turn's, of alerts and of lines; and the older batches where the
 * timer is on. */
#include "boundary.h"

/* Whether the state is accepted, by every call the same. */
static bool is_accepted(const handler *h) {
    static const uint8_t record[TARRAVANE_RECORD_PINGS];
    uint64_t word = 7;
    struct tarravane_answered t = tarravane_tick(*h, TARRAVANE_NONE, 0, 0, at_rest);
    CHECK(t.answer == 0 || (t.answer == -TARRAVANE_BAD_STATE && same(&t.handler, h)));
    CHECK(tarravane_hear(*h, TARRAVANE_NONE, 0, 0, at_rest).answer == t.answer);
    struct tarravane_batched b = tarravane_batch_pings(*h, record, sizeof record, &word, 1);
    CHECK(b.answer == t.answer && word == (t.answer == 0 ? 0 : 7));
    CHECK(same(&b.handler, t.answer == 0 ? &b.handler : h));
    word = 7;
    b = tarravane_batch_wires(*h, record, sizeof record, &word, 1);
    CHECK(b.answer == t.answer && word == (t.answer == 0 ? 0 : 7));
    CHECK(same(&b.handler, t.answer == 0 ? &b.handler : h));
    struct tarravane_installed i = tarravane_install(*h, TARRAVANE_LIFECYCLE_DEV);
    CHECK((i.answer == -TARRAVANE_BAD_STATE) == (t.answer != 0));
    return t.answer == 0;
}

static handler at_turn(size_t n, unsigned number, unsigned alert) {
    handler h = with_timer(n, 0, 0);
    h.timer.enable = 1;
    h.links.turn = (struct tarravane_turn){(uint8_t)number, (uint8_t)alert, 12345};
    return h;
}

/* The ping of one place is open: accepted where it is the turn's, and where the place is no alert's. */
static void alerts_open(size_t n) {
    static const size_t apart[] = {0, 1, 64, 255};
    for (size_t i = 0; i < 64 * TARRAVANE_WORDS; i++)
        for (size_t a = 0; a < sizeof apart / sizeof *apart; a++) {
            size_t drawn = (i + apart[a]) % 256;
            handler h = at_turn(n, 2, (unsigned)drawn);
            h.links.receivers.pending[i / 64] = bit_of_alert(i);
            CHECK(is_accepted(&h) == (i >= n || i == drawn));
            h.links.turn.number = 3;
            CHECK(is_accepted(&h) == (i >= n));
            h.links.turn.number = 2;
            h.timer.enable = 0;
            CHECK(is_accepted(&h) == (i >= n));
        }
}

/* Two are one too many, though one is the turn's. */
static void several_open(void) {
    handler h = at_turn(TARRAVANE_ALERTS, 0, 100);
    h.links.receivers.pending[1] = bit_of_alert(100);
    CHECK(is_accepted(&h));
    for (size_t i = 0; i < TARRAVANE_ALERTS; i++) {
        handler two = h;
        two.links.receivers.pending[i / 64] |= bit_of_alert(i);
        CHECK(is_accepted(&two) == (i == 100));
    }
    h.links.lines = 1;
    CHECK(!is_accepted(&h));
}

/* Every number of a turn, every four bits of the lines; those above are not looked at. */
static void lines_open(void) {
    for (unsigned number = 0; number < 256; number++)
        for (unsigned lines = 0; lines < 16; lines++) {
            handler h = at_turn(1, number, 0);
            unsigned own = number % 2 == 1 ? 1u << number / 2 % 4 : 0;
            h.links.lines = lines | number << 4 | 0xA5A50000u;
            CHECK(is_accepted(&h) == ((lines & ~own) == 0));
            handler after = tarravane_tick(h, TARRAVANE_NONE, 0, 0, at_rest).handler;
            CHECK(after.links.lines >> 4 == h.links.lines >> 4);
            h.timer.enable = 0;
            CHECK(is_accepted(&h) == (lines == 0));
        }
}

/* An older batch answers 7 where the timer is on, before 8 and 9 and with no bytes too, and leaves state and list. */
static void older_batches(size_t n) {
    static const uint8_t records[2 * TARRAVANE_RECORD_70];
    static const size_t lengths[] = {0, 1, TARRAVANE_RECORD_24, TARRAVANE_RECORD_70, sizeof records};
    handler on = at_turn(n, 0, 0), off = with_timer(n, 0, 9);
    off.timer.regwen = 0;
    off.stages.timeout = 4;
    for (size_t i = 0; i < sizeof lengths / sizeof *lengths; i++) {
        uint64_t word = 7;
        struct tarravane_batched b = tarravane_batch_70(on, records, lengths[i], &word, 0);
        CHECK(b.answer == -TARRAVANE_BAD_STATE && same(&b.handler, &on));
        b = tarravane_batch_24(on, records, lengths[i], &word, 0);
        CHECK(b.answer == -TARRAVANE_BAD_STATE && same(&b.handler, &on) && word == 7);
    }
    uint64_t words[2];
    CHECK(tarravane_batch_pings(on, records, 0, words, 0).answer == 0);
    CHECK(tarravane_batch_wires(on, records, 0, words, 0).answer == 0);
    CHECK(tarravane_batch_70(off, records, sizeof records, words, 2).answer == 0);
    int64_t answer = tarravane_batch_24(off, records, 2 * TARRAVANE_RECORD_24, words, 2).answer;
    CHECK(answer == (n > TARRAVANE_ALERTS_24 ? -TARRAVANE_BAD_STATE : 0));
}

void test_timer_states(void) {
    static const size_t counts[] = {1, 63, 64, 65, 200, 247, 248};
    for (size_t c = 0; c < sizeof counts / sizeof *counts; c++) {
        alerts_open(counts[c]);
        older_batches(counts[c]);
    }
    several_open();
    lines_open();
}
