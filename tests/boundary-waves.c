/* Handshakes and pings of one alert, tick by tick, as waves: one character a tick. The wires are 0 for (0,1), 1 for (1,0), o for
 * (0,0), x for (1,1); pairs that come out are 0 and 1; * is yes. A ping is due where the wave has a * for it. */
#include "boundary.h"

struct wave {
    const char *name, *alert, *due, *acknowledge, *ping, *event, *answered;
};

static const struct wave waves[] = {
    {"a handshake, then the earliest next rise",
     "011000110000", "............", "001100011000", "000000000000", ".*....*.....", "............"},
    {"a rise held through the pause", "1011110000", "..........", "0100011000", "0000000000", "*...*.....", ".........."},
    {"a rise that is gone before the pause ends", "101000", "......", "010000", "000000", "*.....", "......"},
    {"high from the first tick on", "1110000", ".......", "0111000", "0000000", "*......", "......."},
    {"equal wires while ready", "ox1000x1", "........", "00010000", "00000000", "..*....*", "........"},
    {"equal wires in the tick of the due acknowledgement", "1x10000", ".......", "0111000", "0000000", "*......", "......."},
    {"equal wires between rise and drop", "1o0001", "......", "011000", "000000", "*....*", "......"},
    {"equal wires in the tick in which the acknowledgement drops",
     "10o1111", ".......", "0100001", "0000000", "*....*.", "......."},
    {"equal wires in the second tick of the pause", "100x111", ".......", "0100001", "0000000", "*....*.", "......."},
    {"a ping answered", "000110000", ".*.......", "000011000", "011111111", ".........", "...*....."},
    {"a ping answered in the tick in which it opens", "0100010", ".*.....", "0010001", "0111111", ".....*.", ".*....."},
    {"a ping due during a handshake", "1100001000", ".*........", "0110000100", "0111111111", "*.........", "......*..."},
    {"a ping due in the pause, the rise held", "101110001", "...*.....", "010001000", "000111111", "*.......*", "....*...."},
    {"due again after the answer", "000100000", ".*...*...", "000010000", "011110000", ".........", "...*....."},
    {"a ping open, equal wires, then a rise", "00x1000", ".*.....", "0000100", "0111111", ".......", "...*..."},
};

static uint64_t one(int i) { return bit_of_alert((size_t)i); }

/* The sample of a tick of the wave, of alert i. */
static struct tarravane_sample sample_at(const struct wave *w, size_t t, int i) {
    struct tarravane_sample s = at_rest;
    char wires = w->alert[t];
    if (wires == '1' || wires == 'x') s.alerts.pos[i / 64] |= one(i);
    if (wires == '1' || wires == 'o') s.alerts.neg[i / 64] &= ~one(i);
    return s;
}

/* All pairs at (0,1), that of alert i at (1,0) where it is high. */
static bool pairs_are(const struct tarravane_wires *is, int i, bool high) {
    struct tarravane_wires wanted = high ? raised(i).alerts : at_rest.alerts;
    return memcmp(is, &wanted, sizeof wanted) == 0;
}

/* The event sets the cause, unless the alert is disabled; its pairs and what is heard are the same then. A disabled alert is
 * not pinged. At timeout 0 a ping waits for its answer. */
static void run(const struct wave *w, int i, bool enabled) {
    handler h = new_handler(TARRAVANE_ALERTS);
    h.alerts.en[i] = enabled;
    h.alerts.regwen[i] = 0;
    h.locals.en[0] = h.locals.en[2] = 1;
    h.timer.enable = 1;
    for (size_t t = 0; w->alert[t] != 0; t++) {
        struct tarravane_sample s = sample_at(w, t, i);
        h.links.turn = (struct tarravane_turn){0, (uint8_t)i, w->due[t] == '*' ? 0 : 9};
        bool event = w->event[t] == '*', equal = w->alert[t] == 'o' || w->alert[t] == 'x';
        struct tarravane_heard heard = tarravane_hear(h, TARRAVANE_NONE, 0, 0, s);
        struct tarravane_answered given = tarravane_tick(h, TARRAVANE_NONE, 0, 0, s);
        CHECK(pairs_are(&given.output.acknowledge, i, w->acknowledge[t] == '1'));
        CHECK(pairs_are(&given.output.ping, i, w->ping[t] == '1'));
        CHECK(heard.events[i / 64] == (event ? one(i) : 0));
        CHECK(heard.answers[i / 64] == (w->answered[t] == '*' ? one(i) : 0));
        CHECK(heard.locals == (equal && enabled ? 1u << 2 : 0));
        CHECK(given.handler.alerts.cause[i] == (event && enabled));
        h = given.handler;
        h.alerts.cause[i] = 0;
    }
}

void test_waves(void) {
    static const int alerts[] = {0, 1, 63, 64, 127, 128, 191, 192, 247};
    for (size_t a = 0; a < sizeof alerts / sizeof *alerts; a++)
        for (size_t w = 0; w < sizeof waves / sizeof *waves; w++) {
            run(&waves[w], alerts[a], true);
            if (strchr(waves[w].due, '*') == NULL) run(&waves[w], alerts[a], false);
        }
}
