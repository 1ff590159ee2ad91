/* The lines' senders from C's side, request (xi): waves tick by tick, on every line, with what the proved receiver at its end
 * makes of them. A pair is 0 for (0,1), 1 for (1,0), o for (0,0), x for (1,1). */
#include "boundary.h"

#define LOCAL_1 2u /* a line's ping fails */
#define LOCAL_3 8u /* a receive pair is not the right one */

struct wave {
    const char *name;
    int due; /* the tick in which a ping is due, or -1 */
    uint32_t timeout;
    const char *line, *pair;
    const char *ping; /* after the tick: w to come, o open, - the turn has ended */
    const char *right, *receive, *local_3, *local_1, *seen;
};

static const struct wave waves[] = {
    {"E1", -1, 0, "0100000", "0110000", "-------",
     "0010000", "0010000", ".......", ".......", "..*...."},
    {"E2", -1, 0, "01100000", "01100000", "--------",
     "00100000", "00100000", "........", "........", "..*....."},
    {"E3", -1, 0, "011100000", "011100000", "---------",
     "001010000", "001010000", ".........", ".........", "..**....."},
    {"E4", -1, 0, "01111100000", "01111100000", "-----------",
     "00101010000", "00101010000", "...........", "...........", "..****....."},
    {"E5", -1, 0, "010100000", "011110000", "---------",
     "001010000", "001010000", ".........", ".........", "..***...."},
    {"E5b", -1, 0, "010111000", "011111000", "---------",
     "001010100", "001010100", ".........", ".........", "..****..."},
    {"E5c", -1, 0, "0110100000", "0110110000", "----------",
     "0010010000", "0010010000", "..........", "..........", "..*..*...."},
    {"E5d", -1, 0, "01101100000", "01101100000", "-----------",
     "00100100000", "00100100000", "...........", "...........", "..*..*....."},
    {"E5e", -1, 0, "0100100000", "0110110000", "----------",
     "0010010000", "0010010000", "..........", "..........", "..*..*...."},
    {"E6", 1, 10, "00000000", "01000000", "woooo---",
     "00101000", "00101000", "........", "........", "........"},
    {"E7.1", 1, 20, "001110000000", "011110000000", "wo----------",
     "001010000000", "001010000000", "............", "............", "..***......."},
    {"E7.2", 1, 20, "000111000000", "010111000000", "woo---------",
     "001010100000", "001010100000", "............", "............", "....**......"},
    {"E7.3", 1, 20, "000011100000", "010011100000", "wooo--------",
     "001010100000", "001010100000", "............", "............", ".....**....."},
    {"E7.4", 1, 20, "000001110000", "010001110000", "woooo-------",
     "001010101000", "001010101000", "............", "............", "......**...."},
    {"E7.5", 1, 20, "000000111000", "010000111000", "woooo-------",
     "001010010100", "001010010100", "............", "............", ".......**..."},
    {"E8.1", 1, 20, "00100000000", "01110000000", "wo---------",
     "00101000000", "00101000000", "...........", "...........", "..**......."},
    {"E8.2", 1, 20, "00010000000", "01011000000", "woo--------",
     "00101000000", "00101000000", "...........", "...........", "....*......"},
    {"E8.3", 1, 20, "00001000000", "01001100000", "wooo-------",
     "00101010000", "00101010000", "...........", "...........", ".....*....."},
    {"E8.4", 1, 20, "00000100000", "01000110000", "woooo------",
     "00101010000", "00101010000", "...........", "...........", "......*...."},
    {"E8.5", 1, 20, "00000010000", "01000011000", "woooo------",
     "00101001000", "00101001000", "...........", "...........", ".......*..."},
    {"E9.0", 2, 20, "01100000000", "01100000000", "ww---------",
     "00100000000", "00100000000", "...........", "...........", "..*........"},
    {"E9.1", 3, 20, "01100000000", "01100000000", "www--------",
     "00100000000", "00100000000", "...........", "...........", "..*........"},
    {"E9.2", 4, 20, "01100000000", "01101000000", "wwwwoooo---",
     "00100101000", "00100101000", "...........", "...........", "..*........"},
    {"E9.3", 5, 20, "01100000000", "01100100000", "wwwwwoooo--",
     "00100010100", "00100010100", "...........", "...........", "..*........"},
    {"E10.0", 1, 20, "01000000000", "01100000000", "w----------",
     "00100000000", "00100000000", "...........", "...........", "..*........"},
    {"E10.1", 2, 20, "01000000000", "01100000000", "ww---------",
     "00100000000", "00100000000", "...........", "...........", "..*........"},
    {"E10.2", 3, 20, "01000000000", "01100000000", "www--------",
     "00100000000", "00100000000", "...........", "...........", "..*........"},
    {"E10.3", 4, 20, "01000000000", "01101000000", "wwwwoooo---",
     "00100101000", "00100101000", "...........", "...........", "..*........"},
    {"E11", 1, 6, "0000000000", "0100000000", "woooooo---",
     "0010100000", "0000000000", "..*.*.....", ".......*..", ".........."},
    {"E12", 1, 0, "0000000000", "0100000000", "wooooooooo",
     "0010100000", "0000000000", "..*.*.....", "..........", ".........."},
    {"E12b", 1, 0, "000000011000", "010000011000", "woooooo-----",
     "001010001000", "000000000000", "..*.*...*...", "............", "........*..."},
    {"E13", 1, 6, "0000000000", "0100000000", "woooooo---",
     "0010100000", "001x100000", "...*......", ".......*..", ".........."},
    {"E14", 1, 6, "0000000000", "0100000000", "woooooo---",
     "0010100000", "0010110000", ".....*....", ".......*..", ".........."},
    {"E15", 1, 6, "0000000000", "0100000000", "woooooo---",
     "0010100000", "0001010000", "..****....", ".......*..", ".........."},
    {"E16", -1, 0, "00000", "00000", "-----",
     "00000", "00100", "..*..", ".....", "....."},
    {"E17", -1, 0, "00000", "00000", "-----",
     "00000", "0xo00", ".**..", ".....", "....."},
    {"E18", -1, 0, "0111110000", "0111110000", "----------",
     "0010101000", "00111x1000", "...*.*....", "..........", "..****...."},
    {"E19", -1, 0, "0111110000", "0111110000", "----------",
     "0010101000", "0000000000", "..*.*.*...", "..........", "..****...."},
    {"E20.1", 1, 1, "000000000", "010000000", "wo-------",
     "001010000", "001010000", ".........", "..*......", "........."},
    {"E20.2", 1, 2, "000000000", "010000000", "woo------",
     "001010000", "001010000", ".........", "...*.....", "........."},
    {"E20.3", 1, 3, "000000000", "010000000", "wooo-----",
     "001010000", "001010000", ".........", "....*....", "........."},
    {"E20.4", 1, 4, "000000000", "010000000", "woooo----",
     "001010000", "001010000", ".........", ".........", "........."},
    {"E20.5", 1, 5, "000000000", "010000000", "woooo----",
     "001010000", "001010000", ".........", ".........", "........."},
    {"E21", 1, 3, "000011100", "010011100", "wooo-----",
     "001010100", "000000000", "..*.*.*..", "....*....", ".....**.."},
    {"E22", 1, 3, "000111100", "010111100", "woo------",
     "001010100", "000000000", "..*.*.*..", ".........", "....***.."},
    {"E23", 1, 5, "011100000", "011100000", "w--------",
     "001010000", "001010000", ".........", ".........", "..**....."},
};

/* ---- A tick of a wave ---- */

/* Line e is on in the coming tick, or off: class A is in its first phase, which has no end, or Idle. */
static void set_line(handler *h, int e, bool on) {
    h->classes[0].ctrl = (uint16_t)(1 | 4u << e);
    h->classes[0].lengths[0] = UINT32_MAX;
    h->classes[0].state = on ? TARRAVANE_PHASE(0) : TARRAVANE_IDLE;
    h->classes[0].count = on;
}

static bool positive_of(char pair) {
    return pair == '1' || pair == 'x';
}

static bool negative_of(char pair) {
    return pair == '0' || pair == 'x';
}

/* The right answers of the other lines, and this pair of line e; bits from 4 up count for nothing. */
static struct tarravane_sample receiving(const handler *h, int e, char pair) {
    struct tarravane_sample s = sounding(h);
    s.receive_positive = (uint16_t)((s.receive_positive & ~(1u << e)) | (unsigned)positive_of(pair) << e | 0xA5A0);
    s.receive_negative = (uint16_t)((s.receive_negative & ~(1u << e)) | (unsigned)negative_of(pair) << e | 0x5AF0);
    s.word = drawing(255, 9999);
    return s;
}

/* The handler before a wave: local 1 and local 3 count in class B; the turn is line e's where a ping is due in it. */
static handler before_wave(const struct wave *w, int e) {
    handler h = new_handler(TARRAVANE_ALERTS);
    h.locals.en[1] = h.locals.en[3] = 1;
    h.locals.class_of[1] = h.locals.class_of[3] = 1;
    h.timer.timeout = w->timeout;
    if (w->due >= 0) {
        h.timer.enable = 1;
        h.links.turn = (struct tarravane_turn){(uint8_t)(2 * e + 1), 0, (uint16_t)w->due};
    }
    return h;
}

static void ping_is(const struct wave *w, const handler *h, int e, size_t t) {
    if (w->due < 0) return;
    bool ended = h->links.turn.number != 2 * e + 1;
    CHECK(ended == (w->ping[t] == '-'));
    CHECK(h->links.lines == (w->ping[t] == 'o' ? 1u << e : 0));
    if (ended && w->ping[t - 1] != '-') CHECK(h->links.turn.count == 9999);
}

static void run_wave(const struct wave *w, int e) {
    handler h = before_wave(w, e);
    struct tarravane_line_receivers ends = {0, 0, 0, 0};
    for (size_t t = 0; w->line[t] != 0; t++) {
        CHECK((h.links.senders.answer >> e & 1u) == (unsigned)(w->right[t] == '1'));
        set_line(&h, e, w->line[t] == '1');
        struct tarravane_sample s = receiving(&h, e, w->receive[t]);
        uint64_t locals = tarravane_hear(h, TARRAVANE_NONE, 0, 0, s).locals;
        CHECK(locals == ((w->local_1[t] == '*' ? LOCAL_1 : 0) | (w->local_3[t] == '*' ? LOCAL_3 : 0)));
        struct tarravane_answered given = tarravane_tick(h, TARRAVANE_NONE, 0, 0, s);
        h = given.handler;
        unsigned pair = (unsigned)(w->pair[t] == '1') << e;
        CHECK(given.output.lines == (w->line[t] == '1' ? 1u << e : 0));
        CHECK(given.output.escalation.pos == pair && given.output.escalation.neg == (15 & ~pair));
        ping_is(w, &h, e, t);
        struct tarravane_listened l = tarravane_receive(ends, given.output.escalation.pos, given.output.escalation.neg);
        CHECK(l.positive == ((unsigned)(w->right[t] == '1') << e) && l.negative == (15 & ~l.positive));
        CHECK(l.seen == (w->seen[t] == '*' ? 1u << e : 0));
        ends = l.receivers;
    }
}

/* ---- Beside the waves ---- */

/* However many lines fail in a tick, local 3 occurs once; a disabled one does not occur, and the pairs are sent all the same. */
static void several_faults(void) {
    for (unsigned wrong = 0; wrong < 16; wrong++)
        for (unsigned equal = 0; equal < 16; equal++) {
            handler h = new_handler(1);
            struct tarravane_sample s = at_rest;
            h.locals.en[3] = 1;
            h.classes[0].ctrl = 0x393D;
            h.classes[0].thresh = 9;
            s.receive_positive = (uint16_t)(wrong | equal);
            s.receive_negative = (uint16_t)(15 & ~(wrong & ~equal));
            struct tarravane_answered t = tarravane_tick(h, TARRAVANE_NONE, 0, 0, s);
            CHECK(t.handler.classes[0].accum == ((wrong | equal) != 0) && t.handler.locals.cause[3] == ((wrong | equal) != 0));
            CHECK(t.answer == 0 && t.output.escalation.pos == 0 && t.output.escalation.neg == 15);
            h.locals.en[3] = 0;
            CHECK(tarravane_tick(h, TARRAVANE_NONE, 0, 0, s).handler.locals.cause[3] == 0);
        }
}

/* A cut cable: local 3 in the tick after the line comes on, by the lock that a phase of its own line starts. */
static void cut_cable(int e) {
    handler h = new_handler(1);
    h.locals.en[3] = 1;
    h.locals.class_of[3] = 1;
    h.classes[1].ctrl = 0x393D;
    set_line(&h, e, true);
    h = tarravane_tick(h, TARRAVANE_NONE, 0, 0, at_rest).handler;
    CHECK(h.locals.cause[3] == 0 && h.classes[1].state == TARRAVANE_IDLE);
    h = tarravane_tick(h, TARRAVANE_NONE, 0, 0, at_rest).handler;
    CHECK(h.locals.cause[3] == 1 && h.classes[1].state == TARRAVANE_PHASE(0));
}

/* A refused or malformed access stops neither the pairs nor the check. */
static void refused_accesses(void) {
    for (unsigned kind = 0; kind < 256; kind++) {
        handler h = new_handler(1);
        struct tarravane_sample s = at_rest;
        h.locals.en[3] = 1;
        set_line(&h, 2, true);
        s.receive_positive = 4;
        struct tarravane_answered t = tarravane_tick(h, (uint8_t)kind, 3, 1, s);
        CHECK(t.answer == (kind == 0 ? 0 : kind > 2 ? -TARRAVANE_BAD_RECORD : -TARRAVANE_NO_REGISTER));
        CHECK(t.handler.locals.cause[3] == 1 && t.output.escalation.pos == 4 && t.output.escalation.neg == 11);
    }
}

void test_senders(void) {
    for (size_t i = 0; i < sizeof waves / sizeof *waves; i++)
        for (int e = 0; e < TARRAVANE_LINES; e++) run_wave(&waves[i], e);
    several_faults();
    for (int e = 0; e < TARRAVANE_LINES; e++) cut_cable(e);
    refused_accesses();
}
