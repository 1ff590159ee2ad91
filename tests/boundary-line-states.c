/* Senders in any state: no bits of them are refused, bits from 4 up count for nothing, refusal 7 leaves them and sends (0,1). */
#include "boundary.h"

/* Line e's five bits of a number. */
static struct tarravane_senders senders_of(unsigned bits, int e) {
    return (struct tarravane_senders){(bits & 1) << e, (bits >> 1 & 1) << e, (bits >> 2 & 1) << e, (bits >> 3 & 1) << e,
                                      (bits >> 4 & 1) << e};
}

/* The same with other bits from 4 up. */
static struct tarravane_senders with_more(struct tarravane_senders s) {
    return (struct tarravane_senders){s.on | 0xFFFFFFF0u, s.first | 0x12345670u, s.last | 0x80000010u, s.deep | 0xA5A5A5A0u,
                                      s.answer | 0xFFFFFFF0u};
}

/* Written from the request: the pair is on in the tick after a lone tick of the line; what was right is by the state. */
static void any_sender(unsigned bits, int e, bool on) {
    handler h = new_handler(3);
    h.locals.en[3] = h.locals.class_of[3] = 1;
    h.links.senders = senders_of(bits, e);
    h.classes[0].ctrl = (uint16_t)(1 | 4u << e);
    h.classes[0].lengths[0] = 99;
    h.classes[0].state = on ? TARRAVANE_PHASE(0) : TARRAVANE_IDLE;
    h.classes[0].count = on;
    handler more = h;
    more.links.senders = with_more(h.links.senders);
    more.links.right = 0xFFFFFFFEu;
    for (unsigned pair = 0; pair < 4; pair++) {
        struct tarravane_sample s = at_rest;
        s.receive_positive = (uint16_t)((pair & 1) << e);
        s.receive_negative = (uint16_t)((15 & ~(1u << e)) | pair >> 1 << e);
        struct tarravane_answered t = tarravane_tick(h, TARRAVANE_NONE, 0, 0, s), u = tarravane_tick(more, TARRAVANE_NONE, 0, 0, s);
        bool answer = bits >> 4 & 1, first = bits >> 1 & 1;
        CHECK(t.answer == 0 && same(&t.handler, &u.handler) && memcmp(&t.output, &u.output, sizeof t.output) == 0);
        CHECK(t.handler.locals.cause[3] == (pair != (answer ? 1u : 2u)));
        CHECK(t.output.escalation.pos == (on || first ? 1u << e : 0) && t.output.escalation.neg == (15 & ~t.output.escalation.pos));
        CHECK(t.handler.links.senders.on == (unsigned)on << e && t.handler.links.senders.last == t.output.escalation.pos);
    }
}

/* Refusal 7: the senders stay as they were, whatever they sent before. */
static void refused_state(void) {
    for (unsigned bits = 0; bits < 32; bits++) {
        handler h = new_handler(1);
        h.links.senders = with_more(senders_of(bits, 1));
        h.links.right = 77;
        h.classes[3].state = 2;
        struct tarravane_answered t = tarravane_tick(h, TARRAVANE_NONE, 0, 0, at_rest);
        CHECK(t.answer == -TARRAVANE_BAD_STATE && same(&t.handler, &h));
        CHECK(t.output.escalation.pos == 0 && t.output.escalation.neg == 15 && t.output.lines == 0);
        CHECK(tarravane_hear(h, TARRAVANE_NONE, 0, 0, at_rest).locals == 0);
        struct tarravane_installed i = tarravane_install(h, TARRAVANE_LIFECYCLE_PROD);
        CHECK(i.answer == -TARRAVANE_BAD_STATE && same(&i.handler, &h));
    }
}

/* A boot hands in (0,1) on the receive pairs: with a line on, local 3 occurs in it. */
static void booted_with_a_line_on(void) {
    for (unsigned on = 0; on < 2; on++) {
        handler h = new_handler(TARRAVANE_ALERTS_BOOT);
        h.locals.en[3] = 1;
        h.classes[3].ctrl = 0x393D;
        h.classes[3].state = on ? TARRAVANE_TERMINAL : TARRAVANE_IDLE;
        if (on) {
            h.classes[3].state = TARRAVANE_PHASE(1);
            h.classes[3].count = 1;
            h.classes[3].lengths[1] = 5;
        }
        struct tarravane_installed i = tarravane_install(h, TARRAVANE_LIFECYCLE_DEV);
        CHECK(tarravane_all_installed(&i) && i.handler.locals.cause[3] == on);
    }
}

void test_line_states(void) {
    for (unsigned bits = 0; bits < 32; bits++)
        for (int e = 0; e < TARRAVANE_LINES; e++)
            for (int on = 0; on < 2; on++) any_sender(bits, e, on);
    refused_state();
    booted_with_a_line_on();
}
