/* The ping timer from C's side, request (ix): when a ping is due and when it fails, to the tick at both ends, what answers it,
 * what opens none, and the turns one after another. */
#include "boundary.h"

#define LOCAL_0 1u /* an alert's ping fails */
#define LOCAL_1 2u /* a line's */

/* ---- Ticks ---- */

uint32_t drawing(uint32_t alert, uint32_t ticks) {
    return 0xC5000000u | alert << 16 | ticks;
}

handler with_timer(size_t n, int i, uint32_t timeout) {
    handler h = new_handler(n);
    h.alerts.en[i] = h.locals.en[0] = h.locals.en[1] = 1;
    h.alerts.regwen[i] = 0;
    h.timer.timeout = timeout;
    return h;
}

/* A tick at rest with this word; gives the local alerts that it hears. */
static uint64_t quiet(handler *h, uint32_t word) {
    struct tarravane_sample s = at_rest;
    s.word = word;
    uint64_t locals = tarravane_hear(*h, TARRAVANE_NONE, 0, 0, s).locals;
    *h = tarravane_tick(*h, TARRAVANE_NONE, 0, 0, s).handler;
    return locals;
}

/* A tick with an access and this word; gives its answer. */
static int64_t writes(handler *h, int number, uint32_t value, uint32_t word) {
    struct tarravane_sample s = at_rest;
    s.word = word;
    struct tarravane_answered t = tarravane_tick(*h, TARRAVANE_WRITE, (uint16_t)number, value, s);
    *h = t.handler;
    return t.answer;
}

/* A tick with the right receive pairs, but for these bits of both wires; gives the local alerts that it hears. */
static uint64_t answering(handler *h, unsigned positive, unsigned negative, uint32_t word) {
    struct tarravane_sample s = sounding(h);
    s.receive_positive = (uint16_t)(s.receive_positive ^ positive);
    s.receive_negative = (uint16_t)(s.receive_negative ^ negative);
    s.word = word;
    uint64_t locals = tarravane_hear(*h, TARRAVANE_NONE, 0, 0, s).locals;
    *h = tarravane_tick(*h, TARRAVANE_NONE, 0, 0, s).handler;
    return locals;
}

static bool alert_open(const handler *h, int i) {
    return h->links.receivers.pending[i / 64] & bit_of_alert((size_t)i);
}

static bool turn_is(const handler *h, unsigned number, unsigned alert, unsigned count) {
    struct tarravane_turn t = h->links.turn;
    return t.number == number && t.alert == alert && t.count == count;
}

/* A handler in which the ping of alert i, or of line e where it is one's turn, opens in the coming tick. */
static handler before_alert(int i, uint32_t timeout) {
    handler h = with_timer(TARRAVANE_ALERTS, i, timeout);
    CHECK(writes(&h, TARRAVANE_PING_TIMER_EN, 1, drawing((uint32_t)i, 0)) == 0);
    return h;
}

static handler before_line(int e, uint32_t timeout) {
    handler h = before_alert(0, timeout);
    h.links.turn = (struct tarravane_turn){(uint8_t)(2 * e + 1), 9, 0};
    return h;
}

/* ---- When a ping is due ---- */

/* "its low 16 bits plus 1 are the ticks to the ping": not a tick before, whatever the words of the ticks between say. */
static void due(int i, uint32_t ticks) {
    handler h = with_timer(TARRAVANE_ALERTS, i, 0);
    uint64_t *level = &h.links.receivers.level[i / 64];
    CHECK(writes(&h, TARRAVANE_PING_TIMER_EN, 1, drawing((uint32_t)i, ticks)) == 0);
    CHECK(turn_is(&h, 0, (unsigned)i, ticks) && !alert_open(&h, i));
    for (uint32_t t = 0; t < ticks; t++) {
        CHECK(quiet(&h, UINT32_MAX) == 0);
        CHECK(!alert_open(&h, i) && *level == 0);
    }
    CHECK(quiet(&h, UINT32_MAX) == 0);
    CHECK(alert_open(&h, i) && *level == bit_of_alert((size_t)i));
    CHECK(turn_is(&h, 0, (unsigned)i, 0));
}

/* 6 counts from the tick in which it becomes 1: another 1 and a 0 set no turn, and neither answers a refusal. */
static void enabled_once(void) {
    handler h = before_alert(3, 0);
    h.links.turn.count = 4;
    CHECK(writes(&h, TARRAVANE_PING_TIMER_EN, 1, drawing(5, 9)) == 0);
    CHECK(turn_is(&h, 0, 3, 3));
    CHECK(writes(&h, TARRAVANE_PING_TIMER_EN, 0, drawing(5, 9)) == 0);
    CHECK(turn_is(&h, 0, 3, 2) && h.timer.enable == 1);
    CHECK(writes(&h, TARRAVANE_PING_TIMER_EN, 2, 0) == -TARRAVANE_TOO_WIDE);
    CHECK(writes(&h, TARRAVANE_PING_TIMER_REGWEN, 0, 0) == 0);
    for (uint32_t value = 0; value < 2; value++)
        CHECK(writes(&h, TARRAVANE_PING_TIMER_EN, value, 0) == -TARRAVANE_LOCKED);
    CHECK(writes(&h, TARRAVANE_PING_TIMEOUT_CYC, 7, 0) == -TARRAVANE_LOCKED);
    CHECK(writes(&h, TARRAVANE_PING_TIMER_REGWEN, 1, 0) == -TARRAVANE_LOCKED);
    CHECK(writes(&h, TARRAVANE_PING_TIMER_REGWEN, 0, 0) == 0);
    CHECK(h.timer.enable == 1);
}

/* Not claimed: 4 locked before 6 is 1 keeps the timer off for ever. */
static void locked_first(void) {
    handler h = with_timer(TARRAVANE_ALERTS, 0, 5);
    CHECK(writes(&h, TARRAVANE_PING_TIMER_REGWEN, 0, 0) == 0);
    CHECK(writes(&h, TARRAVANE_PING_TIMER_EN, 1, 0) == -TARRAVANE_LOCKED);
    handler before = h;
    for (int t = 0; t < 9; t++) CHECK(quiet(&h, drawing(0, 0)) == 0);
    CHECK(same(&h, &before));
}

/* ---- When a ping fails ---- */

/* Opened in P it fails in P + timeout and not before; it closes, and that tick's word sets the next turn. */
static void fails(handler h, uint64_t local, unsigned next, uint32_t timeout) {
    handler failing = h;
    for (uint32_t age = 0; age < timeout; age++) CHECK(quiet(&failing, 0) == 0);
    CHECK(quiet(&failing, drawing(200, 1000)) == local);
    CHECK(turn_is(&failing, next, 200, 1000));
    CHECK(failing.links.lines == 0 && failing.links.receivers.pending[0] == 0);
    CHECK(failing.locals.cause[local == LOCAL_0 ? 0 : 1] == 1);
    /* A disabled local alert does not occur; the ping closes and the turn ends all the same. */
    h.locals.en[0] = h.locals.en[1] = 0;
    for (uint32_t age = 0; age <= timeout; age++) CHECK(quiet(&h, drawing(200, 1000)) == 0);
    CHECK(turn_is(&h, next, 200, 1000) && h.links.lines == 0 && h.links.receivers.pending[0] == 0);
}

/* An answer is in time in the tick of the timeout, and nothing fails; one tick later the ping has failed before it. */
static void answered_at(uint32_t timeout, uint32_t age) {
    handler h = before_alert(7, timeout);
    for (uint32_t t = 0; t < age; t++) CHECK(quiet(&h, 0) == (t == timeout ? LOCAL_0 : 0));
    bool late = age > timeout;
    struct tarravane_heard heard = tarravane_hear(h, TARRAVANE_NONE, 0, 0, raised(7));
    CHECK(heard.answers[0] == (late ? 0 : bit_of_alert(7)) && heard.events[0] == (late ? bit_of_alert(7) : 0));
    CHECK(heard.locals == 0);
}

/* A line's is answered in the fourth tick after it opened, which is in time at a timeout of 4; a shorter one comes first. */
static void line_answered(int e, uint32_t timeout) {
    handler h = before_line(e, timeout);
    bool late = timeout > 0 && timeout < 4;
    for (uint32_t age = 0; age < (late ? timeout : 4); age++) {
        CHECK(answering(&h, 0, 0, drawing(9, 90)) == 0);
        CHECK(h.links.lines == 1u << e && h.links.turn.count == age);
    }
    CHECK(answering(&h, 0, 0, drawing(9, 3)) == (late ? LOCAL_1 : 0));
    CHECK(h.links.lines == 0 && turn_is(&h, (unsigned)(2 * e + 2) % 8, 9, 3));
}

/* "at timeout 0 it waits for its answer", also past the largest count, which stays. */
static void waits(handler h) {
    struct tarravane_links open;
    for (uint32_t age = 0; age < 70000; age++) CHECK(quiet(&h, 0) == 0);
    open = h.links;
    CHECK(open.turn.count == 65535 && (open.lines | open.receivers.pending[0]) != 0);
    CHECK(quiet(&h, 0) == 0 && memcmp(&open, &h.links, sizeof open) == 0);
    /* The timeout that stands after the access counts: raised from 0 it fails in that tick, the largest one too. */
    CHECK(writes(&h, TARRAVANE_PING_TIMEOUT_CYC, 65535, 0) == 0);
    CHECK((h.links.lines | h.links.receivers.pending[0]) != 0);
    CHECK(writes(&h, TARRAVANE_PING_TIMEOUT_CYC, 65535, drawing(8, 6)) == 0);
    CHECK((h.links.lines | h.links.receivers.pending[0]) == 0 && h.links.turn.count == 6);
    CHECK(h.locals.cause[0] + h.locals.cause[1] == 1);
}

/* Lowered to the age while the ping is open, it fails in that tick; above the age it does not. */
static void lowered(uint32_t timeout, uint32_t age, uint32_t to) {
    handler h = before_alert(1, timeout);
    for (uint32_t t = 0; t < age; t++) CHECK(quiet(&h, 0) == 0);
    h.stages.timeout = to + 1;
    CHECK(writes(&h, TARRAVANE_PING_TIMEOUT_CYC, to, drawing(2, 2)) == 0);
    bool fails_now = to > 0 && to <= age;
    CHECK(alert_open(&h, 1) == !fails_now && h.locals.cause[0] == fails_now);
}

/* ---- What opens none, and what answers ---- */

/* The drawn alert is not pinged, and the turn ends in the due tick: the next is line 0's. */
static void none_opens(handler h) {
    handler before = h;
    CHECK(quiet(&h, drawing(4, 44)) == 0);
    CHECK(turn_is(&h, 1, 4, 44));
    CHECK(memcmp(&h.links.receivers, &before.links.receivers, sizeof h.links.receivers) == 0 && h.links.lines == 0);
}

static void not_pinged(size_t n) {
    for (unsigned drawn = (unsigned)n; drawn < 256; drawn++) {
        handler h = with_timer(n, 0, 1);
        for (size_t i = n; i < TARRAVANE_ALERTS; i++) {
            h.alerts.en[i] = 1;
            h.alerts.regwen[i] = 0;
        }
        CHECK(writes(&h, TARRAVANE_PING_TIMER_EN, 1, drawing(drawn, 0)) == 0);
        none_opens(h);
    }
    handler unlocked = before_alert((int)n - 1, 1), disabled = unlocked;
    unlocked.alerts.regwen[n - 1] = 1;
    none_opens(unlocked);
    disabled.alerts.en[n - 1] = 0;
    none_opens(disabled);
    disabled.alerts.regwen[n - 1] = 1;
    none_opens(disabled);
}

/* Due is judged after the access: a lock or an enable by the access of the due tick counts. */
static void access_of_the_due_tick(void) {
    handler h = before_alert(70, 3);
    h.alerts.regwen[70] = 1;
    CHECK(writes(&h, TARRAVANE_ALERT_REGWEN(70), 0, 0) == 0);
    CHECK(alert_open(&h, 70));
    h = before_alert(70, 3);
    h.alerts.regwen[70] = 1;
    h.alerts.en[70] = 0;
    h.stages.alerts.en[70] = 2;
    CHECK(writes(&h, TARRAVANE_ALERT_EN(70), 1, 0) == 0);
    CHECK(!alert_open(&h, 70) && h.links.turn.number == 1); /* enabled, and not locked */
    h = before_alert(70, 3);
    CHECK(writes(&h, TARRAVANE_ALERT_EN(70), 0, 0) == -TARRAVANE_LOCKED);
    CHECK(alert_open(&h, 70));
}

/* A line's ping shows in no alert's pair, and its answer and its failure neither; on its own pair it is one tick. */
static void lines_show_nothing(int e) {
    struct tarravane_output wanted = {
        0, 0, {{0}, {UINT64_MAX, UINT64_MAX, UINT64_MAX, UINT64_MAX}}, {{0}, {UINT64_MAX, UINT64_MAX, UINT64_MAX, UINT64_MAX}}, {0, 15}};
    handler h = before_line(e, 2);
    for (uint32_t t = 0; t < 3; t++) {
        struct tarravane_answered given = tarravane_tick(h, TARRAVANE_NONE, 0, 0, at_rest);
        wanted.escalation.pos = t == 0 ? 1u << e : 0;
        wanted.escalation.neg = 15 & ~wanted.escalation.pos;
        CHECK(memcmp(&given.output, &wanted, sizeof wanted) == 0);
        h = given.handler;
    }
    CHECK(h.locals.cause[1] == 1);
}

/* One answer of the four that is not right, of either wire or both, and the ping is never answered: it fails at the timeout, and
 * at timeout 0 it stays open. What comes back in the tick of the ping itself, and on other lines, is none of its answers. */
static void wrong_answers(int e) {
    for (uint32_t timeout = 0; timeout < 7; timeout += 6)
        for (uint32_t age = 0; age <= 4; age++)
            for (unsigned wires = 1; wires < 4; wires++)
                for (int l = 0; l < TARRAVANE_LINES; l++) {
                    unsigned positive = (wires & 1) << l, negative = wires >> 1 << l;
                    bool spoils = l == e && age > 0;
                    handler h = before_line(e, timeout);
                    for (uint32_t t = 0; t <= 4; t++)
                        CHECK(answering(&h, t == age ? positive : 0, t == age ? negative : 0, drawing(7, 800)) == 0);
                    CHECK(h.links.lines == (spoils ? 1u << e : 0));
                    CHECK(answering(&h, 0, 0, 0) == 0);
                    CHECK(answering(&h, 0, 0, 0) == (spoils && timeout == 6 ? LOCAL_1 : 0));
                    CHECK(h.links.lines == (spoils && timeout == 0 ? 1u << e : 0));
                }
}

/* ---- Turns one after another ---- */

/* Alert, line 0, alert, line 1, .. and round again; each turn is set by the word of the tick in which the one before ends. */
static void turns(void) {
    handler h = before_alert(5, 0);
    for (unsigned turn = 0; turn < 64; turn++) {
        CHECK(h.links.turn.number == turn % 8);
        unsigned alert = 100 + turn;
        if (turn % 2 == 1) {
            for (int t = 0; t < 4; t++)
                CHECK(answering(&h, 0, 0, UINT32_MAX) == 0 && h.links.lines == 1u << turn / 2 % 4);
            CHECK(answering(&h, 0, 0, drawing(alert, 0)) == 0 && h.links.lines == 0);
        } else {
            CHECK(quiet(&h, drawing(alert, turn == 0 ? 1 : 0)) == 0);
            if (turn == 0) h = tarravane_tick(h, TARRAVANE_NONE, 0, 0, raised(5)).handler;
        }
    }
    CHECK(h.locals.cause[0] + h.locals.cause[1] == 0);
}

/* A seal's sender that is stuck at (0,1): its ping fails, local 0 starts class A. */
static void starts_a_class(void) {
    handler h = before_alert(0, 2);
    h.classes[0].ctrl = 0x393D;
    h.interrupts.enable = 1;
    for (int t = 0; t < 2; t++) CHECK(quiet(&h, 0) == 0);
    struct tarravane_answered t = tarravane_tick(h, TARRAVANE_NONE, 0, 0, at_rest);
    CHECK(t.output.interrupts == 1 && t.output.lines == 1);
    CHECK(t.handler.classes[0].state == TARRAVANE_PHASE(0) && t.handler.locals.cause[0] == 1);
}

void test_timer(void) {
    static const uint32_t ticks[] = {0, 1, 2, 255, 256, 65534, 65535}, timeouts[] = {1, 2, 3, 256, 65534, 65535};
    for (size_t i = 0; i < sizeof ticks / sizeof *ticks; i++) due(i % 2 ? 247 : 64, ticks[i]);
    enabled_once();
    locked_first();
    for (size_t i = 0; i < sizeof timeouts / sizeof *timeouts; i++) {
        fails(before_alert(0, timeouts[i]), LOCAL_0, 1, timeouts[i]);
        for (int e = 0; e < TARRAVANE_LINES; e++)
            fails(before_line(e, timeouts[i]), LOCAL_1, (unsigned)(2 * e + 2) % 8, timeouts[i]);
    }
    for (uint32_t timeout = 1; timeout < 6; timeout++)
        for (uint32_t age = 0; age <= timeout + 1; age++) answered_at(timeout, age);
    waits(before_alert(0, 0));
    waits(before_line(3, 0));
    for (uint32_t age = 0; age < 8; age++)
        for (uint32_t to = 0; to < 12; to++) lowered(9, age, to);
    for (size_t n = 1; n <= TARRAVANE_ALERTS; n += 19) not_pinged(n);
    not_pinged(TARRAVANE_ALERTS);
    access_of_the_due_tick();
    for (int e = 0; e < TARRAVANE_LINES; e++) {
        for (uint32_t timeout = 0; timeout < 9; timeout++) line_answered(e, timeout);
        wrong_answers(e);
        lines_show_nothing(e);
    }
    turns();
    starts_a_class();
}
