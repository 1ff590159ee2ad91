/* Where a boot stops: at what is locked, at a stage that differs, before it begins; and what it does not stop at. */
#include "boundary.h"

/* The boot stops at entry e, by this refusal; what comes before it is installed, and nothing else is changed. */
static void stops(handler h, int l, int e, int refusal) {
    handler wanted = booted(h, l, e);
    struct tarravane_installed given = tarravane_install(h, (uint8_t)l);
    CHECK(given.answer == -refusal);
    CHECK(given.register_number == boot_entry(l, e).number && !tarravane_all_installed(&given));
    CHECK(same(&given.handler, &wanted));
}

/* It ends as a boot of the state does that has nothing in its way. */
static void goes_on(handler h, handler free, int l) {
    handler wanted = booted(free, l, boot_entries(l));
    struct tarravane_installed given = tarravane_install(h, (uint8_t)l);
    CHECK(given.answer == 0 && given.register_number == 0);
    CHECK(same(&given.handler, &wanted));
}

/* An alert that is locked stops it at its CLASS; a class at its threshold: class A alone at 1285. What a boot does not write
 * may be locked. */
static void at_locks(int l) {
    for (int i = 0; i < TARRAVANE_ALERTS; i++) {
        handler h = new_handler(TARRAVANE_ALERTS);
        CHECK(write_of(&h, TARRAVANE_ALERT_REGWEN(i), 0) == 0);
        if (i < TARRAVANE_ALERTS_BOOT)
            stops(h, l, 2 * i, TARRAVANE_LOCKED);
        else
            goes_on(h, h, l);
    }
    for (int k = 0; k < TARRAVANE_CLASSES; k++) {
        handler h = new_handler(TARRAVANE_ALERTS);
        CHECK(write_of(&h, TARRAVANE_CLASS_REGWEN(k), 0) == 0);
        stops(h, l, 2 * TARRAVANE_ALERTS_BOOT + 7 * k, TARRAVANE_LOCKED);
        if (k == 0) CHECK(tarravane_install(h, (uint8_t)l).register_number == 1285);
    }
}

/* A stage that was left open: one that differs stops the boot and is dropped, so that the next boot gets on; an equal one
 * does not stop it. */
static void at_stages(int l) {
    for (int e = 0; e < BOOT_SHADOWED; e++) {
        struct boot_entry entry = boot_entry(l, e);
        handler fresh = new_handler(TARRAVANE_ALERTS), h = fresh;
        CHECK(write_of(&h, entry.number, entry.value) == 0);
        CHECK(!same(&h, &fresh));
        goes_on(h, fresh, l);
        h = fresh;
        CHECK(write_of(&h, entry.number, entry.value ^ 1) == 0);
        struct tarravane_installed given = tarravane_install(h, (uint8_t)l);
        handler wanted = booted(fresh, l, e);
        CHECK(given.answer == -TARRAVANE_DIFFERS && given.register_number == entry.number);
        CHECK(same(&given.handler, &wanted));
        goes_on(given.handler, fresh, l);
    }
}

/* After a boot that locks, the next one stops at alert 14, and changes nothing; after any other it goes through. */
static void second_boots(int first, int second) {
    handler once = tarravane_install(new_handler(TARRAVANE_ALERTS_BOOT), (uint8_t)first).handler;
    struct tarravane_installed given = tarravane_install(once, (uint8_t)second);
    bool locked = boot_entries(first) > BOOT_SHADOWED;
    CHECK(given.answer == (locked ? -TARRAVANE_LOCKED : 0));
    CHECK(given.register_number == (locked ? 782 : 0));
    if (first == second) CHECK(same(&given.handler, &once));
}

/* 7 and 13 come before any tick, and 7 first. */
static void before_it_begins(int l) {
    for (size_t n = 1; n < TARRAVANE_ALERTS_BOOT; n++)
        for (int damaged = 0; damaged < 2; damaged++) {
            handler h = new_handler(n);
            if (damaged) h.locals.cause[6] = 2;
            struct tarravane_installed given = tarravane_install(h, (uint8_t)l);
            CHECK(given.answer == (damaged ? -TARRAVANE_BAD_STATE : -TARRAVANE_FEW_ALERTS));
            CHECK(given.register_number == 0 && same(&given.handler, &h) && !tarravane_all_installed(&given));
        }
    handler h = new_handler(TARRAVANE_ALERTS);
    h.n = TARRAVANE_ALERTS + 1;
    struct tarravane_installed given = tarravane_install(h, (uint8_t)l);
    CHECK(given.answer == -TARRAVANE_BAD_STATE && given.register_number == 0 && same(&given.handler, &h));
}

/* A boot whose answer alone is 0 is not whole, nor is one whose register alone is. */
static void by_both(void) {
    struct tarravane_installed given = tarravane_install(new_handler(TARRAVANE_ALERTS_BOOT), TARRAVANE_LIFECYCLE_DEV);
    CHECK(tarravane_all_installed(&given));
    given.register_number = TARRAVANE_ALERT_EN(6);
    CHECK(!tarravane_all_installed(&given));
    given.register_number = 0;
    given.answer = 1;
    CHECK(!tarravane_all_installed(&given));
}

/* The stop by a stage that differs raises local alert 5, where that is enabled, and so starts its class. */
static void starts_a_class(int l) {
    handler h = new_handler(TARRAVANE_ALERTS);
    CHECK(configure(&h, TARRAVANE_CLASS_CTRL(1), 0x393D) == 0);
    CHECK(configure(&h, TARRAVANE_LOC_ALERT_CLASS(5), 1) == 0);
    CHECK(configure(&h, TARRAVANE_LOC_ALERT_EN(5), 1) == 0);
    CHECK(write_of(&h, TARRAVANE_ALERT_CLASS(0), boot_entry(l, 0).value ^ 1) == 0);
    struct tarravane_installed given = tarravane_install(h, (uint8_t)l);
    CHECK(given.answer == -TARRAVANE_DIFFERS && given.register_number == TARRAVANE_ALERT_CLASS(0));
    CHECK(given.handler.locals.cause[5] == 1 && given.handler.classes[1].state == TARRAVANE_PHASE(0));
}

/* The theft: an earlier caller left EN and a threshold of 65535. It is written over and read back, so the lock is taken. */
static void theft(int l) {
    handler h = new_handler(TARRAVANE_ALERTS), fresh = h;
    for (int k = 0; k < TARRAVANE_CLASSES; k++) {
        CHECK(configure(&h, TARRAVANE_CLASS_ACCUM_THRESH(k), 65535) == 0);
        CHECK(configure(&h, TARRAVANE_CLASS_CTRL(k), 0x393D) == 0);
    }
    CHECK(write_of(&h, TARRAVANE_CLASS_REGWEN(0), 0) == -TARRAVANE_THRESHOLD);
    goes_on(h, fresh, l);
}

void test_boot_stops(void) {
    by_both();
    for (int l = 0; l < LIFECYCLES; l++) {
        at_locks(l);
        at_stages(l);
        before_it_begins(l);
        theft(l);
        starts_a_class(l);
        for (int second = 0; second < LIFECYCLES; second++) second_boots(l, second);
    }
}
