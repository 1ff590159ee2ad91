/* Refusal 14: a class with EN that waits for 65,536 events is not locked so. */
#include "boundary.h"

/* A state whose class k has these two, by two writes each, and is not locked. */
static handler set(int k, uint32_t ctrl, uint32_t thresh) {
    handler h = new_handler(TARRAVANE_ALERTS);
    CHECK(configure(&h, TARRAVANE_CLASS_CTRL(k), ctrl) == 0);
    CHECK(configure(&h, TARRAVANE_CLASS_ACCUM_THRESH(k), thresh) == 0);
    return h;
}

/* The theft: a failed read's -1 is 65535 in 16 bits. It is written and committed, and then refused at the lock. */
static void theft(int k) {
    handler h = new_handler(TARRAVANE_ALERTS);
    int64_t failed = read_of(&h, TARRAVANE_CLASS_ACCUM_THRESH(TARRAVANE_CLASSES));
    CHECK(failed == -TARRAVANE_NO_REGISTER);
    h = set(k, 0x393F, (uint16_t)failed);
    handler open = h;
    CHECK(write_of(&h, TARRAVANE_CLASS_REGWEN(k), 0) == -TARRAVANE_THRESHOLD);
    CHECK(same(&h, &open));
    CHECK(configure(&h, TARRAVANE_CLASS_ACCUM_THRESH(k), 65534) == 0);
    CHECK(write_of(&h, TARRAVANE_CLASS_REGWEN(k), 0) == 0);
    CHECK(h.classes[k].regwen == 0 && h.classes[k].thresh == 65534);
    CHECK(write_of(&h, TARRAVANE_CLASS_ACCUM_THRESH(k), 65535) == -TARRAVANE_LOCKED);
}

/* Exactly while EN is 1, whatever the lines, the threshold 65535 and REGWEN 1, and for a written 0. */
static void exactly(int k) {
    static const uint32_t ctrls[] = {0, 1, 0x393C, 0x393D, 0x3FFE, 0x3FC3}, threshs[] = {0, 65534, 65535};
    for (size_t c = 0; c < sizeof ctrls / sizeof *ctrls; c++)
        for (size_t t = 0; t < sizeof threshs / sizeof *threshs; t++)
            for (int regwen = 0; regwen < 2; regwen++) {
                handler h = set(k, ctrls[c], threshs[t]);
                h.classes[k].regwen = (uint8_t)regwen;
                handler before = h;
                bool silly = ctrls[c] % 2 == 1 && threshs[t] == 65535 && regwen == 1;
                CHECK(write_of(&h, TARRAVANE_CLASS_REGWEN(k), 2) == -TARRAVANE_TOO_WIDE);
                CHECK(write_of(&h, TARRAVANE_CLASS_REGWEN(k), 1) == (regwen == 1 ? 0 : -TARRAVANE_LOCKED));
                CHECK(same(&h, &before));
                CHECK(write_of(&h, TARRAVANE_CLASS_REGWEN(k), 0) == (silly ? -TARRAVANE_THRESHOLD : 0));
                before.classes[k].regwen = silly;
                CHECK(same(&h, &before));
            }
}

/* A staged value does not count, neither one that would make it so nor one that would mend it; the stage stays. */
static void staged_values(int k) {
    handler h = set(k, 0x393D, 65534);
    CHECK(write_of(&h, TARRAVANE_CLASS_ACCUM_THRESH(k), 65535) == 0);
    CHECK(write_of(&h, TARRAVANE_CLASS_REGWEN(k), 0) == 0);
    h = set(k, 0x393C, 65535);
    CHECK(write_of(&h, TARRAVANE_CLASS_CTRL(k), 0x393D) == 0);
    CHECK(write_of(&h, TARRAVANE_CLASS_REGWEN(k), 0) == 0);
    h = set(k, 0x393D, 65535);
    CHECK(write_of(&h, TARRAVANE_CLASS_ACCUM_THRESH(k), 65534) == 0);
    CHECK(write_of(&h, TARRAVANE_CLASS_CTRL(k), 0x393C) == 0);
    handler before = h;
    CHECK(write_of(&h, TARRAVANE_CLASS_REGWEN(k), 0) == -TARRAVANE_THRESHOLD);
    CHECK(same(&h, &before));
}

/* No other lock gets it, and no other class; the refused access is as none in its tick. */
static void other_locks(int k) {
    handler h = set(k, 0x393D, 65535);
    CHECK(configure(&h, TARRAVANE_ALERT_EN(0), 1) == 0);
    CHECK(configure(&h, TARRAVANE_ALERT_CLASS(0), (uint32_t)k) == 0);
    struct tarravane_answered none = tarravane_tick(h, TARRAVANE_NONE, 0, 0, raised(0));
    struct tarravane_answered lock = tarravane_tick(h, TARRAVANE_WRITE, TARRAVANE_CLASS_REGWEN(k), 0, raised(0));
    CHECK(lock.answer == -TARRAVANE_THRESHOLD && none.answer == 0);
    CHECK(same(&lock.handler, &none.handler) && lock.handler.classes[k].accum == 1);
    CHECK(lock.output.interrupts == none.output.interrupts && lock.output.lines == none.output.lines);
    for (int other = 0; other < TARRAVANE_CLASSES; other++) {
        CHECK(write_of(&h, TARRAVANE_CLASS_CLR_REGWEN(other), 0) == 0);
        if (other != k) CHECK(write_of(&h, TARRAVANE_CLASS_REGWEN(other), 0) == 0);
    }
    for (int i = 0; i < TARRAVANE_ALERTS; i++) CHECK(write_of(&h, TARRAVANE_ALERT_REGWEN(i), 0) == 0);
    for (int j = 0; j < TARRAVANE_LOCALS; j++) CHECK(write_of(&h, TARRAVANE_LOC_ALERT_REGWEN(j), 0) == 0);
    CHECK(write_of(&h, TARRAVANE_CLASS_REGWEN(k), 0) == -TARRAVANE_THRESHOLD);
}

void test_threshold(void) {
    for (int k = 0; k < TARRAVANE_CLASSES; k++) {
        theft(k);
        exactly(k);
        staged_values(k);
        other_locks(k);
    }
}
