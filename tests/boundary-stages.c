/* Shadow writes: the first of two equal writes is staged in its field, the second commits, and what drops a stage. */
#include "boundary.h"

/* ---- The shadowed registers ---- */

static struct shadowed rows[SHADOWED];
static int filled;

static void add(int number, int guard, int bits, size_t offset, size_t bytes) {
    rows[filled++] = (struct shadowed){number, guard, bits, offset, bytes};
}

#define STAGE(field) offsetof(struct tarravane_handler, stages.field)

static void add_sources(void) {
    for (int i = 0; i < TARRAVANE_ALERTS; i++) {
        add(TARRAVANE_ALERT_EN(i), TARRAVANE_ALERT_REGWEN(i), 1, STAGE(alerts.en) + (size_t)i, 1);
        add(TARRAVANE_ALERT_CLASS(i), TARRAVANE_ALERT_REGWEN(i), 2, STAGE(alerts.class_of) + (size_t)i, 1);
    }
    for (int j = 0; j < TARRAVANE_LOCALS; j++) {
        add(TARRAVANE_LOC_ALERT_EN(j), TARRAVANE_LOC_ALERT_REGWEN(j), 1, STAGE(locals.en) + 4 * (size_t)j, 4);
        add(TARRAVANE_LOC_ALERT_CLASS(j), TARRAVANE_LOC_ALERT_REGWEN(j), 2, STAGE(locals.class_of) + 4 * (size_t)j, 4);
    }
}

static void add_class(int k) {
    size_t at = STAGE(classes) + (size_t)k * sizeof(struct tarravane_class_stages);
    int guard = TARRAVANE_CLASS_REGWEN(k);
    add(TARRAVANE_CLASS_CTRL(k), guard, 14, at + offsetof(struct tarravane_class_stages, ctrl), 4);
    add(TARRAVANE_CLASS_ACCUM_THRESH(k), guard, 16, at + offsetof(struct tarravane_class_stages, thresh), 4);
    add(TARRAVANE_CLASS_TIMEOUT_CYC(k), guard, 32, at + offsetof(struct tarravane_class_stages, timeout), 8);
    for (int p = 0; p < TARRAVANE_PHASES; p++)
        add(TARRAVANE_CLASS_PHASE_CYC(k, p), guard, 32, at + 8 * (size_t)p, 8);
}

const struct shadowed *all_shadowed(void) {
    if (filled == 0) {
        add(TARRAVANE_PING_TIMEOUT_CYC, TARRAVANE_PING_TIMER_REGWEN, 16, STAGE(timeout), 8);
        add_sources();
        for (int k = 0; k < TARRAVANE_CLASSES; k++) add_class(k);
        CHECK(filled == SHADOWED);
    }
    return rows;
}

/* Low bytes first, as the library's machine has them. */
uint64_t stage_of(const handler *h, const struct shadowed *s) {
    uint64_t code = 0;
    memcpy(&code, (const char *)h + s->offset, s->bytes);
    return code;
}

void set_stage(handler *h, const struct shadowed *s, uint64_t code) {
    memcpy((char *)h + s->offset, &code, s->bytes);
}

/* ---- What two writes do ---- */

static uint32_t largest(const struct shadowed *s) {
    return (uint32_t)((UINT64_C(1) << s->bits) - 1);
}

/* A read that is a tick of the state. */
static int64_t read_tick(handler *h, int number) {
    struct tarravane_answered t = tarravane_tick(*h, TARRAVANE_READ, (uint16_t)number, 0, at_rest);
    *h = t.handler;
    return t.answer;
}

/* The state with the largest value staged in one register, by one write. */
static handler staged(const handler *fresh, const struct shadowed *s) {
    handler h = *fresh, wanted = *fresh;
    CHECK(write_of(&h, s->number, largest(s)) == 0);
    set_stage(&wanted, s, (uint64_t)largest(s) + 1);
    CHECK(same(&h, &wanted));
    return h;
}

/* The second write commits; the next one is a first write again. */
static void commits(const handler *fresh, const struct shadowed *s) {
    int64_t before = read_of(fresh, s->number);
    handler h = staged(fresh, s);
    CHECK(read_of(&h, s->number) == before);
    CHECK(write_of(&h, s->number, largest(s)) == 0);
    CHECK(stage_of(&h, s) == 0);
    CHECK(read_of(&h, s->number) == largest(s));
    handler held = h;
    CHECK(write_of(&h, s->number, 0) == 0);
    CHECK(stage_of(&h, s) == 1);
    CHECK(read_tick(&h, s->number) == largest(s));
    CHECK(same(&h, &held));
}

/* A differing second write, a read and a locked write drop the stage; one that is too wide, refused, or of another register
 * leaves it. */
static void drops(const handler *fresh, const struct shadowed *s, const struct shadowed *other) {
    handler h = staged(fresh, s);
    CHECK(write_of(&h, s->number, largest(s) ^ 1) == -TARRAVANE_DIFFERS);
    CHECK(same(&h, fresh));
    h = staged(fresh, s);
    CHECK(read_tick(&h, s->number) == read_of(fresh, s->number));
    CHECK(same(&h, fresh));
    h = staged(fresh, s);
    handler kept = h;
    if (s->bits < 32) CHECK(write_of(&h, s->number, largest(s) + 1) == -TARRAVANE_TOO_WIDE);
    CHECK(write_of(&h, TARRAVANE_CLASS_STATE(0), 0) == -TARRAVANE_WRONG_WAY);
    CHECK(write_of(&h, 3, 0) == -TARRAVANE_NO_REGISTER);
    CHECK(same(&h, &kept));
    CHECK(write_of(&h, other->number, 1) == 0);
    CHECK(stage_of(&h, s) == (uint64_t)largest(s) + 1 && stage_of(&h, other) == 2);
    CHECK(write_of(&h, s->number, largest(s)) == 0);
    CHECK(stage_of(&h, s) == 0 && stage_of(&h, other) == 2);
}

/* A stage waits through the lock; the write that meets the lock drops it, and never raises local 5. */
static void locks(const handler *fresh, const struct shadowed *s) {
    handler h = staged(fresh, s);
    CHECK(write_of(&h, s->guard, 0) == 0);
    CHECK(stage_of(&h, s) == (uint64_t)largest(s) + 1);
    for (uint32_t other = 0; other < 2; other++) {
        handler locked = h;
        CHECK(write_of(&locked, s->number, largest(s) ^ other) == -TARRAVANE_LOCKED);
        CHECK(stage_of(&locked, s) == 0);
        CHECK(read_of(&locked, s->number) == read_of(fresh, s->number));
        CHECK(locked.locals.cause[5] == 0);
    }
}

/* ---- Local alert 5 ---- */

static handler with_local_5(void) {
    handler h = new_handler(TARRAVANE_ALERTS);
    CHECK(configure(&h, TARRAVANE_LOC_ALERT_CLASS(5), 2) == 0);
    CHECK(configure(&h, TARRAVANE_LOC_ALERT_EN(5), 1) == 0);
    CHECK(configure(&h, TARRAVANE_CLASS_CTRL(2), 0x393D) == 0);
    CHECK(write_of(&h, TARRAVANE_INTR_ENABLE, 4) == 0);
    return h;
}

/* A write that differs makes it occur in its own tick, with all that an occurring local alert does. */
static void local_5(void) {
    handler h = with_local_5();
    CHECK(write_of(&h, TARRAVANE_ALERT_EN(0), 1) == 0);
    struct tarravane_answered t = tarravane_tick(h, TARRAVANE_WRITE, TARRAVANE_ALERT_EN(0), 0, at_rest);
    CHECK(t.answer == -TARRAVANE_DIFFERS);
    for (int j = 0; j < TARRAVANE_LOCALS; j++) CHECK(t.handler.locals.cause[j] == (j == 5));
    CHECK(t.output.interrupts == 4 && t.output.lines == 1);
    CHECK(t.handler.classes[2].state == TARRAVANE_PHASE(0) && t.handler.classes[2].accum == 1);
    /* The differing value was not staged. */
    CHECK(write_of(&t.handler, TARRAVANE_ALERT_EN(0), 0) == 0);
    CHECK(t.handler.stages.alerts.en[0] == 1);
    /* Its own EN is the one before the differing write, which commits nothing. */
    h.stages.locals.en[5] = 1;
    t = tarravane_tick(h, TARRAVANE_WRITE, TARRAVANE_LOC_ALERT_EN(5), 1, at_rest);
    CHECK(t.answer == -TARRAVANE_DIFFERS && t.handler.locals.cause[5] == 1);
}

void test_stages(void) {
    handler fresh = new_handler(TARRAVANE_ALERTS);
    const struct shadowed *all = all_shadowed();
    for (int i = 0; i < SHADOWED; i++) {
        commits(&fresh, &all[i]);
        drops(&fresh, &all[i], &all[(i + 1) % SHADOWED]);
        locks(&fresh, &all[i]);
    }
    local_5();
}
