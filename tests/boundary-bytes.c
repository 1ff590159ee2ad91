/* Equal states are equal bytes, whatever the caller's stack held, and what calls return beside them has no other bytes: nothing
 * of the caller's memory leaves in a result. */
#include "boundary.h"

#define DEEP (1 << 16)

/* Old bytes where the next call's frame, its argument and its result will be. */
__attribute__((noinline)) static void dirty(unsigned char byte) {
    unsigned char old[DEEP];
    memset(old, byte, sizeof old);
    __asm__ volatile("" : : "r"(old) : "memory");
}

/* A result in a place that held old bytes, after a call on a stack of old bytes. */
#define GIVEN(type, name, call)           \
    static type name;                     \
    memset(&name, byte, sizeof name);     \
    dirty(byte);                          \
    name = call

/* Everything that the kinds of calls return. */
struct results {
    struct tarravane_made made, refused;
    struct tarravane_answered tick, broken;
    struct tarravane_heard heard, unheard;
    struct tarravane_batched batch, uneven;
    struct tarravane_installed boot, stopped;
    struct tarravane_listened listened;
};

static void run(struct results *r, unsigned char byte) {
    static const uint8_t records[2 * TARRAVANE_RECORD_WIRES];
    static uint64_t words[2];
    GIVEN(struct tarravane_made, made, tarravane_new(TARRAVANE_ALERTS));
    GIVEN(struct tarravane_made, refused, tarravane_new(0));
    struct tarravane_sample drawn = raised(247);
    drawn.word = drawing(9, 300);
    drawn.receive_positive = drawn.receive_negative = UINT16_MAX;
    GIVEN(struct tarravane_answered, tick, tarravane_tick(made.handler, TARRAVANE_WRITE, TARRAVANE_PING_TIMER_EN, 1, drawn));
    GIVEN(struct tarravane_heard, heard, tarravane_hear(made.handler, TARRAVANE_WRITE, TARRAVANE_PING_TIMER_EN, 1, drawn));
    handler bad = tick.handler;
    bad.n = SIZE_MAX;
    GIVEN(struct tarravane_answered, broken, tarravane_tick(bad, TARRAVANE_READ, 0, 0, at_rest));
    GIVEN(struct tarravane_heard, unheard, tarravane_hear(bad, TARRAVANE_READ, 0, 0, drawn));
    GIVEN(struct tarravane_batched, batch, tarravane_batch_wires(tick.handler, records, sizeof records, words, 2));
    GIVEN(struct tarravane_batched, uneven, tarravane_batch_wires(tick.handler, records, 1, words, 2));
    GIVEN(struct tarravane_installed, boot, tarravane_install(made.handler, TARRAVANE_LIFECYCLE_PROD));
    GIVEN(struct tarravane_installed, stopped, tarravane_install(boot.handler, TARRAVANE_LIFECYCLE_PROD));
    struct tarravane_line_receivers any = {0xF5, 0xA3, 0xC6, 0x90};
    GIVEN(struct tarravane_listened, listened, tarravane_receive(any, UINT32_MAX, 5));
    *r = (struct results){made, refused, tick, broken, heard, unheard, batch, uneven, boot, stopped, listened};
    CHECK((listened.positive | listened.negative | listened.seen) < 16);
}

static bool zeros(const uint8_t spare[6]) {
    static const uint8_t none[6];
    return memcmp(spare, none, sizeof none) == 0;
}

/* The same calls over other old bytes give the same bytes. */
static void other_bytes(const struct results *first, unsigned char byte) {
    static struct results again;
    run(&again, byte);
    CHECK(memcmp(first, &again, sizeof again) == 0);
}

/* One state, reached by ticks, by a batch and by a boot, and made field by field. */
static void other_ways(const struct results *r) {
    handler h = r->tick.handler, made = new_handler(TARRAVANE_ALERTS);
    for (int i = 0; i < 2; i++) h = tarravane_tick(h, TARRAVANE_NONE, 0, 0, sample_of(wires_of(0, 0))).handler;
    CHECK(same(&h, &r->batch.handler));
    CHECK(same(&r->uneven.handler, &r->tick.handler));
    made.links.receivers.busy[3] = UINT64_C(1) << 8;
    made.links.turn = (struct tarravane_turn){0, 9, 300};
    made.timer.enable = 1;
    CHECK(same(&made, &r->tick.handler));
    made = booted(new_handler(TARRAVANE_ALERTS), TARRAVANE_LIFECYCLE_PROD, boot_entries(TARRAVANE_LIFECYCLE_PROD));
    CHECK(same(&made, &r->boot.handler) && same(&made, &r->stopped.handler));
}

void test_bytes(void) {
    static struct results first;
    run(&first, 0);
    CHECK(first.made.answer == 0 && first.refused.answer == -TARRAVANE_BAD_COUNT);
    CHECK(first.tick.answer == 0 && first.broken.answer == -TARRAVANE_BAD_STATE);
    CHECK(first.batch.answer == 0 && first.uneven.answer == -TARRAVANE_BAD_LENGTH);
    CHECK(first.boot.answer == 0 && first.stopped.answer == -TARRAVANE_LOCKED);
    CHECK(first.heard.answer == 0 && first.unheard.answer == -TARRAVANE_BAD_STATE);
    CHECK(zeros(first.boot.spare) && zeros(first.stopped.spare));
    static const unsigned char old[] = {0xFF, 0x5A, 0xA5, 1};
    for (size_t i = 0; i < sizeof old; i++) other_bytes(&first, old[i]);
    other_ways(&first);
}
