/* Dumps: the bytes of every part, by request (xiv)'s widths; the buffer around them and what is refused; what is read back, of
 * cut, longer and changed bytes too. */
#include "boundary.h"

#define MARGIN 16 /* guard bytes before and after a buffer */
#define GUARD_BYTE 0xA5

typedef struct tarravane_content content;

/* ---- The dump by the request's widths ---- */

struct bits {
    uint8_t *at;
    size_t used;
};

static void put(struct bits *b, int width, uint32_t value) {
    for (int i = width - 1; i >= 0; i--, b->used++) {
        if (b->used % 8 == 0) b->at[b->used / 8] = 0;
        b->at[b->used / 8] |= (uint8_t)((value >> i & 1) << (7 - b->used % 8));
    }
}

/* Is it a register of a handler of n alerts? Only alerts' come and go. */
static bool is_there(const struct shadowed *s, size_t n) {
    int i = s->number >= TARRAVANE_ALERT_CLASS(0) ? s->number - TARRAVANE_ALERT_CLASS(0) : s->number - TARRAVANE_ALERT_EN(0);
    return s->number < TARRAVANE_ALERT_EN(0) || s->number >= TARRAVANE_CLASS_REGWEN(0) || i < (int)n;
}

/* The shadowed register of a number, where a handler of n alerts has one. */
static const struct shadowed *shadowed_at(int number, size_t n) {
    static const struct shadowed *by_number[TARRAVANE_REGISTERS];
    static bool filled;
    const struct shadowed *all = all_shadowed();
    for (int s = 0; s < SHADOWED && !filled; s++) by_number[all[s].number] = &all[s];
    filled = true;
    const struct shadowed *s = by_number[number];
    return s != NULL && is_there(s, n) ? s : NULL;
}

static void put_stages(struct bits *b, const handler *h) {
    uint16_t count = 0;
    for (int pass = 0; pass < 2; pass++) {
        for (int number = 0; number < TARRAVANE_REGISTERS; number++) {
            const struct shadowed *s = shadowed_at(number, h->n);
            uint64_t code = s ? stage_of(h, s) : 0;
            if (code == 0) continue;
            if (pass == 0) {
                count++;
                continue;
            }
            put(b, 16, (uint32_t)number);
            put(b, 32, (uint32_t)(code - 1));
        }
        if (pass == 0) put(b, 16, count);
    }
}

/* Answers the bytes. */
static size_t packed(const handler *h, uint8_t *out) {
    struct bits b = {out, 0};
    for (int i = 0; i < 4; i++) put(&b, 8, (uint8_t)"TDMP"[i]);
    put(&b, 8, (uint32_t)h->n);
    for (int k = 0; k < TARRAVANE_CLASSES; k++) {
        put(&b, 3, h->classes[k].state);
        put(&b, 32, h->classes[k].count);
        put(&b, 16, h->classes[k].accum);
    }
    for (int j = 0; j < TARRAVANE_LOCALS; j++) put(&b, 1, h->locals.cause[j]);
    for (size_t i = 0; i < h->n; i++) put(&b, 1, h->alerts.cause[i]);
    put(&b, 1, !h->timer.regwen);
    for (int j = 0; j < TARRAVANE_LOCALS; j++) put(&b, 1, !h->locals.regwen[j]);
    for (size_t i = 0; i < h->n; i++) put(&b, 1, !h->alerts.regwen[i]);
    for (int k = 0; k < TARRAVANE_CLASSES; k++) {
        put(&b, 1, !h->classes[k].regwen);
        put(&b, 1, !h->classes[k].clrwen);
    }
    while (b.used % 8 != 0) put(&b, 1, 0);
    put_stages(&b, h);
    return b.used / 8;
}

/* What its dump shows. */
static content shown_of(const handler *h) {
    content c;
    memset(&c, 0, sizeof c);
    c.n = h->n;
    for (int k = 0; k < TARRAVANE_CLASSES; k++) {
        c.classes[k].state = h->classes[k].state;
        c.classes[k].count = h->classes[k].count;
        c.classes[k].accum = h->classes[k].accum;
        c.locked[TARRAVANE_CLASS_REGWEN(k)] = !h->classes[k].regwen;
        c.locked[TARRAVANE_CLASS_CLR_REGWEN(k)] = !h->classes[k].clrwen;
    }
    c.locked[TARRAVANE_PING_TIMER_REGWEN] = !h->timer.regwen;
    for (int j = 0; j < TARRAVANE_LOCALS; j++) {
        c.causes[TARRAVANE_LOC_ALERT_CAUSE(j)] = h->locals.cause[j];
        c.locked[TARRAVANE_LOC_ALERT_REGWEN(j)] = !h->locals.regwen[j];
    }
    for (size_t i = 0; i < h->n; i++) {
        c.causes[TARRAVANE_ALERT_CAUSE(i)] = h->alerts.cause[i];
        c.locked[TARRAVANE_ALERT_REGWEN(i)] = !h->alerts.regwen[i];
    }
    for (int s = 0; s < SHADOWED; s++) {
        const struct shadowed *one = &all_shadowed()[s];
        if (is_there(one, h->n)) c.stages[one->number] = stage_of(h, one);
    }
    return c;
}

/* ---- States ---- */

/* Other bits in every register that a dump shows. */
static handler varied(size_t n, uint32_t turn) {
    static const uint32_t states[] = {0, 1, 3, 4, 5, 6, 7};
    handler h = new_handler(1);
    h.n = n;
    for (int k = 0; k < TARRAVANE_CLASSES; k++) {
        h.classes[k].state = states[(turn + (uint32_t)k) % 7];
        h.classes[k].count = h.classes[k].state % 3 == 0 && h.classes[k].state < 4 ? 0 : UINT32_MAX - turn * 77777777u;
        h.classes[k].accum = (uint16_t)(turn * 4099u + (uint32_t)k);
        h.classes[k].regwen = (uint8_t)(turn >> k & 1);
        h.classes[k].clrwen = (uint8_t)(turn >> (3 - k) & 1);
    }
    h.timer.regwen = (uint8_t)(turn & 1);
    for (int j = 0; j < TARRAVANE_LOCALS; j++) {
        h.locals.cause[j] = (uint8_t)((turn + (uint32_t)j) % 3 == 0);
        h.locals.regwen[j] = (uint8_t)((turn + (uint32_t)j) % 5 != 0);
    }
    /* those at n and above too: no dump has them */
    for (int i = 0; i < TARRAVANE_ALERTS; i++) {
        h.alerts.cause[i] = (uint8_t)((turn + (uint32_t)i) % 7 < 3);
        h.alerts.regwen[i] = (uint8_t)((turn + (uint32_t)i) % 4 != 1);
    }
    for (int s = (int)(turn % 5); s < SHADOWED; s += 1 + (int)(turn % 97)) {
        const struct shadowed *one = &all_shadowed()[s];
        set_stage(&h, one, (turn & 2) != 0 ? UINT64_C(1) << one->bits : 1);
    }
    return h;
}

/* A state that holds what is shown. */
static handler holding(const content *c) {
    handler h = new_handler(1);
    h.n = c->n;
    for (int k = 0; k < TARRAVANE_CLASSES; k++) {
        h.classes[k].state = c->classes[k].state;
        h.classes[k].count = c->classes[k].count;
        h.classes[k].accum = (uint16_t)c->classes[k].accum;
        h.classes[k].regwen = !c->locked[TARRAVANE_CLASS_REGWEN(k)];
        h.classes[k].clrwen = !c->locked[TARRAVANE_CLASS_CLR_REGWEN(k)];
    }
    h.timer.regwen = !c->locked[TARRAVANE_PING_TIMER_REGWEN];
    for (int j = 0; j < TARRAVANE_LOCALS; j++) {
        h.locals.cause[j] = c->causes[TARRAVANE_LOC_ALERT_CAUSE(j)];
        h.locals.regwen[j] = !c->locked[TARRAVANE_LOC_ALERT_REGWEN(j)];
    }
    for (size_t i = 0; i < c->n; i++) {
        h.alerts.cause[i] = c->causes[TARRAVANE_ALERT_CAUSE(i)];
        h.alerts.regwen[i] = !c->locked[TARRAVANE_ALERT_REGWEN(i)];
    }
    for (int s = 0; s < SHADOWED; s++) set_stage(&h, &all_shadowed()[s], c->stages[all_shadowed()[s].number]);
    return h;
}

/* ---- Checks ---- */

/* The call stays in its buffer, and gives these bytes or leaves what there was. */
static void writes(const handler *h, size_t length, int64_t answer, const uint8_t *dump) {
    static uint8_t all[MARGIN + TARRAVANE_DUMP_MOST + 64 + MARGIN], wanted[sizeof all];
    CHECK(length <= TARRAVANE_DUMP_MOST + 64);
    memset(all, GUARD_BYTE, sizeof all);
    memset(wanted, GUARD_BYTE, sizeof wanted);
    if (answer > 0) memcpy(wanted + MARGIN, dump, (size_t)answer);
    CHECK(tarravane_dump(*h, all + MARGIN, length) == answer);
    CHECK(memcmp(all, wanted, sizeof all) == 0);
}

static bool is_nothing(const content *c) {
    content none;
    memset(&none, 0, sizeof none);
    none.answer = c->answer;
    return memcmp(c, &none, sizeof none) == 0;
}

static void reads_refused(const uint8_t *bytes, size_t length, int number) {
    content c = tarravane_read_dump(bytes, length);
    CHECK(c.answer == -number);
    CHECK(is_nothing(&c));
}

/* The state's bytes are those of the widths, and read back they show what it held. */
static size_t dumps(const handler *h, uint8_t *dump) {
    size_t length = packed(h, dump);
    CHECK(length <= TARRAVANE_DUMP_MOST);
    writes(h, length, (int64_t)length, dump);
    writes(h, length + 1, (int64_t)length, dump);
    writes(h, length - 1, -TARRAVANE_SHORT_BUFFER, NULL);
    content wanted = shown_of(h), got = tarravane_read_dump(dump, length);
    CHECK(memcmp(&wanted, &got, sizeof got) == 0);
    return length;
}

/* A new handler's, byte by byte. */
static void the_bytes_of_a_new_handler(void) {
    uint8_t dump[TARRAVANE_DUMP_MOST], wanted[36] = {'T', 'D', 'M', 'P', 1};
    handler h = new_handler(1);
    CHECK(dumps(&h, dump) == sizeof wanted);
    CHECK(memcmp(dump, wanted, sizeof wanted) == 0);
}

/* A theft's, byte by byte: class A in Phase 1 for 2 ticks, 3 events, alert 0's cause, class A locked, a write half done. */
static void the_bytes_of_a_theft(void) {
    static const uint8_t wanted[42] = {
        'T', 'D', 'M', 'P', 2,            /* N */
        0xA0, 0, 0, 0, 0x40, 0, 0x60,     /* class A: 101, count 2, accumulator 3 */
        [31] = 0x10,                      /* 7 local causes, from the fifth bit of byte 30 on; then alert 0's */
        [32] = 0x01, [33] = 0x80,         /* the locks of the timer, 7 local alerts and 2 alerts; then class A's two */
        [34] = 0, 1, 0x05, 0x05, 0, 0, 0, 2 /* one stage: register 1285, value 2 */
    };
    uint8_t dump[TARRAVANE_DUMP_MOST];
    handler h = new_handler(2);
    h.classes[0].state = TARRAVANE_PHASE(1);
    h.classes[0].count = 2;
    h.classes[0].accum = 3;
    h.alerts.cause[0] = 1;
    CHECK(write_of(&h, TARRAVANE_CLASS_ACCUM_THRESH(0), 2) == 0);
    h.classes[0].state = TARRAVANE_PHASE(1); /* the tick of the write went on */
    h.classes[0].count = 2;
    h.classes[0].regwen = h.classes[0].clrwen = 0;
    CHECK(dumps(&h, dump) == sizeof wanted);
    CHECK(memcmp(dump, wanted, sizeof wanted) == 0);
}

/* Every n, with other registers and stages in each. */
static void every_n(void) {
    uint8_t dump[TARRAVANE_DUMP_MOST];
    for (size_t n = 0; n <= TARRAVANE_ALERTS; n++) {
        handler h = varied(n, (uint32_t)n);
        size_t length = dumps(&h, dump);
        /* one bit more that a dump shows, and one that it does not */
        handler other = h;
        other.classes[3].clrwen ^= 1;
        writes(&other, length, (int64_t)packed(&other, dump), dump);
        (void)packed(&h, dump);
        other = h;
        other.interrupts.state ^= 15;
        other.classes[1].ctrl ^= 0x3FFF;
        other.links.senders.on ^= 15;
        writes(&other, length, (int64_t)length, dump);
    }
}

/* A stage at each shadowed register by itself, at both ends of its values; then at all of them. */
static void every_stage(void) {
    uint8_t dump[TARRAVANE_DUMP_MOST];
    handler full = new_handler(TARRAVANE_ALERTS);
    for (int s = 0; s < SHADOWED; s++) {
        const struct shadowed *one = &all_shadowed()[s];
        handler h = new_handler(TARRAVANE_ALERTS);
        set_stage(&h, one, UINT64_C(1) << one->bits);
        CHECK(dumps(&h, dump) == 104);
        set_stage(&full, one, 1);
    }
    CHECK(dumps(&full, dump) == TARRAVANE_DUMP_MOST);
    for (size_t length = 0; length < TARRAVANE_DUMP_MOST; length += 61) reads_refused(dump, length, TARRAVANE_CUT_DUMP);
}

/* Every length of the buffer; a state that breaks its rule is refused before any of them. */
static void every_buffer(void) {
    uint8_t dump[TARRAVANE_DUMP_MOST];
    handler h = varied(58, 11);
    size_t need = packed(&h, dump);
    for (size_t length = 0; length < need; length++) writes(&h, length, -TARRAVANE_SHORT_BUFFER, NULL);
    for (size_t length = need; length < need + 9; length++) writes(&h, length, (int64_t)need, dump);
    handler broken[5] = {h, h, h, h, h};
    broken[0].n = TARRAVANE_ALERTS + 1;
    broken[1].classes[2].state = 2;
    broken[2].classes[0].state = TARRAVANE_TERMINAL;
    broken[2].classes[0].count = 1;
    broken[3].timer.regwen = 2;
    broken[4].stages.alerts.en[57] = 3;
    for (int b = 0; b < 5; b++)
        for (size_t length = 0; length <= TARRAVANE_DUMP_MOST; length += TARRAVANE_DUMP_MOST / 4)
            writes(&broken[b], length, -TARRAVANE_BAD_STATE, NULL);
    /* past n there is no register */
    broken[4].n = 57;
    need = packed(&broken[4], dump);
    writes(&broken[4], need, (int64_t)need, dump);
}

/* Every cut is 17, and a byte behind it 16. A flipped bit that is read shows something else, and its state has those bytes. */
static void every_cut_and_bit(void) {
    uint8_t dump[TARRAVANE_DUMP_MOST + 1], again[TARRAVANE_DUMP_MOST];
    handler h = varied(3, 30);
    size_t length = dumps(&h, dump), read = 0, none = 0, cut = 0;
    for (size_t i = 0; i < length; i++) reads_refused(dump, i, TARRAVANE_CUT_DUMP);
    dump[length] = 0;
    reads_refused(dump, length + 1, TARRAVANE_NO_DUMP);
    content before = tarravane_read_dump(dump, length);
    CHECK(before.answer == 0);
    for (size_t bit = 0; bit < 8 * length; bit++) {
        dump[bit / 8] ^= (uint8_t)(0x80 >> bit % 8);
        content c = tarravane_read_dump(dump, length);
        if (c.answer == 0) {
            CHECK(memcmp(&before, &c, sizeof c) != 0);
            handler other = holding(&c);
            CHECK(tarravane_dump(other, again, sizeof again) == (int64_t)length);
            CHECK(memcmp(again, dump, length) == 0);
            read++;
        } else {
            CHECK(is_nothing(&c));
            cut += c.answer == -TARRAVANE_CUT_DUMP;
            none += c.answer == -TARRAVANE_NO_DUMP;
        }
        dump[bit / 8] ^= (uint8_t)(0x80 >> bit % 8);
    }
    CHECK(read > 100 && none > 100 && cut > 0);
    CHECK(read + none + cut == 8 * length);
}

/* The numbers that the request has for bytes that are no dump. */
static void refused_bytes(void) {
    static const uint8_t odd[][8] = {"tdmp", "TDMQ", "TDM\n", "XTDMP", {'T', 'D', 'M', 'P', 249}, {'T', 'D', 'M', 'P', 1, 0x40}};
    static const size_t lengths[] = {4, 4, 4, 5, 5, 6};
    for (int o = 0; o < 6; o++) reads_refused(odd[o], lengths[o], TARRAVANE_NO_DUMP);
    reads_refused(odd[0], 0, TARRAVANE_CUT_DUMP);
    reads_refused((const uint8_t *)"TDMP", 3, TARRAVANE_CUT_DUMP);
    reads_refused((const uint8_t *)"TDMP\370", 5, TARRAVANE_CUT_DUMP);
}

void test_dump(void) {
    the_bytes_of_a_new_handler();
    the_bytes_of_a_theft();
    every_n();
    every_stage();
    every_buffer();
    every_cut_and_bit();
    refused_bytes();
}
