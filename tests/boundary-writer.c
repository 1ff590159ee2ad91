/* The writer: the bytes of every record and every byte around them, what it refuses, and that a batch reads them back. */
#include "boundary.h"

#define ENTRIES 64 /* the most entries that a list here has */
#define MARGIN 16  /* guard bytes before and after a buffer */
#define GUARD_BYTE 0xA5
#define RECORD TARRAVANE_RECORD_WIRES
#define LARGEST 2047 /* the largest register */
#define LISTS 8

/* What the writer takes, a list for each part. */
struct entries {
    size_t count;
    uint8_t kinds[ENTRIES];
    uint16_t registers[ENTRIES];
    uint32_t values[ENTRIES];
    uint64_t positive[ENTRIES * TARRAVANE_WORDS];
    uint64_t negative[ENTRIES * TARRAVANE_WORDS];
    uint32_t entropy[ENTRIES];
    uint8_t receive_positive[ENTRIES];
    uint8_t receive_negative[ENTRIES];
};

/* A buffer between guard bytes, all of them at the guard's value. */
struct room {
    uint8_t all[MARGIN + ENTRIES * RECORD + MARGIN];
};

/* An entry with the word and the receive pairs of its sample. */
static void add_sample(struct entries *e, unsigned kind, unsigned number, uint32_t value, struct tarravane_sample s) {
    size_t i = e->count++;
    CHECK(i < ENTRIES);
    e->kinds[i] = (uint8_t)kind;
    e->registers[i] = (uint16_t)number;
    e->values[i] = value;
    memcpy(&e->positive[i * TARRAVANE_WORDS], s.alerts.pos, sizeof s.alerts.pos);
    memcpy(&e->negative[i * TARRAVANE_WORDS], s.alerts.neg, sizeof s.alerts.neg);
    e->entropy[i] = s.word;
    e->receive_positive[i] = (uint8_t)s.receive_positive;
    e->receive_negative[i] = (uint8_t)s.receive_negative;
}

static void add(struct entries *e, unsigned kind, unsigned number, uint32_t value, struct tarravane_wires wires) {
    add_sample(e, kind, number, value, sample_of(wires));
}

/* Each list of its own length. */
static int64_t recorded_of(const struct entries *e, const size_t n[LISTS], uint8_t *bytes, size_t length) {
    return tarravane_record(e->kinds, n[0], e->registers, n[1], e->values, n[2], e->positive, n[3], e->negative, n[4],
                            e->entropy, n[5], e->receive_positive, n[6], e->receive_negative, n[7], bytes, length);
}

static int64_t recorded(const struct entries *e, uint8_t *bytes, size_t length) {
    size_t n = e->count, words = n * TARRAVANE_WORDS;
    const size_t lengths[LISTS] = {n, n, n, words, words, n, n, n};
    return recorded_of(e, lengths, bytes, length);
}

int64_t written(const struct access *a, uint8_t record[RECORD]) {
    struct entries e = {0};
    add_sample(&e, a->kind, a->number, a->value, a->sample);
    return recorded(&e, record, RECORD);
}

static void store(uint8_t *at, uint64_t number) {
    for (int b = 7; b >= 0; b--, number >>= 8) at[b] = (uint8_t)number;
}

/* The wires of 248 alerts; the last byte of the words is no wire's. */
static void store_wires(uint8_t *at, const uint64_t *words) {
    uint8_t all[8 * TARRAVANE_WORDS];
    for (int v = 0; v < TARRAVANE_WORDS; v++) store(all + 8 * v, words[v]);
    memcpy(at, all, 31);
}

/* The record of request (xi), from its widths: the last byte is p0 n0 p1 n1 p2 n2 p3 n3, p0 being bit 7. */
static void packed(const struct entries *e, size_t i, uint8_t *at) {
    store(at, (uint64_t)e->kinds[i] << 62 | (uint64_t)e->registers[i] << 51 | e->values[i]);
    store_wires(at + 8, &e->positive[i * TARRAVANE_WORDS]);
    store_wires(at + 39, &e->negative[i * TARRAVANE_WORDS]);
    for (int b = 0; b < 4; b++) at[70 + b] = (uint8_t)(e->entropy[i] >> (24 - 8 * b));
    at[74] = 0;
    for (int l = 0; l < TARRAVANE_LINES; l++) {
        unsigned positive = e->receive_positive[i] >> l & 1, negative = e->receive_negative[i] >> l & 1;
        at[74] = (uint8_t)(at[74] | positive << (7 - 2 * l) | negative << (6 - 2 * l));
    }
}

static struct room fresh(void) {
    struct room r;
    memset(r.all, GUARD_BYTE, sizeof r.all);
    return r;
}

/* Writes into this length: every byte of the records, and every byte around them, is as it is to be. */
static void writes(const struct entries *e, size_t length) {
    struct room is = fresh(), wanted = fresh();
    for (size_t i = 0; i < e->count; i++) packed(e, i, wanted.all + MARGIN + i * RECORD);
    CHECK(recorded(e, is.all + MARGIN, length) == (int64_t)(e->count * RECORD));
    CHECK(memcmp(is.all, wanted.all, sizeof is.all) == 0);
}

/* Refused: the buffer, of this length, keeps its bytes. */
static void keeps(const struct entries *e, size_t length, int refusal) {
    struct room is = fresh(), wanted = fresh();
    CHECK(recorded(e, is.all + MARGIN, length) == -refusal);
    CHECK(memcmp(is.all, wanted.all, sizeof is.all) == 0);
}

/* Accesses at both ends of register and value, on wires that are told apart. */
static struct entries sound(void) {
    struct entries e = {0};
    uint64_t pos = UINT64_C(0x0123456789ABCDEF), neg = UINT64_C(0xFEDCBA9876543211);
    add(&e, TARRAVANE_NONE, 0, 0, at_rest.alerts);
    add(&e, TARRAVANE_NONE, 0, 0, wires_of(UINT64_MAX, 0));
    add(&e, TARRAVANE_READ, 0, 0, wires_apart(1, 2));
    add(&e, TARRAVANE_READ, LARGEST, 0, wires_apart(pos, neg));
    add(&e, TARRAVANE_WRITE, 0, 0, wires_apart(neg, pos));
    add(&e, TARRAVANE_WRITE, LARGEST, UINT32_MAX, wires_of(UINT64_MAX, UINT64_MAX));
    add(&e, TARRAVANE_WRITE, 1365, 0x01020304, wires_of(0, 0));
    struct tarravane_sample drawn = at_rest;
    drawn.word = 0x89ABCDEF;
    drawn.receive_positive = 0xF4;
    drawn.receive_negative = 0x5B;
    add_sample(&e, TARRAVANE_WRITE, TARRAVANE_PING_TIMER_EN, 1, drawn);
    return e;
}

/* Any buffer that is long enough takes them and keeps what is later; one that is too short keeps all, refused with 11. */
static void lengths(void) {
    struct entries e = sound();
    size_t need = e.count * RECORD;
    for (size_t length = 0; length < need; length++) keeps(&e, length, TARRAVANE_SHORT_BUFFER);
    for (size_t spare = 0; spare <= RECORD; spare++) writes(&e, need + spare);
    for (e.count = 0; e.count <= 3; e.count++) writes(&e, need);
    e.count = 0;
    writes(&e, 0);
}

/* An entry that no record holds, at each place of the list: 10, also where the buffer is too short. */
static void unheld(unsigned kind, unsigned number, uint32_t value) {
    for (size_t at = 0; at < 3; at++) {
        struct entries e = {0};
        for (size_t i = 0; i < 3; i++)
            if (i == at) add(&e, kind, number, value, at_rest.alerts);
            else add(&e, TARRAVANE_READ, TARRAVANE_CLASS_CTRL(0), 0, at_rest.alerts);
        keeps(&e, 3 * RECORD, TARRAVANE_NO_RECORD);
        keeps(&e, 3 * RECORD - 1, TARRAVANE_NO_RECORD);
        keeps(&e, 0, TARRAVANE_NO_RECORD);
    }
}

static void unheld_accesses(void) {
    for (unsigned kind = 3; kind < 256; kind++) unheld(kind, 0, 0);
    for (int b = 0; b < 16; b++) unheld(TARRAVANE_NONE, 1u << b, 0);
    for (int b = 0; b < 32; b++) {
        unheld(TARRAVANE_NONE, 0, UINT32_C(1) << b);
        unheld(TARRAVANE_READ, TARRAVANE_CLASS_CTRL(0), UINT32_C(1) << b);
    }
    for (unsigned number = LARGEST + 1; number < 65536; number += number < 3072 ? 1 : 1021) {
        unheld(TARRAVANE_READ, number, 0);
        unheld(TARRAVANE_WRITE, number, 0);
    }
    unheld(TARRAVANE_WRITE, 65535, UINT32_MAX);
}

/* Lists of these lengths: 10, also where the buffer is too short for any of them. */
static void uneven(const struct entries *e, const size_t n[LISTS]) {
    struct room is = fresh(), wanted = fresh();
    for (size_t length = 0; length <= ENTRIES * RECORD; length += ENTRIES * RECORD / 2)
        CHECK(recorded_of(e, n, is.all + MARGIN, length) == -TARRAVANE_NO_RECORD);
    CHECK(memcmp(is.all, wanted.all, sizeof is.all) == 0);
}

/* One list shorter or longer than the others need it; of the wires also by words that make no whole entry. */
static void unequal(void) {
    struct entries e = sound();
    for (int list = 0; list < LISTS; list++) {
        size_t unit = list == 3 || list == 4 ? TARRAVANE_WORDS : 1;
        for (size_t other = 0; other <= e.count * unit; other++)
            for (size_t rest = 0; rest <= e.count; rest++) {
                size_t n[LISTS] = {rest, rest, rest, rest * TARRAVANE_WORDS, rest * TARRAVANE_WORDS, rest, rest, rest};
                if (other == n[list]) continue;
                n[list] = other;
                uneven(&e, n);
            }
    }
}

/* Each bit of register, value, wires, word and receive pairs stands where the reader looks for it; places 248 to 255 of the
 * wires and bits 4 to 7 of the receive pairs nowhere. */
static void single_bits(void) {
    for (int place = 0; place < 64 * TARRAVANE_WORDS; place++) {
        struct entries e = {0};
        struct tarravane_wires pos = wires_of(0, 0), neg = pos;
        pos.pos[place / 64] = neg.neg[place / 64] = UINT64_C(1) << (63 - place % 64);
        add(&e, TARRAVANE_NONE, 0, 0, pos);
        add(&e, TARRAVANE_NONE, 0, 0, neg);
        if (place < 32) add(&e, TARRAVANE_WRITE, 0, UINT32_C(1) << place, at_rest.alerts);
        if (place < 11) add(&e, TARRAVANE_READ, 1u << place, 0, at_rest.alerts);
        struct tarravane_sample word = at_rest, pairs = at_rest;
        word.word = UINT32_C(1) << place % 32;
        pairs.receive_positive = (uint16_t)place;
        pairs.receive_negative = (uint16_t)(place >> 4);
        add_sample(&e, TARRAVANE_NONE, 0, 0, word);
        add_sample(&e, TARRAVANE_NONE, 0, 0, pairs);
        writes(&e, e.count * RECORD);
    }
}

/* A batch of what was written gives what the ticks of its entries give. */
static void read_back(size_t alerts) {
    struct entries e = sound();
    struct room r = fresh();
    uint64_t words[ENTRIES];
    handler first = new_handler(alerts), h = first;
    int64_t length = recorded(&e, r.all + MARGIN, e.count * RECORD);
    CHECK(length == (int64_t)(e.count * RECORD));
    struct tarravane_batched b = tarravane_batch_wires(first, r.all + MARGIN, (size_t)length, words, e.count);
    CHECK(b.answer == 0);
    for (size_t i = 0; i < e.count; i++) {
        struct tarravane_sample s = {.word = e.entropy[i], .receive_positive = e.receive_positive[i]};
        s.receive_negative = e.receive_negative[i];
        memcpy(s.alerts.pos, &e.positive[i * TARRAVANE_WORDS], sizeof s.alerts.pos);
        memcpy(s.alerts.neg, &e.negative[i * TARRAVANE_WORDS], sizeof s.alerts.neg);
        struct tarravane_answered t = tarravane_tick(h, e.kinds[i], e.registers[i], e.values[i], s);
        word_says(words[i], &t);
        h = t.handler;
    }
    CHECK(same(&h, &b.handler));
}

void test_writer(void) {
    lengths();
    unheld_accesses();
    unequal();
    single_bits();
    for (size_t n = 1; n <= TARRAVANE_ALERTS; n++) read_back(n);
}
