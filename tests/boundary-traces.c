/* Traces of every edition: batch, single ticks and the replay program give the same words, and a batch stays in its list. */
#include "boundary.h"

#define GUARD UINT64_C(0x5EA15EA15EA15EA1)
#define SPARE 3 /* guard words before and after a list */

/* ---- The editions ---- */

struct edition {
    size_t bytes;      /* of a record */
    size_t wire_bytes; /* of its positive wires, and of its negative ones */
    unsigned zeros;    /* the zero bits behind its register */
    size_t tail;       /* the bytes behind its wires */
    struct tarravane_batched (*batch)(handler, const uint8_t *, size_t, uint64_t *, size_t);
};

static const struct edition first_edition = {TARRAVANE_RECORD_24, 8, 20, 0, tarravane_batch_24};
static const struct edition second_edition = {TARRAVANE_RECORD_70, 31, 19, 0, tarravane_batch_70};
static const struct edition third_edition = {TARRAVANE_RECORD_PINGS, 31, 19, 5, tarravane_batch_pings};
static const struct edition newest = {TARRAVANE_RECORD_WIRES, 31, 19, 5, tarravane_batch_wires};

static const struct edition *edition_by(uint8_t first) {
    return first == 255 ? &second_edition : first == 254 ? &third_edition : first == 253 ? &newest : &first_edition;
}

static uint64_t number_at(const uint8_t *bytes, size_t count) {
    uint64_t n = 0;
    for (size_t i = 0; i < 8; i++) n = n << 8 | (i < count ? bytes[i] : 0);
    return n;
}

/* The number of a register in a record of the edition, carried over; 3 is no register. The ping timer's are those of 75 bytes. */
static uint16_t carried(const struct edition *e, unsigned number) {
    if (e->tail == 0 && number >= 4 && number <= 6) return 3;
    if (number < 64 || e != &first_edition) return (uint16_t)number;
    if (number < 320) return (uint16_t)(number / 64 * 256 + number % 64);
    return (uint16_t)(number < 384 ? 1280 + (number - 320) : 3);
}

/* By its first 8 bytes, or by the zero bits before the answers of a 254. */
static bool malformed(const struct edition *e, const uint8_t *record) {
    uint64_t first = number_at(record, 8);
    unsigned kind = (unsigned)(first >> 62);
    uint32_t head = (uint32_t)(first >> 32), value = (uint32_t)first;
    unsigned number = (head & 0x3FFFFFFF) >> e->zeros;
    if (kind == 3 || (head & ((UINT32_C(1) << e->zeros) - 1)) != 0) return true;
    if (e == &third_edition && record[e->bytes - 1] >> 4 != 0) return true;
    return (kind == 1 && value != 0) || (kind == 0 && (number != 0 || value != 0));
}

/* The access and the sample of a record; the pairs of an older one, which nobody checks, are the right ones of the state. */
static struct access access_at(const struct edition *e, const handler *before, const uint8_t *record) {
    struct access a = {.sample = sounding(before)};
    uint64_t first = number_at(record, 8);
    unsigned number = ((unsigned)(first >> 32) & 0x3FFFFFFF) >> e->zeros;
    a.kind = malformed(e, record) ? 3 : (uint8_t)(first >> 62);
    a.number = carried(e, number);
    a.value = (uint32_t)first;
    for (size_t v = 0; v < TARRAVANE_WORDS; v++) {
        size_t left = e->wire_bytes > 8 * v ? e->wire_bytes - 8 * v : 0;
        a.sample.alerts.pos[v] = number_at(record + 8 + 8 * v, left);
        a.sample.alerts.neg[v] = number_at(record + 8 + e->wire_bytes + 8 * v, left);
    }
    if (e->tail > 0) {
        const uint8_t *tail = record + e->bytes - e->tail;
        a.sample.word = (uint32_t)(number_at(tail, 4) >> 32);
        if (e == &newest) a.sample.receive_positive = a.sample.receive_negative = 0;
        for (int l = 0; e == &newest && l < TARRAVANE_LINES; l++) {
            a.sample.receive_positive = (uint16_t)(a.sample.receive_positive | (tail[4] >> (7 - 2 * l) & 1) << l);
            a.sample.receive_negative = (uint16_t)(a.sample.receive_negative | (tail[4] >> (6 - 2 * l) & 1) << l);
        }
    }
    return a;
}

void word_says(uint64_t word, const struct tarravane_answered *t) {
    for (int k = 0; k < 4; k++) CHECK(TARRAVANE_WORD_INTERRUPT(word, k) == (t->output.interrupts >> k & 1u));
    for (int e = 0; e < 4; e++) CHECK(TARRAVANE_WORD_LINE(word, e) == (t->output.lines >> e & 1u));
    CHECK(TARRAVANE_WORD_REFUSAL(word) == (t->answer < 0 ? (unsigned)-t->answer : 0));
    CHECK(TARRAVANE_WORD_VALUE(word) == (t->answer < 0 ? 0 : (uint32_t)t->answer));
    CHECK((word >> 32 & 0xFFFFF) == 0);
}

/* ---- A batch in its list ---- */

/* A list of words between guard words. */
static uint64_t *guarded(size_t words) {
    uint64_t *all = malloc((words + 2 * SPARE) * sizeof *all);
    CHECK(all != NULL);
    for (size_t i = 0; i < words + 2 * SPARE; i++) all[i] = GUARD;
    return all;
}

static bool untouched(const uint64_t *words, size_t count) {
    for (size_t i = 0; i < count; i++)
        if (words[i] != GUARD) return false;
    return true;
}

/* Refusals 8 and 9 leave state and list; no bytes means no ticks; more room than records is left as it was. */
static void rooms(const struct edition *e, const handler *h, const uint8_t *records, size_t count) {
    uint64_t *all = guarded(count);
    for (size_t rest = 1; rest < e->bytes; rest++) {
        struct tarravane_batched b = e->batch(*h, records, count * e->bytes - rest, all + SPARE, 0);
        CHECK(b.answer == -TARRAVANE_BAD_LENGTH);
        CHECK(same(&b.handler, h));
    }
    for (size_t words = 0; words < count; words++) {
        struct tarravane_batched b = e->batch(*h, records, count * e->bytes, all + SPARE, words);
        CHECK(b.answer == -TARRAVANE_SHORT_LIST);
        CHECK(same(&b.handler, h));
    }
    struct tarravane_batched none = e->batch(*h, records, 0, all + SPARE, count);
    CHECK(none.answer == 0);
    CHECK(same(&none.handler, h));
    CHECK(untouched(all, count + 2 * SPARE));
    struct tarravane_batched one = e->batch(*h, records, e->bytes, all + SPARE, count);
    CHECK(one.answer == 0);
    CHECK(untouched(all, SPARE) && untouched(all + SPARE + 1, count - 1 + SPARE));
    free(all);
}

/* ---- Whole traces ---- */

struct bytes {
    uint8_t *at;
    size_t length;
};

static struct bytes contents(const char *path) {
    FILE *f = fopen(path, "rb");
    struct bytes b = {NULL, 0};
    CHECK(f != NULL);
    CHECK(fseek(f, 0, SEEK_END) == 0);
    b.length = (size_t)ftell(f);
    rewind(f);
    b.at = malloc(b.length + 1);
    CHECK(b.at != NULL);
    CHECK(fread(b.at, 1, b.length, f) == b.length);
    b.at[b.length] = 0;
    fclose(f);
    return b;
}

/* The words as the replay program prints them. */
static void as_printed(const uint64_t *words, size_t count, const char *path) {
    struct bytes printed = contents(path);
    CHECK(printed.length == count * 17);
    for (size_t i = 0; i < count; i++) {
        char line[18];
        snprintf(line, sizeof line, "%016llx\n", (unsigned long long)words[i]);
        CHECK(memcmp(printed.at + i * 17, line, 17) == 0);
    }
    free(printed.at);
}

/* A record written again: a new one gives its bytes, one of 24 or 70 bytes a new record that does what it did. A malformed one
 * has kind 3 here, and no well-formed record holds that. */
static void written_again(const struct edition *e, const handler *before, const uint8_t *record, uint64_t word) {
    uint8_t again[TARRAVANE_RECORD_WIRES];
    struct access a = access_at(e, before, record);
    uint64_t other;
    int64_t answer = written(&a, again);
    if (a.kind == 3) {
        CHECK(answer == -TARRAVANE_NO_RECORD);
        return;
    }
    CHECK(answer == TARRAVANE_RECORD_WIRES);
    if (e == &newest) CHECK(memcmp(again, record, sizeof again) == 0);
    CHECK(tarravane_batch_wires(*before, again, sizeof again, &other, 1).answer == 0);
    if (e != &third_edition) CHECK(other == word);
}

/* A record of 254 has no tick by call that answers its pings as it does: a batch of it alone. */
static handler alone(const struct edition *e, handler h, const uint8_t *record, uint64_t word) {
    uint64_t own;
    struct tarravane_batched b = e->batch(h, record, e->bytes, &own, 1);
    CHECK(b.answer == 0 && own == word);
    return b.handler;
}

/* Each word by a tick of its own; gives the state after the last. */
static handler tick_by_tick(const struct edition *e, handler h, const uint8_t *records, const uint64_t *words, size_t count) {
    for (size_t i = 0; i < count; i++) {
        written_again(e, &h, records + i * e->bytes, words[i]);
        if (e == &third_edition) {
            h = alone(e, h, records + i * e->bytes, words[i]);
            continue;
        }
        struct access a = access_at(e, &h, records + i * e->bytes);
        struct tarravane_answered t = tarravane_tick(h, a.kind, a.number, a.value, a.sample);
        word_says(words[i], &t);
        h = t.handler;
    }
    return h;
}

void test_trace(const char *trace, const char *printed) {
    struct bytes b = contents(trace);
    const struct edition *e = edition_by(b.at[0]);
    size_t before = e == &first_edition ? 1 : 2;
    size_t count = (b.length - before) / e->bytes;
    const uint8_t *records = b.at + before;
    handler first = new_handler(b.at[before - 1]);
    uint64_t *all = guarded(count);
    struct tarravane_batched whole = e->batch(first, records, count * e->bytes, all + SPARE, count);
    CHECK(count > 0);
    CHECK(whole.answer == 0);
    CHECK(untouched(all, SPARE) && untouched(all + SPARE + count, SPARE));
    handler last = tick_by_tick(e, first, records, all + SPARE, count);
    CHECK(same(&last, &whole.handler));
    rooms(e, &first, records, count);
    if (strcmp(printed, "-") != 0) as_printed(all + SPARE, count, printed);
    free(all);
    free(b.at);
}
