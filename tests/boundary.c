/* The boundary from C's side: every field crosses to its register and back, equal states are equal bytes, receivers shake hands
 * and are pinged, the ping timer's turns come when they are due, the lines' senders send their pairs and check what comes back,
 * a damaged field gets refusal 7, shadowed registers take two equal writes, a class that waits for 65,536 events is not locked,
 * a boot installs each lifecycle's policy or stops where it must, a batch and the writer stay in their buffers, calm ticks in
 * one go are as many plain ticks, a dump shows what its state held and other bytes nothing, example traces give the same words
 * by batch, by single ticks and by the replay program, and the writer gives their bytes again.
 * usage: boundary [TRACE WORDS]...   WORDS: what the replay program printed of TRACE, or - for none */
#include "boundary.h"

static unsigned long checks;

void check_at(bool holds, const char *fact, const char *file, int line) {
    checks++;
    if (!holds) {
        fprintf(stderr, "%s:%d: not so: %s\n", file, line, fact);
        exit(1);
    }
}

struct tarravane_wires wires_of(uint64_t pos, uint64_t neg) {
    struct tarravane_wires w;
    for (int v = 0; v < TARRAVANE_WORDS; v++) {
        w.pos[v] = pos;
        w.neg[v] = neg;
    }
    return w;
}

struct tarravane_wires wires_apart(uint64_t pos, uint64_t neg) {
    struct tarravane_wires w;
    for (int v = 0; v < TARRAVANE_WORDS; v++) {
        w.pos[v] = pos << 7 * v | pos >> (63 - 7 * v);
        w.neg[v] = neg << 5 * v | neg >> (63 - 5 * v);
    }
    return w;
}

const struct tarravane_sample at_rest = TARRAVANE_SAMPLE_AT_REST;

struct tarravane_sample sample_of(struct tarravane_wires alerts) {
    struct tarravane_sample s = at_rest;
    s.alerts = alerts;
    return s;
}

struct tarravane_sample raised(int i) {
    struct tarravane_sample s = at_rest;
    s.alerts.pos[i / 64] = UINT64_C(1) << (63 - i % 64);
    s.alerts.neg[i / 64] = ~s.alerts.pos[i / 64];
    return s;
}

struct tarravane_sample sounding(const handler *h) {
    struct tarravane_sample s = at_rest;
    s.receive_positive = (uint16_t)(h->links.senders.answer & 15);
    s.receive_negative = (uint16_t)(~h->links.senders.answer & 15);
    return s;
}

bool same(const handler *a, const handler *b) {
    return memcmp(a, b, sizeof *a) == 0;
}

uint64_t bit_of_alert(size_t i) {
    return UINT64_C(1) << (63 - i % 64);
}

handler new_handler(size_t n) {
    struct tarravane_made m = tarravane_new(n);
    CHECK(m.answer == 0);
    CHECK(m.handler.n == n);
    return m.handler;
}

int64_t read_of(const handler *h, int number) {
    struct tarravane_answered t = tarravane_tick(*h, TARRAVANE_READ, (uint16_t)number, 0, at_rest);
    return t.answer;
}

int64_t write_of(handler *h, int number, uint32_t value) {
    struct tarravane_answered t = tarravane_tick(*h, TARRAVANE_WRITE, (uint16_t)number, value, at_rest);
    *h = t.handler;
    return t.answer;
}

int64_t configure(handler *h, int number, uint32_t value) {
    CHECK(write_of(h, number, value) == 0);
    return write_of(h, number, value);
}

int main(int argc, char **argv) {
    test_accesses();
    test_bytes();
    test_links();
    test_waves();
    test_timer();
    test_timer_states();
    test_timer_records();
    test_senders();
    test_line_states();
    test_line_receivers();
    test_line_records();
    test_states();
    test_stages();
    test_threshold();
    test_boot();
    test_boot_stops();
    test_writer();
    test_calm();
    test_dump();
    for (int i = 1; i + 1 < argc; i += 2) test_trace(argv[i], argv[i + 1]);
    printf("boundary: %lu checks from C hold\n", checks);
    return 0;
}
