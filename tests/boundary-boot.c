/* A boot of each lifecycle, against document 002's table: what it leaves, what reads back, how many ticks it takes, and that
 * the first event of an alert marked A escalates after it. */
#include "boundary.h"

/* The mark of each alert, alert 0 first: RAW/TEST, PROD, PROD_END, DEV, RMA, SCRAP. */
#define NONE "XXXXXXXXXXXXXXXXXXXXXXXXXXXXXXXXXXXXXXXXXXXXXXXXXXXXXXXXXX"
#define LOCKING "CCCCCCCCCCCCCCAAAAAACCCCCCCCCCCBDACCDAAAADDADAADADAADAADAD"
#define OPEN "XXXXXXDDXXXXXXDDDDDDXXXXXXXXXXXDDDXXDDDDDDDDDDDDDDDDDDDDDD"
static const char marks[LIFECYCLES][TARRAVANE_ALERTS_BOOT + 1] = {NONE, LOCKING, LOCKING, OPEN, NONE, NONE};

/* PROD and PROD_END lock; they and DEV enable classes A and B. */
static bool locks(int l) { return l == TARRAVANE_LIFECYCLE_PROD || l == TARRAVANE_LIFECYCLE_PROD_END; }
static bool enables(int l) { return locks(l) || l == TARRAVANE_LIFECYCLE_DEV; }

static struct boot_entry alert_entry(int l, int i, bool en) {
    char mark = marks[l][i];
    if (en) return (struct boot_entry){TARRAVANE_ALERT_EN(i), mark != 'X'};
    return (struct boot_entry){TARRAVANE_ALERT_CLASS(i), mark == 'X' ? 0 : (uint32_t)(mark - 'A')};
}

static struct boot_entry class_entry(int l, int k, int setting) {
    static const uint32_t lengths[] = {0, 10, 10, UINT32_MAX};
    bool answers = k < 2;
    if (setting == 0) return (struct boot_entry){TARRAVANE_CLASS_ACCUM_THRESH(k), 0};
    if (setting == 1) return (struct boot_entry){TARRAVANE_CLASS_TIMEOUT_CYC(k), 0};
    if (setting < 6) {
        int p = setting - 2;
        return (struct boot_entry){TARRAVANE_CLASS_PHASE_CYC(k, p), answers ? lengths[p] : 0};
    }
    uint32_t en = answers && enables(l), lock = k == 0 && locks(l);
    return (struct boot_entry){TARRAVANE_CLASS_CTRL(k), 0x393C + en + 2 * lock};
}

/* The locks, class A's after those of the alerts. */
static struct boot_entry lock_entry(int l, int place) {
    for (int i = 0; i < TARRAVANE_ALERTS_BOOT; i++)
        if (marks[l][i] == 'A' && place-- == 0) return (struct boot_entry){TARRAVANE_ALERT_REGWEN(i), 0};
    return (struct boot_entry){TARRAVANE_CLASS_REGWEN(0), 0};
}

struct boot_entry boot_entry(int l, int e) {
    int first_class = 2 * TARRAVANE_ALERTS_BOOT;
    if (e < first_class) return alert_entry(l, e / 2, e % 2 == 1);
    if (e < BOOT_SHADOWED) return class_entry(l, (e - first_class) / 7, (e - first_class) % 7);
    return lock_entry(l, e - BOOT_SHADOWED);
}

int boot_entries(int l) {
    int count = BOOT_SHADOWED;
    if (!locks(l)) return count;
    for (int i = 0; i < TARRAVANE_ALERTS_BOOT; i++) count += marks[l][i] == 'A';
    return count + 1;
}

static void put_class(struct tarravane_class *c, int offset, uint32_t value) {
    switch (offset) {
    case 0: c->regwen = (uint8_t)value; break;
    case 1: c->ctrl = (uint16_t)value; break;
    case 5: c->thresh = (uint16_t)value; break;
    case 6: c->timeout = value; break;
    default: c->lengths[offset - 7] = value;
    }
}

handler booted(handler h, int l, int e) {
    for (int at = 0; at < e; at++) {
        struct boot_entry entry = boot_entry(l, at);
        int i = entry.number % 256, from_class = entry.number - TARRAVANE_CLASS_REGWEN(0);
        if (from_class >= 0)
            put_class(&h.classes[from_class / 16], from_class % 16, entry.value);
        else if (entry.number >= TARRAVANE_ALERT_CLASS(0))
            h.alerts.class_of[i] = (uint8_t)entry.value;
        else if (entry.number >= TARRAVANE_ALERT_EN(0))
            h.alerts.en[i] = (uint8_t)entry.value;
        else
            h.alerts.regwen[i] = (uint8_t)entry.value;
    }
    return h;
}

/* All of it is there, nothing else is changed, and each register reads so. */
static void installs(int number, size_t n) {
    int l = number < LIFECYCLES ? number : TARRAVANE_LIFECYCLE_PROD_END;
    handler fresh = new_handler(n), wanted = booted(fresh, l, boot_entries(l));
    struct tarravane_installed given = tarravane_install(fresh, (uint8_t)number);
    CHECK(given.answer == 0 && given.register_number == 0 && tarravane_all_installed(&given));
    CHECK(same(&given.handler, &wanted));
    for (int e = 0; e < boot_entries(l); e++) {
        struct boot_entry entry = boot_entry(l, e);
        CHECK(read_of(&given.handler, entry.number) == entry.value);
    }
}

/* ESC_CNT of a class A that waits in phase 3 counts the ticks: three for what takes two writes, two for a lock. */
static void takes_ticks(int l) {
    handler h = new_handler(TARRAVANE_ALERTS);
    h.classes[0].state = TARRAVANE_PHASE(3);
    h.classes[0].count = 1;
    h.classes[0].lengths[3] = UINT32_MAX;
    struct tarravane_installed given = tarravane_install(h, (uint8_t)l);
    CHECK(given.answer == 0 && given.register_number == 0);
    int ticks = 3 * BOOT_SHADOWED + 2 * (boot_entries(l) - BOOT_SHADOWED);
    CHECK(given.handler.classes[0].count == 1 + (uint32_t)ticks);
    CHECK(ticks == (locks(l) ? 474 : 432));
}

/* The first event of an alert starts its class at once where that is enabled; under LOCK no clear stops it. */
static void escalates(int l, int i) {
    handler h = tarravane_install(new_handler(TARRAVANE_ALERTS_BOOT), (uint8_t)l).handler;
    char mark = marks[l][i];
    bool starts = enables(l) && (mark == 'A' || mark == 'B');
    struct tarravane_answered tick = tarravane_tick(h, TARRAVANE_NONE, 0, 0, raised(i));
    for (int k = 0; k < TARRAVANE_CLASSES; k++)
        CHECK(tick.handler.classes[k].state == (starts && k == mark - 'A' ? TARRAVANE_PHASE(0) : TARRAVANE_IDLE));
    CHECK(tick.output.lines == starts);
    if (mark == 'A') CHECK(write_of(&tick.handler, TARRAVANE_CLASS_CLR(0), 1) == -TARRAVANE_LOCKED);
}

void test_boot(void) {
    static const int over[] = {6, 7, 128, 255};
    static const size_t counts[] = {58, 59, 64, 65, 248};
    for (size_t c = 0; c < sizeof counts / sizeof *counts; c++) {
        for (int l = 0; l < LIFECYCLES; l++) installs(l, counts[c]);
        for (size_t o = 0; o < sizeof over / sizeof *over; o++) installs(over[o], counts[c]);
    }
    for (int l = 0; l < LIFECYCLES; l++) {
        takes_ticks(l);
        for (int i = 0; i < TARRAVANE_ALERTS_BOOT; i++) escalates(l, i);
    }
}
