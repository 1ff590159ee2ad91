/* Tarravane: the proved alert handler, for C. Link target/staticlib/libtarravane.a. It is built for x86-64 Linux alone (ELF,
 * System V ABI), as the kit's back end gives it.
 * It needs of the C library: memcpy, memset.
 *
 * Every function but tarravane_receive, which refuses nothing, answers one signed 64-bit number: a read gives 0 to 4294967295,
 * the writer the bytes written, a calm call the number of changes, a boot that stops where a register does not read what was
 * written what it reads, anything else accepted gives 0, and a refusal gives the negated refusal number. No function has a
 * precondition on the state: any bytes are a state, and refusal 7 judges them. No function keeps anything between calls,
 * allocates, or fails in another way.
 *
 * No struct has padding: equal states are equal bytes, memcmp tells them apart, and nothing else of a caller's memory leaves
 * in one.
 *
 * The promises are proved for the functions of crates/boundary_c, which the library exports. Trusted: the compiler's back end, the C ABI, this header.
 *
 * The stack that a call takes below its caller's frame, argument and result included, whatever the lengths of its lists:
 *   tarravane_new 3208 bytes
 *   tarravane_tick 28072 bytes
 *   tarravane_hear 10432 bytes
 *   tarravane_batch_24 28616 bytes
 *   tarravane_batch_70 28616 bytes
 *   tarravane_batch_pings 28616 bytes
 *   tarravane_batch_wires 28616 bytes
 *   tarravane_receive 64 bytes
 *   tarravane_record 184 bytes
 *   tarravane_install 41000 bytes
 *   tarravane_calm 42792 bytes
 *   tarravane_dump 7160 bytes
 *   tarravane_read_dump 68144 bytes
 * Measured, not proved (tests/stack, the gate): each call ran on a stack filled with a pattern, with accesses of every kind
 * and lists of 0 to 300 entries, linked with -z now. Else the dynamic loader binds memcpy within the first call and takes
 * stack there: with it the first tarravane_new took 6408 bytes on the machine that was measured, tarravane_hear 13128 and
 * tarravane_dump 7496; the other calls took no more. */
#ifndef TARRAVANE_H
#define TARRAVANE_H

#include <stddef.h>
#include <stdint.h>

#ifdef __cplusplus
extern "C" {
#define TARRAVANE_ASSERT(fact) static_assert(fact, #fact)
#else
#define TARRAVANE_ASSERT(fact) _Static_assert(fact, #fact)
#endif

/* ---- The layout's number ---- */

/* It rises with each change of the structs or of a function's parameters. In the library it is part of each function's name,
 * so that what was compiled against another layout does not link. */
#define TARRAVANE_LAYOUT 4

#define TARRAVANE_JOINED(name, layout) name##_layout_##layout
#define TARRAVANE_NAMED(name, layout) TARRAVANE_JOINED(name, layout)
#define tarravane_new TARRAVANE_NAMED(tarravane_new, TARRAVANE_LAYOUT)
#define tarravane_tick TARRAVANE_NAMED(tarravane_tick, TARRAVANE_LAYOUT)
#define tarravane_hear TARRAVANE_NAMED(tarravane_hear, TARRAVANE_LAYOUT)
#define tarravane_batch_24 TARRAVANE_NAMED(tarravane_batch_24, TARRAVANE_LAYOUT)
#define tarravane_batch_70 TARRAVANE_NAMED(tarravane_batch_70, TARRAVANE_LAYOUT)
#define tarravane_batch_pings TARRAVANE_NAMED(tarravane_batch_pings, TARRAVANE_LAYOUT)
#define tarravane_batch_wires TARRAVANE_NAMED(tarravane_batch_wires, TARRAVANE_LAYOUT)
#define tarravane_receive TARRAVANE_NAMED(tarravane_receive, TARRAVANE_LAYOUT)
#define tarravane_record TARRAVANE_NAMED(tarravane_record, TARRAVANE_LAYOUT)
#define tarravane_install TARRAVANE_NAMED(tarravane_install, TARRAVANE_LAYOUT)
#define tarravane_calm TARRAVANE_NAMED(tarravane_calm, TARRAVANE_LAYOUT)
#define tarravane_dump TARRAVANE_NAMED(tarravane_dump, TARRAVANE_LAYOUT)
#define tarravane_read_dump TARRAVANE_NAMED(tarravane_read_dump, TARRAVANE_LAYOUT)

/* A result that is dropped gives a warning: the state after a call is in it. */
#if (defined(__cplusplus) && __cplusplus >= 201703L) || (defined(__STDC_VERSION__) && __STDC_VERSION__ > 201710L)
#define TARRAVANE_RESULT [[nodiscard]]
#elif defined(__GNUC__)
#define TARRAVANE_RESULT __attribute__((warn_unused_result))
#else
#define TARRAVANE_RESULT
#endif

/* ---- Sizes ---- */

#define TARRAVANE_ALERTS 248     /* the most alerts that a handler is made for */
#define TARRAVANE_ALERTS_24 64   /* the most that records of 24 bytes speak of */
#define TARRAVANE_ALERTS_BOOT 58 /* those that a boot installs, from alert 0 on */
#define TARRAVANE_WORDS 4        /* words of 64 that hold a bit of each alert */
#define TARRAVANE_LOCALS 7       /* local alerts */
#define TARRAVANE_CLASSES 4
#define TARRAVANE_PHASES 4
#define TARRAVANE_LINES 4
#define TARRAVANE_CHANGES 20     /* entries that the list of a calm call needs, five for each class */

/* Bytes of a trace record: of the first edition, of the one for 248 alerts, of the one with what the ping timer is handed,
 * and of the newest, with the lines' receive pairs; the newest is the one that is written. */
#define TARRAVANE_RECORD_24 24
#define TARRAVANE_RECORD_70 70
#define TARRAVANE_RECORD_PINGS 75
#define TARRAVANE_RECORD_WIRES 75

#define TARRAVANE_REGISTERS 1344 /* no register has this number or one above it */
#define TARRAVANE_DUMP_MOST 3332 /* bytes of the longest dump */

/* ---- The state. Read, copy and compare it freely; change it by ticks. ---- */

/* Some fields are wider than their registers, so that there is no padding. Refusal 7 judges each by its register's bits. */

/* The registers of a class's block. */
struct tarravane_class {
    uint32_t lengths[TARRAVANE_PHASES]; /* PHASE0_CYC to PHASE3_CYC */
    uint32_t timeout;                   /* TIMEOUT_CYC */
    uint32_t count;                     /* ESC_CNT */
    uint16_t ctrl;                      /* CTRL */
    uint16_t accum;                     /* ACCUM_CNT */
    uint16_t thresh;                    /* ACCUM_THRESH */
    uint8_t regwen;                     /* class REGWEN */
    uint8_t clrwen;                     /* CLR_REGWEN */
    uint32_t state;                     /* STATE: TARRAVANE_IDLE .. */
};

/* The receivers of the alerts: alert i has bit 63 - i % 64 of word i / 64 in each. Any bits are a receiver; refusal 7 looks at
 * pending alone. Places at n and above are no alert's: refusal 7 does not look at them, no call changes them.
 * Where a receiver stands in the handshake, by its bits of pausing and busy: 0 0 ready, 0 1 acknowledged, 1 1 in the first and
 * 1 0 in the second tick of the pause. */
struct tarravane_receivers {
    uint64_t pausing[TARRAVANE_WORDS];
    uint64_t busy[TARRAVANE_WORDS];
    uint64_t level[TARRAVANE_WORDS];   /* ping pair: 1 for (1,0), 0 for (0,1) */
    uint64_t pending[TARRAVANE_WORDS]; /* a ping is open: sent, not answered and not failed yet; only the turn's may be */
};

/* The ping timer's turn. Any bits are one, and before PING_TIMER_EN is 1 they say nothing. */
struct tarravane_turn {
    uint8_t number; /* even: an alert's turn; odd: that of line number / 2 % 4 */
    uint8_t alert;  /* the alert drawn; a line's turn does not look at it */
    uint16_t count; /* while the turn's ping is not open: the ticks to it, less one; while it is: the ticks since it opened,
                       staying at 65535 */
};

/* The senders of the four lines: line 0 is the lowest bit of each. Any bits are senders, and refusal 7 does not look at them.
 * Bits from 4 up count for nothing, and each tick makes them 0.
 * Where the right answer to what was sent stands, by its bits of last and deep: 0 0 at rest, 1 0 after the first tick of a
 * pair that is on, 0 1 in the answer to a ping, 1 1 in an escalation. */
struct tarravane_senders {
    uint32_t on;     /* the line was on in the last tick */
    uint32_t first;  /* that tick was the first of its being on */
    uint32_t last;   /* the pair was on in the last tick */
    uint32_t deep;
    uint32_t answer; /* the right answer of the coming tick: 1 for (1,0), 0 for (0,1) */
};

/* What stands between the wires and the registers. */
struct tarravane_links {
    struct tarravane_receivers receivers;
    struct tarravane_turn turn;
    uint32_t lines; /* the lines whose ping is open: line 0 is the lowest bit; only the turn's may be. Bits from 4 up are not
                       looked at, and no call changes them */
    struct tarravane_senders senders;
    uint32_t right; /* all answers to the open ping of the turn's line were right so far: the lowest bit, no other is looked
                       at */
};

/* Entry i is alert i's. Entries at n and above are no registers: refusal 7 does not look at them, no call changes them. */
struct tarravane_alerts {
    uint8_t regwen[TARRAVANE_ALERTS];
    uint8_t en[TARRAVANE_ALERTS];
    uint8_t class_of[TARRAVANE_ALERTS]; /* CLASS */
    uint8_t cause[TARRAVANE_ALERTS];
};

struct tarravane_locals {
    uint8_t regwen[TARRAVANE_LOCALS];
    uint8_t en[TARRAVANE_LOCALS];
    uint8_t class_of[TARRAVANE_LOCALS]; /* CLASS */
    uint8_t cause[TARRAVANE_LOCALS];
};

/* INTR_STATE and INTR_ENABLE: class 0 is the lowest bit. */
struct tarravane_interrupts {
    uint16_t state;
    uint16_t enable;
};

/* The ping timer's registers. */
struct tarravane_timer {
    uint32_t timeout; /* PING_TIMEOUT_CYC */
    uint16_t regwen;  /* PING_TIMER_REGWEN */
    uint16_t enable;  /* PING_TIMER_EN */
};

/* Stages: what the first of two equal writes left at a shadowed register. 0 for none, else the staged value plus 1, so they
 * are wider than their registers. A stage acts on nothing, and no register reads it. */
struct tarravane_class_stages {
    uint64_t lengths[TARRAVANE_PHASES]; /* PHASE0_CYC to PHASE3_CYC */
    uint64_t timeout;                   /* TIMEOUT_CYC */
    uint32_t ctrl;                      /* CTRL */
    uint32_t thresh;                    /* ACCUM_THRESH */
};

/* Entries at n and above are no registers': refusal 7 does not look at them, no call changes them. */
struct tarravane_alert_stages {
    uint8_t en[TARRAVANE_ALERTS];
    uint8_t class_of[TARRAVANE_ALERTS]; /* CLASS */
};

struct tarravane_local_stages {
    uint32_t en[TARRAVANE_LOCALS];
    uint32_t class_of[TARRAVANE_LOCALS]; /* CLASS */
};

struct tarravane_stages {
    struct tarravane_class_stages classes[TARRAVANE_CLASSES];
    struct tarravane_alert_stages alerts;
    struct tarravane_local_stages locals;
    uint64_t timeout; /* PING_TIMEOUT_CYC */
};

struct tarravane_handler {
    size_t n; /* alerts */
    struct tarravane_links links;
    struct tarravane_class classes[TARRAVANE_CLASSES];
    struct tarravane_alerts alerts;
    struct tarravane_locals locals;
    struct tarravane_interrupts interrupts;
    struct tarravane_timer timer;
    struct tarravane_stages stages;
};

/* ---- What goes in ---- */

/* The alerts' wires in a tick: bit 63 - i % 64 of words i / 64 of pos and of neg is alert i's. Bits of alerts at n and above
 * count for nothing, nor do the last 8 places, 248 to 255. */
struct tarravane_wires {
    uint64_t pos[TARRAVANE_WORDS];
    uint64_t neg[TARRAVANE_WORDS];
};

/* The sample of a tick: all that comes in beside the access. */
struct tarravane_sample {
    struct tarravane_wires alerts;
    uint32_t word;             /* the entropy word, fresh in every tick and unpredictable: see tarravane_tick */
    uint16_t receive_positive; /* what the lines' receivers send back: the positive and the negative wires of their pairs, */
    uint16_t receive_negative; /* line 0 at the lowest bit; bits from 4 up count for nothing */
};

/* The pairs of the four lines at (0,1): the positive and the negative wires. */
#define TARRAVANE_LINES_AT_REST_POSITIVE 0
#define TARRAVANE_LINES_AT_REST_NEGATIVE 15

/* A sample at rest, to initialise one or a constant: all wires at (0,1), the receive pairs too, and the word 0. Start from it
 * and set what is not at rest: a caller who does needs no change when inputs join, as they are at rest there. Where the ping
 * timer is on, the word is not left at rest; and where a line comes on or is pinged, nor are the receive pairs, as (0,1) is
 * not what a sound receiver sends then. */
#define TARRAVANE_SAMPLE_AT_REST \
    {{{0, 0, 0, 0}, {UINT64_MAX, UINT64_MAX, UINT64_MAX, UINT64_MAX}}, 0, TARRAVANE_LINES_AT_REST_POSITIVE, \
     TARRAVANE_LINES_AT_REST_NEGATIVE}

/* ---- What comes back ---- */

/* The lines' pairs: line 0 is the lowest bit of both. Bits from 4 up are 0 in what comes back. */
struct tarravane_line_pairs {
    uint32_t pos;
    uint32_t neg;
};

/* Interrupts and escalation lines: class and line 0 are the lowest bits. Then what the handler sends to the alerts, a pair to
 * each, in the wires' order of bits. The pair (0,1) has the positive bit 0 and the negative bit 1; so has every place at n and
 * above, 248 to 255 too. Then what it sends on the lines, a pair on each: the line as classes have it is its bit of lines, the
 * pair has a lone tick of it lengthened and the pings beside. */
struct tarravane_output {
    uint32_t interrupts;
    uint32_t lines;
    struct tarravane_wires acknowledge; /* (1,0) from the tick after a rise is taken up to the one in which its drop is read */
    struct tarravane_wires ping;        /* each ping that opens changes its level */
    struct tarravane_line_pairs escalation; /* (1,0) while the line is on, in the tick after a lone tick of it, and for one
                                               tick as a ping */
};

struct tarravane_made {
    struct tarravane_handler handler;
    int64_t answer;
};

struct tarravane_answered {
    struct tarravane_handler handler;
    int64_t answer;
    struct tarravane_output output;
};

/* What a tick hears: alerts in the wires' order of bits, 0 at n and above. */
struct tarravane_heard {
    uint64_t events[TARRAVANE_WORDS];  /* the alerts with an event, enabled or not */
    uint64_t answers[TARRAVANE_WORDS]; /* the alerts whose open ping is answered */
    uint64_t locals;                   /* the local alerts that occur: local 0 is the lowest bit */
    int64_t answer;                    /* the tick's answer to its access */
};

struct tarravane_batched {
    struct tarravane_handler handler;
    int64_t answer;
};

struct tarravane_installed {
    struct tarravane_handler handler;
    int64_t answer;
    uint16_t register_number; /* where it stopped, else 0 */
    uint8_t spare[6];         /* 0 */
};

struct tarravane_calmed {
    struct tarravane_handler handler; /* after the last tick */
    int64_t answer;                   /* the number of changes */
    struct tarravane_output output;   /* of the last tick */
};

/* The receivers at the ends of the four lines, one for each: see tarravane_receive. Line 0 is the lowest bit of each; bits from
 * 4 up count for nothing, and 0 in all are new receivers. */
struct tarravane_line_receivers {
    uint32_t last;   /* its pair was on in the last tick */
    uint32_t deep;   /* with last: 0 0 at rest, 1 0 after the first tick of a pair, 0 1 answering a ping, 1 1 escalating */
    uint32_t answer; /* the answer of the coming tick */
    uint32_t broken; /* its wires were equal in the last tick */
};

/* What they send back in a tick, and what they see in it: bits from 4 up are 0. */
struct tarravane_listened {
    struct tarravane_line_receivers receivers; /* after the tick */
    uint32_t positive;                         /* the pairs that they send in it */
    uint32_t negative;
    uint32_t seen; /* the lines whose receiver sees an escalation in it */
};

/* What a dump shows: see tarravane_read_dump. Where the answer is a refusal all else is 0. A content has one form, so that
 * contents are equal where their bytes are. */
struct tarravane_shown_class {
    uint32_t state; /* STATE: TARRAVANE_IDLE .. */
    uint32_t count; /* ESC_CNT: 0 in Idle and Terminal, and in no other state */
    uint32_t accum; /* ACCUM_CNT */
};

/* The three lists are by register number: stages[TARRAVANE_CLASS_CTRL(k)] is the stage of class k's CTRL. */
struct tarravane_content {
    int64_t answer;
    size_t n; /* alerts */
    struct tarravane_shown_class classes[TARRAVANE_CLASSES];
    uint64_t stages[TARRAVANE_REGISTERS]; /* 0 for none, else the staged value plus 1, as in the state */
    uint8_t causes[TARRAVANE_REGISTERS];  /* each CAUSE; 0 at every other number */
    uint8_t locked[TARRAVANE_REGISTERS];  /* 1 for each REGWEN and CLR_REGWEN that is locked; 0 at every other number */
};

/* ---- Refusal numbers: an answer of -number ---- */

#define TARRAVANE_NO_REGISTER 1   /* no such register */
#define TARRAVANE_WRONG_WAY 2     /* read of a write-only or write of a read-only register */
#define TARRAVANE_LOCKED 3        /* register locked; a stage of it is dropped */
#define TARRAVANE_TOO_WIDE 4      /* written value has a bit outside the field */
#define TARRAVANE_BAD_RECORD 5    /* trace record malformed, or a kind over 2 */
#define TARRAVANE_BAD_COUNT 6     /* n is 0 or over 248 */
#define TARRAVANE_BAD_STATE 7     /* n over 248, a register or staged value over its bits, a STATE of 2, a count that its state
                                     rules out, an open ping that isn't the turn's; by batches of 24 and 70 bytes also
                                     PING_TIMER_EN at 1, and by tarravane_batch_24 n over 64 */
#define TARRAVANE_BAD_LENGTH 8    /* batch length not a multiple of its record's bytes */
#define TARRAVANE_SHORT_LIST 9    /* output list shorter than the records */
#define TARRAVANE_NO_RECORD 10    /* an access that no well-formed record holds */
#define TARRAVANE_SHORT_BUFFER 11 /* buffer shorter than the records or the dump to write */
#define TARRAVANE_DIFFERS 12      /* second write differs from the first; the stage is dropped, local 5 occurs if enabled */
#define TARRAVANE_FEW_ALERTS 13   /* n under 58, too few for a boot */
#define TARRAVANE_THRESHOLD 14    /* a 0 to a class REGWEN that is still 1, while EN is 1 and ACCUM_THRESH 65535 */
#define TARRAVANE_TIMER_ON 15     /* a calm call where PING_TIMER_EN is 1 */
#define TARRAVANE_NO_DUMP 16      /* bytes that are neither a dump nor the start of one */
#define TARRAVANE_CUT_DUMP 17     /* the start of a dump, cut, or no bytes */
#define TARRAVANE_FEW_ENTRIES 18  /* list of changes shorter than 20 entries */

/* ---- Kinds of access ---- */

#define TARRAVANE_NONE 0
#define TARRAVANE_READ 1
#define TARRAVANE_WRITE 2

/* ---- Register numbers: local alert j is 0 to 6, alert i is below n, class k is 0 to 3, phase p is 0 to 3 ----
 * Those of tarravane_tick, of records of 75 bytes and of tarravane_record. Records of 70 bytes have them too, but for 4, 5
 * and 6, which are unassigned there. Records of 24 bytes have document 01's: 4, 5 and 6 unassigned, alert blocks at 64, 128,
 * 192 and 256, classes at 320 + 16k; tarravane_batch_24 carries them over.
 *
 * Those marked "twice" are shadowed, and take a value by two equal writes. The first is staged: it answers 0 and acts on
 * nothing. The second, equal one commits and answers 0. A second one that differs answers -12: the stage is gone, the
 * register is as it was, nothing is staged, and local alert 5 occurs in that tick if it is enabled. There is one stage for
 * each register, in every edition; it waits through ticks, other accesses and locking until its register is named again: a
 * read drops it, so read back after the second write; a write refused with -3 drops it; one refused with -1, -2, -4 or -5
 * leaves it. A write of the value that the register holds is staged like any other.
 *
 * A class that waits for 65,536 events is not locked so: a 0 written to a class REGWEN that is still 1 answers -14 while the
 * class's EN, bit 0 of CTRL, is 1, whatever its line enables, and its ACCUM_THRESH is 65535. It changes nothing. What is
 * staged does not count. Set the threshold to 65534 or less, by two writes, and lock again.
 *
 * The ping timer's: PING_TIMER_REGWEN locks the other two, for ever. PING_TIMEOUT_CYC is how many ticks a ping may stay open
 * without an answer; at 0 it waits for ever. A 1 written to PING_TIMER_EN turns the timer on, and nothing turns it off: a
 * written 0 answers 0 and does nothing, a 1 where it is on answers 0 and sets no turn; while PING_TIMER_REGWEN is 0 each
 * write that fits answers -3.
 * The order that works is PING_TIMEOUT_CYC above 0, PING_TIMER_EN, then PING_TIMER_REGWEN. Nothing stops another one, and two
 * things are not promised: PING_TIMER_REGWEN locked before PING_TIMER_EN is 1 keeps the timer off for ever; and at timeout 0
 * one sender that does not answer stops all later pings, of every alert and line. Once PING_TIMER_EN is 1, PING_TIMER_REGWEN
 * is 0 and the timeout T is above 0, every turn, the one that stands then too, ends within 65,536 + T ticks. */

/* A register number, whatever the type of an index. */
#ifdef __cplusplus
#define TARRAVANE_NUMBER(number) static_cast<uint16_t>(number)
#else
#define TARRAVANE_NUMBER(number) ((uint16_t)(number))
#endif

#define TARRAVANE_INTR_STATE 0  /* 4 bits, a 1 clears */
#define TARRAVANE_INTR_ENABLE 1 /* 4 bits */
#define TARRAVANE_INTR_TEST 2   /* 4 bits, write only, a 1 sets INTR_STATE */

#define TARRAVANE_PING_TIMER_REGWEN 4 /* 1 bit, a 0 locks */
#define TARRAVANE_PING_TIMEOUT_CYC 5  /* 16 bits, twice */
#define TARRAVANE_PING_TIMER_EN 6     /* 1 bit, a 1 sets, a 0 does nothing */

#define TARRAVANE_LOC_ALERT_REGWEN(j) TARRAVANE_NUMBER(16 + (j)) /* 1 bit, a 0 locks */
#define TARRAVANE_LOC_ALERT_EN(j) TARRAVANE_NUMBER(24 + (j))     /* 1 bit, twice */
#define TARRAVANE_LOC_ALERT_CLASS(j) TARRAVANE_NUMBER(32 + (j))  /* 2 bits, twice */
#define TARRAVANE_LOC_ALERT_CAUSE(j) TARRAVANE_NUMBER(40 + (j))  /* 1 bit, a 1 clears */

#define TARRAVANE_ALERT_REGWEN(i) TARRAVANE_NUMBER(256 + (i)) /* 1 bit, a 0 locks */
#define TARRAVANE_ALERT_EN(i) TARRAVANE_NUMBER(512 + (i))     /* 1 bit, twice */
#define TARRAVANE_ALERT_CLASS(i) TARRAVANE_NUMBER(768 + (i))  /* 2 bits, twice */
#define TARRAVANE_ALERT_CAUSE(i) TARRAVANE_NUMBER(1024 + (i)) /* 1 bit, a 1 clears */

#define TARRAVANE_CLASS_REGWEN(k) TARRAVANE_NUMBER(1280 + 16 * (k))          /* 1 bit, a 0 locks, or gets -14 */
#define TARRAVANE_CLASS_CTRL(k) TARRAVANE_NUMBER(1281 + 16 * (k))            /* 14 bits, twice: EN, LOCK, line enables, maps */
#define TARRAVANE_CLASS_CLR_REGWEN(k) TARRAVANE_NUMBER(1282 + 16 * (k))      /* 1 bit, a 0 locks */
#define TARRAVANE_CLASS_CLR(k) TARRAVANE_NUMBER(1283 + 16 * (k))             /* 1 bit, write only */
#define TARRAVANE_CLASS_ACCUM_CNT(k) TARRAVANE_NUMBER(1284 + 16 * (k))       /* 16 bits, read only */
#define TARRAVANE_CLASS_ACCUM_THRESH(k) TARRAVANE_NUMBER(1285 + 16 * (k))    /* 16 bits, twice */
#define TARRAVANE_CLASS_TIMEOUT_CYC(k) TARRAVANE_NUMBER(1286 + 16 * (k))     /* 32 bits, twice */
#define TARRAVANE_CLASS_PHASE_CYC(k, p) TARRAVANE_NUMBER(1287 + 16 * TARRAVANE_NUMBER(k) + TARRAVANE_NUMBER(p)) /* 32 bits, twice */
#define TARRAVANE_CLASS_ESC_CNT(k) TARRAVANE_NUMBER(1291 + 16 * (k))         /* 32 bits, read only */
#define TARRAVANE_CLASS_STATE(k) TARRAVANE_NUMBER(1292 + 16 * (k))           /* 3 bits, read only */

/* What STATE reads. */
#define TARRAVANE_IDLE 0
#define TARRAVANE_TIMEOUT 1
#define TARRAVANE_TERMINAL 3
#define TARRAVANE_PHASE(p) (4 + (p))

/* ---- Lifecycles: the columns of document 002's classification; RAW and TEST are one ---- */

#define TARRAVANE_LIFECYCLE_RAW 0
#define TARRAVANE_LIFECYCLE_TEST 0
#define TARRAVANE_LIFECYCLE_PROD 1
#define TARRAVANE_LIFECYCLE_PROD_END 2
#define TARRAVANE_LIFECYCLE_DEV 3
#define TARRAVANE_LIFECYCLE_RMA 4
#define TARRAVANE_LIFECYCLE_SCRAP 5

/* ---- A word of a batch ---- */

#define TARRAVANE_WORD_INTERRUPT(word, k) ((unsigned)((uint64_t)(word) >> (63 - (k)) & 1))
#define TARRAVANE_WORD_LINE(word, e) ((unsigned)((uint64_t)(word) >> (59 - (e)) & 1))
#define TARRAVANE_WORD_REFUSAL(word) ((unsigned)((uint64_t)(word) >> 52 & 15))
#define TARRAVANE_WORD_VALUE(word) ((uint32_t)(word))

/* ---- A change of a calm call: the lines as they are from that tick on, and the tick, of which the first is 1 ---- */

#define TARRAVANE_CHANGE_LINE(change, e) ((unsigned)((uint64_t)(change) >> (63 - (e)) & 1))
#define TARRAVANE_CHANGE_TICK(change) ((uint32_t)(change))

/* ---- The functions ---- */

/* Makes a handler for n alerts, 1 to 248: all REGWEN and CLR_REGWEN at 1, all CTRL at 0x393C, every other register at 0,
 * classes Idle, receivers ready, their ping pairs at (0,1) and no ping open, senders at rest, the ping timer off, no stage, and
 * so the entries at n and above; answers 0. What is proved of what the receivers at the lines' ends see is of receivers that
 * are new with the handler.
 * -6: n is 0 or over 248. It leaves a handler of no alerts, otherwise as new. */
TARRAVANE_RESULT
struct tarravane_made tarravane_new(size_t n);

/* Runs one tick of the state h, with the access and the sample, and gives the state after it, the answer to the access, and
 * the outputs.
 * The access: kind TARRAVANE_NONE (register and value are not looked at), TARRAVANE_READ (value is not looked at) or
 * TARRAVANE_WRITE.
 * The wires: a ready receiver that reads (1,0) takes the rise, and acknowledges it from the next tick on; after (0,1) is read
 * the acknowledgement drops in the next tick, which is the first of two ticks of pause, and then the receiver is ready again.
 * A rise in the pause waits; one that is gone before its end is lost. Equal wires make local alert 2 occur, if both are
 * enabled, and hold the receiver where it is; an acknowledge change that is due comes all the same. Alerts that are not
 * enabled have their handshake too, and their events do nothing.
 * Pings: the ping timer opens them, in turns of an alert and of a line, an alert's first and lines 0 to 3 one after another. In
 * the tick in which PING_TIMER_EN becomes 1, and in each in which a turn ends, the sample's word sets the next turn: its low
 * 16 bits plus 1 are the ticks from there to the ping, its next 8 bits the alert, its top 8 count for nothing. A ping is due
 * after the access and before the wires are read. An alert that is not locked and enabled then, at n and above too, is not
 * pinged, and the turn ends. Else the ping opens; an alert's changes the level of its ping pair.
 * A rise that is taken while the alert's ping is open, in the tick in which it opens too, answers and closes it and is no
 * event; any other that is taken is one event, in this tick. A line's ping is answered in the fourth tick after the one in
 * which it opened, if its receive pair was right in all four; else never. A ping that is open and not answered up to and in the
 * first tick that is PING_TIMEOUT_CYC or more ticks after it opened fails there: local alert 0 for an alert, 1 for a line,
 * occurs if it is enabled, and enabled or not the ping closes; so at a timeout of 1 to 3 a line's ping always fails. An answer
 * and a failure end the turn.
 * The lines' pairs: a line that is on holds its pair at (1,0), and one that is on for a single tick for two; a line's ping is
 * (1,0) for one tick. A sound receiver sends back, from the tick after the pair comes on to the tick after it goes off, (1,0)
 * and (0,1) in turn, and 1010, one tick each, after a ping alone; a line that comes on within those four goes on with them in
 * turn. So the receive pair that is right in a tick is known from what was sent up to the tick before. Equal wires, or another
 * answer than the right one, of any of the four make local alert 3 occur, if it is enabled, once in a tick, whether the timer
 * or the line is on or not; the answers that are right afterwards stay the same. A cable of a line that is cut or shorted by the
 * time its pair comes on, for a ping too, shows so in the first tick after at the latest; a pinged line that is cut also lets
 * local alert 1 occur at the timeout.
 * A line that is on closes its open ping unfailed, the turn ends there. A ping that is due in a tick in which its line is on, or
 * in the tick after a pair that was on for the line, is not sent, and the turn ends. A timeout reached in the same tick comes
 * first: local alert 1 occurs.
 * The caller owes the receive pairs as the wires have them in this tick: what a receiver sends in a tick goes by the pairs of
 * the ticks before, those of output.escalation. Who has no receivers simulates them by tarravane_receive. Who leaves the
 * receive pairs at rest makes local alert 3 occur wherever a line comes on or is pinged.
 * The caller owes a fresh word in each tick, one that nobody can foresee: who foresees it knows which alert is pinged next and
 * when, and can answer there in place of a sender that was cut off.
 * -7: the state breaks its rule. State unchanged, tick not run, interrupts and lines 0, all pairs (0,1): those of the lines
 * have positive 0 and negative 15, whatever the senders held.
 * -5 (kind over 2), -1, -2, -4, -14, -3, -12, in this order: no register is changed by the access; the tick runs with its
 * sample. -3 and -12 drop the stage of the register that is named, the others touch none. */
TARRAVANE_RESULT
struct tarravane_answered tarravane_tick(struct tarravane_handler h, uint8_t kind, uint16_t register_number,
                                         uint32_t value, struct tarravane_sample sample);

/* Says what the tick of the same arguments hears: the alerts below n that have an event, enabled or not, those whose open ping
 * is answered, and the local alerts that occur, the enabled ones with a reason to: 0 and 1 where a ping fails, 3 where a
 * receive pair is not the right one. Its answer is the tick's. It changes nothing: the tick itself is tarravane_tick.
 * -7: the state breaks its rule. Nothing is heard: all bits 0. */
TARRAVANE_RESULT
struct tarravane_heard tarravane_hear(struct tarravane_handler h, uint8_t kind, uint16_t register_number, uint32_t value,
                                      struct tarravane_sample sample);

/* What receivers at the ends of the four lines do in a tick in which the lines' pairs are (positive, negative), line 0 at the
 * lowest bit: what they send back in it, and which of them see an escalation. It is for who simulates a system and has no
 * receivers, and for tests; no other call asks it. Zeros in r are new receivers, and any bits are four receivers.
 * A receiver sees an escalation where its pair is on in this tick and in the one before, so never in a ping, and at once where
 * its wires are equal. It answers what is on as tarravane_tick says; equal wires it answers by equal wires from the next tick
 * on, (0,0) first and then (1,1) and (0,0) in turn, and in the first sound tick after them it starts as a new one.
 * What it sends in a tick does not hang on the pairs of that tick. So one tick of a simulation is: the receive pairs by
 * tarravane_receive of r and any pairs, tarravane_tick with them, then r after it by tarravane_receive of r and the pairs of
 * output.escalation. Bits from 4 up of all arguments count for nothing. */
TARRAVANE_RESULT
struct tarravane_listened tarravane_receive(struct tarravane_line_receivers r, uint32_t positive, uint32_t negative);

/* Runs a tick for each record of 75 bytes, one after another from the state h, and writes a word for each at its place in
 * out: bits 63 to 60 interrupts (class 0 first), 59 to 56 lines (line 0 first), 55 to 52 the refusal number or 0, then 20
 * zeros and the 32 bits of the value that was read, or 0. Later words stay as they were. Gives the state after the last
 * tick, and 0. A record that gets refusal 1 to 5, 12 or 14 still takes its tick, and the batch goes on; its word says so.
 * A record ends with the entropy word, 32 bits, most significant first, and a byte of the four receive pairs, line 0 and the
 * positive wire first: p0 n0 p1 n1 p2 n2 p3 n3, p0 being bit 7. Each is checked as tarravane_tick checks it, and no bit of
 * the byte makes a record malformed; those of a malformed record count all the same. Words do not show the pairs.
 * -7: the state breaks its rule. -8: length is not a multiple of 75. -9: words is less than length / 75. In this order;
 * each leaves state and list unchanged.
 * The caller owes: bytes points to length readable bytes, out to words writable words, aligned; they do not overlap;
 * neither is null, also where its length is 0. */
TARRAVANE_RESULT
struct tarravane_batched tarravane_batch_wires(struct tarravane_handler h, const uint8_t *bytes, size_t length, uint64_t *out,
                                               size_t words);

/* The same for the records of 75 bytes whose trace begins with 254. Their last byte is four zero bits and four answer bits,
 * line 0 first: line 0 is bit 3. Zero bits that are not 0 make the record malformed (5); its word and answer bits count all the
 * same. A line's ping is answered by its bit; a bit of a line whose ping is not open counts for nothing. In these and all older
 * records nobody checks receive pairs: local alert 3 never occurs, and a line closes no ping and keeps none from opening.
 * Such a batch may follow and precede ticks and batches that do check, the timer on or off. The senders send in its ticks as in
 * any other, so the next checked tick asks for the answers to that; and an answer that nobody checked is no right one, so a
 * ping that was open in such a tick is answered by a bit there or not at all. */
TARRAVANE_RESULT
struct tarravane_batched tarravane_batch_pings(struct tarravane_handler h, const uint8_t *bytes, size_t length, uint64_t *out,
                                               size_t words);

/* The same for records of 70 bytes, with 70 in place of 75. They have no word and no answer bits, and registers 4, 5 and 6
 * are unassigned in them: refusal 1. So they never turn the ping timer on.
 * -7 also where the timer is on, PING_TIMER_EN being 1, though the state keeps its rule, and with no bytes too. */
TARRAVANE_RESULT
struct tarravane_batched tarravane_batch_70(struct tarravane_handler h, const uint8_t *bytes, size_t length, uint64_t *out,
                                            size_t words);

/* The same for records of 24 bytes, with 24 in place of 70. Their register numbers are document 01's and carried over: a
 * number that was unassigned then gets refusal 1, also where it names a register now. They have wires for 64 alerts.
 * -7 also where the timer is on, and for a state of more than 64 alerts, though it keeps its rule, and with no bytes too. */
TARRAVANE_RESULT
struct tarravane_batched tarravane_batch_24(struct tarravane_handler h, const uint8_t *bytes, size_t length, uint64_t *out,
                                            size_t words);

/* Writes a trace record of 75 bytes for each entry of the eight lists, one after another from the start of bytes, and
 * answers the bytes written: 75 times the entries. Entry i of kinds, registers and values is the access of record i:
 * TARRAVANE_NONE with register and value 0, TARRAVANE_READ with value 0, or TARRAVANE_WRITE. Its wires are the
 * TARRAVANE_WORDS words of positive and of negative from i * TARRAVANE_WORDS on, as in struct tarravane_wires; places 248
 * to 255 are left out, whatever they hold. Entry i of entropy is its word. Entries i of receive_positive and
 * receive_negative have line 0 at the lowest bit, as in struct tarravane_sample; bits 4 to 7 count for nothing and are left out.
 * Later bytes stay as they were. No entries: nothing is written, and it answers 0.
 * Reading what was written (tarravane_batch_wires) gives these accesses, the wires of all 248 alerts, words and receive pairs;
 * writing what was read of a well-formed record gives its bytes. Records of 254 are not written here.
 * -10: an entry that no well-formed record holds (a kind over 2, TARRAVANE_NONE with a register or value, a read with a
 * value, a register over 2047), or lists of unequal lengths (positive and negative: TARRAVANE_WORDS for each entry).
 * -11: length is less than 75 times the entries. In this order; each leaves bytes as they were.
 * The caller owes: each list points to as many readable entries as its length says, aligned, and bytes to length writable
 * bytes that overlap none of them; no pointer is null, also where its length is 0. */
TARRAVANE_RESULT
int64_t tarravane_record(const uint8_t *kinds, size_t kinds_length, const uint16_t *registers, size_t registers_length,
                         const uint32_t *values, size_t values_length, const uint64_t *positive, size_t positive_length,
                         const uint64_t *negative, size_t negative_length, const uint32_t *entropy, size_t entropy_length,
                         const uint8_t *receive_positive, size_t receive_positive_length, const uint8_t *receive_negative,
                         size_t receive_negative_length, uint8_t *bytes, size_t length);

/* Boots the state h: installs document 002's classification of alerts 0 to 57 and its class settings for the lifecycle, one
 * access a tick with all wires at (0,1), the receive pairs too, and the entropy word 0. In this order, numbers rising: CLASS,
 * then EN of each alert; ACCUM_THRESH, TIMEOUT_CYC, PHASE0_CYC to PHASE3_CYC and CTRL of each class; REGWEN of each alert that
 * is locked, and of class A. Each is written, twice where it is shadowed, and read back right after.
 * An alert that the table marks X gets CLASS 0 and EN 0, one marked A to D its class and EN 1. CTRL is 0x393C, with EN for
 * A and B in PROD, PROD_END and DEV, and with LOCK for A in PROD and PROD_END. Alerts marked A and class A are locked there
 * alone. Local alerts, alerts from 58 up and the ping timer's registers are not written: boot first, then turn the timer on.
 * A lifecycle over 5 is none: PROD_END is installed then, the strictest.
 * All of it is installed and read back where the answer AND register_number are 0 (tarravane_all_installed); a new handler of
 * 58 alerts or more always gets there. Look at both: -7 and -13 have register_number 0 too, and a boot that stops where a
 * register reads a 0 that was not written answers 0.
 * Else it stops, register_number names the register, and the state is the one reached: what was written stays. It stops at
 * the first refusal and answers -number, or at the first register that does not read what was written and answers what it
 * reads. -3: the register is locked, as after an earlier boot. -12: a stage that differs was left open; it is dropped.
 * -7: the state breaks its rule. -13: n is under 58. In this order; either leaves the state unchanged, runs no tick and has
 * register_number 0.
 * A whole boot is 432 ticks, 474 in PROD and PROD_END, whose interrupts and lines nobody sees. A class that runs moves on in
 * them, its lines included; a stop by -12 raises local alert 5 where that is enabled, and so can start a class. So does the
 * ping timer where it is on: its pings open, get no answer and can fail, and every word is 0. Where local alert 3 is enabled it
 * occurs in a boot while a line is on, in the tick after, and while a ping of a line is to be answered. */
TARRAVANE_RESULT
struct tarravane_installed tarravane_install(struct tarravane_handler h, uint8_t lifecycle);

/* Whether a boot installed all of it. */
static inline int tarravane_all_installed(const struct tarravane_installed *boot)
{
    return boot->answer == 0 && boot->register_number == 0;
}

/* Runs so many calm ticks, 0 to 4294967295, in one go: it gives what as many calls of tarravane_tick give, each on the state
 * that the last one left, with no access, these wires of the alerts, the entropy word 0, and the receive pairs that sound
 * receivers send, which answer without fault what the senders have sent, before the call too: local alert 3 does not occur.
 * The time that it takes does not grow with the ticks. The wires may be any: a receiver that is ready takes a rise and
 * acknowledges it from the next tick on, and equal wires of an enabled alert make local alert 2 occur in every tick, if it is
 * enabled.
 * It writes a word for each tick in which a line changed, one where several did, in order from the start of list: bits 63 to
 * 60 the lines as they are from that tick on (line 0 first), then 28 zeros and the 32 bits of the tick, of which the first is
 * 1. Before it the lines are those that the classes of h drive, whatever its senders hold. It answers how many words these
 * are, 0 to TARRAVANE_CHANGES; later entries stay as they were. The outputs are those of the last tick; of 0 ticks interrupts
 * and lines of h, all pairs (0,1).
 * Two calls, of m and of n ticks, give the state and the changes of one call of m + n, those of the second m ticks later.
 * -7: the state breaks its rule. -15: the ping timer is on, PING_TIMER_EN being 1. -18: length is under TARRAVANE_CHANGES, with
 * 0 ticks too. In this order; each leaves state and list unchanged, interrupts and lines 0, all pairs (0,1).
 * The caller owes: list points to length writable words, aligned, and is not null, also where length is 0. */
TARRAVANE_RESULT
struct tarravane_calmed tarravane_calm(struct tarravane_handler h, struct tarravane_wires wires, uint32_t ticks, uint64_t *list,
                                       size_t length);

/* Writes the dump of the state h from the start of bytes, and answers the bytes written: no more than TARRAVANE_DUMP_MOST.
 * The four bytes TDMP, then, most significant bit first: n (8 bits); STATE, count and accumulator of each class (3, 32, 16);
 * a bit for each CAUSE and then for each REGWEN and CLR_REGWEN, 1 for locked, register numbers rising; zeros to a full byte;
 * the number of open stages (16) and, numbers rising, each one's register and value (16, 32). Later bytes stay as they were.
 * It shows no EN, CLASS, CTRL, threshold, timeout or length, no interrupt, none of registers 5 and 6, no turn of the ping
 * timer, no receiver and no sender, and no entry at n and above; of a shadowed register it shows an open stage.
 * -7: the state breaks its rule. -11: length is less than the dump's bytes. In this order; each leaves bytes as they were.
 * The caller owes: bytes points to length writable bytes and is not null, also where length is 0. */
TARRAVANE_RESULT
int64_t tarravane_dump(struct tarravane_handler h, uint8_t *bytes, size_t length);

/* What the dump shows that the length bytes are. Any bytes may come in. The answer is 0 exactly where tarravane_dump can have
 * written them, all of them, of a state that keeps its rule; the content is then what that state held, and no other bytes
 * have it. Else nothing is shown.
 * -17: the bytes are the start of a dump, cut: some bytes behind them would make them one. No bytes are such a start.
 * -16: all other bytes.
 * The caller owes: bytes points to length readable bytes and is not null, also where length is 0. */
TARRAVANE_RESULT
struct tarravane_content tarravane_read_dump(const uint8_t *bytes, size_t length);

/* ---- The layout that the library has: each size is the sum of its fields ---- */

#ifdef __cplusplus
#define TARRAVANE_SIZE(name, field) sizeof(tarravane_##name::field)
#else
#define TARRAVANE_SIZE(name, field) sizeof(((struct tarravane_##name *)0)->field)
#endif

TARRAVANE_ASSERT(sizeof(size_t) == 8);
TARRAVANE_ASSERT(sizeof(struct tarravane_class) == 36);
TARRAVANE_ASSERT(offsetof(struct tarravane_class, lengths) == 0);
TARRAVANE_ASSERT(offsetof(struct tarravane_class, timeout) == 16);
TARRAVANE_ASSERT(offsetof(struct tarravane_class, count) == 20);
TARRAVANE_ASSERT(offsetof(struct tarravane_class, ctrl) == 24);
TARRAVANE_ASSERT(offsetof(struct tarravane_class, accum) == 26);
TARRAVANE_ASSERT(offsetof(struct tarravane_class, thresh) == 28);
TARRAVANE_ASSERT(offsetof(struct tarravane_class, regwen) == 30);
TARRAVANE_ASSERT(offsetof(struct tarravane_class, clrwen) == 31);
TARRAVANE_ASSERT(offsetof(struct tarravane_class, state) == 32);
TARRAVANE_ASSERT(sizeof(struct tarravane_receivers) == 128);
TARRAVANE_ASSERT(offsetof(struct tarravane_receivers, pausing) == 0);
TARRAVANE_ASSERT(offsetof(struct tarravane_receivers, busy) == 32);
TARRAVANE_ASSERT(offsetof(struct tarravane_receivers, level) == 64);
TARRAVANE_ASSERT(offsetof(struct tarravane_receivers, pending) == 96);
TARRAVANE_ASSERT(sizeof(struct tarravane_turn) == 4);
TARRAVANE_ASSERT(offsetof(struct tarravane_turn, number) == 0);
TARRAVANE_ASSERT(offsetof(struct tarravane_turn, alert) == 1);
TARRAVANE_ASSERT(offsetof(struct tarravane_turn, count) == 2);
TARRAVANE_ASSERT(sizeof(struct tarravane_senders) == 20);
TARRAVANE_ASSERT(offsetof(struct tarravane_senders, on) == 0);
TARRAVANE_ASSERT(offsetof(struct tarravane_senders, first) == 4);
TARRAVANE_ASSERT(offsetof(struct tarravane_senders, last) == 8);
TARRAVANE_ASSERT(offsetof(struct tarravane_senders, deep) == 12);
TARRAVANE_ASSERT(offsetof(struct tarravane_senders, answer) == 16);
TARRAVANE_ASSERT(sizeof(struct tarravane_links) == 160);
TARRAVANE_ASSERT(offsetof(struct tarravane_links, receivers) == 0);
TARRAVANE_ASSERT(offsetof(struct tarravane_links, turn) == 128);
TARRAVANE_ASSERT(offsetof(struct tarravane_links, lines) == 132);
TARRAVANE_ASSERT(offsetof(struct tarravane_links, senders) == 136);
TARRAVANE_ASSERT(offsetof(struct tarravane_links, right) == 156);
TARRAVANE_ASSERT(sizeof(struct tarravane_alerts) == 992);
TARRAVANE_ASSERT(offsetof(struct tarravane_alerts, en) == 248);
TARRAVANE_ASSERT(offsetof(struct tarravane_alerts, class_of) == 496);
TARRAVANE_ASSERT(offsetof(struct tarravane_alerts, cause) == 744);
TARRAVANE_ASSERT(sizeof(struct tarravane_locals) == 28);
TARRAVANE_ASSERT(offsetof(struct tarravane_locals, en) == 7);
TARRAVANE_ASSERT(offsetof(struct tarravane_locals, class_of) == 14);
TARRAVANE_ASSERT(offsetof(struct tarravane_locals, cause) == 21);
TARRAVANE_ASSERT(sizeof(struct tarravane_interrupts) == 4);
TARRAVANE_ASSERT(offsetof(struct tarravane_interrupts, enable) == 2);
TARRAVANE_ASSERT(sizeof(struct tarravane_timer) == 8);
TARRAVANE_ASSERT(offsetof(struct tarravane_timer, timeout) == 0);
TARRAVANE_ASSERT(offsetof(struct tarravane_timer, regwen) == 4);
TARRAVANE_ASSERT(offsetof(struct tarravane_timer, enable) == 6);
TARRAVANE_ASSERT(sizeof(struct tarravane_class_stages) == 48);
TARRAVANE_ASSERT(offsetof(struct tarravane_class_stages, lengths) == 0);
TARRAVANE_ASSERT(offsetof(struct tarravane_class_stages, timeout) == 32);
TARRAVANE_ASSERT(offsetof(struct tarravane_class_stages, ctrl) == 40);
TARRAVANE_ASSERT(offsetof(struct tarravane_class_stages, thresh) == 44);
TARRAVANE_ASSERT(sizeof(struct tarravane_alert_stages) == 496);
TARRAVANE_ASSERT(offsetof(struct tarravane_alert_stages, class_of) == 248);
TARRAVANE_ASSERT(sizeof(struct tarravane_local_stages) == 56);
TARRAVANE_ASSERT(offsetof(struct tarravane_local_stages, class_of) == 28);
TARRAVANE_ASSERT(sizeof(struct tarravane_stages) == 752);
TARRAVANE_ASSERT(offsetof(struct tarravane_stages, classes) == 0);
TARRAVANE_ASSERT(offsetof(struct tarravane_stages, alerts) == 192);
TARRAVANE_ASSERT(offsetof(struct tarravane_stages, locals) == 688);
TARRAVANE_ASSERT(offsetof(struct tarravane_stages, timeout) == 744);
TARRAVANE_ASSERT(sizeof(struct tarravane_handler) == 2096);
TARRAVANE_ASSERT(offsetof(struct tarravane_handler, n) == 0);
TARRAVANE_ASSERT(offsetof(struct tarravane_handler, links) == 8);
TARRAVANE_ASSERT(offsetof(struct tarravane_handler, classes) == 168);
TARRAVANE_ASSERT(offsetof(struct tarravane_handler, alerts) == 312);
TARRAVANE_ASSERT(offsetof(struct tarravane_handler, locals) == 1304);
TARRAVANE_ASSERT(offsetof(struct tarravane_handler, interrupts) == 1332);
TARRAVANE_ASSERT(offsetof(struct tarravane_handler, timer) == 1336);
TARRAVANE_ASSERT(offsetof(struct tarravane_handler, stages) == 1344);
TARRAVANE_ASSERT(sizeof(struct tarravane_wires) == 64);
TARRAVANE_ASSERT(offsetof(struct tarravane_wires, neg) == 32);
TARRAVANE_ASSERT(sizeof(struct tarravane_sample) == 72);
TARRAVANE_ASSERT(offsetof(struct tarravane_sample, alerts) == 0);
TARRAVANE_ASSERT(offsetof(struct tarravane_sample, word) == 64);
TARRAVANE_ASSERT(offsetof(struct tarravane_sample, receive_positive) == 68);
TARRAVANE_ASSERT(offsetof(struct tarravane_sample, receive_negative) == 70);
TARRAVANE_ASSERT(sizeof(struct tarravane_line_pairs) == 8);
TARRAVANE_ASSERT(offsetof(struct tarravane_line_pairs, neg) == 4);
TARRAVANE_ASSERT(sizeof(struct tarravane_output) == 144);
TARRAVANE_ASSERT(offsetof(struct tarravane_output, lines) == 4);
TARRAVANE_ASSERT(offsetof(struct tarravane_output, acknowledge) == 8);
TARRAVANE_ASSERT(offsetof(struct tarravane_output, ping) == 72);
TARRAVANE_ASSERT(offsetof(struct tarravane_output, escalation) == 136);
TARRAVANE_ASSERT(sizeof(struct tarravane_made) == 2104);
TARRAVANE_ASSERT(offsetof(struct tarravane_made, answer) == 2096);
TARRAVANE_ASSERT(sizeof(struct tarravane_answered) == 2248);
TARRAVANE_ASSERT(offsetof(struct tarravane_answered, answer) == 2096);
TARRAVANE_ASSERT(offsetof(struct tarravane_answered, output) == 2104);
TARRAVANE_ASSERT(sizeof(struct tarravane_heard) == 80);
TARRAVANE_ASSERT(offsetof(struct tarravane_heard, events) == 0);
TARRAVANE_ASSERT(offsetof(struct tarravane_heard, answers) == 32);
TARRAVANE_ASSERT(offsetof(struct tarravane_heard, locals) == 64);
TARRAVANE_ASSERT(offsetof(struct tarravane_heard, answer) == 72);
TARRAVANE_ASSERT(sizeof(struct tarravane_batched) == 2104);
TARRAVANE_ASSERT(offsetof(struct tarravane_batched, answer) == 2096);
TARRAVANE_ASSERT(sizeof(struct tarravane_installed) == 2112);
TARRAVANE_ASSERT(offsetof(struct tarravane_installed, answer) == 2096);
TARRAVANE_ASSERT(offsetof(struct tarravane_installed, register_number) == 2104);
TARRAVANE_ASSERT(offsetof(struct tarravane_installed, spare) == 2106);
TARRAVANE_ASSERT(sizeof(struct tarravane_calmed) == 2248);
TARRAVANE_ASSERT(offsetof(struct tarravane_calmed, answer) == 2096);
TARRAVANE_ASSERT(offsetof(struct tarravane_calmed, output) == 2104);
TARRAVANE_ASSERT(sizeof(struct tarravane_line_receivers) == 16);
TARRAVANE_ASSERT(offsetof(struct tarravane_line_receivers, deep) == 4);
TARRAVANE_ASSERT(offsetof(struct tarravane_line_receivers, answer) == 8);
TARRAVANE_ASSERT(offsetof(struct tarravane_line_receivers, broken) == 12);
TARRAVANE_ASSERT(sizeof(struct tarravane_listened) == 28);
TARRAVANE_ASSERT(offsetof(struct tarravane_listened, positive) == 16);
TARRAVANE_ASSERT(offsetof(struct tarravane_listened, negative) == 20);
TARRAVANE_ASSERT(offsetof(struct tarravane_listened, seen) == 24);
TARRAVANE_ASSERT(sizeof(struct tarravane_shown_class) == 12);
TARRAVANE_ASSERT(offsetof(struct tarravane_shown_class, count) == 4);
TARRAVANE_ASSERT(offsetof(struct tarravane_shown_class, accum) == 8);
TARRAVANE_ASSERT(sizeof(struct tarravane_content) == 13504);
TARRAVANE_ASSERT(offsetof(struct tarravane_content, n) == 8);
TARRAVANE_ASSERT(offsetof(struct tarravane_content, classes) == 16);
TARRAVANE_ASSERT(offsetof(struct tarravane_content, stages) == 64);
TARRAVANE_ASSERT(offsetof(struct tarravane_content, causes) == 10816);
TARRAVANE_ASSERT(offsetof(struct tarravane_content, locked) == 12160);

TARRAVANE_ASSERT(sizeof(struct tarravane_class) == TARRAVANE_SIZE(class, lengths) + TARRAVANE_SIZE(class, timeout) +
                 TARRAVANE_SIZE(class, count) + TARRAVANE_SIZE(class, ctrl) + TARRAVANE_SIZE(class, accum) +
                 TARRAVANE_SIZE(class, thresh) + TARRAVANE_SIZE(class, regwen) + TARRAVANE_SIZE(class, clrwen) +
                 TARRAVANE_SIZE(class, state));
TARRAVANE_ASSERT(sizeof(struct tarravane_receivers) == TARRAVANE_SIZE(receivers, pausing) + TARRAVANE_SIZE(receivers, busy) +
                 TARRAVANE_SIZE(receivers, level) + TARRAVANE_SIZE(receivers, pending));
TARRAVANE_ASSERT(sizeof(struct tarravane_turn) == TARRAVANE_SIZE(turn, number) + TARRAVANE_SIZE(turn, alert) +
                 TARRAVANE_SIZE(turn, count));
TARRAVANE_ASSERT(sizeof(struct tarravane_senders) == TARRAVANE_SIZE(senders, on) + TARRAVANE_SIZE(senders, first) +
                 TARRAVANE_SIZE(senders, last) + TARRAVANE_SIZE(senders, deep) + TARRAVANE_SIZE(senders, answer));
TARRAVANE_ASSERT(sizeof(struct tarravane_links) == TARRAVANE_SIZE(links, receivers) + TARRAVANE_SIZE(links, turn) +
                 TARRAVANE_SIZE(links, lines) + TARRAVANE_SIZE(links, senders) + TARRAVANE_SIZE(links, right));
TARRAVANE_ASSERT(sizeof(struct tarravane_alerts) == TARRAVANE_SIZE(alerts, regwen) + TARRAVANE_SIZE(alerts, en) +
                 TARRAVANE_SIZE(alerts, class_of) + TARRAVANE_SIZE(alerts, cause));
TARRAVANE_ASSERT(sizeof(struct tarravane_locals) == TARRAVANE_SIZE(locals, regwen) + TARRAVANE_SIZE(locals, en) +
                 TARRAVANE_SIZE(locals, class_of) + TARRAVANE_SIZE(locals, cause));
TARRAVANE_ASSERT(sizeof(struct tarravane_interrupts) == TARRAVANE_SIZE(interrupts, state) +
                 TARRAVANE_SIZE(interrupts, enable));
TARRAVANE_ASSERT(sizeof(struct tarravane_timer) == TARRAVANE_SIZE(timer, timeout) + TARRAVANE_SIZE(timer, regwen) +
                 TARRAVANE_SIZE(timer, enable));
TARRAVANE_ASSERT(sizeof(struct tarravane_class_stages) == TARRAVANE_SIZE(class_stages, lengths) +
                 TARRAVANE_SIZE(class_stages, timeout) + TARRAVANE_SIZE(class_stages, ctrl) +
                 TARRAVANE_SIZE(class_stages, thresh));
TARRAVANE_ASSERT(sizeof(struct tarravane_alert_stages) == TARRAVANE_SIZE(alert_stages, en) +
                 TARRAVANE_SIZE(alert_stages, class_of));
TARRAVANE_ASSERT(sizeof(struct tarravane_local_stages) == TARRAVANE_SIZE(local_stages, en) +
                 TARRAVANE_SIZE(local_stages, class_of));
TARRAVANE_ASSERT(sizeof(struct tarravane_stages) == TARRAVANE_SIZE(stages, classes) + TARRAVANE_SIZE(stages, alerts) +
                 TARRAVANE_SIZE(stages, locals) + TARRAVANE_SIZE(stages, timeout));
TARRAVANE_ASSERT(sizeof(struct tarravane_handler) == TARRAVANE_SIZE(handler, n) + TARRAVANE_SIZE(handler, links) +
                 TARRAVANE_SIZE(handler, classes) + TARRAVANE_SIZE(handler, alerts) + TARRAVANE_SIZE(handler, locals) +
                 TARRAVANE_SIZE(handler, interrupts) + TARRAVANE_SIZE(handler, timer) + TARRAVANE_SIZE(handler, stages));
TARRAVANE_ASSERT(sizeof(struct tarravane_wires) == TARRAVANE_SIZE(wires, pos) + TARRAVANE_SIZE(wires, neg));
TARRAVANE_ASSERT(sizeof(struct tarravane_sample) == TARRAVANE_SIZE(sample, alerts) + TARRAVANE_SIZE(sample, word) +
                 TARRAVANE_SIZE(sample, receive_positive) + TARRAVANE_SIZE(sample, receive_negative));
TARRAVANE_ASSERT(sizeof(struct tarravane_line_pairs) == TARRAVANE_SIZE(line_pairs, pos) + TARRAVANE_SIZE(line_pairs, neg));
TARRAVANE_ASSERT(sizeof(struct tarravane_output) == TARRAVANE_SIZE(output, interrupts) + TARRAVANE_SIZE(output, lines) +
                 TARRAVANE_SIZE(output, acknowledge) + TARRAVANE_SIZE(output, ping) + TARRAVANE_SIZE(output, escalation));
TARRAVANE_ASSERT(sizeof(struct tarravane_made) == TARRAVANE_SIZE(made, handler) + TARRAVANE_SIZE(made, answer));
TARRAVANE_ASSERT(sizeof(struct tarravane_answered) == TARRAVANE_SIZE(answered, handler) + TARRAVANE_SIZE(answered, answer) +
                 TARRAVANE_SIZE(answered, output));
TARRAVANE_ASSERT(sizeof(struct tarravane_heard) == TARRAVANE_SIZE(heard, events) + TARRAVANE_SIZE(heard, answers) +
                 TARRAVANE_SIZE(heard, locals) + TARRAVANE_SIZE(heard, answer));
TARRAVANE_ASSERT(sizeof(struct tarravane_batched) == TARRAVANE_SIZE(batched, handler) + TARRAVANE_SIZE(batched, answer));
TARRAVANE_ASSERT(sizeof(struct tarravane_installed) == TARRAVANE_SIZE(installed, handler) +
                 TARRAVANE_SIZE(installed, answer) + TARRAVANE_SIZE(installed, register_number) +
                 TARRAVANE_SIZE(installed, spare));
TARRAVANE_ASSERT(sizeof(struct tarravane_calmed) == TARRAVANE_SIZE(calmed, handler) + TARRAVANE_SIZE(calmed, answer) +
                 TARRAVANE_SIZE(calmed, output));
TARRAVANE_ASSERT(sizeof(struct tarravane_line_receivers) == TARRAVANE_SIZE(line_receivers, last) +
                 TARRAVANE_SIZE(line_receivers, deep) + TARRAVANE_SIZE(line_receivers, answer) +
                 TARRAVANE_SIZE(line_receivers, broken));
TARRAVANE_ASSERT(sizeof(struct tarravane_listened) == TARRAVANE_SIZE(listened, receivers) +
                 TARRAVANE_SIZE(listened, positive) + TARRAVANE_SIZE(listened, negative) + TARRAVANE_SIZE(listened, seen));
TARRAVANE_ASSERT(sizeof(struct tarravane_shown_class) == TARRAVANE_SIZE(shown_class, state) +
                 TARRAVANE_SIZE(shown_class, count) + TARRAVANE_SIZE(shown_class, accum));
TARRAVANE_ASSERT(sizeof(struct tarravane_content) == TARRAVANE_SIZE(content, answer) + TARRAVANE_SIZE(content, n) +
                 TARRAVANE_SIZE(content, classes) + TARRAVANE_SIZE(content, stages) + TARRAVANE_SIZE(content, causes) +
                 TARRAVANE_SIZE(content, locked));

#ifdef __cplusplus
}
#endif

#endif
