/* Every call of libcuwelfra.a from C, with the answer that it must give.
 *
 *     cc -std=c99 -Iinclude c/example.c -Ltarget/staticlib -lcuwelfra -o example && ./example
 *
 * The program prints each check that fails and how many there were; its status is 0 where none failed. What the bytes
 * mean is in docs/LAYOUT.md, what the calls do in include/cuwelfra.h. */
#include "cuwelfra.h"

#include <inttypes.h>
#include <stdio.h>
#include <string.h>

/* ---- Checks */

/* The answers are structs of 64-bit words without gaps; a size that differs does not compile. */
#define HAS_WORDS(type, words) typedef char type##_has_##words##_words[sizeof(type) == 8 * (words) ? 1 : -1]

HAS_WORDS(cuwelfra_told, 3);
HAS_WORDS(cuwelfra_number_read, 5);
HAS_WORDS(cuwelfra_part_read, 6);
HAS_WORDS(cuwelfra_written, 4);
HAS_WORDS(cuwelfra_envelope_read, 8);
HAS_WORDS(cuwelfra_hybrid, 4);
HAS_WORDS(cuwelfra_issued_stamp, 8);
HAS_WORDS(cuwelfra_updated_clock, 5);
HAS_WORDS(cuwelfra_clock_number, 4);
HAS_WORDS(cuwelfra_stamp_told, 7);
HAS_WORDS(cuwelfra_lookup_told, 6);
HAS_WORDS(cuwelfra_op_told, 5);
HAS_WORDS(cuwelfra_delta_told, 13);
HAS_WORDS(cuwelfra_prepared_told, 43);
HAS_WORDS(cuwelfra_message_told, 5);
HAS_WORDS(cuwelfra_frame_told, 10);

static int checks = 0;
static int failures = 0;

static void check_number(int line, const char *what, uint64_t is, uint64_t wanted)
{
    checks++;
    if (is != wanted) {
        failures++;
        printf("line %d: %s is %" PRIu64 " and not %" PRIu64 "\n", line, what, is, wanted);
    }
}

/* The bytes that are wanted stand one behind the other (step 1), or all are the same one (step 0). */
static void check_bytes(int line, const char *what, const uint8_t *is, size_t len, const uint8_t *wanted, size_t step)
{
    size_t i = 0;
    while (i < len && is[i] == wanted[i * step])
        i++;
    checks++;
    if (i < len) {
        failures++;
        printf("line %d: byte %lu of %s is %02X and not %02X\n", line, (unsigned long)i, what, is[i], wanted[i * step]);
    }
}

static void check_all(int line, const char *what, const uint8_t *is, size_t len, uint8_t wanted)
{
    check_bytes(line, what, is, len, &wanted, 0);
}

static void check_told(int line, const char *what, cuwelfra_told is, uint64_t number, uint64_t first, uint64_t second)
{
    checks++;
    if (is.number != number || is.first != first || is.second != second) {
        failures++;
        printf("line %d: %s is %s (%" PRIu64 ", %" PRIu64 ") and not %s (%" PRIu64 ", %" PRIu64 ")\n", line, what,
               cuwelfra_word(is.number), is.first, is.second, cuwelfra_word(number), first, second);
    }
}

static void check_word(int line, uint64_t number, const char *wanted)
{
    const char *is = cuwelfra_word(number);
    checks++;
    if (strcmp(is, wanted) != 0) {
        failures++;
        printf("line %d: the word of %" PRIu64 " is %s and not %s\n", line, number, is, wanted);
    }
}

/* A number; the first bytes of an area; all its bytes from one on; an accepted call; a refusal with its two values; a
   refusal's word. */
#define IS(is, wanted) check_number(__LINE__, #is, is, wanted)
#define STARTS(is, wanted) check_bytes(__LINE__, #is, is, sizeof(wanted), wanted, 1)
#define ALL_FROM(is, at, wanted) check_all(__LINE__, #is, (is) + (at), sizeof(is) - (at), wanted)
#define ACCEPTED(told) check_told(__LINE__, #told, told, 0, 0, 0)
#define REFUSED(told, name, first, second) \
    check_told(__LINE__, #told, told, CUWELFRA_REFUSED_##name, first, second)
#define SAYS(number, wanted) check_word(__LINE__, number, wanted)
/* A hybrid clock, or an answer that brings one, at wall/counter. */
#define AT(clock, wall, counter) (IS((clock).last_wall, wall), IS((clock).last_counter, counter))

/* ---- Versions and names */

static void versions(void)
{
    IS(cuwelfra_abi(), CUWELFRA_ABI);
    IS(cuwelfra_abi_4(), CUWELFRA_ABI);
    IS(CUWELFRA_ABI_FITS(), 1);
}

static void words(void)
{
    SAYS(0, "accepted");
    SAYS(CUWELFRA_REFUSED_UNSOUND_STORE, "unsound store");
    SAYS(CUWELFRA_REFUSED_HELD_BYTES, "held bytes");
    SAYS(CUWELFRA_REFUSED_TRAILING, "trailing");
    SAYS(CUWELFRA_REFUSED_OTHER_CAUSES, "other causes");
    SAYS(CUWELFRA_REFUSED_INVALID_TAG, "invalid tag");
    SAYS(CUWELFRA_REFUSED_OVERLONG, "overlong");
    SAYS(UINT64_MAX, "unknown");
}

/* ---- Bytes: varints, parts with their length, envelopes */

static void varints(void)
{
    static const uint8_t three_hundred[] = {0xAC, 0x02};
    static const uint8_t greatest[] = {0xFF, 0xFF, 0xFF, 0xFF, 0xFF, 0xFF, 0xFF, 0xFF, 0xFF, 0x01};
    static const uint8_t overlong[] = {0x80, 0x00};
    uint8_t out[12];
    cuwelfra_written written;
    cuwelfra_number_read read;

    memset(out, 0x5A, sizeof out);
    written = cuwelfra_put_varint(out, sizeof out, 0, 300);
    ACCEPTED(written.told);
    IS(written.next, 2);
    STARTS(out, three_hundred);
    ALL_FROM(out, 2, 0x5A);
    IS(cuwelfra_varint_len(300), 2);
    read = cuwelfra_get_varint(out, sizeof out, 0);
    ACCEPTED(read.told);
    IS(read.value, 300);
    IS(read.next, 2);

    written = cuwelfra_put_varint(out, sizeof out, 0, UINT64_MAX);
    IS(written.next, 10);
    STARTS(out, greatest);
    IS(cuwelfra_varint_len(UINT64_MAX), 10);
    IS(cuwelfra_get_varint(out, sizeof out, 0).value, UINT64_MAX);
    REFUSED(cuwelfra_get_u32(out, sizeof out, 0).told, OVERFLOW, 0, 0);

    /* The shortest form is written and read, no other. */
    read = cuwelfra_get_varint(overlong, sizeof overlong, 0);
    REFUSED(read.told, OVERLONG, 0, 0);
    IS(read.value, 0);
    IS(read.next, 0);
    REFUSED(cuwelfra_get_u32(overlong, sizeof overlong, 0).told, OVERLONG, 0, 0);
    REFUSED(cuwelfra_get_count(overlong, sizeof overlong, 0, 9).told, OVERLONG, 0, 0);
    REFUSED(cuwelfra_get_varint(overlong, 1, 0).told, TRUNCATED, 0, 0);

    /* Short of room: nothing is written. */
    memset(out, 0x5A, sizeof out);
    REFUSED(cuwelfra_put_varint(out, 1, 0, 300).told, SHORT_AREA, 0, 0);
    ALL_FROM(out, 0, 0x5A);
}

static void parts(void)
{
    static const uint8_t term[] = {'t', 'e', 'r', 'm'};
    static const uint8_t wanted[] = {9, 4, 't', 'e', 'r', 'm'};
    uint8_t out[6];
    cuwelfra_written written = cuwelfra_put_u8(out, sizeof out, 0, 9);
    cuwelfra_part_read part;

    written = cuwelfra_put_bytes(out, sizeof out, (size_t)written.next, term, sizeof term);
    ACCEPTED(written.told);
    IS(written.next, 6);
    STARTS(out, wanted);

    IS(cuwelfra_get_u8(out, sizeof out, 0).value, 9);
    REFUSED(cuwelfra_get_u8(out, sizeof out, 6).told, TRUNCATED, 0, 0);
    IS(cuwelfra_get_count(out, sizeof out, 1, 4).value, 4);
    REFUSED(cuwelfra_get_count(out, sizeof out, 1, 3).told, TOO_LARGE, 0, 0);
    part = cuwelfra_get_bytes(out, sizeof out, 1, 4);
    ACCEPTED(part.told);
    IS(part.start, 2);
    IS(part.len, 4);
    IS(part.next, 6);
    ACCEPTED(cuwelfra_finish(out, sizeof out, 6));
    REFUSED(cuwelfra_finish(out, sizeof out, 5), TRAILING, 0, 0);
    IS(cuwelfra_remaining(out, sizeof out, 5), 1);
}

static void envelopes(void)
{
    static const uint8_t body[] = {1, 2, 3};
    static const uint8_t sig[] = {0xC0, 0xC1};
    static const uint8_t wanted[] = {7, 3, 1, 2, 3, 2, 0xC0, 0xC1};
    static const uint8_t overlong[] = {7, 0x80, 0x00, 0}; /* the length of an empty body in two bytes */
    uint8_t out[8];
    cuwelfra_envelope_read read;

    IS(cuwelfra_encode_envelope(out, sizeof out, 7, body, sizeof body, sig, sizeof sig).next, 8);
    STARTS(out, wanted);
    read = cuwelfra_decode_envelope(out, sizeof out);
    ACCEPTED(read.told);
    IS(read.sender, 7);
    IS(read.body_at, 2);
    IS(read.body_len, 3);
    IS(read.sig_at, 6);
    IS(read.sig_len, 2);
    IS(cuwelfra_read_envelope(out, sizeof out).sig_at, 6);
    REFUSED(cuwelfra_read_envelope(out, 7).told, TOO_LARGE, 0, 0);
    REFUSED(cuwelfra_decode_envelope(overlong, sizeof overlong).told, OVERLONG, 0, 0);
}

/* ---- Clocks */

/* The clock of author 1 at 10/3 (wall/counter) takes a stamp of author 2. */
static cuwelfra_updated_clock receive(uint64_t remote_wall, uint64_t physical)
{
    return cuwelfra_hybrid_update(1, 10, 3, 60000, remote_wall, 7, 2, physical);
}

static void hybrid_clocks(void)
{
    cuwelfra_hybrid clock = cuwelfra_hybrid_new(1);
    cuwelfra_updated_clock updated;
    cuwelfra_issued_stamp issued;

    IS(clock.actor, 1);
    AT(clock, 0, 0);
    IS(clock.max_drift_ms, 60000);
    clock = cuwelfra_hybrid_set_max_drift(1, 10, 3, 60000, 500);
    AT(clock, 10, 3);
    IS(clock.max_drift_ms, 500);

    /* Receiving. */
    updated = receive(10, 10);
    ACCEPTED(updated.told);
    AT(updated, 10, 8);
    AT(receive(9, 10), 10, 4);
    AT(receive(12, 10), 12, 8);
    AT(receive(9, 13), 13, 0);

    /* Beyond the drift: the refusal carries both walls, and the clock comes back as it was. */
    updated = receive(60011, 10);
    REFUSED(updated.told, REMOTE_AHEAD, 60011, 10);
    AT(updated, 10, 3);

    /* Sending. */
    issued = cuwelfra_hybrid_now(1, 10, 3, 60000, 11);
    ACCEPTED(issued.told);
    IS(issued.wall_time, 11);
    IS(issued.logical_counter, 0);
    IS(issued.actor_id, 1);
    issued = cuwelfra_hybrid_now(1, 10, 3, 60000, 9);
    IS(issued.wall_time, 10);
    IS(issued.logical_counter, 4);
    AT(issued, 10, 4);
    issued = cuwelfra_hybrid_now(1, 10, UINT32_MAX, 60000, 9);
    REFUSED(issued.told, COUNTER_OVERFLOW, 0, 0);
    AT(issued, 10, UINT32_MAX);

    /* Stamps compare by wall, counter, author. */
    IS(cuwelfra_timestamp_cmp(10, 3, 1, 10, 4, 1), CUWELFRA_STAMP_LESS);
    IS(cuwelfra_timestamp_cmp(10, 3, 1, 10, 3, 1), CUWELFRA_STAMP_EQUAL);
    IS(cuwelfra_timestamp_cmp(10, 3, 2, 10, 3, 1), CUWELFRA_STAMP_GREATER);
}

static void vector_clocks(void)
{
    /* {1: 2} as an area: the count, then author and number, eight big-endian bytes each. */
    static const uint8_t wanted[] = {
        0, 0, 0, 0, 0, 0, 0, 1, /* count */
        0, 0, 0, 0, 0, 0, 0, 1, /* author */
        0, 0, 0, 0, 0, 0, 0, 2, /* number */
    };
    uint8_t one[CUWELFRA_CLOCK_BYTES];
    uint8_t two[CUWELFRA_CLOCK_BYTES];
    uint8_t copy[CUWELFRA_CLOCK_BYTES];
    cuwelfra_clock_number number;

    memset(one, 0xFF, sizeof one);
    ACCEPTED(cuwelfra_clock_new(one, sizeof one));
    ACCEPTED(cuwelfra_clock_new(two, sizeof two));
    ACCEPTED(cuwelfra_clock_observe(one, sizeof one, 1, 2));
    STARTS(one, wanted);
    ALL_FROM(one, sizeof wanted, 0);
    number = cuwelfra_clock_increment(two, sizeof two, 2);
    ACCEPTED(number.told);
    IS(number.number, 1);

    /* {1: 2} and {2: 1} are concurrent; {1: 2, 2: 1} covers both. */
    number = cuwelfra_clock_compare(one, sizeof one, two, sizeof two);
    ACCEPTED(number.told);
    IS(number.number, CUWELFRA_CLOCK_CONCURRENT);
    IS(cuwelfra_clock_dominates(one, sizeof one, two, sizeof two).number, 0);
    ACCEPTED(cuwelfra_clock_merge(one, sizeof one, two, sizeof two));
    IS(cuwelfra_clock_dominates(one, sizeof one, two, sizeof two).number, 1);
    IS(cuwelfra_clock_compare(one, sizeof one, two, sizeof two).number, CUWELFRA_CLOCK_AFTER);
    IS(cuwelfra_clock_compare(two, sizeof two, one, sizeof one).number, CUWELFRA_CLOCK_BEFORE);
    IS(cuwelfra_clock_compare(two, sizeof two, two, sizeof two).number, CUWELFRA_CLOCK_EQUAL);
    IS(cuwelfra_clock_get(one, sizeof one, 1).number, 2);
    IS(cuwelfra_clock_get(one, sizeof one, 9).number, 0);

    /* An area one byte short, a number that cannot grow, a count above 32: refused, and the area stays. */
    ACCEPTED(cuwelfra_clock_observe(two, sizeof two, 2, UINT64_MAX));
    memcpy(copy, two, sizeof two);
    REFUSED(cuwelfra_clock_new(two, sizeof two - 1), SHORT_AREA, 0, 0);
    REFUSED(cuwelfra_clock_increment(two, sizeof two, 2).told, COUNTER_OVERFLOW, 0, 0);
    STARTS(two, copy);
    two[7] = 33;
    REFUSED(cuwelfra_clock_get(two, sizeof two, 2).told, UNSOUND_STORE, 0, 0);
}

/* ---- The store and its batches */

enum { LOG_ROWS = 6 };

/* Three areas; all zero is the empty store. */
typedef struct {
    uint8_t log[LOG_ROWS * CUWELFRA_SLOT_BYTES];
    uint8_t held[CUWELFRA_HELD_BYTES];
    uint8_t head[CUWELFRA_HEAD_BYTES];
} store;

/* A store's areas as the calls take them. */
#define AREAS(s) (s).log, sizeof((s).log), (s).held, sizeof((s).held), (s).head, sizeof((s).head)

static const store empty_store;
static store desk;
static store before;

/* The hybrid clock of author 9, which goes from one batch call to the next. */
static cuwelfra_hybrid ours;

static void empty_desk(void)
{
    desk = empty_store;
    ours = cuwelfra_hybrid_new(9);
}

/* Room for six held and new rows. */
static uint8_t scratch[6 * CUWELFRA_SCRATCH_BYTES];
static uint8_t output[6 * CUWELFRA_LINE_BYTES];

/* The settings of a batch call: the largest sizes, an hour of waiting, a minute of drift. */
typedef struct {
    uint64_t max_pending;
    uint64_t max_pending_age_ms;
} settings;

static const settings usual = {64, 3600000};

/* Takes over the clock that a batch call gives back. A refused one gives back what it got, and counts no stamp. */
static void move_on(cuwelfra_delta_told report)
{
    if (report.told.number != 0) {
        AT(report, ours.last_wall, ours.last_counter);
        IS(report.failed_folds, 0);
    }
    ours.last_wall = report.last_wall;
    ours.last_counter = report.last_counter;
}

/* Applies a batch to the desk; scratch starts as rubbish and must be zero afterwards. */
static cuwelfra_delta_told apply(settings with, uint64_t time_ms, const uint8_t *batch, size_t batch_len)
{
    cuwelfra_delta_told report;
    memset(scratch, 0xFF, sizeof scratch);
    memset(output, 0x5A, sizeof output);
    report = cuwelfra_apply_delta(with.max_pending, 64, 64 * 256, with.max_pending_age_ms, 60000, 16, 256, time_ms,
                                  ours.actor, ours.last_wall, (uint32_t)ours.last_counter, ours.max_drift_ms,
                                  AREAS(desk), batch, batch_len, scratch, sizeof scratch, output, sizeof output);
    ALL_FROM(scratch, 0, 0);
    move_on(report);
    return report;
}

/* That a refused call has changed neither the desk, whose copy is in `before`, nor the output. */
static void check_unchanged(void)
{
    STARTS(desk.log, before.log);
    STARTS(desk.held, before.held);
    STARTS(desk.head, before.head);
    ALL_FROM(output, 0, 0x5A);
}

/* Two rows. The first is author 3's, and the policy has found it invalid; the second is author 2's and has a cause, row
   1 of author 1, that has not come yet. Numbers are varints: 4,000 is 31 * 128 + 32, so A0 1F. */
static const uint8_t first_batch[] = {
    2,                     /* rows */
    0xA0, 0x1F, 0, 3,      /* stamp: wall time 4,000, counter 0, author 3 */
    3, 1,                  /* author 3, sequence 1 */
    0,                     /* no dependency */
    4, 'H', 'a', 'u', 's', /* payload: its length and its bytes */
    1, 0xC3,               /* signature: its length and its bytes */
    1,                     /* verdict: verified */
    /* outcome and detail, here a text number */
    CUWELFRA_OUTCOME_INVALID, 7,
    0x88, 0x27, 1, 2,      /* stamp: wall time 5,000, counter 1, author 2 */
    2, 1,                  /* author 2, sequence 1 */
    1, 1, 1,               /* one dependency: author 1, sequence 1 */
    3, 'm', 'o', 't',      /* payload */
    2, 0xC4, 0xC5,         /* signature */
    1,                     /* verified */
    CUWELFRA_OUTCOME_FITS, 0,
};

/* Where the second row of that batch starts. */
enum { FIRST_ROW_AT = 1, SECOND_ROW_AT = 18 };

/* The cause. */
static const uint8_t second_batch[] = {
    1,                     /* rows */
    0x94, 0x23, 0, 1,      /* stamp: wall time 4,500, counter 0, author 1 */
    1, 1,                  /* author 1, sequence 1 */
    0,                     /* no dependency */
    4, 'w', 'o', 'r', 'd', /* payload */
    0,                     /* an empty signature */
    1, 0, 0,               /* verified; fits; no detail */
};

/* Row 1 of author 2 once more, with another payload. */
static const uint8_t conflicting_batch[] = {
    1,                /* rows */
    0x88, 0x27, 1, 2, /* stamp: wall time 5,000, counter 1, author 2 */
    2, 1,             /* author 2, sequence 1 */
    1, 1, 1,          /* one dependency: author 1, sequence 1 */
    3, 'f', 'i', 'n', /* payload */
    2, 0xC4, 0xC5,    /* signature */
    1, 0, 0,          /* verified; fits; no detail */
};

/* The first row is logged, the second is held. */
static void apply_first_batch(void)
{
    static const uint8_t line[] = {
        0, 0, 0, 0, 0, 0, 0, 3, /* author */
        0, 0, 0, 0, 0, 0, 0, 1, /* sequence */
        CUWELFRA_FATE_INVALID, 7,
    };
    cuwelfra_delta_told report;

    empty_desk();
    report = apply(usual, 10000, first_batch, sizeof first_batch);
    ACCEPTED(report.told);
    IS(report.applied, 0);
    IS(report.stale, 0);
    IS(report.rejected, 1);
    IS(report.duplicates, 0);
    IS(report.held, 1);
    IS(report.expired, 0);
    IS(report.dropped, 0);
    IS(report.failed_folds, 0);
    STARTS(output, line);
    ALL_FROM(output, sizeof line, 0x5A);
}

static void a_row_waits_for_its_cause(void)
{
    static const uint8_t lines[] = {
        0, 0, 0, 0, 0, 0, 0, 1, 0, 0, 0, 0, 0, 0, 0, 1, 0, 0, /* author 1, sequence 1: applied */
        0, 0, 0, 0, 0, 0, 0, 2, 0, 0, 0, 0, 0, 0, 0, 1, 0, 0, /* author 2, sequence 1: applied */
    };
    static const uint8_t payload[] = {'m', 'o', 't'};
    cuwelfra_delta_told report;
    cuwelfra_lookup_told found;

    apply_first_batch();
    found = cuwelfra_lookup(AREAS(desk), 2, 1);
    ACCEPTED(found.told);
    IS(found.place, CUWELFRA_PLACE_HELD);
    IS(found.slot, 0);
    IS(found.len, 3);
    STARTS(desk.held + 384, payload);

    report = apply(usual, 11000, second_batch, sizeof second_batch);
    ACCEPTED(report.told);
    IS(report.applied, 2);
    IS(report.rejected, 0);
    IS(report.held, 0);
    STARTS(output, lines);
    ALL_FROM(output, sizeof lines, 0x5A);

    /* The log is in the order of its stamps, so author 2's row is the third; the payload stands at 384 in its slot. */
    found = cuwelfra_lookup(AREAS(desk), 2, 1);
    IS(found.place, CUWELFRA_PLACE_LOGGED);
    IS(found.slot, 2);
    IS(found.len, 3);
    STARTS(desk.log + found.slot * CUWELFRA_SLOT_BYTES + 384, payload);
    IS(cuwelfra_lookup(AREAS(desk), 2, 2).place, CUWELFRA_PLACE_ABSENT);

    /* What was logged is a duplicate from then on. */
    report = apply(usual, 12000, first_batch, sizeof first_batch);
    IS(report.duplicates, 2);
    ALL_FROM(output, 0, 0x5A);
}

static void refused_batches(void)
{
    static const settings one_held = {1, 3600000};
    static const settings none_held = {0, 3600000};
    static const settings too_many_held = {65, 3600000};
    static const uint8_t waiting[] = {1, 0x88, 0x27, 0, 4, 4, 2, 0, 0, 0, 1, 0, 0}; /* row 2 of author 4 */
    static const uint8_t many_rows[] = {CUWELFRA_MAX_BATCH};
    static const uint8_t too_many_rows[] = {CUWELFRA_MAX_BATCH + 1};
    static const uint8_t overlong[] = {0x80 | (CUWELFRA_MAX_BATCH + 1), 0x00}; /* the same in two bytes */
    uint8_t unverified[sizeof first_batch];
    cuwelfra_delta_told report;

    apply_first_batch();
    before = desk;

    /* 13 carries author and sequence. */
    report = apply(usual, 10000, conflicting_batch, sizeof conflicting_batch);
    REFUSED(report.told, CONFLICT, 2, 1);
    IS(report.held, 0);
    check_unchanged();

    /* 14 carries the limit. One held row passes limit 1, two do not. */
    report = apply(one_held, 10000, waiting, sizeof waiting);
    REFUSED(report.told, HELD_OVERFLOW, 1, 0);
    check_unchanged();
    empty_desk();
    before = desk;
    report = apply(none_held, 10000, waiting, sizeof waiting);
    REFUSED(report.told, HELD_OVERFLOW, 0, 0);
    check_unchanged();
    report = apply(one_held, 10000, waiting, sizeof waiting);
    ACCEPTED(report.told);
    IS(report.held, 1);

    /* 4 for a setting or a count above its greatest; 3 for a batch that is cut short or has an overlong number; 12 for a
       verdict of 0. */
    apply_first_batch();
    before = desk;
    REFUSED(apply(too_many_held, 10000, first_batch, sizeof first_batch).told, OVER_CAPACITY, 0, 0);
    check_unchanged();
    REFUSED(apply(usual, 10000, too_many_rows, sizeof too_many_rows).told, OVER_CAPACITY, 0, 0);
    REFUSED(apply(usual, 10000, overlong, sizeof overlong).told, UNREADABLE, 0, 0);
    REFUSED(apply(usual, 10000, many_rows, sizeof many_rows).told, UNREADABLE, 0, 0);
    REFUSED(apply(usual, 10000, first_batch, sizeof first_batch - 1).told, UNREADABLE, 0, 0);
    check_unchanged();
    memcpy(unverified, first_batch, sizeof unverified);
    unverified[SECOND_ROW_AT - 3] = 0;
    REFUSED(apply(usual, 10000, unverified, sizeof unverified).told, BAD_SIGNATURE, 3, 1);
    check_unchanged();
}

/* Applies the second batch with areas of these sizes: log, held, head, scratch, output. */
static cuwelfra_told apply_within(const size_t *lens)
{
    cuwelfra_delta_told report;
    memset(scratch, 0xFF, sizeof scratch);
    memset(output, 0x5A, sizeof output);
    report = cuwelfra_apply_delta(64, 64, 64 * 256, 3600000, 60000, 16, 256, 10000, ours.actor, ours.last_wall,
                                  (uint32_t)ours.last_counter, ours.max_drift_ms, desk.log, lens[0], desk.held,
                                  lens[1], desk.head, lens[2], second_batch, sizeof second_batch, scratch, lens[3],
                                  output, lens[4]);
    check_all(__LINE__, "scratch", scratch, lens[3], 0);
    move_on(report);
    return report.told;
}

/* One row is held and the batch has one more, so output and scratch need room for two. */
static void short_areas(void)
{
    size_t lens[] = {3 * CUWELFRA_SLOT_BYTES, CUWELFRA_HELD_BYTES, CUWELFRA_HEAD_BYTES, 2 * CUWELFRA_SCRATCH_BYTES,
                     2 * CUWELFRA_LINE_BYTES};
    size_t i;

    apply_first_batch();
    before = desk;

    /* 2 for each area that is one byte short. */
    for (i = 1; i < sizeof lens / sizeof *lens; i++) {
        lens[i]--;
        REFUSED(apply_within(lens), SHORT_AREA, 0, 0);
        check_unchanged();
        lens[i]++;
    }
    lens[0] = CUWELFRA_SLOT_BYTES - 1;
    REFUSED(apply_within(lens), SHORT_AREA, 0, 0);
    check_unchanged();

    /* 17 where the log has room for two rows and three would be logged. With room for three the batch is accepted. */
    lens[0] = 3 * CUWELFRA_SLOT_BYTES - 1;
    REFUSED(apply_within(lens), LOG_FULL, 0, 0);
    check_unchanged();
    lens[0]++;
    ACCEPTED(apply_within(lens));
}

static void times(void)
{
    static const settings fifty_ms = {64, 50};
    static const uint8_t no_row[] = {0};
    uint8_t ahead[] = {1, 0xC8, 0xDC, 0x03, 0, 1, 1, 1, 0, 0, 0, 1, 0, 0}; /* row 1 of author 1 at 61,000 */
    cuwelfra_delta_told report;

    /* At time 1,000 with a drift of 60,000: 61,000 passes, 61,001 is 11. */
    empty_desk();
    ahead[1]++;
    REFUSED(apply(usual, 1000, ahead, sizeof ahead).told, AHEAD_OF_TIME, 1, 1);
    ahead[1]--;
    IS(apply(usual, 1000, ahead, sizeof ahead).applied, 1);

    /* A row that arrived at 100 and may wait for 50: kept at 150, expired at 151. */
    empty_desk();
    IS(apply(usual, 100, first_batch, sizeof first_batch).held, 1);
    report = apply(fifty_ms, 150, no_row, sizeof no_row);
    IS(report.held, 1);
    IS(report.expired, 0);
    report = apply(fifty_ms, 151, no_row, sizeof no_row);
    IS(report.held, 0);
    IS(report.expired, 1);
}

/* The stamps of the first batch, 4,000/0 and 5,000/1, are folded into the clock in this order. */
static void folded_stamps(void)
{
    static const uint8_t no_row[] = {0};
    cuwelfra_delta_told report;
    cuwelfra_issued_stamp issued;

    empty_desk();
    report = apply(usual, 1000, first_batch, sizeof first_batch);
    AT(report, 5000, 2);

    /* The next stamp is above those of the batch. */
    issued = cuwelfra_hybrid_now(ours.actor, ours.last_wall, (uint32_t)ours.last_counter, ours.max_drift_ms, 1000);
    ACCEPTED(issued.told);
    IS(cuwelfra_timestamp_cmp(issued.wall_time, (uint32_t)issued.logical_counter, issued.actor_id, 5000, 1, 2),
       CUWELFRA_STAMP_GREATER);
    AT(issued, 5000, 3);
    ours.last_wall = issued.last_wall;
    ours.last_counter = issued.last_counter;

    /* Duplicates and held rows are folded in too. A batch without rows moves no clock, however late it is. */
    report = apply(usual, 1000, first_batch, sizeof first_batch);
    IS(report.duplicates, 2);
    AT(report, 5000, 5);
    report = apply(usual, 90000, no_row, sizeof no_row);
    AT(report, 5000, 5);

    /* 20 for the second stamp, by the clock's own drift: the row is merged, the stamp is counted. */
    empty_desk();
    ours.max_drift_ms = 3999;
    report = apply(usual, 1000, first_batch, sizeof first_batch);
    ACCEPTED(report.told);
    IS(report.held, 1);
    IS(report.failed_folds, 1);
    AT(report, 4000, 1);

    /* 19 for the first, since the counter of its wall is at its end; the second goes on. */
    empty_desk();
    ours.last_wall = 4000;
    ours.last_counter = UINT32_MAX;
    report = apply(usual, 1000, first_batch, sizeof first_batch);
    ACCEPTED(report.told);
    IS(report.failed_folds, 1);
    AT(report, 5000, 2);
}

static void floors(void)
{
    cuwelfra_stamp_told floor;

    empty_desk();
    floor = cuwelfra_floor(AREAS(desk));
    ACCEPTED(floor.told);
    IS(floor.present, 0);
    ACCEPTED(cuwelfra_set_floor(AREAS(desk), 4500, 0, 1));
    ACCEPTED(cuwelfra_set_floor(AREAS(desk), 100, 0, 1)); /* it never falls */
    floor = cuwelfra_floor(AREAS(desk));
    IS(floor.present, 1);
    IS(floor.wall_time, 4500);
    IS(floor.logical_counter, 0);
    IS(floor.actor_id, 1);
    /* A stamp at the floor is stale. */
    IS(apply(usual, 10000, second_batch, sizeof second_batch).stale, 1);
}

/* Six rows of author 1, without payloads and signatures: the first at 4,400, the others at 5,000. Each line of output
   ends in fate and detail. */
static void fates(void)
{
    static const uint8_t batch[] = {
        6,
        0xB0, 0x22, 0, 1, 1, 1, 0, 0, 0, 1, CUWELFRA_OUTCOME_INVALID, 7,
        0x88, 0x27, 0, 1, 1, 2, 0, 0, 0, 1, CUWELFRA_OUTCOME_FITS, 0,
        0x88, 0x27, 0, 1, 1, 3, 0, 0, 0, 1, CUWELFRA_OUTCOME_MALFORMED_OP, 0,
        0x88, 0x27, 0, 1, 1, 4, 0, 0, 0, 1, CUWELFRA_OUTCOME_UNKNOWN_OP_TAG, 8,
        0x88, 0x27, 0, 1, 1, 5, 0, 0, 0, 1, CUWELFRA_OUTCOME_DENIED, 0,
        0x88, 0x27, 0, 1, 1, 6, 0, 0, 0, 1, CUWELFRA_OUTCOME_INVALID, 9,
    };
    static const uint8_t lines[] = {
        0, 0, 0, 0, 0, 0, 0, 1, 0, 0, 0, 0, 0, 0, 0, 1, CUWELFRA_FATE_STALE, 0,
        0, 0, 0, 0, 0, 0, 0, 1, 0, 0, 0, 0, 0, 0, 0, 2, CUWELFRA_FATE_APPLIED, 0,
        0, 0, 0, 0, 0, 0, 0, 1, 0, 0, 0, 0, 0, 0, 0, 3, CUWELFRA_FATE_MALFORMED_OP, 0,
        0, 0, 0, 0, 0, 0, 0, 1, 0, 0, 0, 0, 0, 0, 0, 4, CUWELFRA_FATE_UNKNOWN_OP_TAG, 8,
        0, 0, 0, 0, 0, 0, 0, 1, 0, 0, 0, 0, 0, 0, 0, 5, CUWELFRA_FATE_DENIED, 0,
        0, 0, 0, 0, 0, 0, 0, 1, 0, 0, 0, 0, 0, 0, 0, 6, CUWELFRA_FATE_INVALID, 9,
    };
    cuwelfra_delta_told report;

    empty_desk();
    ACCEPTED(cuwelfra_set_floor(AREAS(desk), 4500, 0, 1));
    report = apply(usual, 10000, batch, sizeof batch);
    IS(report.stale, 1);
    IS(report.applied, 1);
    IS(report.rejected, 4);
    STARTS(output, lines);
}

/* ---- Questions to a store, and other changes of it */

/* The desk after both batches: rows of authors 3, 1 and 2, in this order. */
static void make_desk(void)
{
    empty_desk();
    ACCEPTED(apply(usual, 10000, first_batch, sizeof first_batch).told);
    ACCEPTED(apply(usual, 10000, second_batch, sizeof second_batch).told);
}

static void questions(void)
{
    uint8_t clock[CUWELFRA_CLOCK_BYTES];
    uint8_t derived[CUWELFRA_CLOCK_BYTES];
    cuwelfra_stamp_told mark;

    make_desk();
    ACCEPTED(cuwelfra_store_check(AREAS(desk)));
    IS(cuwelfra_log_len(AREAS(desk)).number, 3);
    IS(cuwelfra_pending_len(AREAS(desk)).number, 0);
    mark = cuwelfra_watermark(AREAS(desk), 2);
    IS(mark.present, 1);
    IS(mark.wall_time, 5000);
    IS(mark.logical_counter, 1);
    IS(mark.actor_id, 2);
    IS(cuwelfra_watermark(AREAS(desk), 9).present, 0);

    ACCEPTED(cuwelfra_log_clock(AREAS(desk), clock, sizeof clock));
    ACCEPTED(cuwelfra_derive_clock(AREAS(desk), derived, sizeof derived));
    STARTS(clock, derived);
    IS(cuwelfra_clock_get(clock, sizeof clock, 2).number, 1);
    ACCEPTED(cuwelfra_log_compacted(AREAS(desk), clock, sizeof clock));
    ALL_FROM(clock, 0, 0);

    /* A store that breaks a rule is refused by every call: here the count of logged rows is wrong. */
    desk.head[7]--;
    REFUSED(cuwelfra_store_check(AREAS(desk)), UNSOUND_STORE, 0, 0);
    REFUSED(cuwelfra_log_len(AREAS(desk)).told, UNSOUND_STORE, 0, 0);
}

static void rows_and_slots(void)
{
    uint8_t slot[CUWELFRA_SLOT_BYTES];
    uint8_t wire[64];
    cuwelfra_op_told read = cuwelfra_read_op(first_batch, sizeof first_batch, FIRST_ROW_AT, slot, sizeof slot);
    cuwelfra_written written;

    ACCEPTED(read.told);
    IS(read.next, SECOND_ROW_AT);
    IS(read.verdict, 1);
    IS(slot[47], 0); /* dependencies */
    IS(slot[55], 4); /* payload length */
    IS(slot[79], CUWELFRA_OUTCOME_INVALID);
    IS(slot[87], 7); /* detail */
    IS(slot[384], 'H');

    /* The bytes come back without the three that close a batch row; unsigned, also without the signature. */
    written = cuwelfra_signed_op(slot, sizeof slot, wire, sizeof wire);
    ACCEPTED(written.told);
    IS(written.next, SECOND_ROW_AT - FIRST_ROW_AT - 3);
    check_bytes(__LINE__, "the signed row", wire, (size_t)written.next, first_batch + FIRST_ROW_AT, 1);
    IS(cuwelfra_unsigned_op(slot, sizeof slot, wire, sizeof wire).next, SECOND_ROW_AT - FIRST_ROW_AT - 5);
    REFUSED(cuwelfra_signed_op(slot, sizeof slot, wire, (size_t)written.next - 1).told, SHORT_AREA, 0, 0);
    REFUSED(cuwelfra_read_op(first_batch, sizeof first_batch, 1, slot, sizeof slot - 1).told, SHORT_AREA, 0, 0);
}

static void inserting_and_restoring(void)
{
    static store other;
    static const uint8_t nothing[CUWELFRA_CLOCK_BYTES];
    uint8_t slot[CUWELFRA_SLOT_BYTES];

    /* A row goes in as a slot, without test of causes. */
    other = empty_store;
    ACCEPTED(cuwelfra_read_op(second_batch, sizeof second_batch, 1, slot, sizeof slot).told);
    ACCEPTED(cuwelfra_insert(AREAS(other), slot, sizeof slot));
    IS(cuwelfra_log_len(AREAS(other)).number, 1);

    /* A store comes back from its logged rows and its compacted clock. */
    make_desk();
    ACCEPTED(cuwelfra_from_parts(AREAS(other), desk.log, sizeof desk.log, 3, nothing, sizeof nothing));
    STARTS(other.log, desk.log);
    STARTS(other.held, desk.held);
    STARTS(other.head, desk.head);
    REFUSED(cuwelfra_from_parts(AREAS(other), desk.log, sizeof desk.log, LOG_ROWS + 1, nothing, sizeof nothing),
            SHORT_AREA, 0, 0);
}

static void compacting(void)
{
    uint8_t clock[CUWELFRA_CLOCK_BYTES];
    cuwelfra_stamp_told cutoff;

    /* Every peer has seen all rows; author 3's watermark is the least. */
    make_desk();
    ACCEPTED(cuwelfra_log_clock(AREAS(desk), clock, sizeof clock));
    cutoff = cuwelfra_cutoff(AREAS(desk), clock, sizeof clock);
    ACCEPTED(cutoff.told);
    IS(cutoff.present, 1);
    IS(cutoff.wall_time, 4000);
    IS(cutoff.logical_counter, 0);
    IS(cutoff.actor_id, 3);
    IS(cuwelfra_compact(AREAS(desk), 4000, 0, 3).number, 1);
    IS(cuwelfra_log_len(AREAS(desk)).number, 2);

    /* A peer that has seen nothing can no longer be served. */
    IS(cuwelfra_can_serve(AREAS(desk), clock, sizeof clock).number, 1);
    ACCEPTED(cuwelfra_clock_new(clock, sizeof clock));
    IS(cuwelfra_can_serve(AREAS(desk), clock, sizeof clock).number, 0);
}

/* ---- Rows of the desk's own */

/* What author 1 signs: its second row, which depends on all that is logged at the desk. */
static const uint8_t own_row[] = {
    0xF8, 0x55, 0, 1,    /* stamp: wall time 11,000, counter 0, author 1 */
    1, 2,                /* author 1, sequence 2 */
    3, 1, 1, 2, 1, 3, 1, /* three dependencies: row 1 of authors 1, 2 and 3 */
    3, 'R', 'a', 'd',    /* payload */
};

static uint8_t to_sign[CUWELFRA_UNSIGNED_BYTES];

/* Prepares a row of author 1 at 11,000, with a clock at 10,000/3 and the desk's clock. */
static cuwelfra_prepared_told prepare(uint64_t issued, const uint8_t *payload, size_t payload_len)
{
    uint8_t clock[CUWELFRA_CLOCK_BYTES];
    ACCEPTED(cuwelfra_log_clock(AREAS(desk), clock, sizeof clock));
    memset(to_sign, 0x5A, sizeof to_sign);
    return cuwelfra_prepare(1, 10000, 3, 60000, 11000, issued, payload, payload_len, clock, sizeof clock, to_sign,
                            sizeof to_sign);
}

static void rows_of_its_own(void)
{
    static const uint8_t term[] = {'R', 'a', 'd'};
    static const uint8_t too_long[257];
    static const uint8_t sig[] = {0xC6};
    cuwelfra_prepared_told prepared;
    cuwelfra_lookup_told found;

    make_desk();
    prepared = prepare(1, term, sizeof term);
    ACCEPTED(prepared.told);
    IS(prepared.wall_time, 11000);
    IS(prepared.logical_counter, 0);
    IS(prepared.actor_id, 1);
    IS(prepared.sequence, 2);
    IS(prepared.deps, 3);
    IS(prepared.dep_authors[2], 3);
    IS(prepared.dep_numbers[2], 1);
    IS(prepared.dep_authors[3], 0);
    IS(prepared.len, sizeof own_row);
    AT(prepared, 11000, 0);
    STARTS(to_sign, own_row);
    ALL_FROM(to_sign, sizeof own_row, 0x5A);

    /* The server signs the bytes. A signature of 65 bytes is 4. */
    REFUSED(cuwelfra_seal(AREAS(desk), to_sign, prepared.len, too_long, 65), OVER_CAPACITY, 0, 0);
    ACCEPTED(cuwelfra_seal(AREAS(desk), to_sign, prepared.len, sig, sizeof sig));
    IS(cuwelfra_log_len(AREAS(desk)).number, 4);
    found = cuwelfra_lookup(AREAS(desk), 1, 2);
    IS(found.place, CUWELFRA_PLACE_LOGGED);
    IS(found.slot, 3);
    STARTS(desk.log + 3 * CUWELFRA_SLOT_BYTES + 640, sig);

    /* Once more: the author's number in the log's clock is 2 by now. */
    before = desk;
    REFUSED(cuwelfra_seal(AREAS(desk), to_sign, prepared.len, sig, sizeof sig), OTHER_CAUSES, 0, 0);
    STARTS(desk.log, before.log);
    STARTS(desk.head, before.head);

    /* Refused: nothing is written, and the clock comes back as it was. */
    prepared = prepare(UINT64_MAX, term, sizeof term);
    REFUSED(prepared.told, SEQUENCE_EXHAUSTED, 0, 0);
    IS(prepared.sequence, 0);
    IS(prepared.len, 0);
    AT(prepared, 10000, 3);
    ALL_FROM(to_sign, 0, 0x5A);
    REFUSED(prepare(1, too_long, sizeof too_long).told, OPERATION_TOO_LARGE, 0, 0);
}

/* ---- What a peer lacks, and the record of a peer */

/* A peer that has author 3's row, which stands first at the desk, and lacks the other two. */
static void make_peer(uint8_t *peer, size_t peer_len)
{
    make_desk();
    ACCEPTED(cuwelfra_clock_new(peer, peer_len));
    ACCEPTED(cuwelfra_clock_observe(peer, peer_len, 3, 1));
}

static void deltas(void)
{
    static const uint8_t positions[] = {0, 0, 0, 0, 0, 0, 0, 1, 0, 0, 0, 0, 0, 0, 0, 2};
    static const uint8_t one_each[] = {0, 0, 0, 0, 0, 0, 0, 1, 0, 0, 0, 0, 0, 0, 0, 1};
    static const uint8_t both[] = {0, 0, 0, 0, 0, 0, 0, 2};
    uint8_t peer[CUWELFRA_CLOCK_BYTES];
    uint8_t out[3 * 8];
    cuwelfra_clock_number number;

    make_peer(peer, sizeof peer);
    memset(out, 0x5A, sizeof out);
    number = cuwelfra_calculate_delta(AREAS(desk), peer, sizeof peer, out, sizeof out);
    ACCEPTED(number.told);
    IS(number.number, 2);
    STARTS(out, positions);
    ALL_FROM(out, sizeof positions, 0x5A);

    IS(cuwelfra_chunk_ops(AREAS(desk), peer, sizeof peer, 1, 1000, out, sizeof out).number, 2);
    STARTS(out, one_each);
    IS(cuwelfra_chunk_ops(AREAS(desk), peer, sizeof peer, 10, 1000, out, sizeof out).number, 1);
    STARTS(out, both);
    REFUSED(cuwelfra_calculate_delta(AREAS(desk), peer, sizeof peer, out, sizeof out - 1).told, SHORT_AREA, 0, 0);
}

/* The bytes of those chunks as messages, from sender 300, which takes two bytes. The rows as batches have them, but for
   their last three bytes, take 13 bytes (author 1's) and 16 (author 2's); a body begins with its tag and the count. */
static void sizes(void)
{
    static const uint8_t one_each[] = {
        0, 0, 0, 0, 0, 0, 0, 1, 0, 0, 0, 0, 0, 0, 0, 83, /* a row: 2 + 1 + (2 + 13) + 1 + 64 bytes */
        0, 0, 0, 0, 0, 0, 0, 1, 0, 0, 0, 0, 0, 0, 0, 86, /* a row: 2 + 1 + (2 + 16) + 1 + 64 bytes */
    };
    static const uint8_t both[] = {
        0, 0, 0, 0, 0, 0, 0, 2, 0, 0, 0, 0, 0, 0, 0x04, 0x24, /* two rows: 2 + 1 + (2 + 13 + 16) + 2 + 1,024 bytes */
    };
    static const uint8_t sig[1024] = {0};
    uint8_t peer[CUWELFRA_CLOCK_BYTES];
    uint8_t out[3 * 16];
    uint8_t body[64];
    uint8_t frame[2048];
    cuwelfra_clock_number number;
    cuwelfra_written written;

    make_peer(peer, sizeof peer);
    memset(out, 0x5A, sizeof out);
    number = cuwelfra_delta_sizes(AREAS(desk), peer, sizeof peer, 1, 1000, 300, 64, out, sizeof out);
    ACCEPTED(number.told);
    IS(number.number, 2);
    STARTS(out, one_each);
    ALL_FROM(out, sizeof one_each, 0x5A);

    /* 16 bytes for each chunk are enough. These are the bytes of the frame that is then written. */
    memset(out, 0x5A, sizeof out);
    IS(cuwelfra_delta_sizes(AREAS(desk), peer, sizeof peer, 10, 1000, 300, sizeof sig, out, sizeof both).number, 1);
    STARTS(out, both);
    ALL_FROM(out, sizeof both, 0x5A);
    written = cuwelfra_encode_delta(body, sizeof body, desk.log + CUWELFRA_SLOT_BYTES, 2 * CUWELFRA_SLOT_BYTES, 2);
    ACCEPTED(written.told);
    written = cuwelfra_encode_envelope(frame, sizeof frame, 300, body, (size_t)written.next, sig, sizeof sig);
    ACCEPTED(written.told);
    IS(written.next, 0x0424);

    /* One byte short; then too long a signature, which is told before all else. */
    memset(out, 0x5A, sizeof out);
    REFUSED(cuwelfra_delta_sizes(AREAS(desk), peer, sizeof peer, 1, 1000, 300, 64, out, sizeof one_each - 1).told,
            SHORT_AREA, 0, 0);
    REFUSED(cuwelfra_delta_sizes(AREAS(desk), peer, sizeof peer, 1, 1000, 300, sizeof sig + 1, out, sizeof out).told,
            OVER_CAPACITY, 0, 0);
    REFUSED(cuwelfra_delta_sizes(AREAS(desk), peer, sizeof peer - 1, 1, 1000, 300, sizeof sig + 1, out, 0).told,
            OVER_CAPACITY, 0, 0);
    ALL_FROM(out, 0, 0x5A);

    /* A peer that lacks nothing is sent nothing, and no output is needed. */
    ACCEPTED(cuwelfra_log_clock(AREAS(desk), peer, sizeof peer));
    number = cuwelfra_delta_sizes(AREAS(desk), peer, sizeof peer, 1, 1000, 300, 64, out, 0);
    ACCEPTED(number.told);
    IS(number.number, 0);
}

static void peers(void)
{
    static const uint8_t rebased[] = {0, 0, 0, 0, 0, 0, 0x04, 0xB0}; /* 1,200 */
    uint8_t peer[CUWELFRA_PEER_BYTES];
    uint8_t copy[CUWELFRA_PEER_BYTES];
    uint8_t clock[CUWELFRA_CLOCK_BYTES];

    ACCEPTED(cuwelfra_peer_new(peer, sizeof peer, 7));
    REFUSED(cuwelfra_peer_new(peer, sizeof peer - 1, 7), SHORT_AREA, 0, 0);
    IS(peer[7], 7);
    IS(peer[15], CUWELFRA_PEER_CONNECTING);
    ACCEPTED(cuwelfra_peer_connection_started(peer, sizeof peer, 1000));
    IS(peer[15], CUWELFRA_PEER_SYNCING);

    /* A ping's nonce is its time. Its pong passes, also when repeated; an unasked one is 21 and changes nothing. */
    ACCEPTED(cuwelfra_peer_record_ping(peer, sizeof peer, 1500));
    IS(peer[552 + 7], 1); /* outstanding */
    ACCEPTED(cuwelfra_peer_take_pong(peer, sizeof peer, 1500));
    IS(peer[552 + 7], 0);
    IS(peer[624 + 7], 1); /* answered */
    ACCEPTED(cuwelfra_peer_take_pong(peer, sizeof peer, 1500));
    memcpy(copy, peer, sizeof peer);
    REFUSED(cuwelfra_peer_take_pong(peer, sizeof peer, 1501), UNASKED_PONG, 0, 0);
    STARTS(peer, copy);

    /* The machine's time was set back: timers ahead of it follow. */
    ACCEPTED(cuwelfra_peer_rebase_timers(peer, sizeof peer, 1200));
    STARTS(peer + 544, rebased);

    /* What the peer has said it knows decides how many rows it lacks. */
    make_desk();
    IS(cuwelfra_peer_pending_ops(peer, sizeof peer, AREAS(desk)).number, 3);
    ACCEPTED(cuwelfra_clock_new(clock, sizeof clock));
    ACCEPTED(cuwelfra_clock_observe(clock, sizeof clock, 3, 1));
    ACCEPTED(cuwelfra_peer_absorb_clock(peer, sizeof peer, clock, sizeof clock));
    IS(cuwelfra_peer_pending_ops(peer, sizeof peer, AREAS(desk)).number, 2);
    ACCEPTED(cuwelfra_log_clock(AREAS(desk), clock, sizeof clock));
    ACCEPTED(cuwelfra_peer_replace_clock(peer, sizeof peer, clock, sizeof clock));
    STARTS(peer + 16, clock);
    IS(cuwelfra_peer_pending_ops(peer, sizeof peer, AREAS(desk)).number, 0);

    ACCEPTED(cuwelfra_peer_connection_lost(peer, sizeof peer));
    IS(peer[15], CUWELFRA_PEER_DISCONNECTED);

    /* The server may write the state itself. There is no greater one. */
    peer[15] = CUWELFRA_PEER_UP_TO_DATE;
    ACCEPTED(cuwelfra_peer_record_ping(peer, sizeof peer, 2000));
    IS(peer[15], CUWELFRA_PEER_UP_TO_DATE);
    peer[15] = CUWELFRA_PEER_DISCONNECTED + 1;
    REFUSED(cuwelfra_peer_record_ping(peer, sizeof peer, 2000), UNSOUND_STORE, 0, 0);
}

/* ---- Messages */

/* Room for the rows of a Delta; the sizes of the layout hold any message. */
static uint8_t body[CUWELFRA_DELTA_BODY_BYTES];
static uint8_t rows[CUWELFRA_MAX_BATCH * CUWELFRA_SLOT_BYTES];

static void handshakes(void)
{
    static const uint8_t hello[] = {CUWELFRA_TAG_HELLO, 3, 1, 1, 2, 1, 3, 1}; /* {1: 1, 2: 1, 3: 1} */
    static const uint8_t zero[] = {CUWELFRA_TAG_ACK, 1, 1, 0};                /* {1: 0} */
    static const uint8_t falling[] = {CUWELFRA_TAG_HELLO, 2, 5, 1, 3, 2};     /* {3: 2, 5: 1} */
    static const uint8_t snapshot[] = {5};
    static const uint8_t overlong[] = {CUWELFRA_TAG_PING, 0x80, 0x00};
    static const uint8_t sig[] = {0xC0, 0xC1};
    uint8_t frame[16];
    uint8_t clock[CUWELFRA_CLOCK_BYTES];
    uint8_t copy[CUWELFRA_CLOCK_BYTES];
    cuwelfra_written written;
    cuwelfra_message_told read;
    cuwelfra_frame_told framed;

    /* The desk says what it knows. The server signs the body between the two steps. */
    make_desk();
    ACCEPTED(cuwelfra_log_clock(AREAS(desk), copy, sizeof copy));
    written = cuwelfra_encode_hello(body, sizeof body, copy, sizeof copy);
    ACCEPTED(written.told);
    IS(written.next, sizeof hello);
    STARTS(body, hello);
    written = cuwelfra_encode_envelope(frame, sizeof frame, 9, body, (size_t)written.next, sig, sizeof sig);
    ACCEPTED(written.told);
    IS(written.next, 13);

    framed = cuwelfra_decode_frame(frame, (size_t)written.next, clock, sizeof clock, rows, sizeof rows);
    ACCEPTED(framed.told);
    IS(framed.sender, 9);
    IS(framed.body_at, 2);
    IS(framed.body_len, 8);
    IS(framed.sig_at, 11);
    IS(framed.sig_len, 2);
    IS(framed.tag, CUWELFRA_TAG_HELLO);
    IS(framed.number, 0);
    STARTS(clock, copy);

    /* A cut frame, a snapshot's message, and a nonce in more bytes than it needs: refused, and the area stays. */
    framed = cuwelfra_decode_frame(frame, 12, clock, sizeof clock, rows, sizeof rows);
    REFUSED(framed.told, TOO_LARGE, 0, 0);
    IS(framed.sender, 0);
    read = cuwelfra_decode_message(snapshot, sizeof snapshot, clock, sizeof clock, rows, sizeof rows);
    REFUSED(read.told, INVALID_TAG, 5, 0);
    read = cuwelfra_decode_message(overlong, sizeof overlong, clock, sizeof clock, rows, sizeof rows);
    REFUSED(read.told, OVERLONG, 0, 0);
    STARTS(clock, copy);

    /* An entry of 0 comes back, and authors need not rise. */
    read = cuwelfra_decode_message(zero, sizeof zero, clock, sizeof clock, rows, sizeof rows);
    ACCEPTED(read.told);
    IS(read.tag, CUWELFRA_TAG_ACK);
    IS(clock[7], 1);
    IS(cuwelfra_encode_ack(body, sizeof body, clock, sizeof clock).next, sizeof zero);
    STARTS(body, zero);
    ACCEPTED(cuwelfra_decode_message(falling, sizeof falling, clock, sizeof clock, rows, sizeof rows).told);
    IS(clock[15], 3);
    IS(clock[31], 5);

    /* A ping and its pong: 300 is AC 02. */
    IS(cuwelfra_encode_ping(body, sizeof body, 300).next, 3);
    read = cuwelfra_decode_message(body, 3, clock, sizeof clock, rows, sizeof rows);
    ACCEPTED(read.told);
    IS(read.tag, CUWELFRA_TAG_PING);
    IS(read.number, 300);
    IS(cuwelfra_encode_pong(body, sizeof body, read.number).next, 3);
    IS(body[0], CUWELFRA_TAG_PONG);
    REFUSED(cuwelfra_encode_pong(body, 2, 300).told, SHORT_AREA, 0, 0);
}

/* The rows that a peer lacks go out as one message, which comes back as the same slots. */
static void delta_messages(void)
{
    uint8_t clock[CUWELFRA_CLOCK_BYTES];
    cuwelfra_written written;
    cuwelfra_message_told read;

    make_desk();
    memset(rows, 0x5A, sizeof rows);
    written = cuwelfra_encode_delta(body, sizeof body, desk.log, sizeof desk.log, 3);
    ACCEPTED(written.told);
    IS(body[0], CUWELFRA_TAG_DELTA);
    IS(body[1], 3);
    read = cuwelfra_decode_message(body, (size_t)written.next, clock, sizeof clock, rows, sizeof rows);
    ACCEPTED(read.told);
    IS(read.tag, CUWELFRA_TAG_DELTA);
    IS(read.number, 3);
    check_bytes(__LINE__, "rows", rows, 3 * CUWELFRA_SLOT_BYTES, desk.log, 1);
    ALL_FROM(rows, 3 * CUWELFRA_SLOT_BYTES, 0x5A);

    /* Too few slots to write into: refused, and nothing is written. */
    memset(rows, 0x5A, sizeof rows);
    read = cuwelfra_decode_message(body, (size_t)written.next, clock, sizeof clock, rows, 3 * CUWELFRA_SLOT_BYTES - 1);
    REFUSED(read.told, SHORT_AREA, 0, 0);
    ALL_FROM(rows, 0, 0x5A);
    /* Neither is a slot that is no row's written out. */
    REFUSED(cuwelfra_encode_delta(body, sizeof body, rows, sizeof rows, 1).told, UNSOUND_STORE, 0, 0);
}

int main(void)
{
    versions();
    words();
    varints();
    parts();
    envelopes();
    hybrid_clocks();
    vector_clocks();
    a_row_waits_for_its_cause();
    refused_batches();
    short_areas();
    times();
    folded_stamps();
    floors();
    fates();
    questions();
    rows_and_slots();
    inserting_and_restoring();
    compacting();
    rows_of_its_own();
    deltas();
    sizes();
    peers();
    handshakes();
    delta_messages();
    printf("%d checks, %d failed\n", checks, failures);
    return failures == 0 ? 0 : 1;
}
