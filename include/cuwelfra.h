/* The exported calls of libcuwelfra.a; c/example.c shows each of them.

   An area or slice is a pointer and a length; what is only read is const. A pointer must not be null and must be good
   for its length; an area that a call may change must not overlap another of that call. Any bytes and numbers may be
   handed in: each call answers, or refuses with a number. A refusal changes no lent byte, but for scratch. What lies
   behind an area's size is neither tested nor touched. docs/LAYOUT.md has every byte of an area. */
#ifndef CUWELFRA_H
#define CUWELFRA_H

#include <stddef.h>
#include <stdint.h>

#ifdef __cplusplus
extern "C" {
#endif

/* ---- Versions */

#define CUWELFRA_VERSION "0.1.0"
#define CUWELFRA_VERSION_MAJOR 0
#define CUWELFRA_VERSION_MINOR 1
#define CUWELFRA_VERSION_PATCH 0

/* The number of the interface that this header declares. It is raised at each change of a call's signature, a struct,
   an area's layout or a size. */
#define CUWELFRA_ABI 4
/* 1 where the linked library has this number. A library that has another lacks the name cuwelfra_abi_4, so that a
   program that says this does not link with it. */
#define CUWELFRA_ABI_FITS() (cuwelfra_abi_4() == CUWELFRA_ABI && cuwelfra_abi() == CUWELFRA_ABI)

/* The linked library's number. Refuses nothing. */
uint64_t cuwelfra_abi(void);
/* The same, by a name that has the number in it. */
uint64_t cuwelfra_abi_4(void);

/* ---- Numbers by name */

/* The refusals: number, name, word. 5 to 13 carry the row's author and sequence, 14 and 15 the limit, 16 the limit and
   the author, 20 the remote wall time and the physical time, 29 the tag; the others carry nothing. */
#define CUWELFRA_REFUSALS(X)                                                                                          \
    /* a store, slot, clock or peer that breaks a rule of docs/LAYOUT.md */                                           \
    X(1, UNSOUND_STORE, "unsound store")                                                                              \
    /* below the size that the call names */                                                                          \
    X(2, SHORT_AREA, "short area")                                                                                    \
    /* a batch, or bytes to seal, cut short or with bytes left over, a number above its bits or in more bytes than    \
       it needs, authors that do not strictly rise, closing bytes that are none */                                    \
    X(3, UNREADABLE, "unreadable")                                                                                    \
    /* a size in a batch, in a message or in what is sealed, a setting, or the length of a signature in               \
       cuwelfra_delta_sizes, above its greatest */                                                                    \
    X(4, OVER_CAPACITY, "over capacity")                                                                              \
    /* 5 to 13 are told of a row of a batch, 5 and 6 of one that is sealed too */                                     \
    X(5, ZERO_SEQUENCE, "zero sequence")                                                                              \
    X(6, FOREIGN_STAMP, "foreign stamp")                                                                              \
    X(7, SPENT_COUNTER, "spent counter")                                                                              \
    X(8, PAYLOAD_TOO_LARGE, "payload too large")                                                                      \
    X(9, TOO_MANY_CAUSES, "too many causes")                                                                          \
    X(10, OWN_FUTURE, "own future")                                                                                   \
    X(11, AHEAD_OF_TIME, "ahead of time")                                                                             \
    X(12, BAD_SIGNATURE, "bad signature")                                                                             \
    X(13, CONFLICT, "conflict")                                                                                       \
    /* 14 to 16 are told of the rows that would be held */                                                            \
    X(14, HELD_OVERFLOW, "held overflow")                                                                             \
    X(15, HELD_BYTES, "held bytes")                                                                                   \
    X(16, AUTHOR_OVERFLOW, "author overflow")                                                                         \
    X(17, LOG_FULL, "log full")                                                                                       \
    /* a clock or the watermarks would pass 32 authors */                                                             \
    X(18, AUTHORS_FULL, "authors full")                                                                               \
    X(19, COUNTER_OVERFLOW, "counter overflow")                                                                       \
    X(20, REMOTE_AHEAD, "remote ahead")                                                                               \
    X(21, UNASKED_PONG, "unasked pong")                                                                               \
    /* 22 to 25 are told of varints, parts, envelopes and messages */                                                 \
    X(22, TRUNCATED, "truncated")                                                                                     \
    X(23, OVERFLOW, "overflow")                                                                                       \
    X(24, TOO_LARGE, "too large")                                                                                     \
    X(25, TRAILING, "trailing")                                                                                       \
    /* 26 and 27 are told in preparing: a payload above 256 bytes or a log's clock above 16 authors; no next sequence */\
    X(26, OPERATION_TOO_LARGE, "operation too large")                                                                 \
    X(27, SEQUENCE_EXHAUSTED, "sequence exhausted")                                                                   \
    /* told in sealing: dependencies that are not the log's clock */                                                  \
    X(28, OTHER_CAUSES, "other causes")                                                                               \
    /* told in reading a message: its tag is none of the five */                                                      \
    X(29, INVALID_TAG, "invalid tag")                                                                                 \
    /* told of a varint in more bytes than it needs, as 80 00 for 0; in a batch, or in bytes to seal, that is 3 */    \
    X(30, OVERLONG, "overlong")

#define CUWELFRA_NAMED(number, name, word) CUWELFRA_REFUSED_##name = number,
/* CUWELFRA_REFUSED_UNSOUND_STORE is 1, and so on. */
enum { CUWELFRA_REFUSALS(CUWELFRA_NAMED) };

#define CUWELFRA_SAID(number, name, word)                                                                             \
    case number:                                                                                                      \
        return word;
/* The word of a refusal; "accepted" for 0, "unknown" for a number that this header does not have. */
static inline const char *cuwelfra_word(uint64_t number)
{
    switch (number) {
        CUWELFRA_REFUSALS(CUWELFRA_SAID)
    case 0:
        return "accepted";
    default:
        return "unknown";
    }
}

/* What policy and state say of a batch's row. The detail beside it is the tag of an unknown one, a text number for what
   is invalid, else 0. */
enum {
    CUWELFRA_OUTCOME_FITS = 0,
    CUWELFRA_OUTCOME_MALFORMED_OP = 1,
    CUWELFRA_OUTCOME_UNKNOWN_OP_TAG = 2,
    CUWELFRA_OUTCOME_DENIED = 3,
    CUWELFRA_OUTCOME_INVALID = 4
};

/* What became of a logged row. */
enum {
    CUWELFRA_FATE_APPLIED = 0,
    CUWELFRA_FATE_STALE = 1,
    CUWELFRA_FATE_MALFORMED_OP = 2,
    CUWELFRA_FATE_UNKNOWN_OP_TAG = 3,
    CUWELFRA_FATE_DENIED = 4,
    CUWELFRA_FATE_INVALID = 5
};

/* How a stamp stands to another, and a vector clock to another. */
enum { CUWELFRA_STAMP_LESS = 0, CUWELFRA_STAMP_EQUAL = 1, CUWELFRA_STAMP_GREATER = 2 };
enum { CUWELFRA_CLOCK_BEFORE = 0, CUWELFRA_CLOCK_AFTER = 1, CUWELFRA_CLOCK_EQUAL = 2, CUWELFRA_CLOCK_CONCURRENT = 3 };

/* Where a row stands. */
enum { CUWELFRA_PLACE_ABSENT = 0, CUWELFRA_PLACE_LOGGED = 1, CUWELFRA_PLACE_HELD = 2 };

/* The tags of a message. */
enum {
    CUWELFRA_TAG_HELLO = 0,
    CUWELFRA_TAG_DELTA = 1,
    CUWELFRA_TAG_ACK = 2,
    CUWELFRA_TAG_PING = 3,
    CUWELFRA_TAG_PONG = 4
};

/* The state of a peer. */
enum {
    CUWELFRA_PEER_CONNECTING = 0,
    CUWELFRA_PEER_SYNCING = 1,
    CUWELFRA_PEER_UP_TO_DATE = 2,
    CUWELFRA_PEER_DISCONNECTED = 3
};

/* ---- Answers */

/* A refusal. All 0: not refused; else its number and the values that it carries, 0 where there is none. */
typedef struct {
    uint64_t number;
    uint64_t first;
    uint64_t second;
} cuwelfra_told;

/* A number that was read and the position past it; both 0 when refused. */
typedef struct {
    cuwelfra_told told;
    uint64_t value;
    uint64_t next;
} cuwelfra_number_read;

/* A part of the slice that was read; all 0 when refused. */
typedef struct {
    cuwelfra_told told;
    uint64_t start;
    uint64_t len;
    uint64_t next;
} cuwelfra_part_read;

/* The position past what was written; 0 when refused. */
typedef struct {
    cuwelfra_told told;
    uint64_t next;
} cuwelfra_written;

/* An envelope's sender and where its body and signature stand; all 0 when refused. */
typedef struct {
    cuwelfra_told told;
    uint64_t sender;
    uint64_t body_at;
    uint64_t body_len;
    uint64_t sig_at;
    uint64_t sig_len;
} cuwelfra_envelope_read;

/* A hybrid clock. last_counter fits 32 bits, as the calls take it. */
typedef struct {
    uint64_t actor;
    uint64_t last_wall;
    uint64_t last_counter;
    uint64_t max_drift_ms;
} cuwelfra_hybrid;

/* A new stamp and the clock moved on. Refused: the stamp is 0, last_* as handed in. */
typedef struct {
    cuwelfra_told told;
    uint64_t wall_time;
    uint64_t logical_counter;
    uint64_t actor_id;
    uint64_t last_wall;
    uint64_t last_counter;
} cuwelfra_issued_stamp;

/* The clock moved on. Refused: last_* as handed in. */
typedef struct {
    cuwelfra_told told;
    uint64_t last_wall;
    uint64_t last_counter;
} cuwelfra_updated_clock;

/* A number; 0 when refused. */
typedef struct {
    cuwelfra_told told;
    uint64_t number;
} cuwelfra_clock_number;

/* A stamp that may be absent: present is 1 or 0; all 0 when refused or absent. */
typedef struct {
    cuwelfra_told told;
    uint64_t present;
    uint64_t wall_time;
    uint64_t logical_counter;
    uint64_t actor_id;
} cuwelfra_stamp_told;

/* Where a row stands: a CUWELFRA_PLACE_, its slot in that area, and the length of its payload, which stands at 384 in
   the slot; all 0 when refused or absent. */
typedef struct {
    cuwelfra_told told;
    uint64_t place;
    uint64_t slot;
    uint64_t len;
} cuwelfra_lookup_told;

/* The position past a batch row and the verifier's answer; both 0 when refused. */
typedef struct {
    cuwelfra_told told;
    uint64_t next;
    uint64_t verdict;
} cuwelfra_op_told;

/* A message that was read: its tag (a CUWELFRA_TAG_), and the rows of a Delta or the nonce of a Ping or Pong, else 0;
   both 0 when refused. */
typedef struct {
    cuwelfra_told told;
    uint64_t tag;
    uint64_t number;
} cuwelfra_message_told;

/* An envelope that was read with the message in its body; all 0 when refused. */
typedef struct {
    cuwelfra_told told;
    uint64_t sender;
    uint64_t body_at;
    uint64_t body_len;
    uint64_t sig_at;
    uint64_t sig_len;
    uint64_t tag;
    uint64_t number;
} cuwelfra_frame_told;

/* What a batch call answers: rows logged and applied, stale or rejected, duplicates, rows held after it, held rows that
   expired, ready rows that were not their author's next; and how many stamps of the batch the hybrid clock refused, with
   20 or 19. All 0 when refused. last_*: the hybrid clock moved on, as handed in when refused. */
typedef struct {
    cuwelfra_told told;
    uint64_t applied;
    uint64_t stale;
    uint64_t rejected;
    uint64_t duplicates;
    uint64_t held;
    uint64_t expired;
    uint64_t dropped;
    uint64_t failed_folds;
    uint64_t last_wall;
    uint64_t last_counter;
} cuwelfra_delta_told;

/* A row to sign: its stamp, its sequence, how many dependencies it has, these, and how many bytes of output are to be
   signed. Places behind the count are 0. Refused: all of that is 0. last_*: the hybrid clock moved on, as handed in when
   refused. */
typedef struct {
    cuwelfra_told told;
    uint64_t wall_time;
    uint64_t logical_counter;
    uint64_t actor_id;
    uint64_t sequence;
    uint64_t deps;
    uint64_t dep_authors[16];
    uint64_t dep_numbers[16];
    size_t len;
    uint64_t last_wall;
    uint64_t last_counter;
} cuwelfra_prepared_told;

/* ---- Bytes
   A varint is unsigned LEB128 of at most ten bytes and 64 bits. The shortest form is written and read, no other: what has
   two or more bytes and ends in a zero byte is 30, at one number after 22 and 23 and before 24. Positions may lie past
   the end, where nothing is left. */

/* How many bytes the shortest varint of v has, 1 to 10. Refuses nothing. */
size_t cuwelfra_varint_len(uint64_t v);
/* Writes the shortest varint of v at position at of out. 2 where it finds no room. */
cuwelfra_written cuwelfra_put_varint(uint8_t *out, size_t out_len, size_t at, uint64_t v);
/* Writes the byte b at position at of out. 2 where it finds no room. */
cuwelfra_written cuwelfra_put_u8(uint8_t *out, size_t out_len, size_t at, uint8_t b);
/* Writes a varint of bytes_len and then the bytes at position at of out. 2 where both find no room. */
cuwelfra_written cuwelfra_put_bytes(uint8_t *out, size_t out_len, size_t at, const uint8_t *bytes, size_t bytes_len);
/* Reads the byte at position at of s. 22 past the end. */
cuwelfra_number_read cuwelfra_get_u8(const uint8_t *s, size_t s_len, size_t at);
/* Reads the varint at position at of s. 23 for more than ten bytes or 64 bits, else 22 where its end is missing; then 30
   for a form that is not the shortest. */
cuwelfra_number_read cuwelfra_get_varint(const uint8_t *s, size_t s_len, size_t at);
/* The same; 23 also for more than 32 bits, before 30. */
cuwelfra_number_read cuwelfra_get_u32(const uint8_t *s, size_t s_len, size_t at);
/* Reads a varint; 22, 23, 30, then 24 where it is above max or above the number of bytes behind it. */
cuwelfra_number_read cuwelfra_get_count(const uint8_t *s, size_t s_len, size_t at, uint64_t max);
/* Reads a length, as cuwelfra_get_count does and with its refusals, and passes as many bytes. */
cuwelfra_part_read cuwelfra_get_bytes(const uint8_t *s, size_t s_len, size_t at, uint64_t max);
/* Whether position at is the end of s or past it; 25 where bytes remain. */
cuwelfra_told cuwelfra_finish(const uint8_t *s, size_t s_len, size_t at);
/* How many bytes remain from position at of s on; 0 past the end. Refuses nothing. */
uint64_t cuwelfra_remaining(const uint8_t *s, size_t s_len, size_t at);
/* Writes an envelope at the start of out: sender, body and signature, these two with their lengths. 2 where it finds no
   room; no limit for body and signature. */
cuwelfra_written cuwelfra_encode_envelope(uint8_t *out, size_t out_len, uint64_t sender, const uint8_t *body,
                                          size_t body_len, const uint8_t *sig, size_t sig_len);
/* Reads the envelope that fills all of s. By the first fault: 22, 23 and 30 for sender and lengths; 24 where a length is
   above the bytes behind it, the body above 16,777,216 bytes or the signature above 1,024; 25 where bytes remain. */
cuwelfra_envelope_read cuwelfra_decode_envelope(const uint8_t *s, size_t s_len);
/* The same answer, read by one reader. */
cuwelfra_envelope_read cuwelfra_read_envelope(const uint8_t *s, size_t s_len);

/* ---- Stamps and the hybrid clock, which goes in by value and comes back moved on */

/* Compares stamps a and b by wall time, counter, author: CUWELFRA_STAMP_LESS, _EQUAL, _GREATER. Refuses nothing. */
uint64_t cuwelfra_timestamp_cmp(uint64_t wall_a, uint32_t counter_a, uint64_t actor_a, uint64_t wall_b,
                                uint32_t counter_b, uint64_t actor_b);
/* A clock that has issued nothing, with a drift of 60,000 ms. Refuses nothing. */
cuwelfra_hybrid cuwelfra_hybrid_new(uint64_t actor);
/* The clock with another drift. Refuses nothing. */
cuwelfra_hybrid cuwelfra_hybrid_set_max_drift(uint64_t actor, uint64_t last_wall, uint32_t last_counter,
                                              uint64_t max_drift_ms, uint64_t new_max_drift_ms);
/* Issues a stamp at a physical time in ms. 19 where the counter would pass 32 bits. */
cuwelfra_issued_stamp cuwelfra_hybrid_now(uint64_t actor, uint64_t last_wall, uint32_t last_counter,
                                          uint64_t max_drift_ms, uint64_t physical);
/* Takes a remote stamp in at a physical time in ms. 20 where the remote wall time is above the physical time and the
   drift, then 19. */
cuwelfra_updated_clock cuwelfra_hybrid_update(uint64_t actor, uint64_t last_wall, uint32_t last_counter,
                                              uint64_t max_drift_ms, uint64_t remote_wall, uint32_t remote_counter,
                                              uint64_t remote_actor, uint64_t physical);

/* ---- Vector clocks
   A clock area is 65 big-endian 64-bit words: count, then 32 pairs of author and number, authors strictly rising,
   unused places zero. Every call refuses with 2 where an area is shorter, and all but cuwelfra_clock_new then with 1
   where one breaks these rules. */

#define CUWELFRA_CLOCK_BYTES 520

/* Makes the area a clock without entries, whatever it held. 2. */
cuwelfra_told cuwelfra_clock_new(uint8_t *clock, size_t clock_len);
/* The author's number, 0 where it is absent. 2, 1. */
cuwelfra_clock_number cuwelfra_clock_get(const uint8_t *clock, size_t clock_len, uint64_t actor);
/* Raises the author's number to at least seq; enters no 0. 2, 1, 18 where it would be the 33rd author. */
cuwelfra_told cuwelfra_clock_observe(uint8_t *clock, size_t clock_len, uint64_t actor, uint64_t seq);
/* Raises the author's number by one and gives it. 2, 1, 19 where it cannot grow, 18. */
cuwelfra_clock_number cuwelfra_clock_increment(uint8_t *clock, size_t clock_len, uint64_t actor);
/* Raises each number of the clock to at least the other's. 2, 1, 18. */
cuwelfra_told cuwelfra_clock_merge(uint8_t *clock, size_t clock_len, const uint8_t *other, size_t other_len);
/* 1 where every number of the other is covered, else 0. 2, 1. */
cuwelfra_clock_number cuwelfra_clock_dominates(const uint8_t *clock, size_t clock_len, const uint8_t *other,
                                               size_t other_len);
/* How the clock stands to the other, from CUWELFRA_CLOCK_BEFORE on. 2, 1. */
cuwelfra_clock_number cuwelfra_clock_compare(const uint8_t *clock, size_t clock_len, const uint8_t *other,
                                             size_t other_len);

/* ---- Rows
   A slot is 704 bytes. 16 words: wall, counter, stamp author, author, sequence, dependency count, payload length,
   signature length, arrival, outcome, detail, five zero. At 128 16 pairs of author and number, authors strictly rising;
   at 384 256 payload bytes; at 640 64 signature bytes. Unused is zero. */

#define CUWELFRA_SLOT_BYTES 704

/* Writes what is signed of a slot's row at the start of out, at most 624 bytes. 2 and 1 for the slot, then 2 where it
   finds no room. */
cuwelfra_written cuwelfra_unsigned_op(const uint8_t *slot, size_t slot_len, uint8_t *out, size_t out_len);
/* The same with the signature and its length behind it, at most 689 bytes. */
cuwelfra_written cuwelfra_signed_op(const uint8_t *slot, size_t slot_len, uint8_t *out, size_t out_len);
/* Reads the row at position at of a batch into a slot, with arrival 0, and hands its verdict over. 2 for the slot, then
   3 or 4 by the first fault. */
cuwelfra_op_told cuwelfra_read_op(const uint8_t *batch, size_t batch_len, size_t at, uint8_t *slot, size_t slot_len);

/* ---- The store
   Three areas. log: length / 704 slots, rounded down, at most 1,024, at least one. held: 64 slots. head, in words: log
   count, held count, floor flag, floor stamp (3), clock (65), compacted clock (65), watermark count, 32 watermarks
   (author and stamp, 4). All zero is the empty store. Every call but cuwelfra_from_parts tests the whole store: 2 for
   all areas of fixed size, a slot, clock or peer beside the store too; then 1, the store's before that of what stands
   beside it. Where nothing else is said, these are its refusals. */

#define CUWELFRA_HELD_BYTES 45056
#define CUWELFRA_HEAD_BYTES 2120

/* Whether the store keeps every rule. */
cuwelfra_told cuwelfra_store_check(const uint8_t *log, size_t log_len, const uint8_t *held, size_t held_len,
                                   const uint8_t *head, size_t head_len);
/* How many rows are logged. */
cuwelfra_clock_number cuwelfra_log_len(const uint8_t *log, size_t log_len, const uint8_t *held, size_t held_len,
                                       const uint8_t *head, size_t head_len);
/* How many rows are held. */
cuwelfra_clock_number cuwelfra_pending_len(const uint8_t *log, size_t log_len, const uint8_t *held, size_t held_len,
                                           const uint8_t *head, size_t head_len);
/* The floor. */
cuwelfra_stamp_told cuwelfra_floor(const uint8_t *log, size_t log_len, const uint8_t *held, size_t held_len,
                                   const uint8_t *head, size_t head_len);
/* The author's watermark: no logged row of that author has a later stamp. */
cuwelfra_stamp_told cuwelfra_watermark(const uint8_t *log, size_t log_len, const uint8_t *held, size_t held_len,
                                       const uint8_t *head, size_t head_len, uint64_t actor);
/* Writes the store's clock into a clock area. */
cuwelfra_told cuwelfra_log_clock(const uint8_t *log, size_t log_len, const uint8_t *held, size_t held_len,
                                 const uint8_t *head, size_t head_len, uint8_t *clock, size_t clock_len);
/* Writes the clock of the rows that were compacted into a clock area. */
cuwelfra_told cuwelfra_log_compacted(const uint8_t *log, size_t log_len, const uint8_t *held, size_t held_len,
                                     const uint8_t *head, size_t head_len, uint8_t *clock, size_t clock_len);
/* Writes the clock that the compacted clock and the logged rows make into a clock area: the store's, by its rules. */
cuwelfra_told cuwelfra_derive_clock(const uint8_t *log, size_t log_len, const uint8_t *held, size_t held_len,
                                    const uint8_t *head, size_t head_len, uint8_t *clock, size_t clock_len);
/* 1 where a peer with this clock area has all that was compacted, else 0. */
cuwelfra_clock_number cuwelfra_can_serve(const uint8_t *log, size_t log_len, const uint8_t *held, size_t held_len,
                                         const uint8_t *head, size_t head_len, const uint8_t *peer, size_t peer_len);
/* Looks a row up among the logged, first place first, then the held. */
cuwelfra_lookup_told cuwelfra_lookup(const uint8_t *log, size_t log_len, const uint8_t *held, size_t held_len,
                                     const uint8_t *head, size_t head_len, uint64_t actor, uint64_t seq);
/* Logs the row of a slot, before its equals by stamp; raises clock and watermark. The slot is a logged row's: arrival,
   outcome and detail are 0. Neither duplicates nor causes are tested. After 2 and 1: 17, 18. */
cuwelfra_told cuwelfra_insert(uint8_t *log, size_t log_len, const uint8_t *held, size_t held_len, uint8_t *head,
                              size_t head_len, const uint8_t *slot, size_t slot_len);
/* Makes the store anew, whatever the areas held: logs the rows of count slots, in their order, and has a compacted
   clock, no held row and no floor. 2 for the three areas, parts below 704 * count and compacted; 1 for compacted, then
   for a slot that is no logged row's; 17, 18. */
cuwelfra_told cuwelfra_from_parts(uint8_t *log, size_t log_len, uint8_t *held, size_t held_len, uint8_t *head,
                                  size_t head_len, const uint8_t *parts, size_t parts_len, size_t count,
                                  const uint8_t *compacted, size_t compacted_len);
/* Removes the logged rows with stamps at or below the cutoff and gives how many; raises the compacted clock by them. */
cuwelfra_clock_number cuwelfra_compact(uint8_t *log, size_t log_len, const uint8_t *held, size_t held_len, uint8_t *head,
                                       size_t head_len, uint64_t wall_time, uint32_t logical_counter, uint64_t actor_id);
/* The latest stamp that is safe to compact to, where every peer has seen what the clock area frontier says; absent
   where there is none. */
cuwelfra_stamp_told cuwelfra_cutoff(const uint8_t *log, size_t log_len, const uint8_t *held, size_t held_len,
                                    const uint8_t *head, size_t head_len, const uint8_t *frontier, size_t frontier_len);
/* Writes the log positions, from 0, of the rows that a peer with this clock area lacks, eight big-endian bytes each,
   and gives how many. Later bytes stay. An output below 8 bytes for each logged row is 2, last of all. */
cuwelfra_clock_number cuwelfra_calculate_delta(const uint8_t *log, size_t log_len, const uint8_t *held, size_t held_len,
                                               const uint8_t *head, size_t head_len, const uint8_t *peer, size_t peer_len,
                                               uint8_t *output, size_t output_len);
/* The same for the row counts of that delta's chunks: at most max_per_chunk rows, 0 meaning 1, and max_bytes, a row
   counting as the bytes of cuwelfra_unsigned_op, its signature and 16. A row above max_bytes is a chunk of its own. */
cuwelfra_clock_number cuwelfra_chunk_ops(const uint8_t *log, size_t log_len, const uint8_t *held, size_t held_len,
                                         const uint8_t *head, size_t head_len, const uint8_t *peer, size_t peer_len,
                                         uint64_t max_per_chunk, uint64_t max_bytes, uint8_t *output, size_t output_len);
/* What those chunks take as messages: of each its rows, then the bytes of the frame (see Messages) with its rows as a
   Delta, from this sender and with a signature of sig_len bytes; eight big-endian bytes each. Gives how many chunks.
   Later bytes stay. Of a chunk above 64 rows, which cuwelfra_encode_delta refuses, the bytes that the layout gives it.
   4 for sig_len above 1,024, first of all; last 2 for an output below 16 bytes for each chunk. */
cuwelfra_clock_number cuwelfra_delta_sizes(const uint8_t *log, size_t log_len, const uint8_t *held, size_t held_len,
                                           const uint8_t *head, size_t head_len, const uint8_t *peer, size_t peer_len,
                                           uint64_t max_per_chunk, uint64_t max_bytes, uint64_t sender,
                                           uint64_t sig_len, uint8_t *output, size_t output_len);

/* ---- Merging
   A batch is a varint count of at most 64, as many rows, and nothing behind. A row is written as cuwelfra_signed_op
   does; three bytes follow: verdict (0 or 1), outcome (a CUWELFRA_OUTCOME_) and detail. */

#define CUWELFRA_MAX_BATCH 64
/* Bytes of output and of scratch for each held row and each row of the batch. */
#define CUWELFRA_LINE_BYTES 18
#define CUWELFRA_SCRATCH_BYTES 704

/* Applies a batch; then, where it is accepted, folds its stamps into a hybrid clock.
   The first eight numbers are the settings and the time in ms. For each logged row, in logging order, 18 bytes go into
   output: author and sequence, big-endian, fate (a CUWELFRA_FATE_; that of a rejected row is its outcome plus 1), detail
   (0 for applied and stale). Later bytes stay. Output has CUWELFRA_LINE_BYTES and scratch CUWELFRA_SCRATCH_BYTES for each
   row that is held before the call and each row of the batch; scratch is all zero after every call.
   The next four are a hybrid clock, which goes in by value. The stamp of every row of the batch is folded in as
   cuwelfra_hybrid_update does it, at time_ms, in the order of the batch, duplicates and held rows too. A stamp that it
   refuses is counted in failed_folds and leaves the clock, and the next goes on: 20 where it is further ahead of time_ms
   than clock_max_drift_ms, which may differ from max_drift_ms, then 19. Keep the clock that comes back: the next stamp
   that it issues is above every stamp that was folded in. A batch without rows leaves it.
   4 for max_pending above 64, max_deps above 16 or max_payload above 256; 2 for the store, 1; 3 and 4 in reading; 2 for
   output and scratch; 5 to 12 row by row in that order, 13 by row, 14 to 18. A refused batch folds nothing in. */
cuwelfra_delta_told cuwelfra_apply_delta(uint64_t max_pending, uint64_t max_pending_per_actor,
                                         uint64_t max_pending_bytes, uint64_t max_pending_age_ms, uint64_t max_drift_ms,
                                         uint64_t max_deps, uint64_t max_payload, uint64_t time_ms, uint64_t actor,
                                         uint64_t last_wall, uint32_t last_counter, uint64_t clock_max_drift_ms,
                                         uint8_t *log, size_t log_len, uint8_t *held, size_t held_len, uint8_t *head,
                                         size_t head_len, const uint8_t *batch, size_t batch_len, uint8_t *scratch,
                                         size_t scratch_len, uint8_t *output, size_t output_len);
/* Raises the floor to a stamp, and never lowers it. Rows that are logged from then on with stamps at or below it are
   stale. Refusals as for the other calls on a store. */
cuwelfra_told cuwelfra_set_floor(const uint8_t *log, size_t log_len, const uint8_t *held, size_t held_len, uint8_t *head,
                                 size_t head_len, uint64_t wall_time, uint32_t logical_counter, uint64_t actor_id);

/* ---- Rows of the desk's own
   A row is prepared, the server signs its bytes, then it is sealed. */

/* The most bytes that are signed of a row. */
#define CUWELFRA_UNSIGNED_BYTES 624

/* Prepares a row of an author, whose hybrid clock goes in by value: a new stamp at time_ms; as sequence one more than the
   greater of the author's number in clock and issued, the number last issued; as dependencies the clock area clock of
   CUWELFRA_CLOCK_BYTES, which is the log's (cuwelfra_log_clock). Writes the bytes to sign at the start of output, which
   has at least the bytes to sign, CUWELFRA_UNSIGNED_BYTES always do; later bytes stay. max_drift_ms is the hybrid clock's
   and plays no part in preparing. Keep the clock that comes back, and never put it back to an older one.
   26 for a payload above 256 bytes, or a count above 16 in the first 8 bytes of clock; 2 and 1 for clock; 19; 27 where
   there is no next sequence; 2 for output. */
cuwelfra_prepared_told cuwelfra_prepare(uint64_t author, uint64_t last_wall, uint32_t last_counter,
                                        uint64_t max_drift_ms, uint64_t time_ms, uint64_t issued,
                                        const uint8_t *payload, size_t payload_len, const uint8_t *clock,
                                        size_t clock_len, uint8_t *output, size_t output_len);
/* Logs the row of these bytes with its signature, as cuwelfra_insert does: held rows stay, and no fate is told. A batch,
   even one without rows, then logs what waited for it. Save the store, and the number last issued and the hybrid clock
   beside it, before the row goes out: else a crash gives its number to another content.
   Hand in exactly the bytes of cuwelfra_prepare. The logged row is written out as the bytes that were sealed, so that
   their signature holds elsewhere: a number in another spelling is 3.
   2 for the store, 1; 3 and 4 by the first fault in bytes, 3 for bytes left over; 4 for a signature above 64 bytes; 5; 6;
   28 where the dependencies are not the store's clock, pair for pair: look whether the row is logged already
   (cuwelfra_lookup), else prepare again; 17, 18. */
cuwelfra_told cuwelfra_seal(uint8_t *log, size_t log_len, const uint8_t *held, size_t held_len, uint8_t *head,
                            size_t head_len, const uint8_t *bytes, size_t bytes_len, const uint8_t *signature,
                            size_t signature_len);

/* ---- Messages
   A body is a tag byte (a CUWELFRA_TAG_), then a clock for Hello and Ack (a varint count and as many pairs of author and
   number), a varint count and as many rows as cuwelfra_signed_op writes them for Delta, a varint for Ping and Pong, and
   nothing behind. A frame is an envelope with such a body: write the body, sign it, cuwelfra_encode_envelope. */

/* The most bytes of a body: a Hello or Ack of 32 authors, a Delta of 64 rows. */
#define CUWELFRA_CLOCK_BODY_BYTES 642
#define CUWELFRA_DELTA_BODY_BYTES 44098

/* Writes the body of a Hello with this clock area at the start of out. 2 and 1 for clock, then 2 where it finds no
   room. */
cuwelfra_written cuwelfra_encode_hello(uint8_t *out, size_t out_len, const uint8_t *clock, size_t clock_len);
/* The same for an Ack. */
cuwelfra_written cuwelfra_encode_ack(uint8_t *out, size_t out_len, const uint8_t *clock, size_t clock_len);
/* Writes the body of a Ping at the start of out. 2 where it finds no room. */
cuwelfra_written cuwelfra_encode_ping(uint8_t *out, size_t out_len, uint64_t nonce);
/* The same for a Pong. */
cuwelfra_written cuwelfra_encode_pong(uint8_t *out, size_t out_len, uint64_t nonce);
/* Writes the body of a Delta with the rows of count slots, in their order, at the start of out. 2 for rows below
   704 * count; 1 for a slot that is no logged row's; 4 for a count above 64; then 2 where it finds no room. */
cuwelfra_written cuwelfra_encode_delta(uint8_t *out, size_t out_len, const uint8_t *rows, size_t rows_len, size_t count);
/* Reads the message that fills all of body. Writes the clock of a Hello or Ack into the clock area, the rows of a Delta
   into as many slots of rows, logged rows' ones, and nothing for a Ping or Pong; later bytes stay.
   Authors need not rise: of one that comes twice the greatest number counts. An entry of 0 is kept.
   2 for clock; 22 for an empty body; 29; then by the first fault, at each number 22, 23, 30, for a count or length also
   24 where it is above 4,096 pairs or rows, 1,048,576 payload bytes, 1,024 signature bytes or the bytes of the body
   behind it, then 4 where it is above 32 pairs of a clock, 64 rows, 16 dependencies, 256 payload bytes or 64 signature
   bytes; 25 where bytes remain; 2 for rows below 704 bytes for each row. */
cuwelfra_message_told cuwelfra_decode_message(const uint8_t *body, size_t body_len, uint8_t *clock, size_t clock_len,
                                              uint8_t *rows, size_t rows_len);
/* Reads the envelope that fills all of frame, as cuwelfra_decode_envelope does, and the message in its body, as
   cuwelfra_decode_message does. 2 for clock; 22 to 25 and 30 of the envelope; then all of the message. */
cuwelfra_frame_told cuwelfra_decode_frame(const uint8_t *frame, size_t frame_len, uint8_t *clock, size_t clock_len,
                                          uint8_t *rows, size_t rows_len);

/* ---- Peers
   A peer area, in words: id, state, remote clock (65), last_seen, last_ping, outstanding count and 8 nonces, answered
   count and 8 nonces, last_hello. Every call refuses with 2 where the area, or a clock area beside it, is shorter; all
   but cuwelfra_peer_new then with 1 for a state above 3, a count above 8 or a clock that breaks its rules. Where nothing
   else is said, these are its refusals. Times are in ms. */

#define CUWELFRA_PEER_BYTES 704

/* Makes the area a new peer: connecting, an empty clock, no ping, times 0. 2. */
cuwelfra_told cuwelfra_peer_new(uint8_t *peer, size_t peer_len, uint64_t id);
/* Syncing from now on: sets the state and the three times. */
cuwelfra_told cuwelfra_peer_connection_started(uint8_t *peer, size_t peer_len, uint64_t now);
/* Disconnected: sets the state alone. */
cuwelfra_told cuwelfra_peer_connection_lost(uint8_t *peer, size_t peer_len);
/* Merges a clock area into the remote clock. After 2 and 1: 18. */
cuwelfra_told cuwelfra_peer_absorb_clock(uint8_t *peer, size_t peer_len, const uint8_t *clock, size_t clock_len);
/* Puts a clock area in the place of the remote clock. */
cuwelfra_told cuwelfra_peer_replace_clock(uint8_t *peer, size_t peer_len, const uint8_t *clock, size_t clock_len);
/* Records a ping sent now, which is its nonce too; of nine outstanding the oldest goes. */
cuwelfra_told cuwelfra_peer_record_ping(uint8_t *peer, size_t peer_len, uint64_t now);
/* Takes a pong: an outstanding nonce moves to the answered, of nine the oldest goes; an answered one passes. After 2
   and 1: 21 for any other. */
cuwelfra_told cuwelfra_peer_take_pong(uint8_t *peer, size_t peer_len, uint64_t nonce);
/* Pulls times that are ahead of now back to it. */
cuwelfra_told cuwelfra_peer_rebase_timers(uint8_t *peer, size_t peer_len, uint64_t now);
/* How many logged rows are above the remote clock's numbers. 2 for the peer, 2 and 1 for the store, then 1 for the
   peer. */
cuwelfra_clock_number cuwelfra_peer_pending_ops(const uint8_t *peer, size_t peer_len, const uint8_t *log, size_t log_len,
                                                const uint8_t *held, size_t held_len, const uint8_t *head,
                                                size_t head_len);

#ifdef __cplusplus
}
#endif

#endif
