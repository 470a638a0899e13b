/* The bench for C: six calls on table files (docs/FORMAT.md). Link target/staticlib/libface_c.a, which `tools/staticlib` makes (x86-64).
 *
 * Every call answers one 64-bit word. Its low 32 bits are the number: 0 done, 1 to 11 refused (docs/REFUSALS.md). The 24 bits above
 * are the count of bytes written to the start of `out`, and the highest byte is 0 but for step_via. Where the number is not 0 the count and
 * the highest byte are 0 and `out` is untouched; where it is 0, the bytes of `out` past the count are untouched. The
 * reply and what `out` then holds are proved for every input of any length.
 *
 * A Lookup in a table file carries the hops that it has made so far, in the sixth 32-bit word of its record, at offset 20: 0 where it was issued, one
 * more at each TARPUDHRIV_FORWARD to another node. Every other message has 0 there.
 *
 * A call asks for pointers that may be read (`out`: written) for their length, are not null, also where the length is 0, and an `out`
 * that overlaps no other argument. It keeps nothing, allocates nothing and calls nothing outside but the C library's memory functions, so
 * threads may call at once. It needs at most TARPUDHRIV_STACK bytes of stack, 256 KB: measured, and tried at every run of the tests.
 */
#ifndef TARPUDHRIV_H
#define TARPUDHRIV_H

#include <stddef.h>
#include <stdint.h>

#ifdef __cplusplus
extern "C" {
#endif

enum {
    TARPUDHRIV_FILE = 18464,    /* the longest table file: room enough for load, step and start */
    TARPUDHRIV_LISTING = 65536, /* the least room that list asks for */
    TARPUDHRIV_STACK = 262144
};

/* The actions of a step, and what x and y are. */
enum {
    TARPUDHRIV_LOOKUP = 1,          /* x slot, y key */
    TARPUDHRIV_JOIN = 2,            /* x slot, y slot of the seed */
    TARPUDHRIV_REQUEST_LEASE = 3,   /* x slot */
    TARPUDHRIV_LEASE_EXPIRED = 4,   /* x slot, y slot */
    TARPUDHRIV_GRANT_EXPIRED = 5,   /* x slot, y slot */
    TARPUDHRIV_TAKE = 6,            /* x place of the message, from 0 */
    TARPUDHRIV_DELIVER = 7,         /* x place of a Lookup: delivered where its node covers the key */
    TARPUDHRIV_FORWARD = 8,         /* x place of a Lookup: to the next hop where it does not */
    TARPUDHRIV_NODE_LEFT = 9,       /* x slot */
    TARPUDHRIV_SUSPECT_FAULTY = 10, /* x slot, y slot */
    TARPUDHRIV_PROBE_TIME_OUT = 11, /* x slot, y slot */
    TARPUDHRIV_DECLARE_DEAD = 12,   /* x slot, y slot */
    TARPUDHRIV_LS_REPAIR = 13,      /* x slot */
    TARPUDHRIV_RESIGN_NODE = 14,    /* x slot, y slot of a ready node */
    TARPUDHRIV_RECOVER = 15         /* x slot */
};

/* The number of a step whose action is none of these. */
#define TARPUDHRIV_NO_ACTION UINT32_C(4294967295)

static inline uint32_t tarpudhriv_number(uint64_t word) { return (uint32_t)word; }
static inline uint32_t tarpudhriv_count(uint64_t word) { return (uint32_t)(word >> 32) & UINT32_C(0xffffff); }
static inline char tarpudhriv_via(uint64_t word) { return (char)(word >> 56); }

/* Reads a table file and writes it back. */
uint64_t tarpudhriv_load(const uint8_t *file, size_t file_len, uint8_t *out, size_t out_len);

/* Reads a table file, makes one step, and writes the table file after it. */
uint64_t tarpudhriv_step(const uint8_t *file, size_t file_len, uint64_t action, uint64_t x, uint64_t y, uint8_t *out, size_t out_len);

/* The same step, which also says where the next hop came from: tarpudhriv_via is 'l' where a message was routed to a node of the leaf set, 'r' where to
 * one of the routing set alone, and 0 where none was routed to another node. */
uint64_t tarpudhriv_step_via(const uint8_t *file, size_t file_len, uint64_t action, uint64_t x, uint64_t y, uint8_t *out, size_t out_len);

/* Makes a table of ids of m digits with leaf sets of l nodes a side, ready where a has a mark (mark s, worth 2^s, for slot s), and
 * writes its file. */
uint64_t tarpudhriv_start(uint64_t m, uint64_t l, uint64_t a, const uint32_t *ids, size_t ids_len, uint8_t *out, size_t out_len);

/* Reads a table file, and tells whether its table is settled: tarpudhriv_count is 1 if it is, else 0. */
uint64_t tarpudhriv_settled(const uint8_t *file, size_t file_len);

/* Writes the listing of a file, as text. The number is 0, or 11 for less room than TARPUDHRIV_LISTING: of a file that is no table
 * file the listing is the line `refused N`. */
uint64_t tarpudhriv_list(const uint8_t *file, size_t file_len, uint8_t *out, size_t out_len);

#ifdef __cplusplus
}
#endif

#endif
