/* answer: answers the driver's requests (docs/DRIVER.md) on standard input, but those of water records and of what waits for a node, by the six
   calls. A rehearsal is checked by step and memcmp. */
#include "tarpudhriv.h"
#include "words.h"

enum { ROOM = 65536, IDS = 65, STEPS = 1000, OVER = 12 };

static uint8_t body[ROOM], out[ROOM];

/* The rehearsal: the last good file, the steps looked at, and whether the last of these, or the start, was bad. */
static uint8_t good[TARPUDHRIV_FILE];
static size_t good_len;
static uint32_t steps;
static bool bad = true;

static uint64_t little(const uint8_t *at, size_t bytes) {
    uint64_t x = 0;
    while (bytes-- > 0) x = x << 8 | at[bytes];
    return x;
}

/* The first ids of a start; one past the 64 that are allowed is enough to be refused. */
static uint64_t start(const uint8_t *rest, size_t len) {
    uint32_t ids[IDS];
    size_t n = (len - 24) / 4;
    if (n > IDS) n = IDS;
    for (size_t k = 0; k < n; k++) ids[k] = (uint32_t)little(rest + 24 + 4 * k, 4);
    return tarpudhriv_start(little(rest, 8), little(rest + 8, 8), little(rest + 16, 8), ids, n, out, ROOM);
}

/* The bytes that answer settled. */
static uint64_t settled(const uint8_t *file, size_t len) {
    uint64_t word = tarpudhriv_settled(file, len);
    if (tarpudhriv_number(word) != 0) return word;
    out[0] = (uint8_t)tarpudhriv_count(word);
    return UINT64_C(1) << 32;
}

/* A step with its letter before the file. */
static uint64_t step_via(const uint8_t *rest, size_t len) {
    uint64_t word =
        tarpudhriv_step_via(rest + 24, len - 24, little(rest, 8), little(rest + 8, 8), little(rest + 16, 8), out + 1, ROOM - 1);
    if (tarpudhriv_number(word) != 0) return tarpudhriv_number(word);
    out[0] = (uint8_t)tarpudhriv_via(word);
    return (uint64_t)(tarpudhriv_count(word) + 1) << 32;
}

/* The bytes of the verdict. */
static uint64_t verdict(void) {
    out[0] = !bad;
    if (!bad) return UINT64_C(1) << 32;
    for (int k = 0; k < 4; k++) out[1 + k] = (uint8_t)(steps >> 8 * k);
    return UINT64_C(5) << 32;
}

/* The file that a call has written to out is the last good one. */
static void keep(uint64_t word) {
    good_len = tarpudhriv_count(word);
    memcpy(good, out, good_len);
}

static uint64_t begin(const uint8_t *file, size_t len) {
    uint64_t word = tarpudhriv_load(file, len, out, ROOM);
    steps = 0;
    bad = tarpudhriv_number(word) != 0;
    if (!bad) keep(word);
    return verdict();
}

static uint64_t next(const uint8_t *rest, const uint8_t *stated, size_t len) {
    uint64_t word = tarpudhriv_step(good, good_len, little(rest, 8), little(rest + 8, 8), little(rest + 16, 8), out, ROOM);
    if (tarpudhriv_number(word) == TARPUDHRIV_NO_ACTION) return word;
    if (bad || steps == STEPS) return OVER;
    steps++;
    bad = tarpudhriv_number(word) != 0 || tarpudhriv_count(word) != len || memcmp(out, stated, len) != 0;
    if (!bad) keep(word);
    return verdict();
}

static uint64_t reply_to(const uint8_t *request, size_t len) {
    const uint8_t *rest = request + 1;
    if (len == 0) return TARPUDHRIV_NO_ACTION;
    len--;
    switch (request[0]) {
    case 0: return tarpudhriv_load(rest, len, out, ROOM);
    case 1:
        if (len < 24) return TARPUDHRIV_NO_ACTION;
        return tarpudhriv_step(rest + 24, len - 24, little(rest, 8), little(rest + 8, 8), little(rest + 16, 8), out, ROOM);
    case 2: return len < 24 || len % 4 != 0 ? TARPUDHRIV_NO_ACTION : start(rest, len);
    case 3: return settled(rest, len);
    case 4: return tarpudhriv_list(rest, len, out, ROOM);
    case 5: return begin(rest, len);
    case 6: return len < 24 ? TARPUDHRIV_NO_ACTION : next(rest, rest + 24, len - 24);
    case 11: return len < 24 ? TARPUDHRIV_NO_ACTION : step_via(rest, len);
    default: return TARPUDHRIV_NO_ACTION;
    }
}

static void send32(uint8_t *to, uint32_t x) {
    for (int k = 0; k < 4; k++) to[k] = (uint8_t)(x >> 8 * k);
}

/* Reads a whole request or the end of input; whether there is one. */
static bool request(size_t *len) {
    uint8_t head[4];
    size_t count = get(head, sizeof head);
    if (count == 0) return false;
    *len = little(head, 4);
    size_t kept = *len < ROOM ? *len : ROOM;
    bool whole = count == sizeof head && get(body, kept) == kept;
    for (size_t past = kept; whole && past < *len; past++) whole = getchar() != EOF;
    if (!whole) misuse("standard input", "it ends inside a request");
    return true;
}

int main(int argc, char **argv) {
    size_t len;
    if (argc > 1) misuse(argv[1], "nothing is expected; usage: answer <REQUESTS");
    while (request(&len)) {
        uint8_t head[8];
        uint64_t word = len > ROOM ? TARPUDHRIV_NO_ACTION : reply_to(body, len);
        send32(head, 4 + tarpudhriv_count(word));
        send32(head + 4, tarpudhriv_number(word));
        put(head, sizeof head);
        put(out, tarpudhriv_count(word));
    }
    return DONE;
}
