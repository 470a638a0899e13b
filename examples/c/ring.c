/* ring M L A IDS [SLOT:KEY].. : starts a ring of the ids, ready where A has a mark, adds a Lookup of each key at its slot, and lists where they
 * travel; says first whether the table is settled. A refusal prints `refused N`, and the status is 1. */
#include "tarpudhriv.h"
#include "words.h"

enum { IDS = 65 };

/* The count of a reply; a refusal ends the program. */
static size_t done(uint64_t word) {
    char text[32];
    if (tarpudhriv_number(word) == 0) return tarpudhriv_count(word);
    put(text, (size_t)snprintf(text, sizeof text, "refused %u\n", tarpudhriv_number(word)));
    exit(REFUSED);
}

/* The ids of a list with commas between them; how many. One past the 64 that are allowed is enough to be refused. */
static size_t ids_of(const char *text, uint32_t *ids) {
    size_t n = 0;
    for (const char *at = text, *end; n < IDS; at = end + 1) {
        uint64_t id;
        end = at + strcspn(at, ",");
        if (!digits(at, end, UINT32_MAX, &id)) misuse(text, "ids are expected, 0 to 4294967295, with commas between them");
        ids[n++] = (uint32_t)id;
        if (*end == '\0') break;
    }
    return n;
}

/* The slot and the key of SLOT:KEY. */
static void lookup_of(const char *text, uint64_t *slot, uint64_t *key) {
    const char *colon = text + strcspn(text, ":");
    bool good = *colon == ':' && digits(text, colon, UINT64_MAX, slot) && digits(colon + 1, text + strlen(text), UINT64_MAX, key);
    if (!good) misuse(text, "a lookup is SLOT:KEY, two numbers");
}

int main(int argc, char **argv) {
    static uint8_t table[2][TARPUDHRIV_FILE], text[TARPUDHRIV_LISTING];
    if (argc < 5) misuse("ring", "usage: ring M L A ID,ID.. [SLOT:KEY]..");
    uint32_t ids[IDS];
    size_t n = ids_of(argv[4], ids);
    const char *wanted = "a number is expected";
    uint64_t m = number(argv[1], UINT64_MAX, wanted), l = number(argv[2], UINT64_MAX, wanted), a = number(argv[3], UINT64_MAX, wanted);
    size_t len = done(tarpudhriv_start(m, l, a, ids, n, table[0], sizeof table[0]));
    int at = 0;
    for (int k = 5; k < argc; k++, at = !at) {
        uint64_t slot, key;
        lookup_of(argv[k], &slot, &key);
        len = done(tarpudhriv_step(table[at], len, TARPUDHRIV_LOOKUP, slot, key, table[!at], sizeof table[!at]));
    }
    const char *settled = done(tarpudhriv_settled(table[at], len)) == 1 ? "settled\n" : "not settled\n";
    put(settled, strlen(settled));
    put(text, done(tarpudhriv_list(table[at], len, text, sizeof text)));
    return DONE;
}
