/* step ACTION X [Y]: reads a table file on standard input, makes one step, and writes the table file after it to standard output. A step that routed a
 * message says on standard error where the next hop came from. A refusal writes `refused N` there, and the status is 1. */
#include "tarpudhriv.h"
#include "words.h"

/* An action's name, its number, and how many words it has. */
static const struct action {
    const char *name;
    uint64_t number;
    int words;
} actions[] = {
    {"lookup", TARPUDHRIV_LOOKUP, 2},
    {"join", TARPUDHRIV_JOIN, 2},
    {"request-lease", TARPUDHRIV_REQUEST_LEASE, 1},
    {"lease-expired", TARPUDHRIV_LEASE_EXPIRED, 2},
    {"grant-expired", TARPUDHRIV_GRANT_EXPIRED, 2},
    {"take", TARPUDHRIV_TAKE, 1},
    {"deliver", TARPUDHRIV_DELIVER, 1},
    {"forward", TARPUDHRIV_FORWARD, 1},
    {"node-left", TARPUDHRIV_NODE_LEFT, 1},
    {"suspect-faulty", TARPUDHRIV_SUSPECT_FAULTY, 2},
    {"probe-time-out", TARPUDHRIV_PROBE_TIME_OUT, 2},
    {"declare-dead", TARPUDHRIV_DECLARE_DEAD, 2},
    {"ls-repair", TARPUDHRIV_LS_REPAIR, 1},
    {"resign-node", TARPUDHRIV_RESIGN_NODE, 2},
    {"recover", TARPUDHRIV_RECOVER, 1},
};

static const struct action *action_of(const char *name) {
    for (size_t k = 0; k < sizeof actions / sizeof *actions; k++)
        if (strcmp(name, actions[k].name) == 0) return &actions[k];
    misuse(name, "no action; it is lookup, join, request-lease, lease-expired, grant-expired, take, deliver, forward, node-left, "
                 "suspect-faulty, probe-time-out, declare-dead, ls-repair, resign-node or recover");
    return NULL;
}

int main(int argc, char **argv) {
    static uint8_t file[TARPUDHRIV_FILE + 1], out[TARPUDHRIV_FILE];
    if (argc < 2) misuse("step", "usage: step ACTION X [Y] <FILE >NEXT");
    const struct action *action = action_of(argv[1]);
    if (argc < 2 + action->words) misuse(argv[argc - 1], "after this a number is missing");
    if (argc > 2 + action->words) misuse(argv[2 + action->words], "nothing more is expected");
    uint64_t x = number(argv[2], UINT64_MAX, "a number is expected");
    uint64_t y = action->words > 1 ? number(argv[3], UINT64_MAX, "a number is expected") : 0;
    /* one byte more than the longest table file, so that a longer one is refused */
    size_t len = get(file, sizeof file);
    uint64_t word = tarpudhriv_step_via(file, len, action->number, x, y, out, sizeof out);
    if (tarpudhriv_number(word) != 0) {
        fprintf(stderr, "refused %u\n", tarpudhriv_number(word));
        return REFUSED;
    }
    if (tarpudhriv_via(word) != 0) fprintf(stderr, "by the %s\n", tarpudhriv_via(word) == 'l' ? "leaf set" : "routing set");
    put(out, tarpudhriv_count(word));
    return DONE;
}
