/* room: reads a table file on standard input, and asks for it back with one byte too few of room, and with just enough. */
#include "tarpudhriv.h"
#include "words.h"

int main(int argc, char **argv) {
    static uint8_t file[TARPUDHRIV_FILE + 1], out[TARPUDHRIV_FILE + 1];
    if (argc > 1) misuse(argv[1], "nothing is expected; usage: room <FILE");
    size_t len = get(file, sizeof file);
    for (size_t room = len > 0 ? len - 1 : 0; room <= len; room++) {
        char text[80];
        uint64_t word = tarpudhriv_load(file, len, out, room);
        put(text, (size_t)snprintf(text, sizeof text, "room %zu: number %u, count %u\n", room, tarpudhriv_number(word), tarpudhriv_count(word)));
    }
    return DONE;
}
