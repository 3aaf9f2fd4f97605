// The same by the plain program, which reads the bytes from memory, writes the text into memory, and begins each turn with an empty store of
// 64 slots, which is enough for a small pattern: loop_plain FILE COUNT
#define main plain_main
#include "plain.c"
#undef main

int main(int count, char **words) {
    static char file[1 << 16];
    FILE *source = count > 2 ? fopen(words[1], "rb") : NULL;
    size_t length = source ? fread(file, 1, sizeof file - 1, source) : 0, bytes = 0;
    file[length] = '\n';
    for (long turns = source ? atol(words[2]) : 0; turns; turns--) {
        char *input = malloc(length + 1);
        memcpy(input, file, length + 1);
        free(slots);
        free(nodes);
        nodes = NULL;
        node_count = node_room = 0;
        slot_count = 64;
        slots = calloc(slot_count, sizeof *slots);
        now = (struct pattern){"B3/S23", 0, 0, 0};
        is_named();
        if (length >= 4 && !memcmp(input, "[M2]", 4)) read_macrocell(input, length);
        else read_rle(input, length);
        free(input);
        trim();
        // as `write_canonical`, which leaves the text in `piece` where it is short
        out = piece;
        out += sprintf(out, "[M2] (canonical 1)\n#R %s\n", now.rule);
        if (now.generation) out += sprintf(out, "#G %llu\n", (unsigned long long)now.generation);
        numbers = calloc(node_count + 1, sizeof *numbers);
        numbered = 0;
        write_square(now.root, now.level);
        free(numbers);
        bytes += (size_t)(out - piece);
    }
    printf("%zu bytes\n", bytes);
    return !source;
}
