// The canonical text of the same bytes, again and again, by the library: loop_library FILE COUNT
#include <golly_canon.h>
#include <stdio.h>
#include <stdlib.h>

int main(int count, char **words) {
    static unsigned char file[1 << 16], text[1 << 16];
    FILE *source = count > 2 ? fopen(words[1], "rb") : NULL;
    size_t length = source ? fread(file, 1, sizeof file, source) : 0, needed, bytes = 0;
    uint64_t line;
    for (long turns = source ? atol(words[2]) : 0; turns; turns--) {
        if (golly_canon_canon(file, length, GOLLY_CANON_SQUARES, 0, text, sizeof text, &needed, &line) != GOLLY_CANON_OK) return 1;
        bytes += needed;
    }
    printf("%zu bytes\n", bytes);
    return !source;
}
