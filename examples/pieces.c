/* The canonical text of standard input, whatever its length: cc pieces.c $(pkg-config --cflags --libs golly_canon) */
#include <golly_canon.h>
#include <stdio.h>
#include <stdlib.h>
#include <sys/random.h>

int main(void)
{
    static unsigned char piece[1 << 16], name[32];
    unsigned char *text = NULL;
    golly_canon_stream stream = {0};
    size_t length, needed;
    uint64_t line = 0, seed;
    if (getentropy(&seed, sizeof seed)) /* so that no file can be made that takes long to read */
        return fputs("there is no random number\n", stderr), 3;
    uint32_t status = golly_canon_open_canon(&stream, GOLLY_CANON_SQUARES, seed);
    while (status == GOLLY_CANON_OK && (length = fread(piece, 1, sizeof piece, stdin)) > 0)
        status = golly_canon_feed(&stream, piece, length, &line);
    if (ferror(stdin))
        return fputs("the file can't be read\n", stderr), 3;
    if (status == GOLLY_CANON_OK)
        status = golly_canon_finish(&stream, piece, 0, &needed, &line);
    if (status == GOLLY_CANON_NO_ROOM) /* with as many bytes as the text needs */
        status = (text = calloc(needed, 1)) ? golly_canon_finish(&stream, text, needed, &needed, &line) : GOLLY_CANON_MEMORY;
    golly_canon_close(&stream);
    if (status == GOLLY_CANON_OK)
        return fwrite(text, 1, needed, stdout) != needed || fflush(stdout) ? 3 : 0;
    golly_canon_status_name(status, name, sizeof name, &needed);
    if (line)
        fprintf(stderr, "line %llu: ", (unsigned long long)line);
    fprintf(stderr, "%.*s\n", (int)needed, (char *)name);
    return 2;
}
