/* The canonical text of standard input: cc canon.c $(pkg-config --cflags --libs golly_canon) */
#include <golly_canon.h>
#include <stdio.h>
#include <sys/random.h>

int main(void)
{
    static unsigned char file[1 << 20], text[1 << 20], name[32];
    size_t length = fread(file, 1, sizeof file, stdin), needed;
    uint64_t line, seed;
    if (!feof(stdin))
        return fputs("the file can't be read, or has no end within 1 MB\n", stderr), 3;
    if (getentropy(&seed, sizeof seed)) /* so that no file can be made that takes long to read */
        return fputs("there is no random number\n", stderr), 3;
    uint32_t status = golly_canon_canon(file, length, GOLLY_CANON_SQUARES, seed, text, sizeof text, &needed, &line);
    if (status == GOLLY_CANON_OK)
        return fwrite(text, 1, needed, stdout) != needed || fflush(stdout) ? 3 : 0;
    golly_canon_status_name(status, name, sizeof name, &needed);
    if (line)
        fprintf(stderr, "line %llu: ", (unsigned long long)line);
    fprintf(stderr, "%.*s\n", (int)needed, (char *)name);
    return 2;
}
