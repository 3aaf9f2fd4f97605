/* Loaded into a program before the C library (LD_PRELOAD), lets some of its calls of the system fail: those of the function that the variable
   CALL names (read, write, open, statx, close or getentropy), whose numbers, counted from 1, go from the variable FIRST to the variable LAST. They fail with
   the error of the number ERROR; where that is 0, a read or a write moves no byte and doesn't fail. A read or a write that isn't among them moves
   as many bytes as the variable PIECE says at most, or any number where that is 0. At the end it writes, into the file that the variable REPORT
   names, how many of these calls there were and how many of them failed. */
#define _GNU_SOURCE
#include <dlfcn.h>
#include <errno.h>
#include <fcntl.h>
#include <stdarg.h>
#include <stddef.h>
#include <stdio.h>
#include <stdlib.h>
#include <string.h>
#include <sys/stat.h>
#include <unistd.h>

/* What the C library does under this name. */
#define NEXT(name) \
    static __typeof__(name) *next; \
    if (!next) \
        next = (__typeof__(name) *)dlsym(RTLD_NEXT, #name)

static const char *call;
static unsigned long first, last, piece, calls, failed;
static int error, counting;

static unsigned long number_in(const char *name)
{
    const char *text = getenv(name);
    return text ? strtoul(text, NULL, 10) : 0;
}

__attribute__((constructor)) static void start(void)
{
    const char *name = getenv("CALL");
    call = name ? name : "";
    first = number_in("FIRST");
    last = number_in("LAST");
    piece = number_in("PIECE");
    error = (int)number_in("ERROR");
    counting = 1;
}

__attribute__((destructor)) static void end(void)
{
    const char *name = getenv("REPORT");
    FILE *report;
    counting = 0;
    report = name ? fopen(name, "w") : NULL;
    if (report) {
        fprintf(report, "%lu %lu\n", calls, failed);
        fclose(report);
    }
}

static int fails(const char *name)
{
    if (!counting || strcmp(name, call))
        return 0;
    calls++;
    if (calls < first || last < calls)
        return 0;
    failed++;
    errno = error;
    return 1;
}

/* How many bytes a call of this name moves at most. */
static size_t moved(const char *name, size_t size)
{
    return counting && piece && piece < size && !strcmp(name, call) ? piece : size;
}

ssize_t read(int file, void *bytes, size_t size)
{
    NEXT(read);
    return fails("read") ? (error ? -1 : 0) : next(file, bytes, moved("read", size));
}

ssize_t write(int file, const void *bytes, size_t size)
{
    NEXT(write);
    return fails("write") ? (error ? -1 : 0) : next(file, bytes, moved("write", size));
}

int open(const char *path, int flags, ...)
{
    mode_t mode = 0;
    NEXT(open);
    if (flags & (O_CREAT | O_TMPFILE)) {
        va_list rest;
        va_start(rest, flags);
        mode = va_arg(rest, mode_t);
        va_end(rest);
    }
    return fails("open") ? -1 : next(path, flags, mode);
}

int statx(int folder, const char *path, int flags, unsigned int mask, struct statx *found)
{
    NEXT(statx);
    return fails("statx") ? -1 : next(folder, path, flags, mask, found);
}

int close(int file)
{
    NEXT(close);
    return fails("close") ? -1 : next(file);
}

int getentropy(void *bytes, size_t size)
{
    NEXT(getentropy);
    return fails("getentropy") ? -1 : next(bytes, size);
}
