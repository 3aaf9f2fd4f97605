/* Loaded into a program before the C library (LD_PRELOAD), refuses some of its requests for memory: those whose numbers, counted
   from 1, go from the variable FIRST to the variable LAST. At the end it writes, into the file that the variable REPORT names, how
   many requests there were, how many of them it refused, and how many blocks were not given back; and then, for each line that the
   program wrote to standard output, how many requests there were before the line was complete. */
#define _GNU_SOURCE
#include <dlfcn.h>
#include <errno.h>
#include <stddef.h>
#include <stdio.h>
#include <stdlib.h>
#include <unistd.h>

/* What the C library does under this name. */
#define NEXT(name) \
    static __typeof__(name) *next; \
    if (!next) \
        next = (__typeof__(name) *)dlsym(RTLD_NEXT, #name)

static unsigned long first, last, requests, refused;
static long held;
static int counting;

/* The requests before each line. Further lines are not counted. */
#define MOST_LINES 10000
static unsigned long at_line[MOST_LINES];
static size_t lines;

static unsigned long number_in(const char *name)
{
    const char *text = getenv(name);
    return text ? strtoul(text, NULL, 10) : 0;
}

__attribute__((constructor)) static void start(void)
{
    first = number_in("FIRST");
    last = number_in("LAST");
    counting = 1;
}

__attribute__((destructor)) static void end(void)
{
    const char *name = getenv("REPORT");
    FILE *report;
    counting = 0;
    report = name ? fopen(name, "w") : NULL;
    if (report) {
        fprintf(report, "%lu %lu %ld", requests, refused, held);
        for (size_t line = 0; line < lines; line++)
            fprintf(report, " %lu", at_line[line]);
        fputc('\n', report);
        fclose(report);
    }
}

static int is_refused(void)
{
    if (!counting)
        return 0;
    requests++;
    if (requests < first || last < requests)
        return 0;
    refused++;
    errno = ENOMEM;
    return 1;
}

/* Counts a block that was handed out. */
static void *handed_out(void *block)
{
    held += counting && block;
    return block;
}

void *malloc(size_t size)
{
    NEXT(malloc);
    return is_refused() ? NULL : handed_out(next(size));
}

void *calloc(size_t count, size_t size)
{
    NEXT(calloc);
    return is_refused() ? NULL : handed_out(next(count, size));
}

void *realloc(void *old, size_t size)
{
    NEXT(realloc);
    if (is_refused())
        return NULL;
    if (!old)
        return handed_out(next(old, size));
    held -= counting && !size;
    return next(old, size);
}

void *aligned_alloc(size_t alignment, size_t size)
{
    NEXT(aligned_alloc);
    return is_refused() ? NULL : handed_out(next(alignment, size));
}

int posix_memalign(void **block, size_t alignment, size_t size)
{
    NEXT(posix_memalign);
    int status = is_refused() ? ENOMEM : next(block, alignment, size);
    held += counting && status == 0;
    return status;
}

void free(void *block)
{
    NEXT(free);
    held -= counting && block;
    next(block);
}

ssize_t write(int file, const void *bytes, size_t size)
{
    NEXT(write);
    for (size_t at = 0; counting && file == 1 && at < size; at++)
        if (((const char *)bytes)[at] == '\n' && lines < MOST_LINES)
            at_line[lines++] = requests;
    return next(file, bytes, size);
}
