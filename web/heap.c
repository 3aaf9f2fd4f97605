/* The heap of the WebAssembly module: Doug Lea's malloc over the module's memory, and the three calls by which the library asks for memory. */

typedef __SIZE_TYPE__ size_t;
typedef __PTRDIFF_TYPE__ ptrdiff_t;

/* How malloc.c is compiled: there is no C library and no mmap, the memory never shrinks, and there is one thread. */
#define LACKS_ERRNO_H 1
#define LACKS_FCNTL_H 1
#define LACKS_STDLIB_H 1
#define LACKS_STRINGS_H 1
#define LACKS_STRING_H 1
#define LACKS_SYS_MMAN_H 1
#define LACKS_SYS_PARAM_H 1
#define LACKS_SYS_TYPES_H 1
#define LACKS_TIME_H 1
#define LACKS_UNISTD_H 1
#define ABORT __builtin_trap()
#define EINVAL 22
#define ENOMEM 12
#define DEFAULT_GRANULARITY ((size_t)1 << 20)
#define HAVE_MMAP 0
#define MALLOC_ALIGNMENT ((size_t)16)
#define MALLOC_FAILURE_ACTION
#define MORECORE more_memory
#define MORECORE_CANNOT_TRIM 1
#define NO_MALLINFO 1
#define NO_MALLOC_STATS 1
#define malloc_getpagesize ((size_t)65536)

#define memcpy __builtin_memcpy
#define memset __builtin_memset

extern unsigned char __heap_base;

/* The most memory, in pages. The module has addresses of 32 bits (scripts/page), and its stack ends at address 0. So as many pages are left out as the
   stack has: a stack that overflows then reaches addresses where there is no memory, which traps. */
#define MOST_PAGES ((size_t)65536 - 16)

/* Returns the end of the memory so far and moves it up by so many bytes, as sbrk does. It fails where the memory can't grow. */
static void *more_memory(ptrdiff_t size)
{
    static size_t end;
    size_t pages = __builtin_wasm_memory_size(0), left;
    if (!end)
        end = ((size_t)&__heap_base + 15) & ~(size_t)15;
    if (size < 0)
        return (void *)-1;
    left = pages * malloc_getpagesize - end;
    if ((size_t)size > left) {
        size_t more = ((size_t)size - left + malloc_getpagesize - 1) / malloc_getpagesize;
        if (pages + more > MOST_PAGES)
            return (void *)-1;
        /* The new size says whether the memory grew. What the call returns has 32 bits, so that a failure isn't the -1 of 64 bits. */
        (void)__builtin_wasm_memory_grow(0, more);
        if (__builtin_wasm_memory_size(0) != pages + more)
            return (void *)-1;
    }
    end += (size_t)size;
    return (void *)(end - (size_t)size);
}

#include "malloc.c"

/* Whether there is memory, and where. A block of no bytes has the length that is given beside it. */
struct block {
    size_t is_there;
    void *at;
};

static unsigned char nowhere[16];

static struct block of(void *at)
{
    return at ? (struct block){1, at} : (struct block){0, nowhere};
}

struct block rattle_alloc(size_t size, size_t least)
{
    return of(malloc(size ? size : least));
}

struct block rattle_realloc(void *at, size_t kept, size_t size, size_t least)
{
    (void)kept;
    return of(realloc(at, size ? size : least));
}

void rattle_dealloc(void *at)
{
    free(at);
}
