/* Does by the library what the program golly_canon does with the same words, to compare the two: it writes the same bytes, and ends with the
   same status. The memory for a text is a byte at first, so that each text is asked for again.
   calls canon FILE | show FILE | rle FILE | step FILE [TABLE] | same A B
   calls moved FILE | turned FILE | phases FILE | same_moved A B | same_turned A B | same_phases A B: the canonical text in a form, and the comparison.
   For phases the period is sought up to 12 generations.
   calls key FILE | key_moved FILE | key_turned FILE | key_phases FILE: the 32 bytes of the key
   calls pieces N canon FILE | show FILE | rle FILE | step FILE | moved FILE | turned FILE | phases FILE: by a stream, which is fed N bytes at a time.
   Nothing is held at the end then, also where memory is refused.
   calls pieces N keys FILE | keys_moved FILE | keys_turned FILE | keys_phases FILE: the same for the key, in the line that `keys` of the program writes;
   and if there is none, the line that says why, with its sentence. */
#include <golly_canon.h>
#include <stdio.h>
#include <stdlib.h>
#include <string.h>

struct bytes {
    unsigned char *at;
    size_t length;
};

/* The status that the program ends with where memory is refused, which it is to this caller too. */
static void no_memory(void)
{
    fputs("Memory\n", stderr);
    exit(4);
}

static unsigned char *room_for(size_t length)
{
    unsigned char *at = calloc(length + 1, 1);
    if (!at)
        no_memory();
    return at;
}

static struct bytes file_of(const char *name)
{
    struct bytes file = {room_for(0), 0};
    FILE *source = fopen(name, "rb");
    unsigned char piece[4096];
    size_t count;
    if (!source)
        no_memory();
    setvbuf(source, NULL, _IONBF, 0);
    while ((count = fread(piece, 1, sizeof piece, source)) > 0) {
        unsigned char *longer = realloc(file.at, file.length + count);
        if (!longer)
            no_memory();
        memcpy(longer + file.length, piece, count);
        file.at = longer;
        file.length += count;
    }
    fclose(source);
    return file;
}

static int refused(uint32_t status, uint64_t line, int in_table)
{
    unsigned char name[32] = {0};
    size_t needed;
    if (golly_canon_status_name(status, name, sizeof name, &needed) != GOLLY_CANON_OK)
        return 99;
    if (line)
        fprintf(stderr, "%sline %llu: ", in_table || status == GOLLY_CANON_AMBIGUOUS ? "table " : "", (unsigned long long)line);
    fprintf(stderr, "%.*s\n", (int)needed, (const char *)name);
    return status == GOLLY_CANON_FULL || status == GOLLY_CANON_MEMORY ? 4 : 2;
}

/* The same as `keys` of the program says it: with the name of the file before it, and the sentence of the fault after it. */
static int refused_file(const char *file, uint32_t status, uint64_t line)
{
    unsigned char name[32] = {0}, sentence[256] = {0};
    size_t needed;
    if (golly_canon_status_name(status, name, sizeof name - 1, &needed) != GOLLY_CANON_OK
        || golly_canon_sentence(status, sentence, sizeof sentence - 1, &needed) != GOLLY_CANON_OK)
        return 99;
    fprintf(stderr, "%s: ", file);
    if (line)
        fprintf(stderr, "line %llu: ", (unsigned long long)line);
    fprintf(stderr, "%s: %s\n", (const char *)name, (const char *)sentence);
    return status == GOLLY_CANON_FULL || status == GOLLY_CANON_MEMORY ? 4 : 2;
}

/* A seed, on which no answer depends, so that each line has another. */
#define SEED (0x9e3779b97f4a7c15u * __LINE__)

typedef uint32_t text_call(const unsigned char *, size_t, uint64_t, uint64_t, unsigned char *, size_t, size_t *, uint64_t *);

/* The calls in a form, with the arguments of the others. */
#define IN_FORM(name, call, form) \
    static uint32_t name(const unsigned char *bytes, size_t length, uint64_t limit, uint64_t seed, \
                         unsigned char *out, size_t room, size_t *needed, uint64_t *line) \
    { \
        return call(bytes, length, form, limit, seed, out, room, needed, line); \
    }
IN_FORM(moved, golly_canon_canon_form, GOLLY_CANON_MOVED)
IN_FORM(turned, golly_canon_canon_form, GOLLY_CANON_TURNED)
IN_FORM(phases, golly_canon_canon_form, GOLLY_CANON_PHASES(12))
IN_FORM(key, golly_canon_key, GOLLY_CANON_PLACED)
IN_FORM(key_moved, golly_canon_key, GOLLY_CANON_MOVED)
IN_FORM(key_turned, golly_canon_key, GOLLY_CANON_TURNED)
IN_FORM(key_phases, golly_canon_key, GOLLY_CANON_PHASES(12))
/* And twelve generations, which are two leaps. */
IN_FORM(later, golly_canon_step_generations, 12)

static text_call *call_of(const char *word)
{
    static const struct {
        const char *word;
        text_call *call;
    } all[] = {{"canon", golly_canon_canon}, {"show", golly_canon_show}, {"rle", golly_canon_to_rle}, {"step", golly_canon_step},
               {"later", later}, {"moved", moved}, {"turned", turned}, {"phases", phases}, {"key", key}, {"key_moved", key_moved}, {"key_turned", key_turned},
               {"key_phases", key_phases}};
    size_t i;
    for (i = 0; i < sizeof all / sizeof *all; i++)
        if (!strcmp(all[i].word, word))
            return all[i].call;
    exit(5);
}

static int text(const char *word, struct bytes file, const struct bytes *table)
{
    text_call *call = call_of(word);
    struct bytes answer = {room_for(1), 1};
    size_t needed = 12345;
    uint64_t line = 12345;
    uint32_t in_table = 0, status;
    for (;;) {
        if (table)
            status = golly_canon_step_by_table(file.at, file.length, table->at, table->length, GOLLY_CANON_SQUARES, SEED, answer.at, answer.length,
                                               &needed, &line, &in_table);
        else
            status = call(file.at, file.length, GOLLY_CANON_SQUARES, SEED, answer.at, answer.length, &needed, &line);
        if (status != GOLLY_CANON_NO_ROOM)
            break;
        free(answer.at);
        answer.at = room_for(needed);
        answer.length = needed;
    }
    if (status == GOLLY_CANON_OK)
        fwrite(answer.at, 1, needed, stdout);
    free(answer.at);
    return status == GOLLY_CANON_OK ? 0 : refused(status, line, (int)in_table);
}

static int same(const char *word, struct bytes first, struct bytes second)
{
    uint32_t form = !strcmp(word, "same_moved")  ? (uint32_t)GOLLY_CANON_MOVED
                  : !strcmp(word, "same_turned") ? (uint32_t)GOLLY_CANON_TURNED
                                                 : GOLLY_CANON_PHASES(12);
    uint32_t is_same = 12345, status;
    uint64_t line;
    if (!strcmp(word, "same"))
        status = golly_canon_same(first.at, first.length, second.at, second.length, GOLLY_CANON_SQUARES, SEED, &is_same, &line);
    else
        status = golly_canon_same_form(first.at, first.length, second.at, second.length, form, GOLLY_CANON_SQUARES, SEED, &is_same, &line);
    if (status != GOLLY_CANON_OK)
        return refused(status, line, 0);
    fputs(is_same ? "same\n" : "different\n", stdout);
    return is_same ? 0 : 1;
}

typedef uint32_t open_call(golly_canon_stream *, uint64_t, uint64_t);

/* The fault that a stream has told, if each further call tells it too, and else no status. */
static uint32_t told(golly_canon_stream *stream, uint32_t status, uint64_t line)
{
    unsigned char byte = '!';
    uint64_t at = 12345;
    size_t needed = 12345;
    int stays = golly_canon_feed(stream, &byte, 1, &at) == status && at == line;
    stays = stays && golly_canon_finish(stream, &byte, 1, &needed, &at) == status && at == line && needed == 0;
    stays = stays && golly_canon_finish_key(stream, &byte, 1, &needed, &at) == status && at == line && needed == 0;
    return stays ? status : 99;
}

/* Feeds a file to a stream, piece by piece, behind an empty one. */
static uint32_t feed(golly_canon_stream *stream, FILE *source, unsigned char *piece, size_t size, uint64_t *line)
{
    size_t count;
    uint32_t status = golly_canon_feed(stream, piece, 0, line);
    while (status == GOLLY_CANON_OK && (count = fread(piece, 1, size, source)) > 0)
        status = golly_canon_feed(stream, piece, count, line);
    return status == GOLLY_CANON_OK ? status : told(stream, status, *line);
}

typedef uint32_t finish_call(golly_canon_stream *, unsigned char *, size_t, size_t *, uint64_t *);

/* Asks a stream for its text or its key, with no more room than it needs. The caller frees the answer. */
static uint32_t finish(finish_call *call, golly_canon_stream *stream, struct bytes *answer, uint64_t *line)
{
    unsigned char none = 0;
    uint32_t status = call(stream, &none, 1, &answer->length, line);
    if (status != GOLLY_CANON_NO_ROOM)
        return status == GOLLY_CANON_OK ? status : told(stream, status, *line);
    answer->at = calloc(answer->length, 1);
    return answer->at ? call(stream, answer->at, answer->length, &answer->length, line) : GOLLY_CANON_MEMORY;
}

static uint32_t open_moved(golly_canon_stream *stream, uint64_t limit, uint64_t seed)
{
    return golly_canon_open_canon_form(stream, GOLLY_CANON_MOVED, limit, seed);
}

static uint32_t open_turned(golly_canon_stream *stream, uint64_t limit, uint64_t seed)
{
    return golly_canon_open_canon_form(stream, GOLLY_CANON_TURNED, limit, seed);
}

static uint32_t open_phases(golly_canon_stream *stream, uint64_t limit, uint64_t seed)
{
    return golly_canon_open_canon_form(stream, GOLLY_CANON_PHASES(12), limit, seed);
}

static uint32_t open_later(golly_canon_stream *stream, uint64_t limit, uint64_t seed)
{
    return golly_canon_open_step_generations(stream, 12, limit, seed);
}

static int stream(const char *word, const char *name, size_t size)
{
    static char in[1 << 16];
    int is_key = !strncmp(word, "keys", 4);
    open_call *open = !strcmp(word, "canon") || !strcmp(word, "keys") ? golly_canon_open_canon
        : !strcmp(word, "show")                                      ? golly_canon_open_show
        : !strcmp(word, "rle")                                       ? golly_canon_open_to_rle
        : !strcmp(word, "later")                                     ? open_later
        : !strcmp(word, "moved") || !strcmp(word, "keys_moved")      ? open_moved
        : !strcmp(word, "turned") || !strcmp(word, "keys_turned")    ? open_turned
        : !strcmp(word, "phases") || !strcmp(word, "keys_phases")    ? open_phases
                                                                     : golly_canon_open_step;
    golly_canon_stream stream = {0};
    struct bytes answer = {NULL, 12345};
    unsigned char *piece = calloc(size, 1);
    FILE *source = fopen(name, "rb");
    uint64_t line = 0;
    uint32_t status = piece && source ? open(&stream, GOLLY_CANON_SQUARES, SEED) : GOLLY_CANON_MEMORY;
    if (source)
        setvbuf(source, in, _IOFBF, sizeof in);
    if (status == GOLLY_CANON_OK)
        status = feed(&stream, source, piece, size, &line);
    if (status == GOLLY_CANON_OK)
        status = finish(is_key ? golly_canon_finish_key : golly_canon_finish, &stream, &answer, &line);
    golly_canon_close(&stream);
    if (status == GOLLY_CANON_OK)
        fwrite(answer.at, 1, answer.length, stdout);
    if (status == GOLLY_CANON_OK && is_key)
        printf("  %s\n", name);
    if (source)
        fclose(source);
    free(piece);
    free(answer.at);
    return status == GOLLY_CANON_OK ? 0 : is_key ? refused_file(name, status, line) : refused(status, line, 0);
}

int main(int count, char **words)
{
    static char out[1 << 16];
    struct bytes first, second = {NULL, 0};
    int status;
    if (count < 3)
        return 5;
    setvbuf(stdout, out, _IOFBF, sizeof out);
    if (!strcmp(words[1], "pieces"))
        return count == 5 ? stream(words[3], words[4], strtoul(words[2], NULL, 10)) : 5;
    first = file_of(words[2]);
    if (count > 3)
        second = file_of(words[3]);
    if (!strncmp(words[1], "same", 4) && count > 3)
        status = same(words[1], first, second);
    else
        status = text(words[1], first, count > 3 ? &second : NULL);
    free(first.at);
    free(second.at);
    return status;
}
