/* golly_canon: one canonical text for a cellular-automaton pattern, as calls of a library.
 *
 * This file is for whoever calls the library from C, or from a language that can call C. It says what each call does and returns, and what you, the
 * caller, guarantee. docs/LIBRARY.md of the project has whole programs.
 *
 * A file is bytes in extended RLE or in macrocell. A call reads the bytes that it is given, returns a status, and stores nothing. Only a stream stores
 * something: what has been read of its file so far. The calls share no other state, so threads may call at the same time, each on memory and streams of its
 * own. No call prints, opens a file or ends the process. What the calls return is proved for any bytes (docs/PROOFS.md of the project says what). The proof
 * assumes what this file says under "The caller guarantees". This call gives the canonical text of a file of `length` bytes:
 *
 *     static unsigned char text[4096];
 *     size_t needed;
 *     uint64_t line, seed = 0;
 *     uint32_t status = golly_canon_canon(bytes, length, GOLLY_CANON_SQUARES, seed, text, sizeof text, &needed, &line);
 *
 * Each call that gives bytes writes them into `room` bytes of memory at `out`, and their number into `*needed`:
 *
 *     GOLLY_CANON_OK        the text is in the first `*needed` bytes at `out`. No 0 byte follows it: the bytes after it are untouched.
 *     GOLLY_CANON_NO_ROOM   the text has `*needed` bytes, which are more than `room`. Nothing was written at `out`: call again with more memory.
 *     any other status      the number of a kind of fault, or GOLLY_CANON_NO_FORM. Nothing was written at `out`, and `*needed` is 0. `*line` is the
 *                           number of the line that the file is refused at, counted from 1, or 0 if the fault is on no line.
 *
 * If the status is OK or NO_ROOM, `*line` is 0. With a `room` of 0 a call returns only the length of its text. To get the text, call again: the call reads the
 * file again, but a stream doesn't. Give a call the whole file, and not a compressed one. A part of a file can be a pattern too, so a file that was cut short
 * may be accepted.
 *
 * The caller guarantees, in each call:
 *
 *  - A pointer to bytes points to as many bytes as the number after it says. A pointer to a number points to a number of that type, with the alignment of
 *    the type. No pointer of any call may be NULL or dangle, with one exception: if the number of bytes is 0, the call doesn't use the address of
 *    the bytes. Then it can be NULL (as data() of an empty vector in C++ may be) or dangle (as the address of an empty slice in Rust may). The tests of the
 *    project pass NULL in this case; the proof speaks of addresses that aren't NULL.
 *  - No number of bytes is more than PTRDIFF_MAX.
 *  - You have initialised all memory that a call reads. You have also initialised the memory at `out` (once, for example with calloc or memset), because it is
 *    proved that the bytes after a text keep their values, and memory that was never written has no values in C.
 *  - The memory that a call writes (`out`, `needed`, `line`, `is_same`, `in_table`, `stream`) overlaps no other memory that it is handed.
 *  - Until the call returns, no other thread writes what it reads, or touches what it writes.
 *  - malloc, realloc and free belong to one allocator. If a power of two up to 16 divides the size of a block, it also divides the address of the block.
 *  - No call is made from a signal handler, or from the child that a process with threads has forked.
 *  - There is enough stack: calls go down the levels of the plane by recursion, 62 at most. In the tests 64 KB are enough; that isn't proved.
 */
#ifndef GOLLY_CANON_H
#define GOLLY_CANON_H

#include <stddef.h>
#include <stdint.h>

#ifdef __cplusplus
extern "C" {
#endif

/* The limit of the store of the program `golly_canon`. */
#define GOLLY_CANON_SQUARES ((uint64_t)1 << 31)

/* What a call returns. The numbers stay as they are from version to version. */
enum {
    GOLLY_CANON_OK = 0,

    /* a file in RLE or macrocell */
    GOLLY_CANON_NO_HEADER = 1,
    GOLLY_CANON_BAD_HEADER = 2,
    GOLLY_CANON_BAD_RULE = 3,
    GOLLY_CANON_BOUNDED_GRID = 4,
    GOLLY_CANON_UNSUPPORTED_RULE = 5,
    GOLLY_CANON_BIRTH_ON_ZERO = 6,
    GOLLY_CANON_BAD_NUMBER = 7,
    GOLLY_CANON_TOO_LARGE = 8,
    GOLLY_CANON_BAD_ITEM = 9,
    GOLLY_CANON_ZERO_COUNT = 10,
    GOLLY_CANON_STATE_RANGE = 11,
    GOLLY_CANON_OUT_OF_PLANE = 12,
    GOLLY_CANON_LATE_HEADER = 13,
    GOLLY_CANON_SECOND_HEADER = 14,
    GOLLY_CANON_BAD_NODE = 15,
    GOLLY_CANON_BAD_LEVEL = 16,
    GOLLY_CANON_BAD_CHILD = 17,
    GOLLY_CANON_BAD_LEAF = 18,
    GOLLY_CANON_TIMELINE = 19,
    GOLLY_CANON_LINE_TOO_LONG = 20,

    /* a store, and memory */
    GOLLY_CANON_FULL = 21,
    GOLLY_CANON_MEMORY = 22,

    /* a call on a closed stream, or golly_canon_feed on a stream that has given its text or its key */
    GOLLY_CANON_SPENT = 23,

    /* a rule table */
    GOLLY_CANON_NO_RULE_LINE = 31,
    GOLLY_CANON_NO_TABLE = 32,
    GOLLY_CANON_BAD_DESCRIPTOR = 33,
    GOLLY_CANON_UNSUPPORTED_NEIGHBORHOOD = 34,
    GOLLY_CANON_UNSUPPORTED_SYMMETRY = 35,
    GOLLY_CANON_BAD_VARIABLE = 36,
    GOLLY_CANON_BAD_TRANSITION = 37,
    GOLLY_CANON_UNBOUND_OUTPUT = 38,
    GOLLY_CANON_NOT_QUIET = 39,

    /* a step */
    GOLLY_CANON_RULE_MISMATCH = 41,
    GOLLY_CANON_NEEDS_TABLE = 42,
    GOLLY_CANON_AMBIGUOUS = 43,
    GOLLY_CANON_TOO_MANY_CELLS = 44,
    GOLLY_CANON_GENERATION_TOO_LARGE = 45,
    GOLLY_CANON_STATE_BEYOND_TABLE = 46,

    /* the text has more bytes than fit */
    GOLLY_CANON_NO_ROOM = 64,

    /* the number isn't that of a form of a pattern */
    GOLLY_CANON_NO_FORM = 65
};

/* The forms of a pattern, for the calls with a `form`. Each of these three has the pattern's rule and generation, even if the rule distinguishes directions.
 * For any number that is neither here nor below, a call returns GOLLY_CANON_NO_FORM. */
enum {
    GOLLY_CANON_PLACED = 0, /* the pattern as it lies */
    GOLLY_CANON_MOVED = 1,  /* with its bounding box at (0, 0); if its columns would then leave the plane, they end at its edge, and the same for rows */
    GOLLY_CANON_TURNED = 2  /* the one whose canonical text is least, byte by byte, of the eight turned and reflected patterns, each moved */
};

/* The form GOLLY_CANON_PHASES(most), for a number `most` from 0 to 2^31 - 1: all phases of an oscillator or a spaceship, in all orientations and places, have
 * one text in it. If the pattern has a period of up to `most` generations under its B/S rule, the text is the least, byte by byte, of the texts of its phases
 * in the form turned. (A still life has period 1, and so one phase.) Otherwise the text is that of the pattern itself in the form turned: if it has no such
 * period, if its rule is a name, and always if `most` is 0. In both cases the generation is left out: it is 0 in the text. For example, with
 * GOLLY_CANON_PHASES(4) all gliders have one text.
 *
 * To find the period, the call makes one generation after another, up to `most`, beginning with the pattern in the middle of the plane. If a cell outside the
 * plane isn't 0 in one of them, before the period is found, the call returns OutOfPlane, with 0 in `*line`. Take a `most` that is no greater than you need: for
 * a pattern without a period the call makes that many generations, and each of them may take long. */
#define GOLLY_CANON_PHASES(most) (((uint32_t)1 << 31) | (uint32_t)(most))

/* `limit`, of each call: how many different squares the store of the call may hold, including those that it makes on the way to the answer. Squares in which
 * each cell is 0 don't count. The forms other than placed are made in further stores, and many generations and GOLLY_CANON_PHASES use up to three stores at a
 * time. Each of these has this limit too. Two things are proved of the limit:
 *
 *  - A call returns Full only if it needs more different squares than the limit. In the forms moved and turned the limit is 2^21, if yours is more. (This isn't
 *    proved of golly_canon_step_generations, because HashLife also stores squares that the answer doesn't need, and of GOLLY_CANON_PHASES.)
 *  - A call gives a text, a key or a comparison only if the squares that are needed to read the files aren't more than the limit.
 *
 * So a call on files in which each cell is 0 never returns Full.
 *
 * A limit of `14 * length + 264` suffices to read a file. For two files take the sum of both; for a stream `length` is the number of all bytes that are fed.
 * That is proved too: with this limit, canon, to_rle, show, same, and the calls with the form placed, never return Full. No such number is known for the next
 * generation, which needs further squares, and for the other forms. A limit above 2^62 counts as 2^62; but beyond some 2^32 squares the answer is Memory,
 * whatever the limit. As measured, a square takes 32 to 39 bytes of the store, or less if it has at most 4 x 4 cells of the states 0 and 1.
 *
 * `seed`, of each call: a number from which the call chooses the hash functions of its tables of squares and of names in a rule table. What a call returns
 * never depends on it. If the files are untrusted input, give a random number (from getentropy, arc4random_buf or Python's secrets.randbits(64)) that their
 * authors can't know, one for each call or one for the whole program. Otherwise somebody who knows the number can make a file whose squares collide, and
 * reading that file takes quadratic time: some ten seconds for 2 MB. Everybody can guess 0, so use it only for files that you trust. */

/* The canonical text of the pattern of a file. Two files have the same text exactly if they are the same pattern.
 * The caller guarantees: `length` bytes to read at `bytes`; `room` bytes to write at `out`, which were written before; `*needed` and `*line` to write. No two
 * of these overlap. NULL is allowed for neither `needed` nor `line`. */
uint32_t golly_canon_canon(const unsigned char *bytes, size_t length, uint64_t limit, uint64_t seed,
                           unsigned char *out, size_t room, size_t *needed, uint64_t *line);

/* The pattern of a file in extended RLE; TooManyCells if more than 2^20 cells aren't 0.
 * The caller guarantees what golly_canon_canon names: `out` was written before, and neither `needed` nor `line` is NULL. */
uint32_t golly_canon_to_rle(const unsigned char *bytes, size_t length, uint64_t limit, uint64_t seed,
                            unsigned char *out, size_t room, size_t *needed, uint64_t *line);

/* Five lines on the pattern of a file: `rule R`, `generation G`, `population P`, `box X Y W H` (or `box none`) and `nodes N`, the number of squares that have a
 * line in the canonical text. Each line ends with a line feed; docs/FORMATS.md of the project says what R, G, P, X, Y, W and H are.
 * The caller guarantees what golly_canon_canon names: `out` was written before, and neither `needed` nor `line` is NULL. */
uint32_t golly_canon_show(const unsigned char *bytes, size_t length, uint64_t limit, uint64_t seed,
                          unsigned char *out, size_t room, size_t *needed, uint64_t *line);

/* The canonical text of the next generation of the pattern of a file, under its B/S rule; NeedsTable if the rule is a name, TooManyCells if more than 2^20
 * cells aren't 0 (docs/FORMATS.md of the project has every refusal of a step, and their order).
 * The caller guarantees what golly_canon_canon names: `out` was written before, and neither `needed` nor `line` is NULL. */
uint32_t golly_canon_step(const unsigned char *bytes, size_t length, uint64_t limit, uint64_t seed,
                          unsigned char *out, size_t room, size_t *needed, uint64_t *line);

/* The canonical text of the pattern of a file `generations` generations later, under its B/S rule, for any number of cells; of 0 generations it is the
 * canonical text, whatever the rule is. NeedsTable if the rule is a name; GenerationTooLarge if the generation would be above 2^64 - 1; OutOfPlane if in one of
 * the generations on the way a cell outside the plane isn't 0. A small file can be a machine that runs for ever, so no length of a file bounds the time and the
 * squares that this takes: `limit` bounds the squares, and with them the memory (Full). If the text doesn't fit, the next call works it out again; a stream
 * (golly_canon_open_step_generations) works it out once.
 * The caller guarantees what golly_canon_canon names: `out` was written before, and neither `needed` nor `line` is NULL. */
uint32_t golly_canon_step_generations(const unsigned char *bytes, size_t length, uint64_t generations, uint64_t limit, uint64_t seed,
                                      unsigned char *out, size_t room, size_t *needed, uint64_t *line);

/* The same as golly_canon_step for a pattern whose rule is a name, by the rule table of that name: `table` is a .rule file. Under any other rule, a B/S rule
 * too, the call returns RuleMismatch. It makes one generation; for more, call it again on its text. `*in_table` is 1 if the table is refused; then `*line` is a
 * line of the table. Otherwise `*in_table` is 0. With the status Ambiguous the table was accepted, so `*in_table` is 0, but `*line` is the line of the table
 * that gives two states.
 * The caller guarantees what golly_canon_canon names; `table_length` bytes to read at `table`, which overlap nothing that is written; `*in_table` to write,
 * which overlaps nothing else. `out` was written before, and none of `needed`, `line` and `in_table` is NULL. */
uint32_t golly_canon_step_by_table(const unsigned char *bytes, size_t length,
                                   const unsigned char *table, size_t table_length, uint64_t limit, uint64_t seed,
                                   unsigned char *out, size_t room, size_t *needed, uint64_t *line,
                                   uint32_t *in_table);

/* Whether two files are the same pattern: `*is_same` is 1 or 0, and 0 if the status isn't GOLLY_CANON_OK. The fault is that of the first file if that is
 * refused, and otherwise that of the second one.
 * The caller guarantees: `first_length` bytes to read at `first`, and `second_length` at `second`, which may be the same memory; `*is_same` and `*line` to
 * write, which overlap neither each other nor the files. NULL is allowed for neither `is_same` nor `line`. */
uint32_t golly_canon_same(const unsigned char *first, size_t first_length,
                          const unsigned char *second, size_t second_length, uint64_t limit, uint64_t seed,
                          uint32_t *is_same, uint64_t *line);

/* The canonical text of the pattern of a file in a form. Two files have the same text exactly if they have the same rule and generation, and the cells of one
 * are those of the other: as they lie (placed: the text of golly_canon_canon), shifted (moved), or turned or reflected and then shifted (turned). In the form
 * GOLLY_CANON_PHASES(most) they have the same text exactly if they have the same rule, and the cells of one, turned or reflected and then shifted, are those of
 * the other, or of a phase of the other if that has a period of up to `most` generations. The moved pattern is made in a second store of squares. For the form
 * turned there are up to four such stores, one after the other, and for GOLLY_CANON_PHASES as many for each phase. Each of them may hold as many squares as the
 * limit says, and at most 2^21. If one of them is too small, the call returns Full; so it does if one of the stores in which GOLLY_CANON_PHASES makes
 * generations reaches the limit. If the text doesn't fit, the next call works it out again; a stream (golly_canon_open_canon_form) works it out once. For a
 * number of no form the call returns NoForm, with 0 in `*needed` and `*line`.
 * The caller guarantees what golly_canon_canon names: `out` was written before, and neither `needed` nor `line` is NULL. */
uint32_t golly_canon_canon_form(const unsigned char *bytes, size_t length, uint32_t form, uint64_t limit, uint64_t seed,
                                unsigned char *out, size_t room, size_t *needed, uint64_t *line);

/* The key of the pattern of a file in a form: the SHA-256 of the text that golly_canon_canon_form gives. It has 32 bytes, which aren't text. The call returns
 * the same faults as golly_canon_canon_form, and NoRoom if `room` is less than 32.
 * The caller guarantees what golly_canon_canon names: `out` was written before, and neither `needed` nor `line` is NULL. */
uint32_t golly_canon_key(const unsigned char *bytes, size_t length, uint32_t form, uint64_t limit, uint64_t seed,
                         unsigned char *out, size_t room, size_t *needed, uint64_t *line);

/* Whether two files have the same text in a form: `*is_same` is 1 or 0, and 0 if the status isn't GOLLY_CANON_OK. The fault is that of the first file if that
 * is refused, and otherwise that of the second one. If both are accepted, but one of them has no text in the form, the call returns the fault that
 * golly_canon_canon_form returns for it (Full, or in the form GOLLY_CANON_PHASES also OutOfPlane). There is one exception: in the form turned, files of
 * different generations are always different. For a number of no form the call returns NoForm, with 0 in `*line`.
 * The caller guarantees what golly_canon_same names: NULL is allowed for neither `is_same` nor `line`. */
uint32_t golly_canon_same_form(const unsigned char *first, size_t first_length,
                               const unsigned char *second, size_t second_length, uint32_t form, uint64_t limit, uint64_t seed,
                               uint32_t *is_same, uint64_t *line);

/* A stream reads a file that comes in pieces, cut anywhere: open it, feed it each piece in turn, finish it, close it. The file need not be in memory.
 *
 *     golly_canon_stream stream = {0};
 *     uint32_t status = golly_canon_open_canon(&stream, GOLLY_CANON_SQUARES, seed);
 *     while (status == GOLLY_CANON_OK && (length = fread(piece, 1, sizeof piece, file)) > 0)
 *         status = golly_canon_feed(&stream, piece, length, &line);
 *     if (status == GOLLY_CANON_OK)
 *         status = golly_canon_finish(&stream, text, sizeof text, &needed, &line);
 *     golly_canon_close(&stream);
 *
 * While pieces come, the stream stores the squares of the pattern and the bytes of the line that has not ended; after the end it stores the text or the fault.
 * You provide the memory of the struct, but only the library uses its members. A stream whose members are 0 is closed. An open stream also has memory that the
 * library allocated, and frees when the stream is closed.
 * The caller guarantees, of `stream` in each call below: it isn't NULL. Its members are 0, or as the last call on it left them: don't copy the struct to use
 * the copy later. Only the thread that opened a stream uses it while it is open. */
typedef struct golly_canon_stream {
    uint32_t is_open;
    void *session;
} golly_canon_stream;

/* Opens a stream for a new file. If the stream is open, it is closed first. The name says what golly_canon_finish will give: what golly_canon_canon,
 * golly_canon_to_rle, golly_canon_show, golly_canon_step or golly_canon_step_generations gives for a whole file, with this `limit` and `seed`. The status is
 * OK, or it is Memory and the stream is closed.
 * The caller guarantees what is said of `stream`, which isn't NULL. */
uint32_t golly_canon_open_canon(golly_canon_stream *stream, uint64_t limit, uint64_t seed);
uint32_t golly_canon_open_to_rle(golly_canon_stream *stream, uint64_t limit, uint64_t seed);
uint32_t golly_canon_open_show(golly_canon_stream *stream, uint64_t limit, uint64_t seed);
uint32_t golly_canon_open_step(golly_canon_stream *stream, uint64_t limit, uint64_t seed);
uint32_t golly_canon_open_step_generations(golly_canon_stream *stream, uint64_t generations, uint64_t limit, uint64_t seed);

/* Opens a stream in the same way, for what golly_canon_canon_form gives of a whole file in this form. For a number of no form it returns NoForm, and the stream
 * is closed.
 * The caller guarantees what is said of `stream`, which isn't NULL. */
uint32_t golly_canon_open_canon_form(golly_canon_stream *stream, uint32_t form, uint64_t limit, uint64_t seed);

/* Takes the next piece of the file, of any length, even 0. The status is OK, or the number of a kind of fault; then `*line` is the line of the fault, or 0 if
 * it is on no line. The fault of a line is reported by the call that brings the line feed after it, or the byte that makes the line too long. A stream that has
 * reported a fault stays refused: each further golly_canon_feed, golly_canon_finish or golly_canon_finish_key reports the same fault and line. If the stream is
 * closed, or has ended with a text or a key (even if that didn't fit), the call returns Spent, with 0 in `*line`, and the stream stays as it is.
 * The caller guarantees what is said of `stream`; `length` bytes to read at `piece`; `*line` to write, which overlaps neither those bytes nor the stream. NULL
 * is allowed for neither `stream` nor `line`. */
uint32_t golly_canon_feed(golly_canon_stream *stream, const unsigned char *piece, size_t length, uint64_t *line);

/* Ends the file, and returns what the call on a whole file returns for all the bytes that were fed: status, text, `*needed` and `*line`. A last line without a
 * line feed is read here. Called again, it gives the same text or reports the same fault, and computes nothing again: after NoRoom, call it with more memory. A
 * closed stream is Spent, with 0 in `*needed` and `*line`.
 * The caller guarantees what is said of `stream`; `room` bytes to write at `out`, which were written before; `*needed` and `*line` to write. No two of these
 * overlap, and none overlaps the stream. NULL is allowed for none of `stream`, `needed` and `line`. */
uint32_t golly_canon_finish(golly_canon_stream *stream, unsigned char *out, size_t room, size_t *needed, uint64_t *line);

/* Ends the file as golly_canon_finish does, and gives the key of the text that golly_canon_finish gives: its SHA-256, in 64 hexadecimal digits of lower case,
 * as the program's `keys` writes it. golly_canon_key gives the same key as 32 bytes. The status and `*line` are those of golly_canon_finish. But the answer has
 * 64 bytes: if there is a text, `*needed` is 64, and the call returns NoRoom if `room` is less than 64. You can call golly_canon_finish and
 * golly_canon_finish_key on one stream in any order and as often as you like. Once either has given a text or a key, golly_canon_feed returns Spent. If the
 * stream was opened for extended RLE or the five lines, these digits are the SHA-256 of that text, which isn't the key of the pattern.
 * The caller guarantees what golly_canon_finish names: `out` was written before, and none of `stream`, `needed` and `line` is NULL. */
uint32_t golly_canon_finish_key(golly_canon_stream *stream, unsigned char *out, size_t room, size_t *needed, uint64_t *line);

/* Closes a stream, finished or not, and frees its memory. A closed one stays closed.
 * The caller guarantees what is said of `stream`, which isn't NULL. */
void golly_canon_close(golly_canon_stream *stream);

/* The name of a status: `BadChild` for GOLLY_CANON_BAD_CHILD, and `OK`, `NoRoom` and `NoForm`. For a number that isn't a status it is empty. The program prints
 * the same names. None has more than 23 bytes. This call and those for sentences, advice, warnings and the version return OK or NoRoom, and nothing else.
 * The caller guarantees: `room` bytes to write at `out`, which were written before, and `*needed` to write. These don't overlap. `needed` isn't NULL. */
uint32_t golly_canon_status_name(uint32_t status, unsigned char *out, size_t room, size_t *needed);

/* What a status means, in a sentence of English: `A child number doesn't refer to an earlier square one level down.` for GOLLY_CANON_BAD_CHILD. It is the
 * sentence that the program's `keys` writes after the name, so the sentence of Full speaks of the program's limit, whatever limit the call was given. For
 * GOLLY_CANON_OK and for a number that isn't a status it is empty. None has more than 200 bytes. Show it to people, and compare the status: the wording may
 * change from version to version.
 * The caller guarantees what golly_canon_status_name names: `out` was written before, and `needed` isn't NULL. */
uint32_t golly_canon_sentence(uint32_t status, unsigned char *out, size_t room, size_t *needed);

/* What a refused file is, if it is something else than a pattern: `This is a gzip file: unpack it first, with gunzip.` It is a sentence of English that says
 * what to do too, and the one that the program's `keys` writes after that of golly_canon_sentence. `status` is what the call on the file returned. The first
 * 512 bytes of the file decide, so of a file that came in pieces these are enough. `is_table` is 0 for a pattern file, and 1 for a rule table. If the file is
 * none of the kinds that the library knows, the text is empty. It is also empty for Full and Memory, because such a file wasn't read to its end, and for a
 * status that is no kind of fault. None has more than 200 bytes. Show it to people: the wording may change from version to version.
 * The caller guarantees: `length` bytes to read at `bytes`; `room` bytes to write at `out`, which were written before, and `*needed` to write. No two of these
 * overlap. `needed` isn't NULL. */
uint32_t golly_canon_advice(uint32_t status, const unsigned char *bytes, size_t length, uint32_t is_table,
                            unsigned char *out, size_t room, size_t *needed);

/* What seems damaged in a file that is accepted, in a sentence of English without a full stop: `the file has no `!`, and fewer rows than its header says; a
 * file that was cut off before its end looks like this`. It is the warning that the program's `keys` has for the file. A warning changes no text and no key. If
 * nothing seems damaged, the text is empty. docs/QUESTIONS.md of the project has the cases. For a file that is refused the text means nothing. None has more
 * than 200 bytes. Show it to people: the wording may change from version to version.
 * The caller guarantees what golly_canon_advice names: `out` was written before, and `needed` isn't NULL. */
uint32_t golly_canon_warning(const unsigned char *bytes, size_t length, unsigned char *out, size_t room, size_t *needed);

/* The same for the file that a stream has read to its end, after golly_canon_finish or golly_canon_finish_key has given its text or its key: what
 * golly_canon_warning gives for all the bytes that were fed. For a stream that has not ended, has refused its file or is closed, the text is empty. The stream
 * stays as it is.
 * The caller guarantees what is said of `stream`; `room` bytes to write at `out`, which were written before, and `*needed` to write. These don't overlap each
 * other or the stream. NULL is allowed for neither `stream` nor `needed`. */
uint32_t golly_canon_stream_warning(golly_canon_stream *stream, unsigned char *out, size_t room, size_t *needed);

/* The version of the library, which is that of the program, as `0.2.0`.
 * The caller guarantees: `room` bytes to write at `out`, which were written before, and `*needed` to write. These don't overlap. `needed` isn't NULL. */
uint32_t golly_canon_version(unsigned char *out, size_t room, size_t *needed);

#ifdef __cplusplus
}
#endif

#endif
