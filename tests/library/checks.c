/* What the header promises of each call, in C. The texts are worked out by hand from docs/FORMATS.md. The last line is 'N passed, M failed'. */
#include <golly_canon.h>
#include <pthread.h>
#include <stdio.h>
#include <stdlib.h>
#include <string.h>

static int passed, failed;

static void check(int holds, const char *what)
{
    if (holds) {
        passed++;
    } else {
        failed++;
        printf("FAILED  %s\n", what);
    }
}

#define BYTES(text) (const unsigned char *)(text), sizeof(text) - 1
#define GLIDER "x = 3, y = 3, rule = 23/3\nbo$2bo$3o!\n"
#define GLIDER_TEXT "[M2] (canonical 1)\n#R B3/S23\n$$$$.....*$......*$....***$$\n"
#define WIDE 256
/* The limit of the stores, and a seed, on which no answer depends, so that each line has another. */
#define LIMIT 10000
#define SEED (0x9e3779b97f4a7c15u * __LINE__)

/* Memory that shows what a call wrote: each byte is 0xAA before it. */
static unsigned char memory[WIDE];
static size_t needed;
static uint64_t line;

static unsigned char *fresh(void)
{
    memset(memory, 0xAA, sizeof memory);
    needed = 12345;
    line = 12345;
    return memory;
}

static int untouched_from(size_t from)
{
    for (; from < WIDE; from++)
        if (memory[from] != 0xAA)
            return 0;
    return 1;
}

static int is_text(uint32_t status, const char *text)
{
    size_t length = strlen(text);
    return status == GOLLY_CANON_OK && needed == length && memcmp(memory, text, length) == 0 && untouched_from(length);
}

static int is_fault(uint32_t status, uint32_t wanted, uint64_t at)
{
    return status == wanted && line == at && needed == 0 && untouched_from(0);
}

static const char WIRE[] = "x = 1, y = 1, rule = Spread\nB!\n";
static const char SPREAD[] = "@RULE Spread\n@TABLE\nn_states:3\nneighborhood:vonNeumann\nsymmetries:rotate4\nvar a={1,2}\n0,a,0,0,0,a\n";
static const char SPREAD_TEXT[] = "[M2] (canonical 1)\n#R Spread\n#G 1\n1 0 0 2 0\n1 0 2 0 0\n1 2 2 2 0\n2 0 1 2 3\n";
static const char TWO_WAYS[] = "@RULE Spread\n@TABLE\nn_states:3\nneighborhood:vonNeumann\nsymmetries:rotate4\nvar a={1,2}\n2,0,0,0,0,1\n0,a,b,0,0,a\n";

static void texts(void)
{
    uint64_t length = sizeof GLIDER_TEXT - 1;

    check(is_text(golly_canon_canon(BYTES(GLIDER), LIMIT, SEED, fresh(), WIDE, &needed, &line), GLIDER_TEXT) && line == 0, "canon gives the text");
    check(is_text(golly_canon_canon(BYTES(GLIDER), LIMIT, SEED, fresh(), length, &needed, &line), GLIDER_TEXT), "canon fills the memory to its end");
    check(golly_canon_canon(BYTES(GLIDER), LIMIT, SEED, fresh(), length - 1, &needed, &line) == GOLLY_CANON_NO_ROOM && needed == length && line == 0
              && untouched_from(0), "canon writes nothing where the text doesn't fit");
    check(golly_canon_canon(BYTES(GLIDER), LIMIT, SEED, fresh(), 0, &needed, &line) == GOLLY_CANON_NO_ROOM && needed == length && untouched_from(0),
          "canon tells the length without memory");
    check(is_fault(golly_canon_canon(BYTES("[M2]\n#R B3/S23\n....*$$$$$$$$\n4 0 0 0 9\n"), LIMIT, SEED, fresh(), WIDE, &needed, &line),
                   GOLLY_CANON_BAD_CHILD, 4), "canon names the line and the kind");
    check(is_fault(golly_canon_canon(BYTES(""), LIMIT, SEED, fresh(), WIDE, &needed, &line), GOLLY_CANON_NO_HEADER, 1), "an empty file has no header");
    check(is_fault(golly_canon_canon(BYTES("x = 1, y = 1\no\0!\n"), LIMIT, SEED, fresh(), WIDE, &needed, &line), GOLLY_CANON_BAD_ITEM, 2),
          "a 0 byte is a byte");

    /* Each store needs a square for the glider. */
    check(is_fault(golly_canon_canon(BYTES(GLIDER), 0, SEED, fresh(), WIDE, &needed, &line), GOLLY_CANON_FULL, 0), "a limit of 0 is full");
    check(is_text(golly_canon_canon(BYTES(GLIDER), UINT64_MAX, SEED, fresh(), WIDE, &needed, &line), GLIDER_TEXT), "any limit may be asked for");

    check(is_text(golly_canon_show(BYTES(GLIDER), LIMIT, SEED, fresh(), WIDE, &needed, &line),
                  "rule B3/S23\ngeneration 0\npopulation 5\nbox 0 0 3 3\nnodes 1\n") && line == 0, "show gives five lines");
    check(golly_canon_show(BYTES(GLIDER), LIMIT, SEED, fresh(), 10, &needed, &line) == GOLLY_CANON_NO_ROOM && untouched_from(0), "show may lack room");
    check(is_fault(golly_canon_show(BYTES("x = 3\n"), LIMIT, SEED, fresh(), WIDE, &needed, &line), GOLLY_CANON_BAD_HEADER, 1), "show refuses");

    check(is_text(golly_canon_to_rle(BYTES(GLIDER_TEXT), LIMIT, SEED, fresh(), WIDE, &needed, &line),
                  "#CXRLE Pos=0,0\nx = 3, y = 3, rule = B3/S23\nbo$2bo$3o!\n") && line == 0, "to_rle gives extended RLE");
    check(golly_canon_to_rle(BYTES(GLIDER_TEXT), LIMIT, SEED, fresh(), 10, &needed, &line) == GOLLY_CANON_NO_ROOM && untouched_from(0),
          "to_rle may lack room");
    check(is_fault(golly_canon_to_rle(BYTES("x = 2000000, y = 1\n2000000o!\n"), 1000, SEED, fresh(), WIDE, &needed, &line),
                   GOLLY_CANON_TOO_MANY_CELLS, 0), "to_rle refuses too many cells");

    check(is_text(golly_canon_step(BYTES("x = 3, y = 1\n3o!\n"), LIMIT, SEED, fresh(), WIDE, &needed, &line),
                  "[M2] (canonical 1)\n#R B3/S23\n#G 1\n$$$.....*$.....*$.....*$$$\n") && line == 0, "step gives the next generation");
    check(golly_canon_step(BYTES("x = 3, y = 1\n3o!\n"), LIMIT, SEED, fresh(), 10, &needed, &line) == GOLLY_CANON_NO_ROOM && untouched_from(0),
          "step may lack room");
    check(is_fault(golly_canon_step(BYTES(WIRE), LIMIT, SEED, fresh(), WIDE, &needed, &line), GOLLY_CANON_NEEDS_TABLE, 0), "step wants a table for a name");
    check(is_fault(golly_canon_step(BYTES("x = 1, y = 1\n\n0o!\n"), LIMIT, SEED, fresh(), WIDE, &needed, &line), GOLLY_CANON_ZERO_COUNT, 3),
          "step names the line of a refused file");

    check(is_text(golly_canon_step_generations(BYTES("x = 3, y = 1\n3o!\n"), 1000001, LIMIT, SEED, fresh(), WIDE, &needed, &line),
                  "[M2] (canonical 1)\n#R B3/S23\n#G 1000001\n$$$.....*$.....*$.....*$$$\n") && line == 0,
          "step_generations gives a later generation");
    check(is_text(golly_canon_step_generations(BYTES(WIRE), 0, LIMIT, SEED, fresh(), WIDE, &needed, &line),
                  "[M2] (canonical 1)\n#R Spread\n1 0 0 0 2\n") && line == 0,
          "no generation gives the canonical text, under a name too");
    check(golly_canon_step_generations(BYTES("x = 3, y = 1\n3o!\n"), 7, LIMIT, SEED, fresh(), 10, &needed, &line) == GOLLY_CANON_NO_ROOM
              && untouched_from(0), "step_generations may lack room");
    check(is_fault(golly_canon_step_generations(BYTES(WIRE), 1, LIMIT, SEED, fresh(), WIDE, &needed, &line), GOLLY_CANON_NEEDS_TABLE, 0),
          "step_generations takes no name");
    check(is_fault(golly_canon_step_generations(BYTES("#CXRLE Gen=1\nx = 1, y = 1\no!\n"), UINT64_MAX, LIMIT, SEED, fresh(), WIDE, &needed, &line),
                   GOLLY_CANON_GENERATION_TOO_LARGE, 0), "the last generation is 2^64 - 1");
    check(is_fault(golly_canon_step_generations(BYTES("#CXRLE Pos=0,2305843009213693951\nx = 3, y = 1\n3o!\n"), 2, LIMIT, SEED, fresh(), WIDE, &needed,
                                                &line), GOLLY_CANON_OUT_OF_PLANE, 0), "a cell that leaves the plane and comes back is out of it");
    check(is_fault(golly_canon_step_generations(BYTES("x = 1, y = 1\n\n0o!\n"), 5, LIMIT, SEED, fresh(), WIDE, &needed, &line),
                   GOLLY_CANON_ZERO_COUNT, 3), "step_generations names the line of a refused file");
    check(is_fault(golly_canon_step_generations(BYTES(GLIDER), 1000, 30, SEED, fresh(), WIDE, &needed, &line), GOLLY_CANON_FULL, 0),
          "step_generations keeps to the limit");
}

static void tables(void)
{
    uint32_t in_table = 12345;
    check(is_text(golly_canon_step_by_table(BYTES(WIRE), BYTES(SPREAD), LIMIT, SEED, fresh(), WIDE, &needed, &line, &in_table), SPREAD_TEXT)
              && line == 0 && in_table == 0, "step_by_table gives the next generation");
    check(golly_canon_step_by_table(BYTES(WIRE), BYTES(SPREAD), LIMIT, SEED, fresh(), 10, &needed, &line, &in_table) == GOLLY_CANON_NO_ROOM
              && untouched_from(0) && in_table == 0, "step_by_table may lack room");
    check(is_fault(golly_canon_step_by_table(BYTES(WIRE), BYTES(TWO_WAYS), LIMIT, SEED, fresh(), WIDE, &needed, &line, &in_table),
                   GOLLY_CANON_BAD_TRANSITION, 8) && in_table == 1, "a refused table is told as one");
    check(is_fault(golly_canon_step_by_table(BYTES("x = 1, y = 1, rule = Spread\n0A!\n"), BYTES(SPREAD), LIMIT, SEED, fresh(), WIDE, &needed, &line,
                                             &in_table), GOLLY_CANON_ZERO_COUNT, 2) && in_table == 0, "a refused pattern is told as one");
    check(is_fault(golly_canon_step_by_table(BYTES(GLIDER), BYTES(SPREAD), LIMIT, SEED, fresh(), WIDE, &needed, &line, &in_table),
                   GOLLY_CANON_RULE_MISMATCH, 0) && in_table == 0, "another rule is refused");
}

static void comparisons(void)
{
    uint32_t is_same = 12345;
    line = 12345;
    check(golly_canon_same(BYTES(GLIDER), BYTES(GLIDER_TEXT), LIMIT, SEED, &is_same, &line) == GOLLY_CANON_OK && is_same == 1 && line == 0,
          "two spellings are the same");
    check(golly_canon_same(BYTES(GLIDER), BYTES("x = 1, y = 1\no!\n"), LIMIT, SEED, &is_same, &line) == GOLLY_CANON_OK && is_same == 0 && line == 0,
          "two patterns are different");
    is_same = 12345;
    check(golly_canon_same(BYTES(GLIDER), BYTES("x = 1, y = 1\n\n0o!\n"), LIMIT, SEED, &is_same, &line) == GOLLY_CANON_ZERO_COUNT && is_same == 0
              && line == 3, "same refuses the second file");
    check(golly_canon_same(BYTES("\nx\n"), BYTES("x = 1, y = 1\n0o!\n"), LIMIT, SEED, &is_same, &line) == GOLLY_CANON_BAD_HEADER && is_same == 0
              && line == 2, "same refuses the first file first");
}

/* Files, and the pattern that each is in a form, as a file of RLE: worked out by hand. The plane goes from -2^61 to 2^61 - 1. */
#define FIRST "-2305843009213693952"
/* The glider a generation later, without its number, and two blinkers whose next generation is wider than the plane. */
#define LATER_GLIDER "x = 3, y = 3\nobo$b2o$bo!\n"
#define EDGES "#CXRLE Pos=" FIRST ",0\nx = 1, y = 3\no4611686018427387902bo$o4611686018427387902bo$o4611686018427387902bo!\n"
static const struct {
    const char *what;
    uint32_t form;
    const char *file, *as;
} formed[] = {
    {"a pattern lies where it lies", GOLLY_CANON_PLACED, "#CXRLE Pos=-5,7\nx = 3, y = 3\nbo$2bo$3o!\n", "#CXRLE Pos=-5,7\nx = 3, y = 3\nbo$2bo$3o!\n"},
    {"a glider at (0, 0)", GOLLY_CANON_MOVED, GLIDER, GLIDER},
    {"a glider far away", GOLLY_CANON_MOVED, "#CXRLE Pos=-12345,777\nx = 3, y = 3\nbo$2bo$3o!\n", GLIDER},
    {"a glider at the first corner", GOLLY_CANON_MOVED, "#CXRLE Pos=" FIRST "," FIRST "\nx = 3, y = 3\nbo$2bo$3o!\n", GLIDER},
    {"a glider at the last corner", GOLLY_CANON_MOVED, "#CXRLE Pos=2305843009213693949,2305843009213693949\nx = 3, y = 3\nbo$2bo$3o!\n", GLIDER},
    {"a generation stays", GOLLY_CANON_MOVED, "#CXRLE Pos=-12345,777 Gen=9\nx = 1, y = 1\no!\n", "#CXRLE Pos=0,0 Gen=9\nx = 1, y = 1\no!\n"},
    {"a blank pattern, moved", GOLLY_CANON_MOVED, "x = 0, y = 0\n!\n", "x = 0, y = 0\n!\n"},
    {"a blank pattern, turned", GOLLY_CANON_TURNED, "x = 0, y = 0\n!\n", "x = 0, y = 0\n!\n"},
    {"256 states, moved", GOLLY_CANON_MOVED, "#CXRLE Pos=" FIRST "," FIRST "\nx = 2, y = 1, rule = Spread\nyOpA!\n", "x = 2, y = 1, rule = Spread\nyOpA!\n"},
    {"256 states, turned", GOLLY_CANON_TURNED, "#CXRLE Pos=" FIRST "," FIRST "\nx = 2, y = 1, rule = Spread\nyOpA!\n", "x = 1, y = 2, rule = Spread\npA$yO!\n"},
    {"a box of 2^61 columns", GOLLY_CANON_MOVED, "#CXRLE Pos=" FIRST ",777\nx = 1, y = 1\no2305843009213693950bo!\n", "x = 1, y = 1\no2305843009213693950bo!\n"},
    {"a column more ends with the plane", GOLLY_CANON_MOVED, "#CXRLE Pos=" FIRST ",777\nx = 1, y = 1\no2305843009213693951bo!\n",
     "#CXRLE Pos=-1,0\nx = 1, y = 1\no2305843009213693951bo!\n"},
    {"a box as wide as the plane", GOLLY_CANON_MOVED, "#CXRLE Pos=" FIRST ",777\nx = 1, y = 1\no4611686018427387902bo!\n",
     "#CXRLE Pos=" FIRST ",0\nx = 1, y = 1\no4611686018427387902bo!\n"},
    {"a box as high as the plane", GOLLY_CANON_MOVED, "#CXRLE Pos=777," FIRST "\nx = 1, y = 1\no4611686018427387903$o!\n",
     "#CXRLE Pos=0," FIRST "\nx = 1, y = 1\no4611686018427387903$o!\n"},
    {"cells at the corners of the plane", GOLLY_CANON_MOVED, "#CXRLE Pos=" FIRST "," FIRST "\nx = 2, y = 2\no4611686018427387902bo4611686018427387903$o!\n",
     "#CXRLE Pos=" FIRST "," FIRST "\nx = 2, y = 2\no4611686018427387902bo4611686018427387903$o!\n"},

    /* All phases: the least of the texts of the phases, each turned, which a glider, a blinker and a beacon have two of. */
    {"a glider, in all phases", GOLLY_CANON_PHASES(4), GLIDER, "x = 3, y = 3\no$obo$2o!\n"},
    {"a glider a generation later", GOLLY_CANON_PHASES(4), "#CXRLE Pos=1,0 Gen=1\n" LATER_GLIDER, "x = 3, y = 3\no$obo$2o!\n"},
    {"a glider a generation later, reflected, far away", GOLLY_CANON_PHASES(4), "#CXRLE Pos=-12345,777 Gen=1\nx = 3, y = 3\nobo$2o$bo!\n",
     "x = 3, y = 3\no$obo$2o!\n"},
    {"a glider at the last corner, in all phases", GOLLY_CANON_PHASES(4),
     "#CXRLE Pos=2305843009213693949,2305843009213693949\nx = 3, y = 3\nbo$2bo$3o!\n", "x = 3, y = 3\no$obo$2o!\n"},
    {"the period is sought no further than it is", GOLLY_CANON_PHASES(2147483647), LATER_GLIDER, "x = 3, y = 3\no$obo$2o!\n"},
    {"a period that isn't sought", GOLLY_CANON_PHASES(3), "#CXRLE Pos=5,-7 Gen=1\n" LATER_GLIDER, "x = 3, y = 3\no$b2o$2o!\n"},
    {"no period is sought", GOLLY_CANON_PHASES(0), "#CXRLE Pos=5,-7 Gen=18446744073709551615\n" LATER_GLIDER, "x = 3, y = 3\no$b2o$2o!\n"},
    {"a blinker", GOLLY_CANON_PHASES(2), "x = 3, y = 1\n3o!\n", "x = 1, y = 3\no$o$o!\n"},
    {"a blinker a generation later", GOLLY_CANON_PHASES(2), "#CXRLE Pos=1,-1 Gen=1\nx = 1, y = 3\no$o$o!\n", "x = 1, y = 3\no$o$o!\n"},
    {"a beacon", GOLLY_CANON_PHASES(2), "x = 4, y = 4\n2o$2o$2b2o$2b2o!\n", "x = 4, y = 4\n2o$o$3bo$2b2o!\n"},
    {"a beacon a generation later", GOLLY_CANON_PHASES(2), "#CXRLE Gen=1\nx = 4, y = 4\n2o$o$3bo$2b2o!\n", "x = 4, y = 4\n2o$o$3bo$2b2o!\n"},
    {"a beacon whose period isn't sought", GOLLY_CANON_PHASES(1), "x = 4, y = 4\n2o$2o$2b2o$2b2o!\n", "x = 4, y = 4\n2o$2o$2b2o$2b2o!\n"},
    {"a still life", GOLLY_CANON_PHASES(1), "#CXRLE Pos=5,-7 Gen=9\nx = 2, y = 2\n2o$2o!\n", "x = 2, y = 2\n2o$2o!\n"},
    {"a cell that dies", GOLLY_CANON_PHASES(9), "#CXRLE Pos=5,-7 Gen=9\nx = 1, y = 1\no!\n", "x = 1, y = 1\no!\n"},
    {"a blank pattern, in all phases", GOLLY_CANON_PHASES(4), "#CXRLE Gen=9\nx = 0, y = 0\n!\n", "x = 0, y = 0\n!\n"},
    {"256 states, in all phases", GOLLY_CANON_PHASES(4), "#CXRLE Pos=" FIRST "," FIRST " Gen=9\nx = 2, y = 1, rule = Spread\nyOpA!\n",
     "x = 1, y = 2, rule = Spread\npA$yO!\n"},
};

/* The eight images of a glider. The last one has the least text: its first row ends behind one cell. */
static const char *const images[] = {
    "x = 3, y = 3\nbo$2bo$3o!\n", "x = 3, y = 3\nbo$o$3o!\n", "x = 3, y = 3\n3o$2bo$bo!\n", "x = 3, y = 3\n3o$o$bo!\n",
    "x = 3, y = 3\n2bo$obo$b2o!\n", "x = 3, y = 3\nb2o$obo$2bo!\n", "x = 3, y = 3\n2o$obo$o!\n", "x = 3, y = 3\no$obo$2o!\n"};
#define TURNED_TEXT "[M2] (canonical 1)\n#R B3/S23\n$$$$....*$....*.*$....**$$\n"
/* The SHA-256 of GLIDER_TEXT and of TURNED_TEXT, by sha256sum. */
static const char GLIDER_KEY[] = "6d49a09978fd167769af106a97e3186cee07cf07e2e4481424797f7ae40b5459", TURNED_KEY[] = "0aaddeefbb950e8c098a8737580356b393d111c5bc6b88da9d7d913837ffba1c";
/* 2^20 + 1 cells. */
#define MANY "x = 1, y = 1\n1048577o!\n"

/* Whether the text of a file in a form is the canonical text of another file. */
static int is_formed(const char *file, uint32_t form, const char *as)
{
    static unsigned char text[8192], wanted[8192];
    size_t length = 12345, wanted_length = 12345;
    return golly_canon_canon_form((const unsigned char *)file, strlen(file), form, LIMIT, SEED, text, sizeof text, &length, &line) == GOLLY_CANON_OK
        && line == 0 && golly_canon_canon((const unsigned char *)as, strlen(as), LIMIT, SEED, wanted, sizeof wanted, &wanted_length, &line) == GOLLY_CANON_OK
        && length == wanted_length && memcmp(text, wanted, length) == 0;
}

/* A form of each kind. */
static const uint32_t each_form[] = {GOLLY_CANON_PLACED, GOLLY_CANON_MOVED, GOLLY_CANON_TURNED, GOLLY_CANON_PHASES(4)};
#define FORMS (sizeof each_form / sizeof *each_form)

static int is_key(uint32_t status, const char *key)
{
    char found[65] = "";
    size_t i;
    for (i = 0; i < 32; i++)
        snprintf(found + 2 * i, 3, "%02x", memory[i]);
    return status == GOLLY_CANON_OK && needed == 32 && line == 0 && strcmp(found, key) == 0 && untouched_from(32);
}

/* Whether the comparison of two files in a form ends with this status and line, and tells this. */
static int is_compared(const char *first, const char *second, uint32_t form, uint32_t wanted, uint64_t at, uint32_t answer)
{
    uint32_t is_same = 12345, status;
    line = 12345;
    status = golly_canon_same_form((const unsigned char *)first, strlen(first), (const unsigned char *)second, strlen(second), form, LIMIT, SEED,
                                   &is_same, &line);
    return status == wanted && line == at && is_same == answer;
}

static void texts_in_forms(void)
{
    size_t i, length = sizeof GLIDER_TEXT - 1;
    for (i = 0; i < sizeof formed / sizeof *formed; i++)
        check(is_formed(formed[i].file, formed[i].form, formed[i].as), formed[i].what);
    for (i = 0; i < 8; i++) {
        check(is_text(golly_canon_canon_form((const unsigned char *)images[i], strlen(images[i]), GOLLY_CANON_TURNED, LIMIT, SEED, fresh(), WIDE, &needed,
                                             &line), TURNED_TEXT) && line == 0, "an image of a glider, turned");
        check(is_formed(images[i], GOLLY_CANON_MOVED, images[i]), "an image of a glider, moved");
    }
    check(is_text(golly_canon_canon_form(BYTES(GLIDER), GOLLY_CANON_MOVED, LIMIT, SEED, fresh(), length, &needed, &line), GLIDER_TEXT),
          "canon_form fills the memory to its end");
    check(golly_canon_canon_form(BYTES(GLIDER), GOLLY_CANON_MOVED, LIMIT, SEED, fresh(), length - 1, &needed, &line) == GOLLY_CANON_NO_ROOM
              && needed == length && line == 0 && untouched_from(0), "canon_form writes nothing where the text doesn't fit");
    for (i = 0; i < FORMS; i++) {
        uint32_t form = each_form[i];
        check(is_fault(golly_canon_canon_form(BYTES("[M2]\n#R B3/S23\n....*$$$$$$$$\n4 0 0 0 9\n"), form, LIMIT, SEED, fresh(), WIDE, &needed, &line),
                       GOLLY_CANON_BAD_CHILD, 4), "canon_form names the line and the kind");
        check(is_fault(golly_canon_canon_form(BYTES(GLIDER), form, 0, SEED, fresh(), WIDE, &needed, &line), GOLLY_CANON_FULL, 0),
              "a limit of 0 is full in each form");
        check(is_fault(golly_canon_key(BYTES(GLIDER), form, 0, SEED, fresh(), WIDE, &needed, &line), GOLLY_CANON_FULL, 0), "and for its key");
    }
    check(golly_canon_canon_form(BYTES(MANY), GOLLY_CANON_PLACED, LIMIT, SEED, fresh(), 0, &needed, &line) == GOLLY_CANON_NO_ROOM && needed > 0,
          "a placed pattern may have many cells");
    check(golly_canon_canon_form(BYTES(MANY), GOLLY_CANON_MOVED, LIMIT, SEED, fresh(), 0, &needed, &line) == GOLLY_CANON_NO_ROOM && needed > 0,
          "so may a moved one");
    check(golly_canon_canon_form(BYTES(MANY), GOLLY_CANON_TURNED, LIMIT, SEED, fresh(), 0, &needed, &line) == GOLLY_CANON_NO_ROOM && needed > 0,
          "and a turned one");
    check(golly_canon_canon_form(BYTES(EDGES), GOLLY_CANON_PHASES(0), LIMIT, SEED, fresh(), 0, &needed, &line) == GOLLY_CANON_NO_ROOM && needed > 0,
          "a pattern as wide as the plane has a text where no generation is made");
    check(is_fault(golly_canon_canon_form(BYTES(EDGES), GOLLY_CANON_PHASES(1), LIMIT, SEED, fresh(), WIDE, &needed, &line), GOLLY_CANON_OUT_OF_PLANE, 0),
          "and leaves the plane where one is");
    check(is_fault(golly_canon_canon_form(BYTES(GLIDER), 3, LIMIT, SEED, fresh(), WIDE, &needed, &line), GOLLY_CANON_NO_FORM, 0), "3 is no form");
    check(is_fault(golly_canon_canon_form(BYTES("x\n"), 0x7fffffff, LIMIT, SEED, fresh(), WIDE, &needed, &line), GOLLY_CANON_NO_FORM, 0),
          "no form is told before the file is read");
    check(GOLLY_CANON_PHASES(0) == 0x80000000 && GOLLY_CANON_PHASES(2147483647) == UINT32_MAX, "the numbers of all phases");
}

static void keys(void)
{
    size_t i;
    check(is_key(golly_canon_key(BYTES(GLIDER), GOLLY_CANON_PLACED, LIMIT, SEED, fresh(), WIDE, &needed, &line), GLIDER_KEY), "the key of a placed glider");
    check(is_key(golly_canon_key(BYTES("#CXRLE Pos=5,5\n" GLIDER), GOLLY_CANON_MOVED, LIMIT, SEED, fresh(), WIDE, &needed, &line), GLIDER_KEY),
          "the key of a moved glider");
    check(is_key(golly_canon_key(BYTES(GLIDER), GOLLY_CANON_TURNED, LIMIT, SEED, fresh(), 32, &needed, &line), TURNED_KEY), "the key of a turned glider");
    check(golly_canon_key(BYTES(GLIDER), GOLLY_CANON_MOVED, LIMIT, SEED, fresh(), 31, &needed, &line) == GOLLY_CANON_NO_ROOM && needed == 32 && line == 0
              && untouched_from(0), "a key may lack room");
    for (i = 0; i < sizeof formed / sizeof *formed; i++)
        if (formed[i].form == GOLLY_CANON_PHASES(4) && !strcmp(formed[i].as, "x = 3, y = 3\no$obo$2o!\n"))
            check(is_key(golly_canon_key((const unsigned char *)formed[i].file, strlen(formed[i].file), GOLLY_CANON_PHASES(4), LIMIT, SEED, fresh(), WIDE,
                                         &needed, &line), TURNED_KEY), "one key of a glider in each phase");
    check(is_fault(golly_canon_key(BYTES(EDGES), GOLLY_CANON_PHASES(1), LIMIT, SEED, fresh(), WIDE, &needed, &line), GOLLY_CANON_OUT_OF_PLANE, 0),
          "a pattern that leaves the plane has no key");
    check(is_fault(golly_canon_key(BYTES("x = 3\n"), GOLLY_CANON_MOVED, LIMIT, SEED, fresh(), WIDE, &needed, &line), GOLLY_CANON_BAD_HEADER, 1),
          "a key is refused as the text");
    check(golly_canon_key(BYTES(MANY), GOLLY_CANON_TURNED, LIMIT, SEED, fresh(), WIDE, &needed, &line) == GOLLY_CANON_OK && needed == 32,
          "many cells have a key in each form");
    check(is_fault(golly_canon_key(BYTES(GLIDER), 3, LIMIT, SEED, fresh(), WIDE, &needed, &line), GOLLY_CANON_NO_FORM, 0)
              && is_fault(golly_canon_key(BYTES(GLIDER), 0x7fffffff, LIMIT, SEED, fresh(), WIDE, &needed, &line), GOLLY_CANON_NO_FORM, 0),
          "no form has no key");
}

static void comparisons_in_forms(void)
{
    static const char shifted[] = "#CXRLE Pos=-12345,777\nx = 3, y = 3\nbo$2bo$3o!\n", later[] = "#CXRLE Gen=1\nx = 3, y = 3\nbo$2bo$3o!\n";
    static const char other_rule[] = "x = 3, y = 3, rule = B36/S23\nbo$2bo$3o!\n", more[] = "x = 3, y = 3\nbo$2bo$4o!\n";
    size_t i;
    for (i = 0; i < 8; i++) {
        check(is_compared(images[i], shifted, GOLLY_CANON_MOVED, GOLLY_CANON_OK, 0, i == 0), "a shift takes one image alone to a glider");
        check(is_compared(images[i], shifted, GOLLY_CANON_TURNED, GOLLY_CANON_OK, 0, 1), "a turn takes each image to a glider");
    }
    for (i = 0; i < FORMS; i++) {
        uint32_t form = each_form[i];
        check(is_compared(GLIDER, GLIDER_TEXT, form, GOLLY_CANON_OK, 0, 1), "two spellings are one in each form");
        check(is_compared(GLIDER, later, form, GOLLY_CANON_OK, 0, form == GOLLY_CANON_PHASES(4)), "two generations are told apart, except in all phases");
        check(is_compared(GLIDER, other_rule, form, GOLLY_CANON_OK, 0, 0), "so are two rules");
        check(is_compared(GLIDER, more, form, GOLLY_CANON_OK, 0, 0), "and two patterns");
        check(is_compared("\nx\n", "x = 1, y = 1\n0o!\n", form, GOLLY_CANON_BAD_HEADER, 2, 0), "the first file is refused first");
        check(is_compared(GLIDER, "x = 1, y = 1\n0o!\n", form, GOLLY_CANON_ZERO_COUNT, 2, 0), "the second file is refused");
        check(is_compared(MANY, "x = 1, y = 1\n0o!\n", form, GOLLY_CANON_ZERO_COUNT, 2, 0), "it is refused after a file of many cells");
    }
    check(is_compared(GLIDER, shifted, GOLLY_CANON_PLACED, GOLLY_CANON_OK, 0, 0), "a placed glider isn't one elsewhere");
    check(is_compared(MANY, MANY, GOLLY_CANON_PLACED, GOLLY_CANON_OK, 0, 1), "placed patterns of many cells are compared");
    check(is_compared(GLIDER, MANY, GOLLY_CANON_MOVED, GOLLY_CANON_OK, 0, 0), "so are moved ones");
    check(is_compared(MANY, GLIDER, GOLLY_CANON_TURNED, GOLLY_CANON_OK, 0, 0), "and turned ones");
    check(is_compared(later, MANY, GOLLY_CANON_TURNED, GOLLY_CANON_OK, 0, 0), "two generations are told apart");
    check(is_compared(GLIDER, LATER_GLIDER, GOLLY_CANON_TURNED, GOLLY_CANON_OK, 0, 0), "turned, two phases are told apart");
    check(is_compared(GLIDER, "#CXRLE Pos=5,5 Gen=1\n" LATER_GLIDER, GOLLY_CANON_PHASES(4), GOLLY_CANON_OK, 0, 1), "in all phases they are one");
    check(is_compared(LATER_GLIDER, shifted, GOLLY_CANON_PHASES(4), GOLLY_CANON_OK, 0, 1), "and the other way about");
    check(is_compared(GLIDER, LATER_GLIDER, GOLLY_CANON_PHASES(3), GOLLY_CANON_OK, 0, 0), "but not where their period isn't sought");
    check(is_compared(EDGES, GLIDER, GOLLY_CANON_PHASES(0), GOLLY_CANON_OK, 0, 0), "no generation of two patterns is made");
    check(is_compared(EDGES, GLIDER, GOLLY_CANON_PHASES(1), GOLLY_CANON_OUT_OF_PLANE, 0, 0), "the first pattern leaves the plane");
    check(is_compared(GLIDER, EDGES, GOLLY_CANON_PHASES(1), GOLLY_CANON_OUT_OF_PLANE, 0, 0), "the second one does");
    check(is_compared(EDGES, "x = 1, y = 1\n0o!\n", GOLLY_CANON_PHASES(1), GOLLY_CANON_ZERO_COUNT, 2, 0), "a refused file comes before that");
    check(is_compared(GLIDER, "", 3, GOLLY_CANON_NO_FORM, 0, 0), "no form is told before a file is read");
    check(is_compared(GLIDER, "", 0x7fffffff, GOLLY_CANON_NO_FORM, 0, 0), "nor is the number below those of all phases a form");
}

static void forms(void)
{
    texts_in_forms();
    keys();
    comparisons_in_forms();
}

static uint32_t open_moved(golly_canon_stream *stream, uint64_t limit, uint64_t seed)
{
    return golly_canon_open_canon_form(stream, GOLLY_CANON_MOVED, limit, seed);
}

static uint32_t open_turned(golly_canon_stream *stream, uint64_t limit, uint64_t seed)
{
    return golly_canon_open_canon_form(stream, GOLLY_CANON_TURNED, limit, seed);
}

static uint32_t open_phases(golly_canon_stream *stream, uint64_t limit, uint64_t seed)
{
    return golly_canon_open_canon_form(stream, GOLLY_CANON_PHASES(4), limit, seed);
}

/* A file of a stream, the text that its finish gives, and the SHA-256 of that text, by sha256sum. */
typedef uint32_t open_call(golly_canon_stream *, uint64_t, uint64_t);
static const struct {
    const char *what;
    open_call *open;
    const unsigned char *file;
    size_t length;
    const char *text, *key;
} given[] = {
    {"canon in pieces", golly_canon_open_canon, BYTES(GLIDER), GLIDER_TEXT, GLIDER_KEY},
    {"canon of a macrocell in pieces", golly_canon_open_canon, BYTES("[M2]\r\n#C\r\n#R 23/3\r\n.*$..*$***$\r\n4 0 0 0 1\r\n"), GLIDER_TEXT, GLIDER_KEY},
    {"a last line without a line feed", golly_canon_open_canon, BYTES("x = 1, y = 1\no!"), "[M2] (canonical 1)\n#R B3/S23\n$$$$....*$$$$\n",
     "0ae02ec45960848c21765cc8906b6ff3262e85be8d0316df59221f436440ba45"},
    {"what stands behind the end of the pattern is free", golly_canon_open_canon, BYTES(GLIDER "0o!\nx\n\0\n"), GLIDER_TEXT, GLIDER_KEY},
    {"to_rle in pieces", golly_canon_open_to_rle, BYTES(GLIDER_TEXT), "#CXRLE Pos=0,0\nx = 3, y = 3, rule = B3/S23\nbo$2bo$3o!\n",
     "8a5a90318e8ab72ff38582aa6739e27d446785e6467559a5d765f4b5fc8da379"},
    {"show in pieces", golly_canon_open_show, BYTES(GLIDER), "rule B3/S23\ngeneration 0\npopulation 5\nbox 0 0 3 3\nnodes 1\n",
     "5630dd2f9de013234d0b817beb4d6099fd1115459c6c9b479e4945c848d0383b"},
    {"step in pieces", golly_canon_open_step, BYTES("x = 3, y = 1\n3o!\n"), "[M2] (canonical 1)\n#R B3/S23\n#G 1\n$$$.....*$.....*$.....*$$$\n",
     "a14b50c2a4d63d6691747d0a193d3e2ce177de09830734e252fe405787b82840"},
    {"a moved text in pieces", open_moved, BYTES("#CXRLE Pos=-12345,777\n" GLIDER), GLIDER_TEXT, GLIDER_KEY},
    {"a turned text in pieces", open_turned, BYTES("x = 3, y = 3\n3o$o$bo!\n"), TURNED_TEXT, TURNED_KEY},
    {"a text of all phases in pieces", open_phases, BYTES("#CXRLE Pos=5,5 Gen=1\n" LATER_GLIDER), TURNED_TEXT, TURNED_KEY},
};

/* A file that is refused: the first byte of `refused` is the first that is fed with the fault, and where it has no byte, finish tells the fault. */
static const struct {
    const char *what;
    open_call *open;
    const unsigned char *taken;
    size_t taken_length;
    const char *refused;
    uint32_t status;
    uint64_t line;
} refusals[] = {
    {"a child", golly_canon_open_canon, BYTES("[M2]\n#R B3/S23\n....*$$$$$$$$\n4 0 0 0 9"), "\n4 0 0 0 1\n", GOLLY_CANON_BAD_CHILD, 4},
    {"a header", golly_canon_open_show, BYTES("x = 3"), "\nx = 3, y = 1\n3o!\n", GOLLY_CANON_BAD_HEADER, 1},
    {"a count", golly_canon_open_to_rle, BYTES("x = 1, y = 1\n\n0o!"), "\no!\n", GOLLY_CANON_ZERO_COUNT, 3},
    {"a 0 byte", golly_canon_open_step, BYTES("x = 1, y = 1\no\0!"), "\n", GOLLY_CANON_BAD_ITEM, 2},
    {"a last line", golly_canon_open_canon, BYTES("x = 1, y = 1\n0o!"), "", GOLLY_CANON_ZERO_COUNT, 2},
    {"an empty file", golly_canon_open_canon, BYTES(""), "", GOLLY_CANON_NO_HEADER, 1},
    {"too many cells", golly_canon_open_to_rle, BYTES("x = 2000000, y = 1\n2000000o!\n"), "", GOLLY_CANON_TOO_MANY_CELLS, 0},
    {"a name without a table", golly_canon_open_step, BYTES(WIRE), "", GOLLY_CANON_NEEDS_TABLE, 0},
    {"a child of a turned pattern", open_turned, BYTES("[M2]\n4 0 0 0 9"), "\n", GOLLY_CANON_BAD_CHILD, 2},
    {"a pattern that leaves the plane", open_phases, BYTES(EDGES), "", GOLLY_CANON_OUT_OF_PLANE, 0},
};

static uint32_t feed(golly_canon_stream *stream, const void *piece, size_t length)
{
    line = 12345;
    return golly_canon_feed(stream, piece, length, &line);
}

static uint32_t finish(golly_canon_stream *stream, size_t room)
{
    return golly_canon_finish(stream, fresh(), room, &needed, &line);
}

static uint32_t finish_key(golly_canon_stream *stream, size_t room)
{
    return golly_canon_finish_key(stream, fresh(), room, &needed, &line);
}

static int is_fed(golly_canon_stream *stream, const void *piece, size_t length)
{
    return feed(stream, piece, length) == GOLLY_CANON_OK && line == 0;
}

static int is_told(golly_canon_stream *stream, const void *piece, size_t length, uint32_t status, uint64_t at)
{
    return feed(stream, piece, length) == status && line == at;
}

/* A stream that has given its text gives it again and again, and takes no piece. */
static int is_finished(golly_canon_stream *stream, const char *text)
{
    size_t length = strlen(text);
    return finish(stream, 0) == GOLLY_CANON_NO_ROOM && needed == length && line == 0 && untouched_from(0)
        && is_told(stream, BYTES("x"), GOLLY_CANON_SPENT, 0)
        && finish(stream, length - 1) == GOLLY_CANON_NO_ROOM && needed == length && line == 0 && untouched_from(0)
        && is_text(finish(stream, length), text) && line == 0
        && is_told(stream, BYTES(""), GOLLY_CANON_SPENT, 0)
        && is_text(finish(stream, WIDE), text) && line == 0;
}

/* A stream that has given its key gives it again and again, and takes no piece. */
static int is_keyed(golly_canon_stream *stream, const char *key)
{
    return finish_key(stream, 0) == GOLLY_CANON_NO_ROOM && needed == 64 && line == 0 && untouched_from(0)
        && is_told(stream, BYTES("x"), GOLLY_CANON_SPENT, 0)
        && finish_key(stream, 63) == GOLLY_CANON_NO_ROOM && needed == 64 && line == 0 && untouched_from(0)
        && is_text(finish_key(stream, 64), key) && line == 0
        && is_told(stream, BYTES(""), GOLLY_CANON_SPENT, 0)
        && is_text(finish_key(stream, WIDE), key) && line == 0;
}

/* A stream that has reported its fault reports it again and again, whether it is asked for the text first or for the key. */
static int is_refused(golly_canon_stream *stream, uint32_t status, uint64_t at)
{
    return is_fault(finish(stream, WIDE), status, at) && is_told(stream, BYTES(GLIDER), status, at) && is_told(stream, BYTES(""), status, at)
        && is_fault(finish_key(stream, WIDE), status, at) && is_fault(finish(stream, 0), status, at);
}

static int has_no_key(golly_canon_stream *stream, uint32_t status, uint64_t at)
{
    return is_fault(finish_key(stream, WIDE), status, at) && is_told(stream, BYTES(GLIDER), status, at) && is_fault(finish_key(stream, 0), status, at)
        && is_refused(stream, status, at);
}

static int is_spent(golly_canon_stream *stream)
{
    return is_fault(finish(stream, WIDE), GOLLY_CANON_SPENT, 0) && is_told(stream, BYTES(GLIDER), GOLLY_CANON_SPENT, 0)
        && is_told(stream, BYTES(""), GOLLY_CANON_SPENT, 0) && is_fault(finish(stream, 0), GOLLY_CANON_SPENT, 0)
        && is_fault(finish_key(stream, WIDE), GOLLY_CANON_SPENT, 0) && is_fault(finish_key(stream, 0), GOLLY_CANON_SPENT, 0);
}

/* Feeds a file in pieces of this size, the first of them shorter by `offset`. */
static int are_fed(golly_canon_stream *stream, const unsigned char *file, size_t length, size_t size, size_t offset)
{
    size_t at = 0, end = size - offset;
    for (; at < length; at = end, end += size) {
        if (end > length)
            end = length;
        if (!is_fed(stream, file + at, end - at))
            return 0;
    }
    return is_fed(stream, file + length, 0);
}

/* Each text and each key by pieces of each size, which begin with a piece of each smaller size. Every other stream is asked for its key first. */
static void texts_in_pieces(void)
{
    golly_canon_stream stream = {0};
    size_t i, size, offset;
    for (i = 0; i < sizeof given / sizeof *given; i++) {
        int holds = 1, turn = 0;
        for (size = 1; size <= given[i].length + 1; size++)
            for (offset = 0; offset < size; offset++)
                holds = holds && given[i].open(&stream, LIMIT, SEED) == GOLLY_CANON_OK && are_fed(&stream, given[i].file, given[i].length, size, offset)
                    && (turn++ % 2 || is_keyed(&stream, given[i].key)) && is_finished(&stream, given[i].text) && is_keyed(&stream, given[i].key);
        check(holds && size > 1 && turn > 1, given[i].what);
    }
    golly_canon_close(&stream);
}

/* Each refused file: byte by byte, cut into two pieces anywhere, and whole. */
static void refusals_in_pieces(void)
{
    golly_canon_stream stream = {0};
    unsigned char file[WIDE];
    size_t i, at;
    for (i = 0; i < sizeof refusals / sizeof *refusals; i++) {
        uint32_t status = refusals[i].status;
        uint64_t where = refusals[i].line;
        size_t taken = refusals[i].taken_length, length = taken + strlen(refusals[i].refused);
        int holds = refusals[i].open(&stream, LIMIT, SEED) == GOLLY_CANON_OK;
        memcpy(file, refusals[i].taken, taken);
        memcpy(file + taken, refusals[i].refused, length - taken);
        for (at = 0; at < length; at++)
            holds = holds && (at < taken ? is_fed(&stream, file + at, 1) : is_told(&stream, file + at, 1, status, where));
        holds = holds && is_refused(&stream, status, where);
        for (at = 0; at <= length; at++) {
            holds = holds && refusals[i].open(&stream, LIMIT, SEED) == GOLLY_CANON_OK;
            holds = holds && (at <= taken ? is_fed(&stream, file, at) : is_told(&stream, file, at, status, where));
            holds = holds && (length == taken ? is_fed(&stream, file + at, length - at)
                                              : is_told(&stream, file + at, length - at, status, where));
            holds = holds && (at % 2 ? is_refused(&stream, status, where) : has_no_key(&stream, status, where));
        }
        check(holds && at > 0, refusals[i].what);
    }
    golly_canon_close(&stream);
}

/* A line may have 2^20 bytes. */
static void long_lines(void)
{
    static unsigned char longest[1 << 20];
    golly_canon_stream stream = {0};
    memset(longest, '#', sizeof longest);
    check(golly_canon_open_canon(&stream, LIMIT, SEED) == GOLLY_CANON_OK && is_fed(&stream, longest, sizeof longest) && is_fed(&stream, BYTES("\n"))
              && is_fed(&stream, BYTES(GLIDER)) && is_finished(&stream, GLIDER_TEXT), "a line of 2^20 bytes is taken");
    check(golly_canon_open_canon(&stream, LIMIT, SEED) == GOLLY_CANON_OK && is_fed(&stream, BYTES("\n")) && is_fed(&stream, longest, sizeof longest)
              && is_told(&stream, BYTES("#"), GOLLY_CANON_LINE_TOO_LONG, 2) && is_refused(&stream, GOLLY_CANON_LINE_TOO_LONG, 2),
          "a byte more is told at once");
    golly_canon_close(&stream);
}

static void closed_streams(void)
{
    golly_canon_stream stream = {0};
    int turn, holds = 1;
    check(is_spent(&stream), "a stream of zeros is closed");
    golly_canon_close(&stream);
    check(is_spent(&stream), "a closed stream may be closed");
    check(golly_canon_open_show(&stream, LIMIT, SEED) == GOLLY_CANON_OK && is_fed(&stream, BYTES(GLIDER)), "a closed stream may be opened");
    golly_canon_close(&stream);
    check(is_spent(&stream), "a stream is closed before its end");
    golly_canon_close(&stream);
    check(is_spent(&stream), "a stream is closed twice");
    for (turn = 0; turn < 500; turn++) {
        size_t row = (size_t)turn % (sizeof given / sizeof *given);
        int stop = turn % 5;
        holds = holds && given[row].open(&stream, LIMIT, SEED) == GOLLY_CANON_OK;
        holds = holds && (stop < 1 || is_fed(&stream, given[row].file, given[row].length / 2));
        holds = holds && (stop < 2 || is_fed(&stream, given[row].file + given[row].length / 2, given[row].length - given[row].length / 2));
        holds = holds && (stop < 3 || (turn % 2 ? is_finished(&stream, given[row].text) : is_keyed(&stream, given[row].key)));
        holds = holds && (stop < 4 || given[row].open(&stream, LIMIT, SEED) == GOLLY_CANON_OK);
        golly_canon_close(&stream);
        holds = holds && is_spent(&stream);
    }
    check(holds && turn == 500, "a stream is opened and closed many times");
}

/* An open stream begins anew, also behind its text and behind a fault. */
static void open_streams(void)
{
    golly_canon_stream stream = {0};
    check(golly_canon_open_canon(&stream, LIMIT, SEED) == GOLLY_CANON_OK && is_fed(&stream, BYTES("[M2]\n#R B3"))
              && golly_canon_open_show(&stream, LIMIT, SEED) == GOLLY_CANON_OK && is_fed(&stream, given[5].file, given[5].length)
              && is_finished(&stream, given[5].text), "an open stream is opened");
    check(golly_canon_open_canon(&stream, LIMIT, SEED) == GOLLY_CANON_OK && is_fed(&stream, BYTES(GLIDER)) && is_finished(&stream, GLIDER_TEXT),
          "a finished stream is opened");
    check(golly_canon_open_canon(&stream, LIMIT, SEED) == GOLLY_CANON_OK && is_fed(&stream, BYTES("x = 1, y = 1\no!")) && is_keyed(&stream, given[2].key)
              && open_turned(&stream, LIMIT, SEED) == GOLLY_CANON_OK && is_fed(&stream, BYTES(GLIDER)) && is_keyed(&stream, TURNED_KEY),
          "a stream that has given its key is opened");
    check(golly_canon_open_step(&stream, LIMIT, SEED) == GOLLY_CANON_OK && is_told(&stream, BYTES("x\n"), GOLLY_CANON_BAD_HEADER, 1)
              && golly_canon_open_canon(&stream, LIMIT, SEED) == GOLLY_CANON_OK && is_fed(&stream, BYTES(GLIDER)) && is_finished(&stream, GLIDER_TEXT),
          "a refused stream is opened");
    check(golly_canon_open_canon_form(&stream, GOLLY_CANON_PLACED, LIMIT, SEED) == GOLLY_CANON_OK && is_fed(&stream, BYTES(GLIDER))
              && is_finished(&stream, GLIDER_TEXT), "a stream is opened for a placed text");
    check(golly_canon_open_canon_form(&stream, 3, LIMIT, SEED) == GOLLY_CANON_NO_FORM && is_spent(&stream), "a stream of no form is closed");
    check(open_phases(&stream, LIMIT, SEED) == GOLLY_CANON_OK && golly_canon_open_canon_form(&stream, 0x7fffffff, LIMIT, SEED) == GOLLY_CANON_NO_FORM
              && is_spent(&stream), "also if it was open");
    golly_canon_close(&stream);
}

/* Each store needs a square for the glider. Feed or finish may be the first to find none. */
static void limited_streams(void)
{
    golly_canon_stream stream = {0};
    uint32_t status;
    check(golly_canon_open_canon(&stream, 0, SEED) == GOLLY_CANON_OK, "a limit of 0 may be asked for");
    status = feed(&stream, BYTES(GLIDER));
    check((status == GOLLY_CANON_OK || status == GOLLY_CANON_FULL) && line == 0 && is_refused(&stream, GOLLY_CANON_FULL, 0), "a limit of 0 is full");
    check(golly_canon_open_canon(&stream, 0, SEED) == GOLLY_CANON_OK, "a limit of 0 may be asked for again");
    status = feed(&stream, BYTES(GLIDER));
    check((status == GOLLY_CANON_OK || status == GOLLY_CANON_FULL) && line == 0 && has_no_key(&stream, GOLLY_CANON_FULL, 0), "and is full for a key");
    check(golly_canon_open_canon(&stream, UINT64_MAX, SEED) == GOLLY_CANON_OK && is_fed(&stream, BYTES(GLIDER)) && is_finished(&stream, GLIDER_TEXT),
          "a stream takes any limit");
    golly_canon_close(&stream);
}

/* Two streams side by side, byte by byte in turn: each has its own file, limit and text. */
static void two_streams(void)
{
    static const char spare[] = "#\n" GLIDER;
    golly_canon_stream one = {0}, two = {0};
    size_t at;
    int holds = golly_canon_open_canon(&one, LIMIT, SEED) == GOLLY_CANON_OK && golly_canon_open_to_rle(&two, LIMIT, SEED) == GOLLY_CANON_OK;
    for (at = 0; at < sizeof GLIDER_TEXT - 1 || at < sizeof spare - 1; at++) {
        holds = holds && (at >= sizeof spare - 1 || is_fed(&one, spare + at, 1));
        holds = holds && (at >= sizeof GLIDER_TEXT - 1 || is_fed(&two, GLIDER_TEXT + at, 1));
    }
    check(holds && at > 1 && is_finished(&two, given[4].text) && is_finished(&one, GLIDER_TEXT) && is_finished(&two, given[4].text),
          "two streams side by side");
    check(golly_canon_open_canon(&two, LIMIT, SEED) == GOLLY_CANON_OK && is_told(&two, BYTES("x\n"), GOLLY_CANON_BAD_HEADER, 1)
              && is_finished(&one, GLIDER_TEXT), "a refused stream beside one with a text");
    golly_canon_close(&two);
    check(is_spent(&two) && is_finished(&one, GLIDER_TEXT), "a closed stream beside one with a text");
    golly_canon_close(&one);
}

static void streams(void)
{
    texts_in_pieces();
    refusals_in_pieces();
    long_lines();
    closed_streams();
    open_streams();
    limited_streams();
    two_streams();
}

static int is_name(uint32_t status, const char *name)
{
    return is_text(golly_canon_status_name(status, fresh(), WIDE, &needed), name);
}

static void names(void)
{
    static const struct {
        uint32_t status;
        const char *name;
    } all[] = {
        {0, "OK"}, {1, "NoHeader"}, {2, "BadHeader"}, {3, "BadRule"}, {4, "BoundedGrid"}, {5, "UnsupportedRule"}, {6, "BirthOnZero"},
        {7, "BadNumber"}, {8, "TooLarge"}, {9, "BadItem"}, {10, "ZeroCount"}, {11, "StateRange"}, {12, "OutOfPlane"}, {13, "LateHeader"},
        {14, "SecondHeader"}, {15, "BadNode"}, {16, "BadLevel"}, {17, "BadChild"}, {18, "BadLeaf"}, {19, "Timeline"}, {20, "LineTooLong"},
        {21, "Full"}, {22, "Memory"}, {23, "Spent"}, {24, ""}, {30, ""}, {31, "NoRuleLine"}, {32, "NoTable"}, {33, "BadDescriptor"},
        {34, "UnsupportedNeighborhood"}, {35, "UnsupportedSymmetry"}, {36, "BadVariable"}, {37, "BadTransition"}, {38, "UnboundOutput"},
        {39, "NotQuiet"}, {40, ""}, {41, "RuleMismatch"}, {42, "NeedsTable"}, {43, "Ambiguous"}, {44, "TooManyCells"},
        {45, "GenerationTooLarge"}, {46, "StateBeyondTable"}, {51, "ReadFault"}, {52, "WriteFault"}, {53, "InputTooLong"}, {54, ""},
        {64, "NoRoom"}, {65, "NoForm"}, {66, ""}, {256, ""}, {257, ""}, {UINT32_MAX, ""}};
    size_t i;
    for (i = 0; i < sizeof all / sizeof *all; i++)
        check(is_name(all[i].status, all[i].name), all[i].name[0] ? all[i].name : "a number without a name");
    check(golly_canon_status_name(GOLLY_CANON_UNSUPPORTED_NEIGHBORHOOD, fresh(), 22, &needed) == GOLLY_CANON_NO_ROOM && needed == 23
              && untouched_from(0), "a name may lack room");
    check(golly_canon_version(fresh(), WIDE, &needed) == GOLLY_CANON_OK && needed > 4 && untouched_from(needed), "there is a version");
    check(golly_canon_version(fresh(), 1, &needed) == GOLLY_CANON_NO_ROOM && untouched_from(0), "the version may lack room");
}

static int is_sentence(uint32_t status, const char *sentence)
{
    return is_text(golly_canon_sentence(status, fresh(), WIDE, &needed), sentence);
}

/* Some sentences; scripts/kinds compares all of them with those of the program and of the man page. */
static void sentences(void)
{
    static const char child[] = "A child number doesn't refer to an earlier square one level down.";
    uint32_t status;
    int holds = 1;
    check(is_sentence(GOLLY_CANON_BAD_CHILD, child), "the sentence of a kind");
    check(is_sentence(GOLLY_CANON_NO_HEADER, "The file begins with no header, neither [M2] nor x = .., or it ends before one."), "that of the first kind");
    check(is_sentence(53, "A file has more than 2^30 bytes."), "that of the last kind");
    check(is_sentence(GOLLY_CANON_SPENT, "A reader that has refused was used again."), "that of a stream that is spent");
    check(is_sentence(GOLLY_CANON_NO_ROOM, "The text has more bytes than the memory that was given for it."), "that of a text that doesn't fit");
    check(is_sentence(GOLLY_CANON_NO_FORM, "The number isn't that of a form of a pattern."), "that of no form");
    check(is_sentence(GOLLY_CANON_OK, "") && is_sentence(24, "") && is_sentence(66, "") && is_sentence(UINT32_MAX, ""), "no fault has no sentence");
    check(golly_canon_sentence(GOLLY_CANON_BAD_CHILD, fresh(), sizeof child - 2, &needed) == GOLLY_CANON_NO_ROOM && needed == sizeof child - 1
              && untouched_from(0), "a sentence may lack room");
    for (status = 0; status < 600; status++) {
        size_t name;
        holds = holds && golly_canon_status_name(status, fresh(), WIDE, &name) == GOLLY_CANON_OK
            && golly_canon_sentence(status, fresh(), 200, &needed) == GOLLY_CANON_OK && (needed > 0) == (name > 0 && status != GOLLY_CANON_OK)
            && (needed == 0 || memory[needed - 1] == '.');
    }
    check(holds, "each status with a name has a sentence, of 200 bytes at most");
}

/* What a refused file is, and the warning of an accepted one: some of both. tests/library/library.py compares all of them with those of the program. */
static void hints(void)
{
    static const char gzip[] = "This is a gzip file: unpack it first, with gunzip.", table[] = "@RULE A\n";
    static const char cut[] = "the file has no `!`, and fewer rows than its header says; a file that was cut off before its end looks like this";
    golly_canon_stream stream = {0};
    check(is_text(golly_canon_advice(GOLLY_CANON_NO_HEADER, BYTES("\x1f\x8b\n"), 0, fresh(), WIDE, &needed), gzip), "what a refused file is");
    check(is_text(golly_canon_advice(GOLLY_CANON_FULL, BYTES("\x1f\x8b\n"), 0, fresh(), WIDE, &needed), "")
              && is_text(golly_canon_advice(GOLLY_CANON_OK, BYTES("\x1f\x8b\n"), 0, fresh(), WIDE, &needed), "")
              && is_text(golly_canon_advice(UINT32_MAX, BYTES("\x1f\x8b\n"), 0, fresh(), WIDE, &needed), ""), "no advice for a status that isn't of the bytes");
    check(is_text(golly_canon_advice(GOLLY_CANON_NO_HEADER, BYTES(GLIDER), 0, fresh(), WIDE, &needed), ""), "no advice on a pattern file");
    check(golly_canon_advice(GOLLY_CANON_NO_HEADER, BYTES(table), 0, fresh(), WIDE, &needed) == GOLLY_CANON_OK && needed > 0
              && is_text(golly_canon_advice(GOLLY_CANON_NO_TABLE, BYTES(table), 1, fresh(), WIDE, &needed), ""), "a rule table where one was wanted");
    check(golly_canon_advice(GOLLY_CANON_NO_HEADER, BYTES("\x1f\x8b\n"), 0, fresh(), sizeof gzip - 2, &needed) == GOLLY_CANON_NO_ROOM
              && needed == sizeof gzip - 1 && untouched_from(0), "advice may lack room");
    check(is_text(golly_canon_warning(BYTES("x = 3, y = 3\nbo$2bo$\n"), fresh(), WIDE, &needed), cut), "the warning of a file");
    check(is_text(golly_canon_warning(BYTES(GLIDER), fresh(), WIDE, &needed), ""), "a file without a warning");
    check(golly_canon_warning(BYTES("x = 3, y = 3\nbo$2bo$\n"), fresh(), sizeof cut - 2, &needed) == GOLLY_CANON_NO_ROOM && needed == sizeof cut - 1
              && untouched_from(0), "a warning may lack room");
    golly_canon_open_show(&stream, LIMIT, SEED);
    golly_canon_feed(&stream, BYTES("x = 3, y = "), &line);
    golly_canon_feed(&stream, BYTES("3\nbo$2bo$\n"), &line);
    check(is_text(golly_canon_stream_warning(&stream, fresh(), WIDE, &needed), ""), "no warning before the end");
    golly_canon_finish(&stream, fresh(), WIDE, &needed, &line);
    check(is_text(golly_canon_stream_warning(&stream, fresh(), WIDE, &needed), cut)
              && golly_canon_stream_warning(&stream, fresh(), 9, &needed) == GOLLY_CANON_NO_ROOM && untouched_from(0)
              && is_text(golly_canon_stream_warning(&stream, fresh(), WIDE, &needed), cut), "the warning of a stream, and again");
    check(golly_canon_finish(&stream, fresh(), WIDE, &needed, &line) == GOLLY_CANON_OK && needed > 0, "the stream stays as it is");
    golly_canon_close(&stream);
    check(is_text(golly_canon_stream_warning(&stream, fresh(), WIDE, &needed), ""), "a closed stream has no warning");
}

/* Two threads, each on data and streams of its own. */
static void *thread(void *given_count)
{
    unsigned char own[WIDE] = {0};
    golly_canon_stream stream = {0};
    size_t length, at_byte;
    uint64_t at;
    long *wrong = given_count;
    int turn;
    for (turn = 0; turn < 2000; turn++) {
        uint32_t status = turn % 2 ? golly_canon_canon(BYTES(GLIDER), LIMIT, SEED, own, sizeof own, &length, &at)
                                   : golly_canon_canon(BYTES("x = 1\n"), LIMIT, SEED, own, sizeof own, &length, &at);
        if (turn % 2 ? status != GOLLY_CANON_OK || length != sizeof GLIDER_TEXT - 1 || memcmp(own, GLIDER_TEXT, length)
                     : status != GOLLY_CANON_BAD_HEADER || at != 1)
            ++*wrong;
    }
    for (turn = 0; turn < 200; turn++) {
        uint32_t status = golly_canon_open_canon(&stream, LIMIT, SEED);
        for (at_byte = 0; at_byte < sizeof GLIDER - 1 && status == GOLLY_CANON_OK; at_byte++)
            status = golly_canon_feed(&stream, (const unsigned char *)GLIDER + at_byte, 1, &at);
        if (status != GOLLY_CANON_OK || golly_canon_finish(&stream, own, sizeof own, &length, &at) != GOLLY_CANON_OK
            || length != sizeof GLIDER_TEXT - 1 || memcmp(own, GLIDER_TEXT, length)
            || golly_canon_finish_key(&stream, own, sizeof own, &length, &at) != GOLLY_CANON_OK || length != 64 || memcmp(own, GLIDER_KEY, length))
            ++*wrong;
    }
    golly_canon_close(&stream);
    return NULL;
}

static void threads(void)
{
    pthread_t one, two;
    long wrong_one = 0, wrong_two = 0;
    int begun = pthread_create(&one, NULL, thread, &wrong_one) == 0 && pthread_create(&two, NULL, thread, &wrong_two) == 0;
    check(begun, "two threads begin");
    if (begun) {
        pthread_join(one, NULL);
        pthread_join(two, NULL);
    }
    check(wrong_one == 0 && wrong_two == 0, "two threads at once");
}

/* Cells at corners of the plane, and rows over its width: calls on these go down all levels. */
#define CORNERS "#CXRLE Pos=-2305843009213693952,-2305843009213693952\nx = 2, y = 2\no4611686018427387902bo4611686018427387903$o!\n"
#define NAMED_CORNERS "#CXRLE Pos=-2305843009213693952,0\nx = 1, y = 1, rule = Spread\nA4611686018427387902.B!\n"
#define ROWS "#CXRLE Pos=-2305843009213693952,-1\nx = 1, y = 2\n4611686018427387904o$4611686018427387904o!\n"

static void *deep_calls(void *given_count)
{
    static unsigned char own[8192];
    golly_canon_stream stream = {0};
    size_t length;
    uint64_t at;
    uint32_t same, in_table, status;
    size_t i;
    long *wrong = given_count;
    *wrong += golly_canon_canon(BYTES(CORNERS), LIMIT, SEED, own, sizeof own, &length, &at) != GOLLY_CANON_OK;
    *wrong += golly_canon_show(BYTES(CORNERS), LIMIT, SEED, own, sizeof own, &length, &at) != GOLLY_CANON_OK;
    *wrong += golly_canon_to_rle(BYTES(CORNERS), LIMIT, SEED, own, sizeof own, &length, &at) != GOLLY_CANON_OK;
    *wrong += golly_canon_step(BYTES(CORNERS), LIMIT, SEED, own, sizeof own, &length, &at) != GOLLY_CANON_OK;
    *wrong += golly_canon_step_by_table(BYTES(NAMED_CORNERS), BYTES(SPREAD), LIMIT, SEED, own, sizeof own, &length, &at, &in_table)
              != GOLLY_CANON_OUT_OF_PLANE;
    *wrong += golly_canon_same(BYTES(CORNERS), BYTES(ROWS), LIMIT, SEED, &same, &at) != GOLLY_CANON_OK || same;
    *wrong += golly_canon_canon(BYTES(ROWS), LIMIT, SEED, own, sizeof own, &length, &at) != GOLLY_CANON_OK;
    *wrong += golly_canon_show(BYTES(ROWS), LIMIT, SEED, own, sizeof own, &length, &at) != GOLLY_CANON_OK;
    for (i = 0; i < FORMS; i++) {
        uint32_t form = each_form[i];
        *wrong += golly_canon_canon_form(BYTES(CORNERS), form, LIMIT, SEED, own, sizeof own, &length, &at) != GOLLY_CANON_OK;
        *wrong += golly_canon_key(BYTES(CORNERS), form, LIMIT, SEED, own, sizeof own, &length, &at) != GOLLY_CANON_OK;
        *wrong += golly_canon_same_form(BYTES(CORNERS), BYTES(CORNERS), form, LIMIT, SEED, &same, &at) != GOLLY_CANON_OK || !same;
    }
    status = golly_canon_open_step(&stream, LIMIT, SEED);
    if (status == GOLLY_CANON_OK)
        status = golly_canon_feed(&stream, BYTES(CORNERS), &at);
    *wrong += status != GOLLY_CANON_OK || golly_canon_finish_key(&stream, own, sizeof own, &length, &at) != GOLLY_CANON_OK;
    *wrong += golly_canon_finish(&stream, own, sizeof own, &length, &at) != GOLLY_CANON_OK;
    golly_canon_close(&stream);
    return NULL;
}

/* Where there are no bytes, NULL is an address as any other: each call answers as it does of an address of this program. */
static void no_bytes(void)
{
    static unsigned char nothing[1];
    uint64_t at[2];
    size_t needed[2];
    uint32_t status[2], same[2], in_table[2];
    size_t i;
    int turn;
    golly_canon_stream stream = {0};
    /* Twice: with an address, and with NULL. Of no bytes, and of a file whose text has no room. */
#define TWICE(name, call)                                                                                        \
    do {                                                                                                         \
        for (turn = 0; turn < 2; turn++) {                                                                       \
            unsigned char *none = turn ? NULL : nothing;                                                         \
            at[turn] = needed[turn] = 77;                                                                        \
            same[turn] = in_table[turn] = 77;                                                                    \
            status[turn] = call;                                                                                 \
        }                                                                                                        \
        check(status[0] == status[1] && at[0] == at[1] && needed[0] == needed[1] && same[0] == same[1]           \
              && in_table[0] == in_table[1] && status[1] == (none_wanted), "NULL for no bytes: " name);          \
    } while (0)
    uint32_t none_wanted = GOLLY_CANON_NO_HEADER;
    TWICE("canon", golly_canon_canon(none, 0, LIMIT, SEED, none, 0, &needed[turn], &at[turn]));
    TWICE("to_rle", golly_canon_to_rle(none, 0, LIMIT, SEED, none, 0, &needed[turn], &at[turn]));
    TWICE("show", golly_canon_show(none, 0, LIMIT, SEED, none, 0, &needed[turn], &at[turn]));
    TWICE("step", golly_canon_step(none, 0, LIMIT, SEED, none, 0, &needed[turn], &at[turn]));
    TWICE("step_generations", golly_canon_step_generations(none, 0, 9, LIMIT, SEED, none, 0, &needed[turn], &at[turn]));
    TWICE("step_by_table, no pattern",
          golly_canon_step_by_table(none, 0, BYTES(SPREAD), LIMIT, SEED, none, 0, &needed[turn], &at[turn], &in_table[turn]));
    TWICE("same", golly_canon_same(none, 0, none, 0, LIMIT, SEED, &same[turn], &at[turn]));
    TWICE("same, the first", golly_canon_same(none, 0, BYTES(CORNERS), LIMIT, SEED, &same[turn], &at[turn]));
    TWICE("same, the second", golly_canon_same(BYTES(CORNERS), none, 0, LIMIT, SEED, &same[turn], &at[turn]));
    for (i = 0; i < FORMS; i++) {
        uint32_t form = each_form[i];
        TWICE("canon_form", golly_canon_canon_form(none, 0, form, LIMIT, SEED, none, 0, &needed[turn], &at[turn]));
        TWICE("key", golly_canon_key(none, 0, form, LIMIT, SEED, none, 0, &needed[turn], &at[turn]));
        TWICE("same_form", golly_canon_same_form(none, 0, none, 0, form, LIMIT, SEED, &same[turn], &at[turn]));
        TWICE("same_form, the first", golly_canon_same_form(none, 0, BYTES(CORNERS), form, LIMIT, SEED, &same[turn], &at[turn]));
        TWICE("same_form, the second", golly_canon_same_form(BYTES(CORNERS), none, 0, form, LIMIT, SEED, &same[turn], &at[turn]));
    }
    none_wanted = GOLLY_CANON_NO_RULE_LINE;
    TWICE("step_by_table, no table",
          golly_canon_step_by_table(BYTES(NAMED_CORNERS), none, 0, LIMIT, SEED, none, 0, &needed[turn], &at[turn], &in_table[turn]));
    none_wanted = GOLLY_CANON_NO_ROOM;
    TWICE("the length of a text", golly_canon_canon(BYTES(CORNERS), LIMIT, SEED, none, 0, &needed[turn], &at[turn]));
    TWICE("the length of RLE", golly_canon_to_rle(BYTES(CORNERS), LIMIT, SEED, none, 0, &needed[turn], &at[turn]));
    TWICE("the length of five lines", golly_canon_show(BYTES(CORNERS), LIMIT, SEED, none, 0, &needed[turn], &at[turn]));
    TWICE("the length of a step", golly_canon_step(BYTES(GLIDER), LIMIT, SEED, none, 0, &needed[turn], &at[turn]));
    TWICE("the length of a step by a table",
          golly_canon_step_by_table(BYTES(WIRE), BYTES(SPREAD), LIMIT, SEED, none, 0, &needed[turn], &at[turn], &in_table[turn]));
    TWICE("the length of a moved text",
          golly_canon_canon_form(BYTES(CORNERS), GOLLY_CANON_MOVED, LIMIT, SEED, none, 0, &needed[turn], &at[turn]));
    TWICE("the length of a key", golly_canon_key(BYTES(CORNERS), GOLLY_CANON_MOVED, LIMIT, SEED, none, 0, &needed[turn], &at[turn]));
    TWICE("the length of a name", golly_canon_status_name(GOLLY_CANON_FULL, none, 0, &needed[turn]));
    TWICE("the length of a sentence", golly_canon_sentence(GOLLY_CANON_FULL, none, 0, &needed[turn]));
    TWICE("the length of the version", golly_canon_version(none, 0, &needed[turn]));
    TWICE("the length of advice", golly_canon_advice(GOLLY_CANON_NO_HEADER, none, 0, 0, none, 0, &needed[turn]));
    TWICE("the length of a warning", golly_canon_warning(BYTES("[M2]\n"), none, 0, &needed[turn]));
    none_wanted = GOLLY_CANON_OK;
    TWICE("no sentence", golly_canon_sentence(GOLLY_CANON_OK, none, 0, &needed[turn]));
    TWICE("no name", golly_canon_status_name(66, none, 0, &needed[turn]));
    TWICE("no advice", golly_canon_advice(GOLLY_CANON_OK, none, 0, 0, none, 0, &needed[turn]));
    TWICE("no warning", golly_canon_warning(none, 0, none, 0, &needed[turn]));
    TWICE("no warning of a stream", golly_canon_stream_warning(&stream, none, 0, &needed[turn]));
    TWICE("a piece", (golly_canon_open_canon(&stream, LIMIT, SEED), golly_canon_feed(&stream, none, 0, &at[turn])));
    none_wanted = GOLLY_CANON_NO_HEADER;
    TWICE("a stream of no bytes", (golly_canon_open_canon(&stream, LIMIT, SEED), golly_canon_feed(&stream, none, 0, &at[turn]),
                                   golly_canon_finish(&stream, none, 0, &needed[turn], &at[turn])));
    TWICE("the key of a stream of no bytes", (golly_canon_open_canon(&stream, LIMIT, SEED), golly_canon_feed(&stream, none, 0, &at[turn]),
                                              golly_canon_finish_key(&stream, none, 0, &needed[turn], &at[turn])));
    none_wanted = GOLLY_CANON_NO_ROOM;
    TWICE("the length of a stream's text", (golly_canon_open_canon(&stream, LIMIT, SEED), golly_canon_feed(&stream, BYTES(CORNERS), &at[turn]),
                                            golly_canon_finish(&stream, none, 0, &needed[turn], &at[turn])));
    TWICE("the length of a stream's key", (golly_canon_open_canon(&stream, LIMIT, SEED), golly_canon_feed(&stream, BYTES(CORNERS), &at[turn]),
                                           golly_canon_finish_key(&stream, none, 0, &needed[turn], &at[turn])));
    none_wanted = GOLLY_CANON_SPENT;
    TWICE("a piece after the key", golly_canon_feed(&stream, none, 0, &at[turn]));
    golly_canon_close(&stream);
    TWICE("a closed stream", golly_canon_finish(&stream, none, 0, &needed[turn], &at[turn]));
    TWICE("the key of a closed stream", golly_canon_finish_key(&stream, none, 0, &needed[turn], &at[turn]));
#undef TWICE
}

/* The stack that the header names suffices. */
static void small_stack(void)
{
    pthread_attr_t attributes;
    pthread_t small;
    long wrong = 0;
    int begun = pthread_attr_init(&attributes) == 0 && pthread_attr_setstacksize(&attributes, 64 << 10) == 0
                && pthread_create(&small, &attributes, deep_calls, &wrong) == 0;
    check(begun, "a thread with a small stack begins");
    if (begun)
        pthread_join(small, NULL);
    check(wrong == 0, "calls that go down all levels take a small stack");
}

int main(void)
{
    texts();
    tables();
    comparisons();
    forms();
    streams();
    names();
    sentences();
    hints();
    threads();
    no_bytes();
    small_stack();
    printf("%d passed, %d failed\n", passed, failed);
    return failed != 0;
}
