// Makes the inputs that the benchmarks read, the same bytes each time.
//   generate macrocell LINES   node lines of a two-state rule: leaves, then levels 4 and up, with sharing
//   generate named LINES       node lines of a named rule from level 1 up, states 0 to 255, with sharing
//   generate rle BYTES         an RLE soup of about BYTES bytes, one cell in three alive
//   generate states8 BYTES     an RLE soup of a named rule with states 0 to 7, half of the cells 0
//   generate states256 BYTES   the same with states 0 to 255
//   generate cells BYTES       single cells, a few on each row of a square of 2^20 columns and rows
//   generate deep BYTES        single cells, one on a row, anywhere in the whole plane
//   generate rows LINES        an RLE file of so many rows of 2^62 cells each, with up to eight rows between them
//   generate far LINES         an RLE file of so many rows of two cells each, some 8,000,000 columns apart
//   generate rotate4 LINES     a rule table of so many transitions under that symmetry: 8 states, Moore, ten variables
//   generate permute LINES     the same under permute
//   generate settled_rotate4 LINES, generate settled_permute LINES     the same without variables as outputs, so that no cell gets two states
#include <stdint.h>
#include <stdio.h>
#include <stdlib.h>
#include <string.h>

static uint64_t state = 88172645463325252ull;

static uint64_t next_random(void) {
    state ^= state << 13;
    state ^= state >> 7;
    state ^= state << 17;
    return state;
}

static void leaf(void) {
    char text[73];
    int length = 0;
    for (int row = 0; row < 8; row++) {
        unsigned cells = (unsigned)(next_random() >> 20) & (unsigned)(next_random() >> 30) & 255;
        int last = -1;
        for (int column = 0; column < 8; column++)
            if (cells >> (7 - column) & 1) last = column;
        for (int column = 0; column <= last; column++) text[length++] = cells >> (7 - column) & 1 ? '*' : '.';
        text[length++] = '$';
    }
    text[length] = 0;
    puts(text);
}

// Quarter lines of one level, each quarter one of the lines from `first` to `first + count - 1`, or 0.
static void level_lines(int level, long first, long count, long lines) {
    for (long i = 0; i < lines; i++) {
        long child[4];
        for (int q = 0; q < 4; q++) child[q] = next_random() % 8 == 0 ? 0 : first + (long)(next_random() % (uint64_t)count);
        printf("%d %ld %ld %ld %ld\n", level, child[0], child[1], child[2], child[3]);
    }
}

static void levels(int level, long first, long count, long left) {
    while (left > 0 && level <= 62) {
        long lines = left > 40 && level < 62 ? left / 2 : left;
        if (left <= 40 || level == 62) lines = level < 62 ? 1 : left;
        level_lines(level, first, count, lines);
        first += count;
        count = lines;
        left -= lines;
        level++;
    }
}

static void macrocell(long lines) {
    puts("[M2] (generated)\n#R B3/S23");
    long leaves = lines / 3;
    for (long i = 0; i < leaves; i++) leaf();
    levels(4, 1, leaves, lines - leaves);
}

static void named(long lines) {
    puts("[M2] (generated)\n#R Generated\n#G 7");
    long points = lines / 3;
    for (long i = 0; i < points; i++)
        printf("1 %d %d %d %d\n", (int)(next_random() >> 40 & 255), (int)(next_random() >> 40 & 255), (int)(next_random() >> 40 & 255),
               (int)(next_random() >> 40 & 255));
    levels(2, 1, points, lines - points);
}

static void rle(long bytes) {
    puts("x = 4096, y = 4096, rule = B3/S23");
    long written = 0, column = 0, width = 0;
    int alive = next_random() % 3 == 0;
    while (written < bytes) {
        long run = 1;
        while (column + run < 4096 && (next_random() % 3 == 0) == alive) run++;
        char item[24];
        int length = run == 1 ? sprintf(item, "%c", alive ? 'o' : 'b') : sprintf(item, "%ld%c", run, alive ? 'o' : 'b');
        column += run;
        if (column >= 4096) {
            item[length++] = '$';
            item[length] = 0;
            column = 0;
        }
        if (width + length > 70) {
            putchar('\n');
            written++;
            width = 0;
        }
        fputs(item, stdout);
        width += length;
        written += length;
        alive = !alive;
    }
    puts("!");
}

static void states(const char *rule, int most, long bytes) {
    printf("x = 4096, y = 4096, rule = %s\n", rule);
    for (long written = 0; written < bytes;) {
        for (int column = 0, width = 0; column < 4096; column++) {
            int cell = next_random() % 2 == 0 ? 0 : 1 + (int)((next_random() >> 30) % (uint64_t)most);
            if (width > 66) {
                putchar('\n');
                written++;
                width = 0;
            }
            if (cell > 24) putchar('p' + (cell - 1) / 24 - 1);
            putchar(cell == 0 ? '.' : 'A' + (cell - 1) % 24);
            width += cell > 24 ? 2 : 1;
            written += cell > 24 ? 2 : 1;
        }
        puts("$");
        written += 2;
    }
    puts("!");
}

static void cells(long bytes) {
    puts("#CXRLE Pos=-524288,-524288\nx = 1048576, y = 1048576, rule = B3/S23");
    for (long written = 0; written < bytes;) {
        long column = 0;
        for (int i = 0; i < 3; i++) {
            long dead = 1 + (long)((next_random() >> 20) % 300000);
            column += dead + 1;
            if (column < 1048576) written += printf("%ldbo", dead);
        }
        written += printf("%d$\n", 1 + (int)((next_random() >> 20) % 3));
    }
    puts("!");
}

static void deep(long bytes) {
    puts("#CXRLE Pos=-2305843009213693952,-2305843009213693952\nx = 1, y = 1, rule = B3/S23");
    uint64_t most = (1ull << 62) / (uint64_t)(bytes / 30 + 1); // so that the last row is in the plane
    for (long written = 0; written < bytes;)
        written += printf("%llubo%llu$\n", (unsigned long long)(1 + next_random() % ((1ull << 62) - 2)),
                          (unsigned long long)(1 + next_random() % most));
    puts("!");
}

static void far(long lines) {
    puts("x = 8000000, y = 1, rule = B3/S23");
    for (long i = 0; i < lines; i++) printf("%dbo%dbo$\n", 1 + (int)((next_random() >> 20) % 1000), 7990000 + (int)((next_random() >> 20) % 1000));
    puts("!");
}

static void rows(long lines) {
    puts("#CXRLE Pos=-2305843009213693952,0\nx = 1, y = 1, rule = B3/S23");
    for (long i = 0; i < lines; i++) printf("4611686018427387904o%d$\n", 1 + (int)((next_random() >> 20) % 8));
    puts("!");
}

// A state of a transition: 0 in every second place.
static int table_state(void) {
    int bits = (int)(next_random() >> 40 & 15);
    return bits < 8 ? 0 : bits & 7;
}

// One transition: a fixed centre for seven lines in eight, one to three fixed neighbours, variables at the other places, each once but in
// every sixteenth line, and as output a fixed state, or in every eighth line, unless all are settled, the variable of the last place that has one.
static void transition(int is_settled) {
    char entries[9];
    int kind = (int)(next_random() >> 33) % 8, fixed = kind == 0 ? 1 : kind < 4 ? 2 : 3, first = (int)(next_random() >> 35) % 10, output = 0;
    for (int place = 0; place < 9; place++) entries[place] = (char)('a' + (first + place) % 10);
    if ((next_random() >> 20 & 15) == 0) entries[8] = entries[7];
    if ((next_random() >> 20 & 7) != 0) entries[0] = (char)('0' + table_state());
    while (fixed > 0) {
        int place = 1 + (int)((next_random() >> 33) % 8);
        if (entries[place] < 'a') continue;
        entries[place] = (char)('0' + table_state());
        fixed--;
    }
    for (int place = 1; place < 9; place++)
        if (entries[place] >= 'a') output = place;
    for (int place = 0; place < 9; place++) printf("%c,", entries[place]);
    if (is_settled || (next_random() >> 20 & 7) != 0) printf("%d\n", table_state());
    else printf("%c\n", entries[output]);
}

static void table(const char *symmetry, const char *variables, long lines, int is_settled) {
    printf("@RULE Generated\n@TABLE\nn_states:8\nneighborhood:Moore\nsymmetries:%s\n%s0,0,0,0,0,0,0,0,0,0\n", symmetry, variables);
    for (long i = 1; i < lines; i++) transition(is_settled);
}

// Under rotate4 the places matter, so that the variables may have more states.
static const char *const wide = "var a={0,1,2,3}\nvar b={a}\nvar c={a}\nvar d={1,5,6,7}\nvar e={0,4,5,6,7}\nvar f={e}\nvar g={0,2,4,6}\nvar h={g}\n"
                                "var i={1,2,3,4,5,6,7}\nvar j={i}\n";
static const char *const narrow = "var a={1,2}\nvar b={a}\nvar c={0,3}\nvar d={4,5}\nvar e={c}\nvar f={d}\nvar g={5,6,7}\nvar h={g}\n"
                                  "var i={0,2,4,6}\nvar j={1,3,5,7}\n";

int main(int count, char **words) {
    long size = count == 3 ? atol(words[2]) : 0;
    if (count == 3 && strcmp(words[1], "macrocell") == 0) macrocell(size);
    else if (count == 3 && strcmp(words[1], "named") == 0) named(size);
    else if (count == 3 && strcmp(words[1], "rle") == 0) rle(size);
    else if (count == 3 && strcmp(words[1], "states8") == 0) states("Generated", 7, size);
    else if (count == 3 && strcmp(words[1], "states256") == 0) states("Generated", 255, size);
    else if (count == 3 && strcmp(words[1], "cells") == 0) cells(size);
    else if (count == 3 && strcmp(words[1], "deep") == 0) deep(size);
    else if (count == 3 && strcmp(words[1], "rows") == 0) rows(size);
    else if (count == 3 && strcmp(words[1], "far") == 0) far(size);
    else if (count == 3 && strcmp(words[1], "rotate4") == 0) table(words[1], wide, size, 0);
    else if (count == 3 && strcmp(words[1], "permute") == 0) table(words[1], narrow, size, 0);
    else if (count == 3 && strcmp(words[1], "settled_rotate4") == 0) table("rotate4", wide, size, 1);
    else if (count == 3 && strcmp(words[1], "settled_permute") == 0) table("permute", narrow, size, 1);
    else {
        fputs("usage: generate macrocell|named|rle|states8|states256|cells|deep|rows|far|rotate4|permute|settled_rotate4|settled_permute SIZE\n", stderr);
        return 2;
    }
    return 0;
}
