// Writes cells as extended RLE, as plainly as can be: the box in the header, and items on lines of at most 70 bytes.
#include <inttypes.h>
#include <stdint.h>
#include <stdio.h>
#include <stdlib.h>
#include <string.h>

struct cell {
    int64_t x, y;
    uint8_t state;
};

// The text so far, with room to grow, and how many bytes its last line has.
struct text {
    char *bytes;
    size_t size, room, used;
};

static char *space(struct text *text, size_t more) {
    if (text->size + more > text->room) text->bytes = realloc(text->bytes, text->room = 2 * text->room + more);
    return text->bytes + text->size;
}

enum { ITEM = 24 };

// Adds an item, whose letters stand at the end of `item` from `first` on.
static inline void put_letters(struct text *text, uint64_t count, char *item, size_t first) {
    if (count != 1)
        do item[--first] = (char)('0' + count % 10); while ((count /= 10) > 0);
    size_t length = ITEM - first;
    char *at = space(text, length + 1);
    if (text->used + length > 70) {
        *at++ = '\n';
        text->size++;
        text->used = 0;
    }
    memcpy(at, item + first, length);
    text->size += length;
    text->used += length;
}

static void put_item(struct text *text, uint64_t count, char letter) {
    char item[ITEM];
    item[ITEM - 1] = letter;
    put_letters(text, count, item, ITEM - 1);
}

static void put_prefixed(struct text *text, uint64_t count, char prefix, char letter) {
    char item[ITEM];
    item[ITEM - 1] = letter;
    item[ITEM - 2] = prefix;
    put_letters(text, count, item, ITEM - 2);
}

// The text of cells in rows from the north, and in each row from the west.
static struct text write_cells(const struct cell *cells, size_t count, const char *rule, uint64_t generation) {
    struct text text = {malloc(1024), 0, 1024, 0};
    char later[32] = "";
    int64_t left = 0, top = 0, right = -1, bottom = -1;
    for (size_t i = 0; i < count; i++) {
        if (i == 0 || cells[i].x < left) left = cells[i].x;
        if (i == 0 || cells[i].y < top) top = cells[i].y;
        if (i == 0 || cells[i].x > right) right = cells[i].x;
        if (i == 0 || cells[i].y > bottom) bottom = cells[i].y;
    }
    if (generation) sprintf(later, " Gen=%" PRIu64, generation);
    text.size = (size_t)sprintf(text.bytes, "#CXRLE Pos=%" PRId64 ",%" PRId64 "%s\nx = %" PRId64 ", y = %" PRId64 ", rule = %s\n", left, top,
                                later, right - left + 1, bottom - top + 1, rule);
    int two_states = strchr(rule, '/') != NULL;
    int64_t x = left, y = top;
    for (size_t i = 0; i < count;) {
        size_t next = i + 1;
        while (next < count && cells[next].y == cells[i].y && cells[next].x == cells[next - 1].x + 1 && cells[next].state == cells[i].state)
            next++;
        if (cells[i].y > y) {
            put_item(&text, (uint64_t)(cells[i].y - y), '$');
            x = left;
            y = cells[i].y;
        }
        if (cells[i].x > x) put_item(&text, (uint64_t)(cells[i].x - x), two_states ? 'b' : '.');
        unsigned place = cells[i].state - 1u;
        if (two_states) put_item(&text, next - i, 'o');
        else if (place < 24) put_item(&text, next - i, (char)('A' + place));
        else put_prefixed(&text, next - i, (char)('o' + place / 24), (char)('A' + place % 24));
        x = cells[next - 1].x + 1;
        i = next;
    }
    put_item(&text, 1, '!');
    *space(&text, 1) = '\n';
    text.size++;
    return text;
}
