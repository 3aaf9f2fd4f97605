// Squares of cells in a shared store, read from a macrocell file or an RLE file as plainly as can be: for the plain program to time beside
// golly_canon. It checks nothing. Equal squares are shared by one hash table. Under a B/S rule the least square is 8x8 cells in one word, and
// the lines of a macrocell file are leaves and levels of 4 and more; under a name it is one cell.
#include <stdint.h>
#include <stdio.h>
#include <stdlib.h>
#include <string.h>

static void *room_for(void *items, size_t count, size_t *room, size_t size) {
    if (count < *room) return items;
    *room = *room ? 2 * *room : 1024;
    return realloc(items, *room * size);
}

// ---- squares: 0 is blank at every level; under a name 1 to 255 are the cells; every other number is 256 + a place in `nodes`

enum { FIRST = 256, TOP = 62 };
static const uint32_t LEAF = UINT32_MAX;

struct node {
    uint32_t quarters[4]; // of a leaf: the high and the low half of its word, and LEAF twice
};

static struct node *nodes;
static size_t node_count, node_room;
static uint32_t *slots;
static size_t slot_count = 1 << 16;
static int two_states = 1;

static uint64_t hash_of(struct node node) {
    uint64_t north = (uint64_t)node.quarters[0] << 32 | node.quarters[1], south = (uint64_t)node.quarters[2] << 32 | node.quarters[3];
    __uint128_t product = (__uint128_t)(north ^ 0x9E3779B97F4A7C15u) * (south ^ 0xD1B54A32D192ED03u);
    return (uint64_t)product ^ (uint64_t)(product >> 64);
}

static void more_slots(void) {
    slot_count *= 2;
    free(slots);
    slots = calloc(slot_count, sizeof *slots);
    for (size_t i = 0; i < node_count; i++) {
        size_t at = hash_of(nodes[i]) & (slot_count - 1);
        while (slots[at]) at = (at + 1) & (slot_count - 1);
        slots[at] = (uint32_t)i + FIRST;
    }
}

static uint32_t intern(struct node node) {
    size_t at = hash_of(node) & (slot_count - 1);
    while (slots[at]) {
        if (!memcmp(&nodes[slots[at] - FIRST], &node, sizeof node)) return slots[at];
        at = (at + 1) & (slot_count - 1);
    }
    nodes = room_for(nodes, node_count, &node_room, sizeof *nodes);
    nodes[node_count++] = node;
    uint32_t id = slots[at] = (uint32_t)(node_count - 1) + FIRST;
    if (node_count * 2 > slot_count) more_slots();
    return id;
}

static uint32_t join(uint32_t nw, uint32_t ne, uint32_t sw, uint32_t se) {
    return nw | ne | sw | se ? intern((struct node){{nw, ne, sw, se}}) : 0;
}

static uint32_t leaf_of(uint64_t cells) {
    return cells ? intern((struct node){{(uint32_t)(cells >> 32), (uint32_t)cells, LEAF, LEAF}}) : 0;
}

static uint32_t quarter(uint32_t id, int which) { return id ? nodes[id - FIRST].quarters[which] : 0; }

static uint64_t cells_of(uint32_t id) { return id ? (uint64_t)nodes[id - FIRST].quarters[0] << 32 | nodes[id - FIRST].quarters[1] : 0; }

// ---- strips: rows of squares of one level, by stretches of equal squares that aren't blank

struct stretch {
    uint64_t start, end;
    uint64_t square;
};

struct strip {
    int level;
    size_t count, room;
    struct stretch *stretches;
};

static struct strip stack[TOP + 4];
static int depth;

static void append(struct strip *strip, uint64_t start, uint64_t end, uint64_t square) {
    if (!square || start == end) return;
    if (strip->count) {
        struct stretch *last = &strip->stretches[strip->count - 1];
        if (last->end == start && last->square == square) {
            last->end = end;
            return;
        }
    }
    strip->stretches = room_for(strip->stretches, strip->count, &strip->room, sizeof *strip->stretches);
    strip->stretches[strip->count++] = (struct stretch){start, end, square};
}

// The square at a place, and how far it or the blank goes on; `index` is that of the first stretch that ends behind the place.
static uint64_t square_at(const struct strip *strip, size_t *index, uint64_t place, uint64_t *end) {
    while (*index < strip->count && strip->stretches[*index].end <= place) ++*index;
    if (*index == strip->count) return *end = UINT64_MAX, 0;
    const struct stretch *stretch = &strip->stretches[*index];
    if (place < stretch->start) return *end = stretch->start, 0;
    return *end = stretch->end, stretch->square;
}

static struct strip pair(struct strip upper, struct strip lower) {
    struct strip both = {upper.level + 1, 0, 0, NULL};
    size_t i = 0, j = 0;
    for (uint64_t column = 0;;) {
        uint64_t upper_end, lower_end, upper_next, lower_next;
        uint32_t nw = (uint32_t)square_at(&upper, &i, 2 * column, &upper_end), sw = (uint32_t)square_at(&lower, &j, 2 * column, &lower_end);
        if (!nw && !sw) {
            uint64_t end = upper_end < lower_end ? upper_end : lower_end;
            if (end == UINT64_MAX) break;
            if (end / 2 > column) {
                column = end / 2;
                continue;
            }
        }
        uint32_t ne = (uint32_t)square_at(&upper, &i, 2 * column + 1, &upper_next), se = (uint32_t)square_at(&lower, &j, 2 * column + 1, &lower_next);
        uint64_t end = column + 1, whole = (upper_end < lower_end ? upper_end : lower_end) / 2;
        if (whole > end) end = whole;
        append(&both, column, end, join(nw, ne, sw, se));
        column = end;
    }
    free(upper.stretches);
    free(lower.stretches);
    return both;
}

static void push(struct strip strip) {
    while (depth && stack[depth - 1].level == strip.level) strip = pair(stack[--depth], strip);
    stack[depth++] = strip;
}

// Blank strips for so many rows of the least level.
static void skip(uint64_t done, uint64_t rows, int least) {
    while (rows) {
        int level = 0;
        while (level < TOP - least && !(done >> level & 1) && (uint64_t)2 << level <= rows) level++;
        push((struct strip){least + level, 0, 0, NULL});
        done += (uint64_t)1 << level;
        rows -= (uint64_t)1 << level;
    }
}

// ---- RLE

static struct strip band[8];
static uint64_t band_number, bands_done;

// The eight rows of a band as a strip of leaves.
static void end_band(void) {
    struct strip leaves = {3, 0, 0, NULL};
    size_t index[8] = {0};
    for (uint64_t place = 0;;) {
        uint64_t cells = 0, next = UINT64_MAX, end;
        for (int row = 0; row < 8; row++) {
            cells = cells << 8 | square_at(&band[row], &index[row], place, &end);
            if (end < next) next = end;
        }
        if (next == UINT64_MAX) break;
        append(&leaves, place, next, leaf_of(cells));
        place = next;
    }
    for (int row = 0; row < 8; row++) band[row].count = 0;
    skip(bands_done, band_number - bands_done, 3);
    push(leaves);
    bands_done = band_number + 1;
}

static struct strip row_now;
static uint64_t row_number, rows_done;

static void end_row(void) {
    skip(rows_done, row_number - rows_done, 0);
    push(row_now);
    row_now = (struct strip){0, 0, 0, NULL};
    rows_done = row_number + 1;
}

// Eight columns more of a row; what stands there already stays.
static void add_bits(struct strip *row, uint64_t place, uint64_t end, uint64_t bits) {
    if (row->count && row->stretches[row->count - 1].end == place + 1) {
        struct stretch *last = &row->stretches[row->count - 1];
        bits |= last->square;
        if (--last->end == last->start) row->count--;
    }
    append(row, place, end, bits);
}

// A run of cells in columns and rows that count from the plane's edge.
static void add_run(uint64_t x, uint64_t y, uint64_t length, uint64_t square) {
    if (!two_states) {
        if (row_now.count && y != row_number) end_row();
        row_number = y;
        append(&row_now, x, x + length, square);
        return;
    }
    if (y / 8 != band_number) {
        int any = 0;
        for (int row = 0; row < 8; row++) any |= band[row].count != 0;
        if (any) end_band();
        band_number = y / 8;
    }
    struct strip *row = &band[y % 8];
    uint64_t end = x + length;
    if (x / 8 == (end - 1) / 8) {
        add_bits(row, x / 8, x / 8 + 1, (255u >> x % 8) & ~(length + x % 8 == 8 ? 0u : 255u >> (x % 8 + length)));
        return;
    }
    if (x % 8) add_bits(row, x / 8, x / 8 + 1, 255u >> x % 8), x = (x / 8 + 1) * 8;
    append(row, x / 8, end / 8, 255);
    if (end % 8) add_bits(row, end / 8, end / 8 + 1, 255u & ~(255u >> end % 8));
}

// What a file says.
struct pattern {
    char rule[256];
    uint64_t generation;
    uint32_t root;
    int level;
};

static struct pattern now;

static void is_named(void) { two_states = strchr(now.rule, '/') != NULL; }

// Ends the last row, and leaves the whole plane as the root.
static void end_plane(void) {
    int least = two_states ? 3 : 0;
    if (two_states) end_band();
    else end_row();
    uint64_t done = two_states ? bands_done : rows_done;
    skip(done, ((uint64_t)1 << (TOP - least)) - done, least);
    now.root = stack[0].count ? (uint32_t)stack[0].stretches[0].square : 0;
    now.level = TOP;
    free(stack[0].stretches);
    depth = 0;
    band_number = bands_done = row_number = rows_done = 0;
}

static void read_rle(const char *input, size_t size) {
    const uint64_t half = (uint64_t)1 << (TOP - 1);
    int64_t left = 0, x = 0, y = 0;
    int header = 0, over = 0;
    const char *end = input + size;
    for (const char *at = input; at < end && !over;) {
        const char *feed = memchr(at, '\n', (size_t)(end - at));
        const char *stop = feed ? feed : end;
        if (*at == '#') {
            long long px = 0, py = 0;
            unsigned long long gen = 0;
            if (sscanf(at, "#CXRLE Pos=%lld,%lld Gen=%llu", &px, &py, &gen) > 0) left = x = px, y = py, now.generation = gen;
        } else if (!header) {
            header = 1;
            const char *named = memchr(at, 'r', (size_t)(stop - at));
            if (named) sscanf(named, "rule = %255s", now.rule);
            is_named();
        } else {
            uint64_t number = 0, prefix = 0;
            int has_number = 0;
            for (const char *byte = at; byte < stop; byte++) {
                char c = *byte;
                if (c >= '0' && c <= '9') {
                    number = number * 10 + (uint64_t)(c - '0');
                    has_number = 1;
                    continue;
                }
                if (c >= 'p' && c <= 'y') {
                    prefix = 24 * (uint64_t)(c - 'p' + 1);
                    continue;
                }
                uint64_t length = has_number ? number : 1;
                if (c == 'b' || c == '.') {
                    x += (int64_t)length;
                } else if (c == 'o' || (c >= 'A' && c <= 'X')) {
                    add_run((uint64_t)x + half, (uint64_t)y + half, length, c == 'o' ? 1 : prefix + (uint64_t)(c - 'A' + 1));
                    x += (int64_t)length;
                } else if (c == '$') {
                    y += (int64_t)length;
                    x = left;
                } else if (c == '!') {
                    over = 1;
                    break;
                } else {
                    continue;
                }
                number = prefix = 0;
                has_number = 0;
            }
        }
        at = stop + 1;
    }
    end_plane();
}

// ---- macrocell

static void read_macrocell(const char *input, size_t size) {
    uint32_t *ids = NULL;
    size_t count = 0, room = 0;
    const char *end = input + size;
    int level = 1;
    for (const char *at = input; at < end;) {
        const char *feed = memchr(at, '\n', (size_t)(end - at));
        const char *stop = feed ? feed : end;
        if (!strncmp(at, "#R ", 3)) {
            snprintf(now.rule, sizeof now.rule, "%.*s", (int)(stop - at - 3), at + 3);
            is_named();
        } else if (!strncmp(at, "#G ", 3)) {
            now.generation = strtoull(at + 3, NULL, 10);
        } else if (*at != '[' && *at != '#') {
            ids = room_for(ids, count, &room, sizeof *ids);
            if (*at == '.' || *at == '*' || *at == '$') {
                uint64_t cells = 0;
                int row = 0, column = 0;
                for (; at < stop && row < 8; at++) {
                    if (*at == '$') row++, column = 0;
                    else cells |= (uint64_t)(*at == '*') << (63 - 8 * row - column++ % 8);
                }
                ids[count] = leaf_of(cells);
                level = 3;
            } else {
                uint64_t numbers[5] = {0};
                for (int i = 0; i < 5; i++) {
                    while (at < stop && *at == ' ') at++;
                    for (; at < stop && *at != ' '; at++) numbers[i] = numbers[i] * 10 + (uint64_t)(*at - '0');
                }
                level = (int)numbers[0];
                uint32_t quarters[4];
                for (int i = 0; i < 4; i++)
                    quarters[i] = level == 1 ? (uint32_t)numbers[i + 1] : numbers[i + 1] ? ids[numbers[i + 1] - 1] : 0;
                ids[count] = join(quarters[0], quarters[1], quarters[2], quarters[3]);
            }
            count++;
        }
        at = stop + 1;
    }
    now.root = count ? ids[count - 1] : 0;
    now.level = level;
    free(ids);
}

// ---- the least square

// The middle of the square that four leaves make.
static uint64_t middle_of(uint64_t nw, uint64_t ne, uint64_t sw, uint64_t se) {
    const uint64_t east = 0x0F0F0F0F, west = east << 4;
    return (nw & east) << 36 | (ne & west) << 28 | (sw & east << 32) >> 28 | (se & west << 32) >> 36;
}

// Takes the outer ring of a square of 16x16 cells away, if it is blank.
static int trim_leaves(void) {
    uint64_t cells[4], middle;
    int number = 0;
    for (int which = 0; which < 4; which++) cells[which] = cells_of(quarter(now.root, which)), number += __builtin_popcountll(cells[which]);
    middle = middle_of(cells[0], cells[1], cells[2], cells[3]);
    if (__builtin_popcountll(middle) != number) return 0;
    now.root = leaf_of(middle);
    return 1;
}

// Takes the outer ring of the root away, if it is blank.
static int trim_ring(void) {
    if (two_states && now.level == 4) return trim_leaves();
    uint32_t root = now.root;
    for (int which = 0; which < 4; which++)
        for (int inner = 0; inner < 4; inner++)
            if (inner != 3 - which && quarter(quarter(root, which), inner)) return 0;
    now.root = join(quarter(quarter(root, 0), 3), quarter(quarter(root, 1), 2), quarter(quarter(root, 2), 1), quarter(quarter(root, 3), 0));
    return 1;
}

static void trim(void) {
    while (now.root && now.level > (two_states ? 3 : 1) && trim_ring()) now.level--;
}

// ---- a file

// Reads the pattern of a file, or of standard input for `-`, and trims it.
static void read_pattern(const char *name) {
    FILE *file = strcmp(name, "-") ? fopen(name, "rb") : stdin;
    size_t size = 0, room = 1 << 16;
    char *input = malloc(room);
    for (size_t count; (count = fread(input + size, 1, room - size, file)) > 0;) {
        size += count;
        if (size == room) input = realloc(input, room *= 2);
    }
    if (file != stdin) fclose(file);
    input = realloc(input, size + 1);
    input[size] = '\n';
    if (!slots) slots = calloc(slot_count, sizeof *slots);
    now = (struct pattern){"B3/S23", 0, 0, 0};
    is_named();
    if (size >= 4 && !memcmp(input, "[M2]", 4)) read_macrocell(input, size);
    else read_rle(input, size);
    free(input);
    trim();
}
