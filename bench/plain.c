// A plain program that does the whole of what golly_canon does, to time beside, and checks nothing.
//   plain canon FILE           the canonical text
//   plain same A B             `same` or `different`
//   plain show FILE            rule, generation, population, least box and squares
//   plain rle FILE             the pattern in extended RLE
//   plain step FILE            the next generation under the file's B/S rule, as canonical text
//   plain step FILE RULE       the same by a rule table, as plain_matcher.h takes it
// A file named - is standard input.
#include "plain_items.h"
#include "plain_matcher.h"
#include "plain_squares.h"

// ---- the canonical text

static uint32_t *numbers, numbered;
static char piece[1 << 16], *out = piece;

static char *number(char *at, uint64_t value) {
    char digits[20];
    int count = 0;
    do digits[count++] = (char)('0' + value % 10);
    while (value /= 10);
    while (count) *at++ = digits[--count];
    return at;
}

static uint32_t write_square(uint32_t id, int height) {
    if (id < FIRST) return id;
    if (numbers[id - FIRST]) return numbers[id - FIRST];
    struct node node = nodes[id - FIRST];
    uint32_t quarters[4];
    int is_leaf = two_states && height == 3;
    for (int i = 0; i < 4 && !is_leaf; i++) quarters[i] = write_square(node.quarters[i], height - 1);
    if (out - piece > (1 << 16) - 200) fwrite(piece, 1, (size_t)(out - piece), stdout), out = piece;
    if (is_leaf) {
        uint64_t cells = cells_of(id);
        for (int row = 0; row < 8; row++, cells <<= 8) {
            for (unsigned left = (unsigned)(cells >> 56); left & 255; left <<= 1) *out++ = left & 128 ? '*' : '.';
            *out++ = '$';
        }
    } else {
        out = number(out, (uint64_t)height);
        for (int i = 0; i < 4; i++) *out++ = ' ', out = number(out, quarters[i]);
    }
    *out++ = '\n';
    return numbers[id - FIRST] = ++numbered;
}

static void write_canonical(void) {
    out += sprintf(out, "[M2] (canonical 1)\n#R %s\n", now.rule);
    if (now.generation) out += sprintf(out, "#G %llu\n", (unsigned long long)now.generation);
    numbers = calloc(node_count + 1, sizeof *numbers);
    write_square(now.root, now.level);
    fwrite(piece, 1, (size_t)(out - piece), stdout);
}

// ---- what a square holds, kept for each square

struct measure {
    __uint128_t population;
    uint64_t west, north, east, south; // of the least box of the live cells, from the square's corner; `east` and `south` are behind it
};

static struct measure *measures;
static uint32_t measured;

static struct measure join_measures(const struct measure *parts, uint64_t half) {
    struct measure whole = {0, UINT64_MAX, UINT64_MAX, 0, 0};
    for (int i = 0; i < 4; i++) {
        if (!parts[i].population) continue;
        uint64_t x = i % 2 ? half : 0, y = i / 2 ? half : 0;
        whole.population += parts[i].population;
        if (parts[i].west + x < whole.west) whole.west = parts[i].west + x;
        if (parts[i].north + y < whole.north) whole.north = parts[i].north + y;
        if (parts[i].east + x > whole.east) whole.east = parts[i].east + x;
        if (parts[i].south + y > whole.south) whole.south = parts[i].south + y;
    }
    return whole;
}

static struct measure measure_leaf(uint64_t cells) {
    struct measure leaf = {(unsigned)__builtin_popcountll(cells), 0, 0, 8, 8};
    uint64_t columns = cells | cells >> 32;
    columns |= columns >> 16;
    columns = (columns | columns >> 8) & 255;
    leaf.west = (uint64_t)__builtin_clzll(columns << 56);
    leaf.east = 8 - (uint64_t)__builtin_ctzll(columns);
    leaf.north = (uint64_t)__builtin_clzll(cells) / 8;
    leaf.south = 8 - (uint64_t)__builtin_ctzll(cells) / 8;
    return leaf;
}

static struct measure measure(uint32_t id, int height) {
    if (!id) return (struct measure){0, 0, 0, 0, 0};
    if (id < FIRST) return (struct measure){1, 0, 0, 1, 1};
    if (measures[id - FIRST].population) return measures[id - FIRST];
    measured++;
    if (two_states && height == 3) return measures[id - FIRST] = measure_leaf(cells_of(id));
    struct measure parts[4];
    for (int i = 0; i < 4; i++) parts[i] = measure(nodes[id - FIRST].quarters[i], height - 1);
    return measures[id - FIRST] = join_measures(parts, (uint64_t)1 << (height - 1));
}

static void show(void) {
    measures = calloc(node_count + 1, sizeof *measures);
    struct measure whole = measure(now.root, now.level);
    char digits[48], *first = digits + sizeof digits - 1;
    *first = 0;
    do *--first = (char)('0' + (int)(whole.population % 10));
    while (whole.population /= 10);
    printf("rule %s\ngeneration %llu\npopulation %s\n", now.rule, (unsigned long long)now.generation, first);
    int64_t corner = -((int64_t)1 << (now.level - 1));
    if (!now.root) puts("box none");
    else
        printf("box %lld %lld %llu %llu\n", (long long)(corner + (int64_t)whole.west), (long long)(corner + (int64_t)whole.north),
               (unsigned long long)(whole.east - whole.west), (unsigned long long)(whole.south - whole.north));
    printf("nodes %u\n", measured);
}

// ---- the cells by rows: a band of squares side by side is split into its upper and its lower half, down to the least squares

struct member {
    int64_t column; // in squares of the band's level, from the plane's origin
    uint32_t square;
};

static struct cell *cells;
static size_t cell_count, cell_room;

static void add_cell(int64_t x, int64_t y, uint8_t state) {
    cells = room_for(cells, cell_count, &cell_room, sizeof *cells);
    cells[cell_count++] = (struct cell){x, y, state};
}

static void list_leaves(const struct member *members, size_t count, int64_t band) {
    for (int row = 0; row < 8; row++)
        for (size_t i = 0; i < count; i++) {
            unsigned bits = (unsigned)(cells_of(members[i].square) >> (56 - 8 * row)) & 255;
            for (int column = 0; bits; column++, bits = bits << 1 & 255)
                if (bits & 128) add_cell(8 * members[i].column + column, 8 * band + row, 1);
        }
}

static void list_band(const struct member *members, size_t count, int64_t band, int height) {
    if (!count) return;
    if (two_states && height == 3) {
        list_leaves(members, count, band);
        return;
    }
    if (height == 0) {
        for (size_t i = 0; i < count; i++) add_cell(members[i].column, band, (uint8_t)members[i].square);
        return;
    }
    struct member *half = malloc(2 * count * sizeof *half);
    for (int lower = 0; lower < 2; lower++) {
        size_t found = 0;
        for (size_t i = 0; i < count; i++)
            for (int side = 0; side < 2; side++) {
                uint32_t square = quarter(members[i].square, 2 * lower + side);
                if (square) half[found++] = (struct member){2 * members[i].column + side, square};
            }
        list_band(half, found, 2 * band + lower, height - 1);
    }
    free(half);
}

// The root has its corner at half its width west and north of the origin, so that its four quarters have the columns and bands -1 and 0.
static void list_cells(void) {
    for (int lower = 0; lower < 2; lower++) {
        struct member pair[2];
        size_t found = 0;
        for (int side = 0; side < 2; side++) {
            uint32_t square = two_states && now.level == 3 ? 0 : quarter(now.root, 2 * lower + side);
            if (square) pair[found++] = (struct member){side - 1, square};
        }
        list_band(pair, found, lower - 1, now.level - 1);
    }
    if (!two_states || now.level != 3) return;
    for (int row = 0; row < 8; row++)
        for (int column = 0; column < 8; column++)
            if (cells_of(now.root) >> (63 - 8 * row - column) & 1) add_cell(column - 4, row - 4, 1);
}

// ---- one generation under a B/S rule: the middle of a square is kept for each square

static const uint32_t UNKNOWN = UINT32_MAX;
static uint32_t *middles;
static size_t middle_room;
static unsigned births, survivals;

static uint32_t *middle_at(uint32_t id) {
    if (id - FIRST >= middle_room) {
        middles = realloc(middles, node_room * sizeof *middles);
        memset(middles + middle_room, 255, (node_room - middle_room) * sizeof *middles);
        middle_room = node_room;
    }
    return &middles[id - FIRST];
}

static uint64_t spread(uint32_t rows) {
    uint64_t wide = (rows | (uint64_t)rows << 16) & 0x0000FFFF0000FFFF;
    return (wide | wide << 8) & 0x00FF00FF00FF00FF;
}

// Four rows of sixteen columns, from four rows of two leaves.
static uint64_t four_rows(uint64_t west, uint64_t east, int shift) {
    return spread((uint32_t)(west >> shift)) << 8 | spread((uint32_t)(east >> shift));
}

// The sum of three bits in two.
struct sum {
    uint64_t ones, twos;
};

static struct sum sum_of(uint64_t a, uint64_t b, uint64_t c) { return (struct sum){a ^ b ^ c, (a & b) | (c & (a | b))}; }

// The next states of rows, by those above and below: the live neighbours of all are counted at once, in four words of one bit each. The outer
// columns of each row come out wrong.
static uint64_t next_rows(uint64_t above, uint64_t rows, uint64_t below) {
    struct sum north = sum_of(above << 1, above, above >> 1), south = sum_of(below << 1, below, below >> 1);
    struct sum ones = sum_of(north.ones, south.ones, rows << 1 ^ rows >> 1);
    uint64_t sides = rows << 1 & rows >> 1;
    struct sum twos = sum_of(north.twos, south.twos, sides);
    uint64_t bits[4] = {ones.ones, twos.ones ^ ones.twos}, carry = twos.ones & ones.twos, next = 0;
    bits[2] = twos.twos ^ carry;
    bits[3] = twos.twos & carry;
    for (int number = 0; number < 9; number++) {
        if (!((births | survivals) >> number & 1)) continue;
        uint64_t equal = UINT64_MAX;
        for (int bit = 0; bit < 4; bit++) equal &= number >> bit & 1 ? bits[bit] : ~bits[bit];
        if (births >> number & 1) next |= equal & ~rows;
        if (survivals >> number & 1) next |= equal & rows;
    }
    return next;
}

// The columns 4 to 11 of four rows.
static uint32_t middle_columns(uint64_t rows) {
    rows = rows >> 4 & 0x00FF00FF00FF00FF;
    rows = (rows | rows >> 8) & 0x0000FFFF0000FFFF;
    return (uint32_t)(rows | rows >> 16);
}

static uint64_t leaf_later(uint64_t nw, uint64_t ne, uint64_t sw, uint64_t se) {
    uint64_t rows[4] = {four_rows(nw, ne, 32), four_rows(nw, ne, 0), four_rows(sw, se, 32), four_rows(sw, se, 0)}, next[2];
    for (int i = 1; i < 3; i++) next[i - 1] = next_rows(rows[i] >> 16 | rows[i - 1] << 48, rows[i], rows[i] << 16 | rows[i + 1] >> 48);
    return (uint64_t)middle_columns(next[0]) << 32 | middle_columns(next[1]);
}

// The middle of the square that four squares of a level make.
static uint32_t middle(uint32_t nw, uint32_t ne, uint32_t sw, uint32_t se, int height) {
    if (height == 3) return leaf_of(middle_of(cells_of(nw), cells_of(ne), cells_of(sw), cells_of(se)));
    return join(quarter(nw, 3), quarter(ne, 2), quarter(sw, 1), quarter(se, 0));
}

// The middle of a square of level 4 or more, one generation later. Nine squares half as wide lie in it, and their middles have it among them.
static uint32_t later(uint32_t id, int height) {
    if (!id) return 0;
    if (*middle_at(id) != UNKNOWN) return *middle_at(id);
    uint32_t parts[4][4], middles_later[3][3], answer;
    if (height == 4) {
        answer = leaf_of(leaf_later(cells_of(quarter(id, 0)), cells_of(quarter(id, 1)), cells_of(quarter(id, 2)), cells_of(quarter(id, 3))));
        return *middle_at(id) = answer;
    }
    for (int row = 0; row < 4; row++)
        for (int column = 0; column < 4; column++)
            parts[row][column] = quarter(quarter(id, row / 2 * 2 + column / 2), row % 2 * 2 + column % 2);
    for (int row = 0; row < 3; row++)
        for (int column = 0; column < 3; column++)
            middles_later[row][column] =
                later(join(parts[row][column], parts[row][column + 1], parts[row + 1][column], parts[row + 1][column + 1]), height - 1);
    uint32_t quarters[4];
    for (int i = 0; i < 4; i++) {
        uint32_t *upper = &middles_later[i / 2][i % 2], *lower = &middles_later[i / 2 + 1][i % 2];
        quarters[i] = middle(upper[0], upper[1], lower[0], lower[1], height - 2);
    }
    answer = join(quarters[0], quarters[1], quarters[2], quarters[3]);
    return *middle_at(id) = answer;
}

// Puts blank squares around the root, so that it is one level higher.
static void grow(void) {
    uint32_t parts[4] = {0};
    if (two_states && now.level == 3) {
        uint64_t all = cells_of(now.root), east = 0x0F0F0F0F, west = east << 4;
        parts[0] = leaf_of(all >> 36 & east), parts[1] = leaf_of(all >> 28 & west);
        parts[2] = leaf_of(all << 28 & east << 32), parts[3] = leaf_of(all << 36 & west << 32);
    } else {
        for (int i = 0; i < 4; i++) {
            uint32_t quarters[4] = {0};
            quarters[3 - i] = quarter(now.root, i);
            parts[i] = join(quarters[0], quarters[1], quarters[2], quarters[3]);
        }
    }
    now.root = join(parts[0], parts[1], parts[2], parts[3]);
    now.level++;
}

static unsigned digits_of(const char *text) {
    unsigned digits = 0;
    for (; *text >= '0' && *text <= '8'; text++) digits |= 1u << (*text - '0');
    return digits;
}

static void step_by_counts(void) {
    births = digits_of(strchr(now.rule, 'B') + 1);
    survivals = digits_of(strchr(now.rule, 'S') + 1);
    grow();
    grow();
    now.root = later(now.root, now.level);
    now.level--;
}

// ---- one generation by a table: the places beside cells, row by row

struct row {
    int64_t y;
    const struct cell *next, *end;
};

static struct row *rows;
static size_t row_count, row_room;

static void list_rows(void) {
    for (size_t first = 0, end; first < cell_count; first = end) {
        for (end = first; end < cell_count && cells[end].y == cells[first].y;) end++;
        rows = room_for(rows, row_count, &row_room, sizeof *rows);
        rows[row_count++] = (struct row){cells[first].y, &cells[first], &cells[end]};
    }
}

// What is remembered of neighbourhoods: a cell among cells of state 0 stays 0.
static struct {
    uint8_t around[9], next;
} known[1 << 16];

static uint8_t next_known(const uint8_t *around) {
    uint64_t neighbours;
    memcpy(&neighbours, around + 1, sizeof neighbours);
    size_t at = (neighbours ^ (uint64_t)around[0] << 29) * 0x9E3779B97F4A7C15u >> 48;
    if (!memcmp(known[at].around, around, 9)) return known[at].next;
    int state = next(around);
    if (state == TWO) {
        fputs("two states for a cell\n", stderr);
        exit(2);
    }
    memcpy(known[at].around, around, 9);
    return known[at].next = (uint8_t)state;
}

// Three columns of three rows, and whether each column has a cell.
struct column {
    uint8_t states[3], any;
};

static struct column take_column(struct row *near, int64_t x) {
    struct column column = {{0, 0, 0}, 0};
    for (int i = 0; i < 3; i++)
        if (near[i].next < near[i].end && near[i].next->x == x) column.any |= column.states[i] = near[i].next++->state;
    return column;
}

static int first_column(const struct row *near, int64_t *x) {
    int found = 0;
    for (int i = 0; i < 3; i++)
        if (near[i].next < near[i].end && (!found || near[i].next->x < *x)) *x = near[i].next->x, found = 1;
    return found;
}

// The next states of a row, by the row above, itself and the row below.
static void step_row(int64_t y, struct row *near) {
    const int64_t half = (int64_t)1 << (TOP - 1);
    struct column west, middle = {{0, 0, 0}, 0}, east = middle;
    for (int64_t x = 0, first = 0;;) {
        if (middle.any || east.any) x++;
        else if (first_column(near, &first)) x = first - 1;
        else return;
        west = middle, middle = east, east = take_column(near, x + 1);
        uint8_t around[9] = {middle.states[1], middle.states[0], east.states[0], east.states[1], east.states[2],
                             middle.states[2], west.states[2], west.states[1], west.states[0]};
        uint8_t state = next_known(around);
        if (state) add_run((uint64_t)(x + half), (uint64_t)(y + half), 1, state);
    }
}

static void step_by_table(const char *name) {
    FILE *file = fopen(name, "rb");
    read_table(file);
    fclose(file);
    list_cells();
    list_rows();
    int64_t done = INT64_MIN;
    for (size_t i = 0; i < row_count; i++)
        for (int64_t y = rows[i].y - 1; y <= rows[i].y + 1; y++) {
            if (y <= done) continue;
            struct row near[3] = {{0, NULL, NULL}, {0, NULL, NULL}, {0, NULL, NULL}};
            for (size_t j = i < 2 ? 0 : i - 2; j < row_count && j < i + 3; j++)
                if (rows[j].y >= y - 1 && rows[j].y <= y + 1) near[rows[j].y - y + 1] = rows[j];
            step_row(y, near);
            done = y;
        }
    end_plane();
}

// ---- the commands

static int same(const char *one, const char *other) {
    read_pattern(one);
    struct pattern first = now;
    read_pattern(other);
    int is_same = !strcmp(first.rule, now.rule) && first.generation == now.generation && first.root == now.root &&
                  (!now.root || first.level == now.level);
    puts(is_same ? "same" : "different");
    return !is_same;
}

int main(int count, char **words) {
    const char *command = count > 2 ? words[1] : "";
    if (!strcmp(command, "same")) return same(words[2], words[3]);
    if (count > 2) read_pattern(words[2]);
    if (!strcmp(command, "canon")) write_canonical();
    else if (!strcmp(command, "show")) show();
    else if (!strcmp(command, "rle")) {
        list_cells();
        struct text text = write_cells(cells, cell_count, now.rule, now.generation);
        fwrite(text.bytes, 1, text.size, stdout);
    } else if (!strcmp(command, "step")) {
        if (count > 3) step_by_table(words[3]);
        else step_by_counts();
        trim();
        now.generation++;
        write_canonical();
    } else {
        fputs("usage: plain canon|show|rle|step FILE, plain same A B, plain step FILE RULE\n", stderr);
        return 2;
    }
    return 0;
}
