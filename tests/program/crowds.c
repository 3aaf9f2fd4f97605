/* Writes a file of squares, or of names of a table, that are chosen against a hasher, so that all crowd in a sixteenth of the places of the table
 * that finds them, and most of them by one part of their tags; or as many random ones. What the hashers and the table compute is written here once
 * more, from what the toolchain's sources say of them. On standard error stands how many groups of the table a key passes on average before the one
 * where it has room.
 *
 * usage: crowds squares|nodes|names random|fold|zero|runs|nw|ne|sw|se COUNT
 *
 * squares  of four states, in macrocell
 * nodes    the same, half of them with four of the others for quarters
 * names    of the variables of a rule table
 *
 * fold     against the hasher without a seed that `indexmap` uses if it is given none
 * zero     against the hasher of the library where the caller's seed is 0
 * runs     of nodes: the states in order, and quarters that are neighbours in the file
 * nw ..    of nodes: the same, but the quarters are alike, all but the one of this name. They crowd where a hasher leaves this number out.
 */
#include <stdint.h>
#include <stdio.h>
#include <stdlib.h>
#include <string.h>

enum { GROUP = 12, LOAD = 9, FIRST_NODE = 66064, LETTERS = 26, LONG_NAME = 9 };

/* ---- hashers */

static const uint64_t MULTIPLIER = 0x9e3779b97f4a7c15;

static uint64_t folded(uint64_t state, uint64_t word, uint64_t size) {
    unsigned __int128 product = (unsigned __int128)(state ^ word) * (MULTIPLIER ^ 2 * size);
    return (uint64_t)product ^ (uint64_t)(product >> 64);
}

static uint64_t folded_number(uint64_t state, uint64_t number) { return folded(state, number | number << 32, 4); }

static uint64_t folded_byte(uint64_t state, uint64_t byte) { return folded(state, byte * 0x10101, 1); }

static const uint64_t FOLD = 0x243f6a8885a308d3;

/* The words that the library makes of a seed: all for squares, the first two for names. */
static uint64_t words[5];

static void spread(uint64_t seed) {
    for (int i = 0; i < 5; i++) {
        seed += MULTIPLIER;
        uint64_t word = (seed ^ seed >> 30) * 0xbf58476d1ce4e5b9;
        word = (word ^ word >> 27) * 0x94d049bb133111eb;
        words[i] = word ^ word >> 31;
    }
}

static uint64_t turned(uint64_t word, int by) { return word << by | word >> (64 - by); }

static void sip_round(uint64_t v[4]) {
    v[0] += v[1], v[2] += v[3];
    v[1] = turned(v[1], 13) ^ v[0], v[3] = turned(v[3], 16) ^ v[2];
    v[0] = turned(v[0], 32);
    v[2] += v[1], v[0] += v[3];
    v[1] = turned(v[1], 17) ^ v[2], v[3] = turned(v[3], 21) ^ v[0];
    v[2] = turned(v[2], 32);
}

static void sip_word(uint64_t v[4], uint64_t word) {
    v[3] ^= word;
    sip_round(v);
    v[0] ^= word;
}

/* The state behind the two words, a length of nine and eight letters, and the hash behind one letter more. */
static void sip_front(uint64_t v[4], const char *name) {
    uint64_t letters;
    memcpy(&letters, name, 8);
    v[0] = 0x736f6d6570736575, v[1] = 0x646f72616e646f6d, v[2] = 0x6c7967656e657261, v[3] = 0x7465646279746573;
    sip_word(v, words[0]);
    sip_word(v, words[1]);
    sip_word(v, LONG_NAME);
    sip_word(v, letters);
}

static uint64_t sip_last(const uint64_t front[4], char letter) {
    uint64_t v[4];
    memcpy(v, front, sizeof v);
    sip_word(v, (uint64_t)(3 * 8 + LONG_NAME) << 56 | (unsigned char)letter);
    v[2] ^= 0xff;
    for (int i = 0; i < 3; i++)
        sip_round(v);
    return v[0] ^ v[1] ^ v[2] ^ v[3];
}

/* ---- the table */

static uint32_t kept(uint64_t hash) { return (uint32_t)(hash ^ hash >> 32); }

static uint32_t groups_for(size_t count) {
    uint32_t groups = 1;
    while (LOAD * (size_t)groups < count)
        groups *= 2;
    return groups;
}

static uint32_t *hashes;
static size_t hashed;

/* How many groups a key passes on average, in the order in which they come. A full group leads to one behind it that may have room. */
static double passed(void) {
    uint32_t groups = groups_for(hashed);
    uint32_t *onward = malloc(groups * sizeof *onward);
    unsigned char *held = calloc(groups, 1);
    double steps = 0;
    for (uint32_t i = 0; i < groups; i++)
        onward[i] = i;
    for (size_t i = 0; i < hashed; i++) {
        uint32_t start = hashes[i] & (groups - 1), at = start;
        while (onward[at] != at)
            at = onward[at] = onward[onward[at]];
        steps += (at - start) & (groups - 1);
        if (++held[at] == GROUP)
            onward[at] = (at + 1) & (groups - 1);
    }
    free(onward);
    free(held);
    return steps / (double)hashed;
}

/* ---- what is chosen */

static enum { RANDOM, AGAINST_FOLD, AGAINST_ZERO, RUNS, NW, NE, SW, SE } attack;
static size_t count;

/* Whether a hash begins in the first sixteenth of the groups, and has a tag that ends by three zeros. */
static uint32_t chosen_bits;

static int is_chosen(uint32_t hash) { return (hash & chosen_bits) == 0; }

static uint64_t source = 1;

static uint64_t below(uint64_t bound) {
    source ^= source << 13, source ^= source >> 7, source ^= source << 17;
    return (source * 0x2545f4914f6cdd1d >> 32) * bound >> 32;
}

static uint64_t hash_of(const uint64_t q[4]) {
    uint64_t state = FOLD;
    if (attack == AGAINST_ZERO)
        return (words[0] + words[1] * q[0] + words[2] * q[1] + words[3] * q[2] + words[4] * q[3]) >> 32;
    for (int i = 0; i < 4; i++)
        state = folded_number(state, q[i]);
    return state;
}

static void add(uint64_t hash) { hashes[hashed++] = kept(hash); }

/* Writes a node of four quarters, whose Ids are their states, or the numbers of their lines behind the first node's. */
static void node(int level, const uint64_t q[4]) {
    uint64_t first = level == 1 ? 0 : FIRST_NODE - 1;
    const uint64_t ids[4] = {first + q[0], first + q[1], first + q[2], first + q[3]};
    add(hash_of(ids));
    printf("%d %u %u %u %u\n", level, (unsigned)q[0], (unsigned)q[1], (unsigned)q[2], (unsigned)q[3]);
}

static void random_nodes(int level, uint64_t first, uint64_t states, size_t wanted) {
    for (size_t i = 0; i < wanted; i++) {
        const uint64_t q[4] = {first + below(states), first + below(states), first + below(states), first + below(states)};
        node(level, q);
    }
}

/* Squares of the states from 2 to 255 in order, or those of them that are chosen. */
static void squares_in_order(size_t wanted) {
    uint64_t q[4];
    for (q[0] = 2; q[0] < 256; q[0]++)
        for (q[1] = 2; q[1] < 256; q[1]++)
            for (q[2] = 2; q[2] < 256; q[2]++)
                for (q[3] = 2; q[3] < 256; q[3]++)
                    if (attack >= RUNS || is_chosen(kept(hash_of(q)))) {
                        if (hashed == wanted)
                            return;
                        node(1, q);
                    }
}

static void squares(size_t wanted) {
    if (attack == RANDOM)
        random_nodes(1, 2, 254, wanted);
    else
        squares_in_order(wanted);
}

/* Squares, and others whose quarters they are. */
static void nodes(void) {
    size_t half = count / 2 + 3;
    squares(half);
    if (attack == RANDOM)
        random_nodes(2, 1, half, count - half);
    for (uint64_t i = 1; hashed < count; i++) {
        uint64_t q[4] = {i, i + 1, i + 2, i + 3};
        for (int quarter = 0; quarter < 4; quarter++)
            if (attack >= NW && quarter != (int)(attack - NW))
                q[quarter] = 1;
        node(2, q);
    }
}

static void name(const char *letters, uint64_t hash) {
    add(hash);
    printf("var %.9s={0}\n", letters);
}

static void names(void) {
    char letters[LONG_NAME + 1] = "aaaaaaaaa";
    for (uint64_t front = 0; hashed < count; front++) {
        uint64_t left = attack == RANDOM ? below(1 << 30) << 16 ^ below(1 << 30) : front, v[4];
        for (int i = LONG_NAME - 2; i >= 0; i--, left /= LETTERS)
            letters[i] = (char)('a' + left % LETTERS);
        uint64_t state = folded(FOLD, LONG_NAME, 8);
        for (int i = 0; i < LONG_NAME - 1; i++)
            state = folded_byte(state, (unsigned char)letters[i]);
        sip_front(v, letters);
        char first = attack == RANDOM ? (char)('a' + below(LETTERS)) : 'a', last = attack == RANDOM ? first : 'z';
        for (letters[8] = first; letters[8] <= last && hashed < count; letters[8]++) {
            uint64_t hash = attack == AGAINST_ZERO ? sip_last(v, letters[8]) : folded_byte(state, (unsigned char)letters[8]);
            if (attack == RANDOM || is_chosen(kept(hash)))
                name(letters, hash);
        }
    }
}

int main(int words_given, char **given) {
    static const char *const attacks[] = {"random", "fold", "zero", "runs", "nw", "ne", "sw", "se"};
    if (words_given != 4)
        return 5;
    while (attack <= SE && strcmp(given[2], attacks[attack]) != 0)
        attack++;
    count = strtoul(given[3], NULL, 10);
    hashes = malloc(count * sizeof *hashes);
    if (attack > SE || count == 0 || hashes == NULL)
        return 5;
    chosen_bits = groups_for(count) / 16 * 15 | 0x07000000;
    spread(0);
    if (given[1][1] == 'a') {
        printf("@RULE Foo\n@TABLE\nn_states:256\nneighborhood:Moore\nsymmetries:none\n");
        names();
    } else {
        printf("[M2]\n#R Foo\n");
        if (given[1][0] == 's')
            squares(count);
        else
            nodes();
    }
    fprintf(stderr, "%.3f\n", passed());
    return fflush(stdout) == 0 && hashed == count ? 0 : 1;
}
