/* A rule table of rotate4 or permute over eight neighbours, read with no checks, and what it makes of a cell: each transition is kept as its
   fixed places and its variables' places. Under rotate4 the four turns of the neighbours are made once a decision; under permute the neighbours
   are counted once, the fixed entries take theirs, and the different variables search the rest. */
#include <stdint.h>
#include <stdio.h>
#include <stdlib.h>
#include <string.h>

#define MOST 4096
enum { NOTHING = -1, TWO = -2, NONE = -1 };

struct place { uint8_t at, state; };
struct wanted { uint8_t at, variable; int8_t same_as; };
struct group { uint8_t variable, times; };
struct line {
    int16_t centre_variable, output_variable, output_at;
    uint8_t centre, output, fixed_count, variable_count, group_count, centre_times;
    struct place fixed[8];
    struct wanted variables[8];
    struct group groups[8];
};
static char names[256][16];
static uint8_t has[256][256];
static int variable_count, line_count, permute;
static struct line lines[MOST];

static int variable_named(const char *name) {
    for (int i = 0; i < variable_count; i++)
        if (strcmp(names[i], name) == 0) return i;
    return NONE;
}

static void read_variable(char *text) {
    char *name = strtok(text + 4, " ={"), *word;
    strncpy(names[variable_count], name, 15);
    while ((word = strtok(NULL, " ={,}\n")) != NULL) {
        int other = variable_named(word);
        if (other == NONE) has[variable_count][atoi(word)] = 1;
        else for (int s = 0; s < 256; s++) has[variable_count][s] |= has[other][s];
    }
    variable_count++;
}

static void read_line(char *text) {
    struct line *line = &lines[line_count++];
    char *word = strtok(text, " ,\n");
    line->centre_variable = (int16_t)variable_named(word);
    line->centre = (uint8_t)atoi(word);
    line->output_at = NONE;
    int at_of[256];
    for (int i = 0; i < 256; i++) at_of[i] = NONE;
    if (line->centre_variable != NONE) at_of[line->centre_variable] = 0;
    for (int at = 1; at < 9; at++) {
        word = strtok(NULL, " ,\n");
        int variable = variable_named(word);
        if (variable == NONE) {
            line->fixed[line->fixed_count++] = (struct place){(uint8_t)at, (uint8_t)atoi(word)};
            continue;
        }
        line->variables[line->variable_count++] = (struct wanted){(uint8_t)at, (uint8_t)variable, (int8_t)at_of[variable]};
        if (at_of[variable] == NONE) at_of[variable] = at;
        if (variable == line->centre_variable) line->centre_times++;
        else {
            int k = 0;
            while (k < line->group_count && line->groups[k].variable != variable) k++;
            line->groups[k].variable = (uint8_t)variable;
            line->groups[k].times++;
            if (k == line->group_count) line->group_count++;
        }
    }
    word = strtok(NULL, " ,\n");
    line->output_variable = (int16_t)variable_named(word);
    line->output = (uint8_t)atoi(word);
    if (line->output_variable != NONE) line->output_at = (int16_t)at_of[line->output_variable];
}

static void read_table(FILE *file) {
    char text[4096];
    while (fgets(text, sizeof text, file) && strncmp(text, "@TABLE", 6) != 0) {}
    while (fgets(text, sizeof text, file) && text[0] != '@') {
        if (text[0] == '#' || text[0] == '\n') continue;
        if (strncmp(text, "symmetries:", 11) == 0) permute = strncmp(text + 11, "permute", 7) == 0;
        else if (strncmp(text, "var ", 4) == 0) read_variable(text);
        else if (strchr(text, ':') == NULL && line_count < MOST) read_line(text);
    }
}

static int with_state(int found, int state) {
    return found == NOTHING || found == state ? state : TWO;
}

static int fits(const struct line *line, const uint8_t *image) {
    for (int k = 0; k < line->fixed_count; k++)
        if (image[line->fixed[k].at] != line->fixed[k].state) return 0;
    for (int k = 0; k < line->variable_count; k++) {
        const struct wanted *w = &line->variables[k];
        if (w->same_as == NONE ? !has[w->variable][image[w->at]] : image[w->at] != image[w->same_as]) return 0;
    }
    return 1;
}

static int given_by_turns(const struct line *line, uint8_t images[4][9]) {
    int found = NOTHING;
    for (int r = 0; r < 4; r++)
        if (fits(line, images[r])) {
            found = with_state(found, line->output_variable == NONE ? line->output : images[r][line->output_at]);
            if (found == TWO) break;
        }
    return found;
}

static uint8_t distinct[8];
static int distinct_count;

/* Gives the variables from this one on a state each of those left; bound is the state of the output's variable, where it has one. */
static int search(const struct line *line, int k, uint8_t *left, int bound, int found) {
    if (k == line->group_count) return with_state(found, line->output_variable == NONE ? line->output : bound);
    const struct group *g = &line->groups[k];
    for (int i = 0; i < distinct_count; i++) {
        int state = distinct[i];
        if (left[state] < g->times || !has[g->variable][state]) continue;
        left[state] -= g->times;
        found = search(line, k + 1, left, g->variable == line->output_variable ? state : bound, found);
        left[state] += g->times;
        if (found == TWO || (found != NOTHING && line->output_variable == NONE)) return found;
    }
    return found;
}

static int given_by_counts(const struct line *line, int centre, uint8_t *left) {
    int found = NOTHING, taken = 0, fit = 1;
    for (; taken < line->fixed_count && fit; taken++) {
        if (left[line->fixed[taken].state] == 0) { fit = 0; break; }
        left[line->fixed[taken].state]--;
    }
    if (fit && left[centre] >= line->centre_times) {
        left[centre] -= line->centre_times;
        found = search(line, 0, left, line->output_at == 0 ? centre : NOTHING, NOTHING);
        left[centre] += line->centre_times;
    }
    while (taken > 0) left[line->fixed[--taken].state]++;
    return found;
}

/* The next state, or TWO. */
static int next(const uint8_t *cells) {
    uint8_t images[4][9], left[256] = {0};
    int centre = cells[0];
    if (permute) {
        distinct_count = 0;
        for (int i = 1; i < 9; i++)
            if (left[cells[i]]++ == 0) distinct[distinct_count++] = cells[i];
    } else {
        for (int r = 0; r < 4; r++)
            for (int i = 0; i < 8; i++) images[r][i + 1] = cells[1 + (i + 2 * r) % 8];
        for (int r = 0; r < 4; r++) images[r][0] = (uint8_t)centre;
    }
    for (int k = 0; k < line_count; k++) {
        const struct line *line = &lines[k];
        if (line->centre_variable == NONE ? line->centre != centre : !has[line->centre_variable][centre]) continue;
        int found = permute ? given_by_counts(line, centre, left) : given_by_turns(line, images);
        if (found != NOTHING) return found;
    }
    return centre;
}
