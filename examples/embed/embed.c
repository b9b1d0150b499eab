/*
 * A program over the C header: reads a model and a graph folder and prints the report that the check program prints. It
 * takes graphs of up to 1,048,576 bytes, where the check program takes 65,536, and never says `too long`.
 *
 * It exits with 0 if the graph is accepted, 1 if it is refused or a file cannot be read, 2 for bad usage, 3 if its
 * output cannot be written; standard error says what is wrong with files and output.
 *
 *   make
 *   cc -std=c99 -O2 -Wall -Wextra -Iinclude examples/embed/embed.c build/lib/liblaguipy.a -o build/embed
 *   build/embed examples/pedal/model.fold examples/pedal/graph.fold
 *   build/embed --version
 */
#include <errno.h>
#include <stdio.h>
#include <string.h>
#include "laguipy.h"

enum { ACCEPTED, REFUSED, USAGE, FAILED };

static uint8_t model[LAGUIPY_MODEL_BYTES + 1];
static uint8_t graph[LAGUIPY_GRAPH_BYTES + 1];
static uint32_t first[LAGUIPY_MOST_NODES];
static uint32_t second[LAGUIPY_MOST_NODES];

static int unread(const char *name) {
    fprintf(stderr, "embed: cannot read %s: %s\n", name, strerror(errno));
    return 0;
}

/* Reads at most `most` bytes, one more than a folder may have: a longer one is refused, by its length. */
static int read_file(const char *name, uint8_t *bytes, size_t most, size_t *length) {
    FILE *file = fopen(name, "rb");
    if (file == NULL)
        return unread(name);
    *length = fread(bytes, 1, most, file);
    int right = !ferror(file) || unread(name);
    fclose(file);
    return right;
}

static int refused(size_t number, size_t place) {
    printf("refused %zu %zu\n", number, place);
    return REFUSED;
}

/* The root's figures, one line for each count of steps. */
static int print_figures(size_t model_len, size_t graph_len) {
    for (size_t h = 0; h <= 3; h++) {
        size_t place[2], part[2];
        size_t number = laguipy_figure(model, model_len, graph, graph_len, h, first, LAGUIPY_MOST_NODES, second,
                                       LAGUIPY_MOST_NODES, place, part);
        if (number != 0)
            return refused(number, place[0]);
        printf("within %zu %u\n", h, (unsigned)(part[0] == 0 ? first : second)[0]);
    }
    return ACCEPTED;
}

static int print_report(const char *model_name, const char *graph_name) {
    size_t model_len, graph_len, place[2], values[LAGUIPY_VALUES];
    int right = read_file(model_name, model, sizeof model, &model_len);
    right = read_file(graph_name, graph, sizeof graph, &graph_len) && right;
    if (!right) {
        printf("no file\n");
        return REFUSED;
    }
    size_t number = laguipy_graph_check(model, model_len, graph, graph_len, place, values);
    if (number != 0)
        return refused(number, place[0]);
    size_t nodes =
        values[LAGUIPY_WAITING] + values[LAGUIPY_EXPANDED] + values[LAGUIPY_COVERED] + values[LAGUIPY_TARGET];
    printf("accepted %zu nodes %zu expanded %zu covered %zu target %zu waiting\n", nodes, values[LAGUIPY_EXPANDED],
           values[LAGUIPY_COVERED], values[LAGUIPY_TARGET], values[LAGUIPY_WAITING]);
    printf("root %zu\n", values[LAGUIPY_ROOT]);
    return values[LAGUIPY_WAITING] == 0 ? print_figures(model_len, graph_len) : ACCEPTED;
}

static int print_version(void) {
    printf("embed %s\n", LAGUIPY_VERSION);
    return ACCEPTED;
}

/* The status to exit with: a report that was lost is no answer. */
static int written(int status) {
    int lost = ferror(stdout);
    if (fclose(stdout) == 0 && !lost)
        return status;
    fprintf(stderr, "embed: cannot write to standard output: %s\n", strerror(errno));
    return FAILED;
}

int main(int count, char **words) {
    if (count == 2 && strcmp(words[1], "--version") == 0)
        return written(print_version());
    if (count == 3)
        return written(print_report(words[1], words[2]));
    fprintf(stderr, "usage: embed MODEL GRAPH\n       embed --version\n");
    return USAGE;
}
