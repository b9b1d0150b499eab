/*
 * Tests include/laguipy.h as C and as C++, on the pedal example: number and both places of every refusal of every call,
 * the index and the builder, with every row and the slice at exit, and how much stack each call uses, which it prints.
 * It exits with 0 if all is as the header says.
 *
 *   build/test_header examples/pedal/model.fold examples/pedal/graph.fold
 */
#ifndef _GNU_SOURCE
#define _XOPEN_SOURCE 700
#endif
#include <stdio.h>
#include <string.h>
#include <ucontext.h>
#include "laguipy.h"

#define NODES 6
#define STATES 3
#define FILL 7777
#define UNTOUCHED 0x5a

/* Where a node's record starts, and fields of it. */
#define NODE(k) (16 + 20 * (k))
#define COVER 2
#define VALUE 4
#define TRACKED 10
#define CONCRETE(variable) (12 + 2 * (variable))
#define LABEL(variable) (16 + 2 * (variable))

static uint8_t model[LAGUIPY_MODEL_BYTES], graph[LAGUIPY_GRAPH_BYTES];
static size_t model_len, graph_len;
static uint16_t slots[LAGUIPY_SLOTS + 1], answers[STATES + 1], listing[NODES + 1];
/* Nodes 1 and 4 have the first state, node 3 the second, none the third. */
static const int16_t batch[2 * STATES + 1] = {3, 0, 0, 1, 3, 1, 0};
static size_t number, place[2], listed;
static int wrong;

static void expect(int holds, const char *what) {
    if (!holds)
        fprintf(stderr, "wrong: %s\n", what);
    wrong = wrong || !holds;
}

static void fill(uint16_t *row, size_t length) {
    for (size_t k = 0; k < length; k++)
        row[k] = FILL;
}

/* How many elements of a row are this. */
static size_t count(const uint16_t *row, size_t length, uint16_t element) {
    size_t found = 0;
    for (size_t k = 0; k < length; k++)
        found += row[k] == element;
    return found;
}

/* Both places before a call, so that it is seen to write them. */
static size_t *unset(void) {
    place[0] = place[1] = FILL;
    return place;
}

static int answered(size_t as, size_t at, size_t variable) {
    return number == as && place[0] == at && place[1] == variable;
}

static void call_index(size_t slots_len, size_t batch_len, size_t answers_len, size_t listing_len) {
    fill(slots, LAGUIPY_SLOTS + 1);
    fill(answers, STATES + 1);
    fill(listing, NODES + 1);
    listed = FILL;
    number = laguipy_index(model, model_len, graph, graph_len, slots, slots_len, batch, batch_len, answers, answers_len,
                           listing, listing_len, unset(), &listed);
}

static void call_right(void) {
    call_index(LAGUIPY_SLOTS, 2 * STATES, STATES, NODES);
}

static void accepted(size_t twins) {
    expect(answered(0, 0, 0) && listed == twins, "an index is accepted");
    expect(slots[5397] == 0 && slots[5158] == 1 && slots[5636] == 2 && slots[6828] == 3 && slots[4919] == 5, "slots");
    expect(count(slots, LAGUIPY_SLOTS, LAGUIPY_NO_NODE) == LAGUIPY_SLOTS - 5, "empty slots");
    expect(slots[LAGUIPY_SLOTS] == FILL, "slots past the row");
    expect(answers[0] == 1 && answers[1] == 3 && answers[2] == LAGUIPY_NO_NODE && answers[3] == FILL, "answers");
    expect(count(listing, NODES + 1, FILL) == NODES + 1 - twins, "listing past its nodes");
}

static void refused(size_t as, size_t at, const char *what) {
    expect(answered(as, at, 0) && listed == 0, what);
    expect(count(slots, LAGUIPY_SLOTS + 1, FILL) == LAGUIPY_SLOTS + 1, "slots stay");
    expect(count(answers, STATES + 1, FILL) == STATES + 1 && count(listing, NODES + 1, FILL) == NODES + 1, "rows stay");
}

static void test_rows(void) {
    call_right();
    accepted(0);
    call_index(LAGUIPY_SLOTS, 2 * STATES, STATES + 1, NODES + 1);
    accepted(0);
    call_index(LAGUIPY_SLOTS - 1, 2 * STATES, STATES, NODES);
    refused(34, 0, "a slot too few");
    call_index(LAGUIPY_SLOTS + 1, 2 * STATES - 1, STATES - 1, NODES - 1);
    refused(34, 0, "a slot too many");
    call_index(LAGUIPY_SLOTS, 2 * STATES + 1, STATES - 1, NODES - 1);
    refused(34, 1, "half a state");
    call_index(LAGUIPY_SLOTS, 2 * STATES, STATES - 1, NODES - 1);
    refused(34, 2, "an answer too few");
    call_index(LAGUIPY_SLOTS, 2 * STATES, STATES, NODES - 1);
    refused(34, 3, "a listing too short");
    graph_len--;
    call_index(0, 1, 0, 0);
    refused(13, 1, "the graph's refusal comes first");
    graph_len++;
}

/* Node 4, no longer covered but expanded, shares its state with node 1. */
static void test_twins(void) {
    uint8_t *node = graph + NODE(4);
    uint8_t kept[4];
    memcpy(kept, node, sizeof kept);
    memset(node, 0, sizeof kept);
    node[0] = 1;
    call_right();
    accepted(1);
    expect(listing[0] == 4, "node 4 is listed");
    memcpy(node, kept, sizeof kept);
}

static uint32_t first[NODES], second[NODES];
static size_t steps = 3, first_len = NODES, second_len = NODES;

static void call_model(void) {
    number = laguipy_model_check(model, model_len, unset());
}

static void call_part(void) {
    size_t part[2];
    laguipy_record_part(model, model_len, 4, 2, part);
    number = part[1] == 6 ? 0 : 1;
}

static void call_graph(void) {
    size_t values[LAGUIPY_VALUES];
    number = laguipy_graph_check(model, model_len, graph, graph_len, unset(), values);
}

static void call_refusal(void) {
    number = laguipy_figure_refusal(model, model_len, graph, graph_len, steps, first, first_len, second, second_len,
                                    unset());
}

static void call_rows(void) {
    number =
        laguipy_figure_rows(model, model_len, graph, graph_len, steps, first, first_len, second, second_len, unset());
}

static void call_figure(void) {
    size_t part[2];
    number = laguipy_figure(model, model_len, graph, graph_len, steps, first, first_len, second, second_len, unset(),
                            part);
}

static void take_step(const int16_t *state, size_t state_len, size_t command, size_t branch) {
    int16_t result[2];
    number = laguipy_step(model, model_len, state, state_len, command, branch, result, 2, unset());
}

static void call_step(void) {
    take_step(batch + 2, 2, 0, 1);
}

/* The bytes of a graph of one node, and of the graph that is built, of six; with its first edges it has four. */
#define ONE_NODE (16 + 20)
#define FOUR_NODES (16 + 4 * 20 + 10)
#define BUILT (16 + NODES * 20 + 16)

static uint8_t out[2 * BUILT];
static size_t rounds = LAGUIPY_MOST_ROUNDS, out_len = sizeof out, length;

static void call_build(void) {
    length = FILL;
    number = laguipy_build(model, model_len, rounds, out, out_len, unset(), &length);
}

/*
 * The calls that refuse, with the highest number that comes of the folders; the one that uses the most stack first, as
 * what is bound late takes some too.
 */
static const struct {
    const char *name;
    void (*call)(void);
    size_t last;
} calls[] = {
    {"laguipy_index", call_right, 25},
    {"laguipy_model_check", call_model, 11},
    {"laguipy_graph_check", call_graph, 25},
    {"laguipy_figure_refusal", call_refusal, 26},
    {"laguipy_figure_rows", call_rows, 26},
    {"laguipy_figure", call_figure, 26},
    {"laguipy_step", call_step, 11},
    {"laguipy_build", call_build, 11},
};
#define CALLS (sizeof calls / sizeof calls[0])

/* Every refusal of a folder: how much shorter this is, and other bytes of it (none at 0). */
#define CHANGES 3
static const struct {
    size_t number, place, variable;
    uint8_t *folder;
    size_t shorter;
    struct {
        size_t at;
        uint8_t byte;
    } change[CHANGES];
} broken[] = {
    {0, 0, 0, model, 0, {{0, 0}}},
    {1, 0, 0, model, 139, {{0, 0}}},
    {2, 4, 0, model, 1, {{0, 0}}},
    {3, 4, 0, model, 1, {{36, 17}}},
    {4, 1, 0, model, 0, {{54, 2}}},
    {5, 11, 0, model, 0, {{144, 15}}},
    {6, 9, 0, model, 0, {{47, 0x75}, {99, 1}, {128, 4}}},
    {7, 1, 0, model, 0, {{42, 0}}},
    {8, 1, 0, model, 0, {{156, 0}}},
    {9, 0, 0, model, 0, {{154, 1}}},
    {10, 2, 0, model, 0, {{172, 0}}},
    {11, 1, 0, model, 0, {{172, 9}}},
    {12, 0, 0, graph, 137, {{0, 0}}},
    {13, 1, 0, graph, 1, {{0, 0}}},
    {14, 0, 0, graph, 0, {{4, 119}, {8, 135}, {12, 17}}},
    {15, 5, 0, graph, 0, {{NODE(5), 4}}},
    {16, 2, 0, graph, 0, {{146, 2}}},
    {17, 0, 0, graph, 0, {{NODE(0) + CONCRETE(1), 1}}},
    {18, 0, 0, graph, 0, {{NODE(0) + LABEL(0), 1}}},
    /* Variable 0 is untracked; a guard is of variable 1; a target that is none; an expanded node that is a target. */
    {19, 0, 0, graph, 0, {{NODE(0) + TRACKED, 0}}},
    {19, 0, 1, model, 0, {{104, 8}, {106, 1}, {108, 5}}},
    {19, 1, LAGUIPY_NO_VARIABLE, graph, 0, {{NODE(1), 3}}},
    {19, 5, LAGUIPY_NO_VARIABLE, graph, 0, {{NODE(5), 1}}},
    {20, 0, 0, model, 0, {{112, 9}}},
    /* Another label value; a label value that is not known before; another concrete value. */
    {21, 0, 0, graph, 0, {{NODE(2) + LABEL(0), 0}}},
    {21, 0, 1, graph, 0, {{NODE(3) + TRACKED, 3}, {NODE(3) + LABEL(1), 1}}},
    {21, 0, LAGUIPY_NO_VARIABLE, graph, 0, {{NODE(3) + CONCRETE(1), 0}}},
    {22, 3, 0, graph, 0, {{NODE(3) + COVER, 4}}},
    {23, 3, 0, graph, 0, {{NODE(3) + COVER, 1}}},
    {24, 3, 0, graph, 0, {{NODE(3) + TRACKED, 0}}},
    {25, 5, 0, graph, 0, {{NODE(5) + VALUE + 1, 0}}},
    {26, 5, 0, graph, 0, {{NODE(5), 0}}},
};
#define BROKEN (sizeof broken / sizeof broken[0])

/* What every call answers while a folder is broken so: one that does not come to what is broken accepts. */
static void expect_all(size_t row) {
    for (size_t k = 0; k < CALLS; k++) {
        size_t due = broken[row].number <= calls[k].last ? broken[row].number : 0;
        calls[k].call();
        if (answered(due, due == 0 ? 0 : broken[row].place, due == 0 ? 0 : broken[row].variable))
            continue;
        fprintf(stderr, "row %zu: %zu at %zu and %zu, where %zu is due\n", row, number, place[0], place[1], due);
        expect(0, calls[k].name);
    }
}

/* Exchanges these and the bytes that a row changes. */
static void exchange(size_t row, uint8_t bytes[CHANGES]) {
    for (size_t k = 0; k < CHANGES && broken[row].change[k].at != 0; k++) {
        uint8_t *byte = broken[row].folder + broken[row].change[k].at;
        uint8_t kept = *byte;
        *byte = bytes[k];
        bytes[k] = kept;
    }
}

static void test_folders(void) {
    for (size_t row = 0; row < BROKEN; row++) {
        size_t *length = broken[row].folder == model ? &model_len : &graph_len;
        uint8_t bytes[CHANGES] = {broken[row].change[0].byte, broken[row].change[1].byte, broken[row].change[2].byte};
        exchange(row, bytes);
        *length -= broken[row].shorter;
        expect_all(row);
        *length += broken[row].shorter;
        exchange(row, bytes);
    }
}

static void expect_figures(size_t as, size_t at) {
    call_refusal();
    expect(answered(as, at, 0), "laguipy_figure_refusal by its arguments");
    call_rows();
    expect(answered(as, at, 0), "laguipy_figure_rows by its arguments");
    call_figure();
    expect(answered(as, at, 0), "laguipy_figure by its arguments");
}

static void test_figures(void) {
    steps = LAGUIPY_MOST_STEPS + 1;
    expect_figures(27, 0);
    steps = 3;
    second_len--;
    expect_figures(28, 1);
    first_len--;
    expect_figures(28, 0);
    first_len = second_len = NODES;
}

static void test_steps(void) {
    take_step(batch, 1, 0, 0);
    expect(answered(29, 0, 0), "a state too short");
    take_step(batch + 3, 2, 0, 0);
    expect(answered(30, 1, 0), "a value out of its range");
    take_step(batch + 2, 2, 2, 0);
    expect(answered(31, 2, 0), "no such command");
    take_step(batch + 4, 2, 1, 0);
    expect(answered(32, 1, 0), "a guard that is false");
    take_step(batch + 2, 2, 0, 2);
    expect(answered(33, 2, 0), "no such branch");
}

/* How many bytes of the slice are as they were, from the last one on. */
static size_t untouched(void) {
    size_t last = sizeof out;
    while (last > 0 && out[last - 1] == UNTOUCHED)
        last--;
    return sizeof out - last;
}

static void build(size_t asked, size_t lent) {
    for (size_t k = 0; k < sizeof out; k++)
        out[k] = UNTOUCHED;
    rounds = asked;
    out_len = lent;
    call_build();
    rounds = LAGUIPY_MOST_ROUNDS;
    out_len = sizeof out;
}

/* The graph check accepts what was built, with so many nodes of each kind. */
static void built(size_t bytes, size_t root, size_t waiting, size_t expanded, size_t covered, size_t target) {
    size_t values[LAGUIPY_VALUES];
    expect(answered(0, 0, 0) && length == bytes && untouched() == sizeof out - bytes, "a graph is built");
    number = laguipy_graph_check(model, model_len, out, length, unset(), values);
    expect(answered(0, 0, 0) && values[LAGUIPY_ROOT] == root, "a built graph is accepted");
    expect(values[LAGUIPY_WAITING] == waiting && values[LAGUIPY_EXPANDED] == expanded, "waiting and expanded nodes");
    expect(values[LAGUIPY_COVERED] == covered && values[LAGUIPY_TARGET] == target, "covered and target nodes");
}

static void not_built(size_t as, size_t at, const char *what) {
    expect(answered(as, at, 0) && length == 0 && untouched() == sizeof out, what);
}

/* Command 1 goes on for ever, so that the root value stays at certainty; that of node 2 comes down. */
static void test_build(void) {
    build(LAGUIPY_MOST_ROUNDS, sizeof out);
    built(BUILT, LAGUIPY_CERTAIN, 0, 3, 2, 1);
    expect(memcmp(out + NODE(2), graph + NODE(2), 20) == 0, "node 2 is the example's, with its value");
    build(0, BUILT);
    built(BUILT, LAGUIPY_CERTAIN, 0, 3, 2, 1);
    expect(memcmp(out + NODE(2) + VALUE, out + NODE(5) + VALUE, 4) == 0, "without rounds all values are certainty");
    build(1, BUILT - 1);
    built(FOUR_NODES, LAGUIPY_CERTAIN, 2, 2, 0, 0);
    build(1, FOUR_NODES - 1);
    built(ONE_NODE, LAGUIPY_CERTAIN, 1, 0, 0, 0);
    build(LAGUIPY_MOST_ROUNDS, ONE_NODE);
    built(ONE_NODE, LAGUIPY_CERTAIN, 1, 0, 0, 0);
    build(LAGUIPY_MOST_ROUNDS, ONE_NODE - 1);
    not_built(35, 0, "a byte too few for one node");
    build(LAGUIPY_MOST_ROUNDS + 1, 0);
    not_built(35, 0, "no byte, and a round too many");
    build(LAGUIPY_MOST_ROUNDS + 1, ONE_NODE);
    not_built(35, 1, "a round too many");
    model_len--;
    build(LAGUIPY_MOST_ROUNDS + 1, 0);
    not_built(2, 4, "the model's refusal comes first");
    model_len++;
}

/*
 * A stack of more than a call may take, so that one which takes more is seen to. It is volatile so that no memset
 * paints it: in a program that binds late, the first call of memset takes more stack, and the library is to make it.
 */
#define PAINT 0xa5
static volatile uint8_t stack[2 * LAGUIPY_STACK_BYTES];

/* Runs a call on the stack, painted. */
static void run_painted(void (*call)(void)) {
    static ucontext_t here, there;
    for (size_t k = 0; k < sizeof stack; k++)
        stack[k] = PAINT;
    getcontext(&there);
    there.uc_stack.ss_sp = (void *)stack;
    there.uc_stack.ss_size = sizeof stack;
    there.uc_link = &here;
    makecontext(&there, call, 0);
    swapcontext(&here, &there);
}

/* The paint stays from the stack's low end to the farthest that was used. */
static void test_stack(const char *name, void (*call)(void), size_t due) {
    size_t unused = 0;
    run_painted(call);
    while (unused < sizeof stack && stack[unused] == PAINT)
        unused++;
    printf("%s %zu\n", name, sizeof stack - unused);
    expect(number == due, name);
    expect(sizeof stack - unused <= LAGUIPY_STACK_BYTES, "the stack is enough");
}

static void test_stacks(size_t due) {
    for (size_t k = 0; k < CALLS; k++)
        test_stack(calls[k].name, calls[k].call, due <= calls[k].last ? due : 0);
    test_stack("laguipy_record_part", call_part, 0);
}

/* The guard "d < 2" for "a < 2": d is untracked, so that its values are tried in node 0. */
static void test_stacks_by_all_states(void) {
    model[106] = 1;
    test_stacks(20);
    model[106] = 0;
}

static size_t read_file(const char *name, uint8_t *bytes, size_t most) {
    FILE *file = fopen(name, "rb");
    size_t length = file == NULL ? 0 : fread(bytes, 1, most, file);
    expect(file != NULL && fclose(file) == 0 && length > 0, name);
    return length;
}

int main(int words, char **word) {
    if (words != 3)
        return 2;
    model_len = read_file(word[1], model, sizeof model);
    graph_len = read_file(word[2], graph, sizeof graph);
    test_stacks(0);
    test_stacks_by_all_states();
    test_folders();
    test_figures();
    test_steps();
    test_rows();
    test_twins();
    test_build();
    return wrong;
}
