/*
 * Laguipy: a checker of simulation graphs of Markov decision processes.
 *
 * A model and a graph come as folders of bytes (docs/FORMAT.md). Each call believes nothing of them: it names the first
 * broken rule and its place (docs/REFUSALS.md), or accepts. No strategy reaches a target of the model with a greater
 * chance than the root value of an accepted graph. Values and figures are whole units; LAGUIPY_CERTAIN units are
 * certainty. Every call is proved to answer by these rules, on every input.
 *
 * You, on every call:
 *
 * - pass a slice as a pointer and a count of elements, which may be 0. No pointer is NULL, not even that of an empty
 *   slice, and each is aligned for its elements: folders and out need no alignment, rows that of uint32_t, uint16_t or
 *   int16_t, numbers (place, *listed, *length, values, part) that of size_t.
 * - keep whatever is written to (rows, out, place, *listed, *length, values, part) apart from all else that is passed.
 *   What is only read may overlap: the same bytes may be passed as model and graph.
 * - see to it that, during the call, nobody else writes to what is passed or reads what is written to.
 * - have LAGUIPY_STACK_BYTES of stack left.
 *
 * It, on every call, whatever the bytes and the lengths are:
 *
 * - returns 0 for acceptance, else the number of the refusal, 1 to 35. Only laguipy_record_part returns nothing.
 * - writes place, *listed, *length, values and part, refused or not. place[0] is where a rule is broken: a node, a
 *   command, an entry and so on, as docs/REFUSALS.md says for each refusal. place[1] is a variable: for 19 the lowest
 *   that the unknown guard or target mentions and the node does not track, for 21 the assigned one that does not lead
 *   to the successor's label, for both LAGUIPY_NO_VARIABLE if it is another fault. It is 0 for all other refusals.
 *   Accepted, both are 0.
 * - leaves the rows (first, second, slots, answers, listing, result) and out as they were when it refuses.
 * - ends, allocates nothing, frees nothing, keeps no pointer, reads and writes no file, and has no state: calls on
 *   different rows may run in any number of threads at once.
 *
 * The library is for x86-64. Of the C library it needs memset and memcpy at most.
 */
#ifndef LAGUIPY_H
#define LAGUIPY_H

#include <stddef.h>
#include <stdint.h>

#ifdef __cplusplus
extern "C" {
#endif

/* The version of this header, and of the library that comes with it. */
#define LAGUIPY_VERSION "0.3.0"

/* Certainty, in units. */
#define LAGUIPY_CERTAIN 1000000000

/* The most nodes of a graph, variables of a model, steps of a figure, and rounds of a builder. */
#define LAGUIPY_MOST_NODES 4096
#define LAGUIPY_MOST_VARIABLES 16
#define LAGUIPY_MOST_STEPS 10000
#define LAGUIPY_MOST_ROUNDS 1000

/* The slots of an index, and what stands for no node in a slot or in an answer. */
#define LAGUIPY_SLOTS 8192
#define LAGUIPY_NO_NODE 65535

/* What stands for no variable, as the second place of a refusal. */
#define LAGUIPY_NO_VARIABLE 65535

/* The most bytes of a folder. */
#define LAGUIPY_MODEL_BYTES 40000
#define LAGUIPY_GRAPH_BYTES 1048576

/* Stack that is enough for any call; the index and the figure calls use most of it. */
#define LAGUIPY_STACK_BYTES 65536

/* The elements of `values` of laguipy_graph_check: the root value in units, and the nodes of each kind. */
enum {
    LAGUIPY_ROOT,
    LAGUIPY_WAITING,
    LAGUIPY_EXPANDED,
    LAGUIPY_COVERED,
    LAGUIPY_TARGET,
    LAGUIPY_VALUES
};

/* The model check: refusals 1 to 11 (docs/REFUSALS.md). */
size_t laguipy_model_check(const uint8_t *model, size_t model_len, size_t place[2]);

/*
 * The view: record `record` of body `body` of the model folder (0 terms, 1 variables, 2 expressions, 3 commands, 4
 * branches). part[0] is where it starts in the folder, part[1] its length in bytes; both are 0 where the model check
 * refuses with 1, 2 or 3, or there is no such body or record. part[0] + part[1] is at most model_len.
 */
void laguipy_record_part(const uint8_t *model, size_t model_len, size_t body, size_t record, size_t part[2]);

/*
 * The graph check: refusals 1 to 11, then 12 to 25. Accepted, `values` holds the root value and the counts, as the enum
 * above numbers them; refused, zeros.
 */
size_t laguipy_graph_check(const uint8_t *model, size_t model_len, const uint8_t *graph, size_t graph_len,
                           size_t place[2], size_t values[LAGUIPY_VALUES]);

/*
 * What a figure call on these arguments answers: the graph check's refusal, then 26 (a node waits), 27 (h over
 * LAGUIPY_MOST_STEPS), 28 (a row is shorter than the nodes). The rows are neither read nor written: only their lengths
 * count.
 */
size_t laguipy_figure_refusal(const uint8_t *model, size_t model_len, const uint8_t *graph, size_t graph_len, size_t h,
                              const uint32_t *first, size_t first_len, const uint32_t *second, size_t second_len,
                              size_t place[2]);

/*
 * The figures for h steps, one per node: round h in the first row if h is even, else in the second, and round h - 1 in
 * the other, which is untouched at h = 0. Elements past the node count stay. Refused, as laguipy_figure_refusal says,
 * both rows stay.
 */
size_t laguipy_figure_rows(const uint8_t *model, size_t model_len, const uint8_t *graph, size_t graph_len, size_t h,
                           uint32_t *first, size_t first_len, uint32_t *second, size_t second_len, size_t place[2]);

/*
 * The same, which tells where the figures stand: part[0] is 0 for the first row and 1 for the second, part[1] their
 * count, from the row's start. Refused, both are 0.
 */
size_t laguipy_figure(const uint8_t *model, size_t model_len, const uint8_t *graph, size_t graph_len, size_t h,
                      uint32_t *first, size_t first_len, uint32_t *second, size_t second_len, size_t place[2],
                      size_t part[2]);

/*
 * The index of the nodes by their concrete states. Three rows are filled:
 *
 * - slots, all LAGUIPY_SLOTS of them: the nodes upward, each only if its concrete state is new, in the first slot of
 *   that state or the next free one, round the end; LAGUIPY_NO_NODE in the rest. The first slot is the remainder by
 *   LAGUIPY_SLOTS of the 32-bit FNV-1a hash of the state's bytes, two per variable as a graph folder has them.
 * - answers, one for each state of the batch, whose values stand one after the other, one per variable: the
 *   lowest-numbered node with that concrete state, or LAGUIPY_NO_NODE. A batch may be empty, and hold any values.
 * - listing, which gets *listed nodes, ascending: every uncovered node, waiting and target too, with the concrete state
 *   of a lower uncovered one.
 *
 * Later elements of answers and listing stay. Refused, by the graph check or with 34, *listed is 0 and all rows stay:
 * 34 where slots_len is not LAGUIPY_SLOTS (place 0), the batch is not whole states (1), answers has fewer elements than
 * the batch has states (2), or listing fewer than the graph has nodes (3).
 */
size_t laguipy_index(const uint8_t *model, size_t model_len, const uint8_t *graph, size_t graph_len, uint16_t *slots,
                     size_t slots_len, const int16_t *batch, size_t batch_len, uint16_t *answers, size_t answers_len,
                     uint16_t *listing, size_t listing_len, size_t place[2], size_t *listed);

/*
 * The step of a state by a branch of a command, also from a target. The new state, one value per variable, stands first
 * in `result`, whose later elements stay. Refused, with 1 to 11 or 29 to 33, all of them stay.
 */
size_t laguipy_step(const uint8_t *model, size_t model_len, const int16_t *state, size_t state_len, size_t command,
                    size_t branch, int16_t *result, size_t result_len, size_t place[2]);

/*
 * The builder: a graph of the model, which stands first in `out`. *length is how many bytes it has; those past it stay.
 * laguipy_graph_check accepts every graph that is built.
 *
 * - Building ends when no node waits, or when the next expansion would give the graph more than LAGUIPY_MOST_NODES
 *   nodes, or more bytes than LAGUIPY_GRAPH_BYTES or out_len; what waits then stays waiting. A built graph of n nodes
 *   has at most 12 + n * (16 + 4 * variables) bytes, so that 327692 are enough for any.
 * - Values start at certainty, and `rounds` rounds lower them, each over the nodes upward and in place. Any number of
 *   rounds is right, 0 too. What is lower moves up about one level of the graph in a round; and however many there are,
 *   going on for ever counts as reaching a target. Figures do not depend on the values.
 *
 * Refused, with 1 to 11 or 35, *length is 0 and all of `out` stays: 35 where out_len is below 16 + 12 + 4 * variables,
 * the bytes of a graph of one node (place 0), or rounds is over LAGUIPY_MOST_ROUNDS (1).
 */
size_t laguipy_build(const uint8_t *model, size_t model_len, size_t rounds, uint8_t *out, size_t out_len,
                     size_t place[2], size_t *length);

#ifdef __cplusplus
}
#endif

#endif
