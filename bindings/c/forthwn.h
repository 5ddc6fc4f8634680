/* Forthwn: weighted transducers ("tables") that are read, written, composed, applied to a string, trimmed, counted, searched and listed.
 *
 *   cc program.c $(pkg-config --cflags --libs forthwn)
 *
 * What holds for every call:
 *
 *  - It returns a refusal: 0 (FORTHWN_OK), or the first number whose condition holds, in the order in which the call tests; each call below
 *    names its numbers in that order. For a call on one table, and for forthwn_write, that is the lowest number whose condition holds. Of
 *    two tables, 1 to 8 of the left one and then its 18 come before 1 to 8 of the right one, and 10 to 13 behind these. forthwn_readings
 *    tests the string (9) behind the composition's 11 to 13, and then the lattice's 11 and 12, then 14; what forthwn_list says goes in the
 *    same order, without 14, and it returns 0 or 10. forthwn_refusal_text says a number in words. The other numbers that the call tells
 *    (len, count, head, path) are 0 on every refusal.
 *  - Memory is lent as a pointer and a number of cells (bytes, 16-bit, 32-bit or 64-bit numbers, not always bytes); enough of them is never too
 *    many. The call touches no other memory, keeps no pointer, allocates nothing and has no state of its own, so calls may run in
 *    several threads at once.
 *  - A pointer of length 0 may be null. Every other pointer must point at that many cells, suitably aligned.
 *  - What is written (buffers, *len and the like) must not overlap anything else lent to the same call. What is only read may overlap.
 *  - On success, cells of a written buffer behind what was written are 0, and buffers lent to work in are all 0. After refusals 11 to 13
 *    every buffer lent for writing is all 0; after every other refusal each keeps its contents.
 *  - It always ends, and needs at most FORTHWN_STACK bytes of stack. Its time grows with the bytes handed in, which it tests, with the
 *    buffers lent, which it clears to their end, and beyond that as is said at each call.
 *
 * A label is 16 bits: 0 reads or writes nothing, 1 to 65534 are symbols. An arc of input 65535 reads any symbol that no arc of its state has
 * as its input, and with output 65535 it writes the symbol that it read; composed tables and lattices hold the symbol itself. States and
 * arcs are numbered from 0, an arc's number is its place. A path is a run of arcs from the start; it accepts where it ends in a final state.
 *
 * The bytes of a table are records: the length of the body (2 bytes), a kind (2), the body. Kind 1, first and once: states, arcs, finals,
 * start (2 each). Kind 2, for each final state, rising: state (2), weight (4). Kind 3, for each arc, sources never falling: source, input
 * label, output label, target (2 each), weight (4). All numbers are little-endian, and weights two's complement. forthwn_write makes them.
 */
#ifndef FORTHWN_H
#define FORTHWN_H

#include <stddef.h>
#include <stdint.h>

/* The least number of cells of each buffer; fewer are refused by 10 (FORTHWN_SHORT_BUFFER). */
enum {
    FORTHWN_TABLE_LEN = 59404,          /* bytes of a table or a lattice: the largest there is */
    FORTHWN_ORIGINS_LEN = 6144,         /* origins of a composition, two for each arc */
    FORTHWN_LATTICE_ORIGINS_LEN = 3072, /* origins of a lattice or of a trimmed table, one for each arc */
    FORTHWN_STATES_LEN = 1024,          /* states of a composition, or pairs of a lattice, to work in */
    FORTHWN_PATH_LEN = 1023,            /* arcs, and labels, of a path */
    FORTHWN_CELLS_LEN = 1024,           /* cells for costs to come, one for each state that there can be */
    FORTHWN_FINALS_LEN = 1024,          /* final states, and final weights, of a table that is read */
    FORTHWN_FIELDS_LEN = 12288,         /* its arcs, four fields each: source, input label, output label, target */
    FORTHWN_WEIGHTS_LEN = 3072,         /* its arc weights */
    FORTHWN_TEXT_LEN = 602996           /* bytes of a listing */
};

/* Bytes of stack that a call needs at most, for whoever sizes the stack of a thread. */
enum { FORTHWN_STACK = 327680 };

/* The label for any symbol, as an input and, beside that input alone, as an output. */
enum { FORTHWN_ANY = 65535 };

/* The side that stood still in a step of a composition, in place of an arc's number; and the count that stands for 99 or more. */
enum { FORTHWN_STOOD_STILL = 65535, FORTHWN_MANY = 99 };

typedef int32_t forthwn_weight; /* of an arc or a final state: -1000000 to 1000000 */
typedef int64_t forthwn_cost;   /* of a path: the sum of its weights */

/* Stands for a cost where there is no path. */
#define FORTHWN_NO_COST INT64_C(1000000000001)

/* The numbers at the head of a table. */
typedef struct forthwn_head {
    uint32_t states; /* 1 to 1024 */
    uint32_t arcs;   /* 0 to 3072 */
    uint32_t finals; /* 0 to states */
    uint32_t start;  /* below states */
} forthwn_head;

/* What is told of a path: its cost, and how many arcs and labels stand in the buffers. */
typedef struct forthwn_path {
    forthwn_cost cost;
    uint64_t arcs;
    uint64_t labels;
} forthwn_path;

/* The library fills them as four numbers of 32 bits and three of 64. */
#if defined(__cplusplus) && __cplusplus >= 201103L
static_assert(sizeof(forthwn_head) == 16 && sizeof(forthwn_path) == 24, "no padding");
#elif defined(__STDC_VERSION__) && __STDC_VERSION__ >= 201112L
_Static_assert(sizeof(forthwn_head) == 16 && sizeof(forthwn_path) == 24, "no padding");
#endif

/* Refusals. 1 to 8 are about the bytes of a table, and those of writing it about its numbers. */
enum forthwn_refusals {
    FORTHWN_OK = 0,
    FORTHWN_CUT_SHORT = 1,
    FORTHWN_BAD_RECORDS = 2,
    FORTHWN_BAD_HEAD = 3,
    FORTHWN_BAD_NUMBER = 4,
    FORTHWN_BAD_STATE = 5,
    FORTHWN_BAD_ORDER = 6,
    FORTHWN_BAD_LABEL = 7,
    FORTHWN_BAD_WEIGHT = 8,
    FORTHWN_BAD_CODE = 9,
    FORTHWN_SHORT_BUFFER = 10,
    FORTHWN_TOO_MANY_STATES = 11,
    FORTHWN_TOO_MANY_ARCS = 12,
    FORTHWN_TOO_HEAVY = 13,
    FORTHWN_ENDLESS = 14,
    FORTHWN_NO_SUCH_PATH = 15,
    FORTHWN_NO_PATH = 16,
    FORTHWN_ANY_INPUT = 18,
    FORTHWN_NEGATIVE_CYCLE = 19
};

/* A refusal in words, for people; never null. */
static inline const char *forthwn_refusal_text(uint32_t refusal) {
    switch (refusal) {
    case FORTHWN_OK: return "not refused";
    case FORTHWN_CUT_SHORT: return "a record runs past the end of the bytes";
    case FORTHWN_BAD_RECORDS: return "records are not of the kinds, lengths or order of a table";
    case FORTHWN_BAD_HEAD: return "the number of states, arcs or finals, or the start, is out of range";
    case FORTHWN_BAD_NUMBER: return "final or arc records are not as many as the head says";
    case FORTHWN_BAD_STATE: return "a state number is not below the number of states";
    case FORTHWN_BAD_ORDER: return "final states do not rise, or sources of arcs fall";
    case FORTHWN_BAD_LABEL: return "output 65535 beside another input";
    case FORTHWN_BAD_WEIGHT: return "a weight below -1000000 or above 1000000";
    case FORTHWN_BAD_CODE: return "the code has more than 64 labels, half a label, or a label 0 or 65535";
    case FORTHWN_SHORT_BUFFER: return "a lent buffer is too short";
    case FORTHWN_TOO_MANY_STATES: return "more than 1024 states are reached";
    case FORTHWN_TOO_MANY_ARCS: return "more than 3072 arcs leave the reached states";
    case FORTHWN_TOO_HEAVY: return "a composed arc or final weight below -1000000 or above 1000000";
    case FORTHWN_ENDLESS: return "infinitely many accepting paths";
    case FORTHWN_NO_SUCH_PATH: return "no path of that number";
    case FORTHWN_NO_PATH: return "no accepting path";
    case FORTHWN_ANY_INPUT: return "an arc for any symbol (input 65535) where none may be";
    case FORTHWN_NEGATIVE_CYCLE: return "a cycle below 0 on a path to a final state";
    default: return "no refusal of that number";
    }
}

#ifdef __cplusplus
extern "C" {
#endif

/* Whether some bytes are a table. Refusals: 1 to 8. One pass over the bytes. */
uint32_t forthwn_refusal(const uint8_t *bytes, size_t bytes_len);

/* Reads a table: its four numbers into *head, and in the order of its records its final states and their weights, four fields for each
 * arc (source, input label, output label, target) and the arc weights.
 * Lent: FORTHWN_FINALS_LEN final states and final weights, FORTHWN_FIELDS_LEN fields, FORTHWN_WEIGHTS_LEN arc weights.
 * Refusals: 1 to 8, 10. One pass over the bytes. */
uint32_t forthwn_read(const uint8_t *bytes, size_t bytes_len,
                      uint16_t *final_states, size_t final_states_len, forthwn_weight *final_weights, size_t final_weights_len,
                      uint16_t *fields, size_t fields_len, forthwn_weight *arc_weights, size_t arc_weights_len,
                      forthwn_head *head);

/* Writes a table from what forthwn_read gives, and its number of bytes into *len. The four runs may be longer than `finals` and `arcs`
 * ask for; what lies behind is ignored. Lent: FORTHWN_TABLE_LEN bytes.
 * Refusals: 3 to 8 as in reading, where 4 says that a run is shorter than `finals` or `arcs` asks for; 10. One pass over the numbers. */
uint32_t forthwn_write(uint32_t states, uint32_t arcs, uint32_t finals, uint32_t start,
                       const uint16_t *final_states, size_t final_states_len,
                       const forthwn_weight *final_weights, size_t final_weights_len,
                       const uint16_t *fields, size_t fields_len, const forthwn_weight *arc_weights, size_t arc_weights_len,
                       uint8_t *out, size_t out_len, uint32_t *len);

/* Composes two tables: what the left one writes, the right one reads. The composition's bytes go into `table`, their number into *len,
 * and for each of its arcs two origins, the left arc and the right arc it came from, FORTHWN_STOOD_STILL where that side stood still.
 * States are numbered as first reached. `states` is lent to work in.
 * Lent: FORTHWN_TABLE_LEN bytes, FORTHWN_ORIGINS_LEN origins, FORTHWN_STATES_LEN states.
 * Refusals: 1 to 8 of the left table, 18 where it has an arc of input 65535, 1 to 8 of the right one; 10 to 13.
 * Time grows with the arcs of the right table, the left arcs taken at the states reached and the arcs made. */
uint32_t forthwn_compose(const uint8_t *left, size_t left_len, const uint8_t *right, size_t right_len,
                         uint8_t *table, size_t table_len, uint16_t *origins, size_t origins_len,
                         uint32_t *states, size_t states_len, uint32_t *len);

/* Applies a string of 0 to 64 symbols to a table. The result is a table too, its lattice, trimmed: it accepts by exactly the paths of
 * the table that read the string. Its bytes go into `lattice`, their number into *len, and for each of its arcs the arc of the table it
 * came from into `origins`. `pairs` is lent to work in.
 * Lent: FORTHWN_TABLE_LEN bytes, FORTHWN_LATTICE_ORIGINS_LEN origins, FORTHWN_STATES_LEN pairs.
 * Refusals: 1 to 8, 9 (a bad string), 10, and 11 and 12 of the lattice before it is trimmed.
 * Time grows with the arcs that leave the pairs (place in the string, state) reached, and then as for forthwn_trim. */
uint32_t forthwn_apply(const uint16_t *string, size_t string_len, const uint8_t *table, size_t table_len,
                       uint8_t *lattice, size_t lattice_len, uint16_t *origins, size_t origins_len,
                       uint32_t *pairs, size_t pairs_len, uint32_t *len);

/* Keeps the states and arcs that lie on an accepting path, in their order, renumbered; where there is none, the start alone. The bytes go
 * into `out`, their number into *len, and for each kept arc the number it had into `origins`.
 * Lent: FORTHWN_TABLE_LEN bytes, FORTHWN_LATTICE_ORIGINS_LEN origins. Refusals: 1 to 8, 10.
 * Time is linear in states and arcs. */
uint32_t forthwn_trim(const uint8_t *table, size_t table_len, uint8_t *out, size_t out_len,
                      uint16_t *origins, size_t origins_len, uint32_t *len);

/* Puts the number of accepting paths into *count, FORTHWN_MANY (99) standing for 99 or more. Refusals: 1 to 8, 14.
 * Time is linear in states and arcs. */
uint32_t forthwn_count(const uint8_t *table, size_t table_len, uint32_t *count);

/* The k-th accepting path, from 0 and below the count, in path order (arc numbers compared from the front, a path before its extensions):
 * its arc numbers and its non-empty output labels into the buffers, cost and lengths into *path.
 * Lent: FORTHWN_PATH_LEN arcs, FORTHWN_PATH_LEN labels. Refusals: 1 to 8, 10, 14, 15. Time as for forthwn_count. */
uint32_t forthwn_nth(const uint8_t *table, size_t table_len, uint32_t k, uint16_t *arcs, size_t arcs_len,
                     uint16_t *labels, size_t labels_len, forthwn_path *path);

/* The accepting path of least cost, then of fewest labels (an empty output is none), then of fewest arcs, then first in path order, told
 * as forthwn_nth does. There is one where accepting paths are infinitely many, too, but where a cycle on one of them sums below 0: then
 * no cost is the least.
 * Lent: FORTHWN_PATH_LEN arcs, FORTHWN_PATH_LEN labels. Refusals: 1 to 8, 10, 16, 19.
 * One pass over the arcs where they lead to higher states; else by a queue, at worst states times arcs, which took 10 milliseconds. */
uint32_t forthwn_shortest(const uint8_t *table, size_t table_len, uint16_t *arcs, size_t arcs_len,
                          uint16_t *labels, size_t labels_len, forthwn_path *path);

/* The least cost still to come from each state (the shortest distance to the final states), over all paths that lead from it to a final
 * state, the final weight included, into cell s for state s; FORTHWN_NO_COST where no path does, and in the cells past the last state.
 * States that the start does not reach have theirs too. The start's cell is the cost of the shortest path, where there is one.
 * Lent: FORTHWN_CELLS_LEN cells. Refusals: 1 to 8, 10, 19 (a cycle that sums below 0 and leads to a final state, wherever it is).
 * Time as for forthwn_shortest. */
uint32_t forthwn_distance(const uint8_t *table, size_t table_len, forthwn_cost *cells, size_t cells_len);

/* The main job in one call: composes two tables, applies a string of 0 to 64 symbols to the composition and puts the number of accepting
 * paths of the lattice (readings) into *count, FORTHWN_MANY (99) standing for 99 or more. Nothing is lent; the call works on its stack.
 * Refusals: those of forthwn_compose, then 9, then 11 and 12 of the lattice, then 14; never 10. Time is that of the three calls. */
uint32_t forthwn_readings(const uint8_t *left, size_t left_len, const uint8_t *right, size_t right_len,
                          const uint16_t *string, size_t string_len, uint32_t *count);

/* The listing as text, not terminated by a 0: into `out`, its number of bytes into *len. The code is given as bytes, two for each label,
 * the lower one first. The first line is `readings` and the count, or `readings 99+`, or `readings endless`; with a count below 99 a line
 * follows for each reading, in path order: its number, its cost, its output labels, one blank between. Where the tables or the code are
 * refused the text is the one line `refused` and the number, which *said tells too; *said is 0 where the text lists.
 * Lent: FORTHWN_TEXT_LEN bytes. Returns 0, or 10 where fewer are lent; then *len and *said are 0.
 * Said: the refusals of forthwn_compose, then 9 (an odd last byte too), then 11 and 12 of the lattice.
 * Time is that of forthwn_readings and of walking along each path that is listed. */
uint32_t forthwn_list(const uint8_t *left, size_t left_len, const uint8_t *right, size_t right_len,
                      const uint8_t *code, size_t code_len, uint8_t *out, size_t out_len, uint32_t *len, uint32_t *said);

/* The cascade: applies a string of 0 to 64 symbols to the left table first, and composes the lattice, trimmed, with the right table. It takes
 * pairs of tables whose composition is too large, as a correction table beside a catalogue; and the left table may have arcs for any
 * symbol, since a lattice has none. The bytes of that composition, untrimmed, go into `table`, their number into *len, and for each of its
 * arcs two origins, the arc of the left table and the arc of the right one, FORTHWN_STOOD_STILL where that side stood still. Its
 * accepting paths stand one to one with those of forthwn_apply on forthwn_compose where those are not refused; states and arcs are numbered
 * otherwise. `states` is lent to work in.
 * Lent: FORTHWN_TABLE_LEN bytes, FORTHWN_ORIGINS_LEN origins, FORTHWN_STATES_LEN states.
 * Refusals: 1 to 8 of the left table, 1 to 8 of the right one, 9, 10, 11 and 12 of the lattice before it is trimmed, then 11 to 13 of the
 * composition; never 18. Time is that of forthwn_apply on the left table and of forthwn_compose on the lattice. */
uint32_t forthwn_cascade(const uint8_t *left, size_t left_len, const uint8_t *right, size_t right_len,
                         const uint16_t *string, size_t string_len, uint8_t *table, size_t table_len,
                         uint16_t *origins, size_t origins_len, uint32_t *states, size_t states_len, uint32_t *len);

/* The number of accepting paths (readings) of the cascade into *count, FORTHWN_MANY (99) standing for 99 or more; the count of
 * forthwn_readings where neither is refused before it. Nothing is lent; the call works on its stack.
 * Refusals: those of forthwn_cascade without 10, then 14. Time is that of forthwn_cascade and forthwn_count. */
uint32_t forthwn_cascade_readings(const uint8_t *left, size_t left_len, const uint8_t *right, size_t right_len,
                                  const uint16_t *string, size_t string_len, uint32_t *count);

/* The listing of the cascade as text, in the form of forthwn_list and lent as there.
 * Lent: FORTHWN_TEXT_LEN bytes. Returns 0, or 10 where fewer are lent; then *len and *said are 0.
 * Said: 1 to 8 of the left table, 1 to 8 of the right one, 9 (an odd last byte too), 11 and 12 of the lattice, 11 to 13 of the composition.
 * Time is that of forthwn_cascade_readings and of walking along each path that is listed. */
uint32_t forthwn_cascade_list(const uint8_t *left, size_t left_len, const uint8_t *right, size_t right_len,
                              const uint8_t *code, size_t code_len, uint8_t *out, size_t out_len, uint32_t *len, uint32_t *said);

#ifdef __cplusplus
}
#endif
#endif
