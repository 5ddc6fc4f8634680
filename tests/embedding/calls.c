/* The calls as C and as C++ see them: names and words of refusals, round trips of the tables in examples/keys, null of length 0, buffers one
   cell too short.   calls FOLDER
   The stack that each call takes, in bytes; valgrind and sanitizers would change it.   calls FOLDER stack */
#include <pthread.h>
#include <stdio.h>
#include <stdlib.h>
#include <string.h>
#include <forthwn.h>

#define CHECK(fact) ((fact) ? (void)0 : fail(#fact, __LINE__))

static void fail(const char *fact, int line) {
    fprintf(stderr, "tests/embedding/calls.c:%d: not so: %s\n", line, fact);
    exit(1);
}

static uint8_t left[FORTHWN_TABLE_LEN], right[FORTHWN_TABLE_LEN], code[256];
static size_t left_len, right_len, code_len;
static const uint16_t string[] = {7, 3};

static uint8_t table[FORTHWN_TABLE_LEN], lattice[FORTHWN_TABLE_LEN], text[FORTHWN_TEXT_LEN];
static uint16_t origins[FORTHWN_ORIGINS_LEN], lattice_origins[FORTHWN_LATTICE_ORIGINS_LEN];
static uint32_t states[FORTHWN_STATES_LEN];
static uint16_t arcs[FORTHWN_PATH_LEN], labels[FORTHWN_PATH_LEN];
static uint16_t final_states[FORTHWN_FINALS_LEN], fields[FORTHWN_FIELDS_LEN];
static forthwn_weight final_weights[FORTHWN_FINALS_LEN], arc_weights[FORTHWN_WEIGHTS_LEN];
static forthwn_cost cells[FORTHWN_CELLS_LEN];

static size_t load(const char *folder, const char *name, uint8_t *bytes, size_t most) {
    char path[4096];
    CHECK(snprintf(path, sizeof path, "%s/%s", folder, name) < (int)sizeof path);
    FILE *file = fopen(path, "rb");
    CHECK(file != NULL);
    size_t count = fread(bytes, 1, most, file);
    CHECK(!ferror(file) && fclose(file) == 0);
    return count;
}

/* Each line of bindings/refusals.txt as REFUSAL(number, name, words). */
static void names_and_words(void) {
#define REFUSAL(number, name, words) CHECK(FORTHWN_##name == number && strcmp(forthwn_refusal_text(number), words) == 0);
#include "refusals.inc"
    CHECK(strcmp(forthwn_refusal_text(4294967295u), "no refusal of that number") == 0);
}

static void read_and_written(const uint8_t *bytes, size_t bytes_len) {
    forthwn_head head;
    uint32_t len;
    CHECK(forthwn_refusal(bytes, bytes_len) == FORTHWN_OK);
    CHECK(forthwn_read(bytes, bytes_len, final_states, FORTHWN_FINALS_LEN, final_weights, FORTHWN_FINALS_LEN,
                       fields, FORTHWN_FIELDS_LEN, arc_weights, FORTHWN_WEIGHTS_LEN, &head) == FORTHWN_OK);
    CHECK(bytes_len == 12 + 10 * (size_t)head.finals + 16 * (size_t)head.arcs);
    CHECK(forthwn_write(head.states, head.arcs, head.finals, head.start, final_states, head.finals, final_weights, head.finals,
                        fields, 4 * (size_t)head.arcs, arc_weights, head.arcs, table, FORTHWN_TABLE_LEN, &len) == FORTHWN_OK);
    CHECK(len == bytes_len && memcmp(table, bytes, len) == 0);
    for (size_t i = len; i < FORTHWN_TABLE_LEN; i++) CHECK(table[i] == 0);
    CHECK(forthwn_write(head.states, head.arcs, head.finals, head.start, final_states, head.finals, final_weights, head.finals,
                        fields, 4 * (size_t)head.arcs - 1, arc_weights, head.arcs, table, FORTHWN_TABLE_LEN, &len) == FORTHWN_BAD_NUMBER);
    CHECK(len == 0);
}

static void chain(void) {
    uint32_t len, count, said;
    forthwn_path path;
    CHECK(forthwn_compose(left, left_len, right, right_len, table, FORTHWN_TABLE_LEN, origins, FORTHWN_ORIGINS_LEN,
                          states, FORTHWN_STATES_LEN, &len) == FORTHWN_OK);
    CHECK(forthwn_apply(string, 2, table, len, lattice, FORTHWN_TABLE_LEN, lattice_origins, FORTHWN_LATTICE_ORIGINS_LEN,
                        states, FORTHWN_STATES_LEN, &len) == FORTHWN_OK);
    size_t lattice_len = len;
    CHECK(forthwn_trim(lattice, lattice_len, table, FORTHWN_TABLE_LEN, origins, FORTHWN_ORIGINS_LEN, &len) == FORTHWN_OK);
    CHECK(len == lattice_len && memcmp(table, lattice, len) == 0);
    CHECK(forthwn_count(lattice, lattice_len, &count) == FORTHWN_OK && count == 2);
    CHECK(forthwn_nth(lattice, lattice_len, 1, arcs, FORTHWN_PATH_LEN, labels, FORTHWN_PATH_LEN, &path) == FORTHWN_OK);
    CHECK(path.cost == 8 && path.labels == 2 && labels[0] == 20 && labels[1] == 21);
    CHECK(forthwn_nth(lattice, lattice_len, 2, arcs, FORTHWN_PATH_LEN, labels, FORTHWN_PATH_LEN, &path) == FORTHWN_NO_SUCH_PATH);
    CHECK(path.cost == 0 && path.arcs == 0 && path.labels == 0 && labels[1] == 21);
    CHECK(forthwn_shortest(lattice, lattice_len, arcs, FORTHWN_PATH_LEN, labels, FORTHWN_PATH_LEN, &path) == FORTHWN_OK);
    CHECK(path.cost == 3 && path.labels == 3 && labels[0] == 20 && labels[1] == 22 && labels[2] == 30);
    CHECK(forthwn_readings(left, left_len, right, right_len, string, 2, &count) == FORTHWN_OK && count == 2);
    CHECK(forthwn_list(left, left_len, right, right_len, code, code_len, text, FORTHWN_TEXT_LEN, &len, &said) == FORTHWN_OK && said == 0);
    CHECK(strcmp((const char *)text, "readings 2\n0 3 20 22 30\n1 8 20 21\n") == 0 && strlen((const char *)text) == len);
    CHECK(forthwn_list(left, left_len, right, 3, code, code_len, text, FORTHWN_TEXT_LEN, &len, &said) == FORTHWN_OK);
    CHECK(said == FORTHWN_CUT_SHORT && strcmp((const char *)text, "refused 1\n") == 0 && len == 10);
}

/* The cascade: count and text are those of the chain, the origins are arcs of both tables, and the left one may read any symbol. */
static void cascade(void) {
    static const uint16_t ends[] = {0}, any[] = {0, FORTHWN_ANY, FORTHWN_ANY, 0};
    static const forthwn_weight end_weights[] = {0}, weights[] = {1};
    static uint8_t copies[FORTHWN_TABLE_LEN];
    uint32_t len, copies_len, count, said;
    forthwn_path path;
    CHECK(forthwn_cascade(left, left_len, right, right_len, string, 2, table, FORTHWN_TABLE_LEN, origins, FORTHWN_ORIGINS_LEN,
                          states, FORTHWN_STATES_LEN, &len) == FORTHWN_OK);
    CHECK(forthwn_count(table, len, &count) == FORTHWN_OK && count == 2);
    CHECK(forthwn_shortest(table, len, arcs, FORTHWN_PATH_LEN, labels, FORTHWN_PATH_LEN, &path) == FORTHWN_OK);
    CHECK(path.cost == 3 && path.labels == 3 && labels[0] == 20 && labels[1] == 22 && labels[2] == 30);
    size_t left_arcs = (size_t)left[6] + 256 * (size_t)left[7], right_arcs = (size_t)right[6] + 256 * (size_t)right[7];
    for (size_t i = 0; i < path.arcs; i++) {
        CHECK(origins[2 * arcs[i]] < left_arcs || origins[2 * arcs[i]] == FORTHWN_STOOD_STILL);
        CHECK(origins[2 * arcs[i] + 1] < right_arcs || origins[2 * arcs[i] + 1] == FORTHWN_STOOD_STILL);
    }
    for (size_t i = len; i < FORTHWN_TABLE_LEN; i++) CHECK(table[i] == 0);
    for (size_t i = 0; i < FORTHWN_STATES_LEN; i++) CHECK(states[i] == 0);
    CHECK(forthwn_cascade_readings(left, left_len, right, right_len, string, 2, &count) == FORTHWN_OK && count == 2);
    CHECK(forthwn_cascade_list(left, left_len, right, right_len, code, code_len, text, FORTHWN_TEXT_LEN, &len, &said) == FORTHWN_OK && said == 0);
    CHECK(strcmp((const char *)text, "readings 2\n0 3 20 22 30\n1 8 20 21\n") == 0 && strlen((const char *)text) == len);
    CHECK(forthwn_write(1, 1, 1, 0, ends, 1, end_weights, 1, any, 4, weights, 1, copies, FORTHWN_TABLE_LEN, &copies_len) == FORTHWN_OK);
    CHECK(forthwn_cascade_readings(copies, copies_len, copies, copies_len, string, 2, &count) == FORTHWN_OK && count == 1);
    CHECK(forthwn_cascade_readings(copies, copies_len, right, 3, NULL, 0, &count) == FORTHWN_CUT_SHORT && count == 0);
    CHECK(forthwn_cascade_list(copies, copies_len, right, right_len, code, 1, text, FORTHWN_TEXT_LEN, &len, &said) == FORTHWN_OK);
    CHECK(said == FORTHWN_BAD_CODE && strcmp((const char *)text, "refused 9\n") == 0 && len == 10);
}

/* Weights and costs below 0, and a cycle below 0, which refuses a shortest path and leaves the buffers. */
static void signs(void) {
    static const uint16_t ends[] = {1};
    static const forthwn_weight end_weights[] = {-4}, weights[] = {-1000000, 5, -1};
    static const uint16_t three[] = {0, 1, 2, 1, 0, 1, 3, 1, 1, 0, 0, 1};
    forthwn_head head;
    forthwn_path path;
    uint32_t len;
    CHECK(forthwn_write(2, 2, 1, 0, ends, 1, end_weights, 1, three, 8, weights, 2, table, FORTHWN_TABLE_LEN, &len) == FORTHWN_OK);
    CHECK(forthwn_read(table, len, final_states, FORTHWN_FINALS_LEN, final_weights, FORTHWN_FINALS_LEN,
                       fields, FORTHWN_FIELDS_LEN, arc_weights, FORTHWN_WEIGHTS_LEN, &head) == FORTHWN_OK);
    CHECK(final_weights[0] == -4 && arc_weights[0] == -1000000 && arc_weights[1] == 5 && arc_weights[2] == 0);
    CHECK(forthwn_shortest(table, len, arcs, FORTHWN_PATH_LEN, labels, FORTHWN_PATH_LEN, &path) == FORTHWN_OK);
    CHECK(path.cost == -1000004 && path.arcs == 1 && arcs[0] == 0 && labels[0] == 2);
    CHECK(forthwn_nth(table, len, 1, arcs, FORTHWN_PATH_LEN, labels, FORTHWN_PATH_LEN, &path) == FORTHWN_OK && path.cost == 1);
    CHECK(forthwn_write(2, 3, 1, 0, ends, 1, end_weights, 1, three, 12, weights, 3, table, FORTHWN_TABLE_LEN, &len) == FORTHWN_OK);
    memset(arcs, 7, sizeof arcs);
    CHECK(forthwn_shortest(table, len, arcs, FORTHWN_PATH_LEN, labels, FORTHWN_PATH_LEN, &path) == FORTHWN_NEGATIVE_CYCLE);
    CHECK(path.cost == 0 && path.arcs == 0 && path.labels == 0 && arcs[0] == 0x0707);
}

/* The least cost to come from each state: from 0 and 1 to 1, which is final, from 2 nowhere, from 3 to 0; then with a cycle below 0 at 3. */
static void costs_to_come(void) {
    static const uint16_t ends[] = {1};
    static const forthwn_weight end_weights[] = {4}, weights[] = {5, 0, -7, -1};
    static const uint16_t four[] = {0, 1, 2, 1, 0, 1, 2, 2, 3, 1, 2, 0, 3, 1, 2, 3};
    uint32_t len;
    CHECK(forthwn_write(4, 3, 1, 0, ends, 1, end_weights, 1, four, 12, weights, 3, table, FORTHWN_TABLE_LEN, &len) == FORTHWN_OK);
    CHECK(forthwn_distance(table, len, cells, FORTHWN_CELLS_LEN) == FORTHWN_OK);
    CHECK(cells[0] == 9 && cells[1] == 4 && cells[2] == FORTHWN_NO_COST && cells[3] == 2);
    for (size_t i = 4; i < FORTHWN_CELLS_LEN; i++) CHECK(cells[i] == FORTHWN_NO_COST);
    CHECK(forthwn_write(4, 4, 1, 0, ends, 1, end_weights, 1, four, 16, weights, 4, table, FORTHWN_TABLE_LEN, &len) == FORTHWN_OK);
    CHECK(forthwn_distance(table, len, cells, FORTHWN_CELLS_LEN) == FORTHWN_NEGATIVE_CYCLE && cells[0] == 9 && cells[3] == 2);
    CHECK(forthwn_distance(table, len, cells, FORTHWN_CELLS_LEN - 1) == FORTHWN_SHORT_BUFFER && cells[0] == 9);
}

static void null_of_length_0(void) {
    uint32_t len = 1, count = 1, said = 1;
    forthwn_head head;
    forthwn_path path;
    CHECK(forthwn_refusal(NULL, 0) == FORTHWN_BAD_RECORDS);
    CHECK(forthwn_read(NULL, 0, NULL, 0, NULL, 0, NULL, 0, NULL, 0, &head) == FORTHWN_BAD_RECORDS && head.states == 0);
    CHECK(forthwn_read(left, left_len, NULL, 0, NULL, 0, NULL, 0, NULL, 0, &head) == FORTHWN_SHORT_BUFFER && head.states == 0);
    CHECK(forthwn_write(1, 0, 0, 0, NULL, 0, NULL, 0, NULL, 0, NULL, 0, NULL, 0, &len) == FORTHWN_SHORT_BUFFER && len == 0);
    CHECK(forthwn_write(1, 0, 0, 0, NULL, 0, NULL, 0, NULL, 0, NULL, 0, table, FORTHWN_TABLE_LEN, &len) == FORTHWN_OK && len == 12);
    CHECK(forthwn_write(1, 1, 1, 0, NULL, 0, NULL, 0, NULL, 0, NULL, 0, table, FORTHWN_TABLE_LEN, &len) == FORTHWN_BAD_NUMBER);
    CHECK(forthwn_compose(NULL, 0, NULL, 0, NULL, 0, NULL, 0, NULL, 0, &len) == FORTHWN_BAD_RECORDS && len == 0);
    CHECK(forthwn_compose(left, left_len, right, right_len, NULL, 0, NULL, 0, NULL, 0, &len) == FORTHWN_SHORT_BUFFER && len == 0);
    CHECK(forthwn_apply(NULL, 0, left, left_len, lattice, FORTHWN_TABLE_LEN, lattice_origins, FORTHWN_LATTICE_ORIGINS_LEN,
                        states, FORTHWN_STATES_LEN, &len) == FORTHWN_OK && len != 0);
    CHECK(forthwn_apply(NULL, 0, NULL, 0, NULL, 0, NULL, 0, NULL, 0, &len) == FORTHWN_BAD_RECORDS && len == 0);
    CHECK(forthwn_apply(NULL, 0, left, left_len, NULL, 0, NULL, 0, NULL, 0, &len) == FORTHWN_SHORT_BUFFER && len == 0);
    CHECK(forthwn_trim(NULL, 0, NULL, 0, NULL, 0, &len) == FORTHWN_BAD_RECORDS && len == 0);
    CHECK(forthwn_trim(left, left_len, NULL, 0, NULL, 0, &len) == FORTHWN_SHORT_BUFFER && len == 0);
    CHECK(forthwn_count(NULL, 0, &count) == FORTHWN_BAD_RECORDS && count == 0);
    CHECK(forthwn_nth(NULL, 0, 0, NULL, 0, NULL, 0, &path) == FORTHWN_BAD_RECORDS && path.cost == 0);
    CHECK(forthwn_nth(left, left_len, 0, NULL, 0, NULL, 0, &path) == FORTHWN_SHORT_BUFFER && path.cost == 0);
    CHECK(forthwn_shortest(NULL, 0, NULL, 0, NULL, 0, &path) == FORTHWN_BAD_RECORDS && path.cost == 0);
    CHECK(forthwn_shortest(left, left_len, NULL, 0, NULL, 0, &path) == FORTHWN_SHORT_BUFFER && path.cost == 0);
    CHECK(forthwn_distance(NULL, 0, NULL, 0) == FORTHWN_BAD_RECORDS);
    CHECK(forthwn_distance(left, left_len, NULL, 0) == FORTHWN_SHORT_BUFFER);
    CHECK(forthwn_readings(NULL, 0, NULL, 0, NULL, 0, &count) == FORTHWN_BAD_RECORDS && count == 0);
    CHECK(forthwn_readings(left, left_len, right, right_len, NULL, 0, &count) == FORTHWN_OK && count == 0);
    CHECK(forthwn_list(NULL, 0, NULL, 0, NULL, 0, text, FORTHWN_TEXT_LEN, &len, &said) == FORTHWN_OK && said == FORTHWN_BAD_RECORDS);
    CHECK(forthwn_list(NULL, 0, NULL, 0, NULL, 0, NULL, 0, &len, &said) == FORTHWN_SHORT_BUFFER && len == 0 && said == 0);
    len = count = said = 1;
    CHECK(forthwn_cascade(NULL, 0, NULL, 0, NULL, 0, NULL, 0, NULL, 0, NULL, 0, &len) == FORTHWN_BAD_RECORDS && len == 0);
    CHECK(forthwn_cascade(left, left_len, right, right_len, NULL, 0, NULL, 0, NULL, 0, NULL, 0, &len) == FORTHWN_SHORT_BUFFER && len == 0);
    CHECK(forthwn_cascade_readings(NULL, 0, NULL, 0, NULL, 0, &count) == FORTHWN_BAD_RECORDS && count == 0);
    CHECK(forthwn_cascade_readings(left, left_len, right, right_len, NULL, 0, &count) == FORTHWN_OK && count == 0);
    CHECK(forthwn_cascade_list(NULL, 0, NULL, 0, NULL, 0, text, FORTHWN_TEXT_LEN, &len, &said) == FORTHWN_OK && said == FORTHWN_BAD_RECORDS);
    CHECK(forthwn_cascade_list(NULL, 0, NULL, 0, NULL, 0, NULL, 0, &len, &said) == FORTHWN_SHORT_BUFFER && len == 0 && said == 0);
}

/* Refused by 10, and every buffer still holds what it held. */
static void one_cell_short(void) {
    uint32_t len, said;
    forthwn_head head;
    forthwn_path path;
    memset(table, 7, sizeof table);
    memset(origins, 7, sizeof origins);
    memset(states, 7, sizeof states);
    memset(arcs, 7, sizeof arcs);
    memset(labels, 7, sizeof labels);
    memset(text, 7, sizeof text);
    CHECK(forthwn_read(left, left_len, final_states, FORTHWN_FINALS_LEN, final_weights, FORTHWN_FINALS_LEN, fields, FORTHWN_FIELDS_LEN,
                       arc_weights, FORTHWN_WEIGHTS_LEN - 1, &head) == FORTHWN_SHORT_BUFFER);
    CHECK(forthwn_compose(left, left_len, right, right_len, table, FORTHWN_TABLE_LEN, origins, FORTHWN_ORIGINS_LEN - 1,
                          states, FORTHWN_STATES_LEN, &len) == FORTHWN_SHORT_BUFFER);
    CHECK(forthwn_apply(string, 2, left, left_len, table, FORTHWN_TABLE_LEN - 1, origins, FORTHWN_LATTICE_ORIGINS_LEN,
                        states, FORTHWN_STATES_LEN, &len) == FORTHWN_SHORT_BUFFER);
    CHECK(forthwn_trim(left, left_len, table, FORTHWN_TABLE_LEN, origins, FORTHWN_LATTICE_ORIGINS_LEN - 1, &len) == FORTHWN_SHORT_BUFFER);
    CHECK(forthwn_nth(left, left_len, 0, arcs, FORTHWN_PATH_LEN, labels, FORTHWN_PATH_LEN - 1, &path) == FORTHWN_SHORT_BUFFER);
    CHECK(forthwn_list(left, left_len, right, right_len, code, code_len, text, FORTHWN_TEXT_LEN - 1, &len, &said) == FORTHWN_SHORT_BUFFER);
    CHECK(len == 0 && said == 0);
    CHECK(forthwn_cascade(left, left_len, right, right_len, string, 2, table, FORTHWN_TABLE_LEN, origins, FORTHWN_ORIGINS_LEN,
                          states, FORTHWN_STATES_LEN - 1, &len) == FORTHWN_SHORT_BUFFER);
    CHECK(forthwn_cascade_list(left, left_len, right, right_len, code, code_len, text, FORTHWN_TEXT_LEN - 1, &len, &said) == FORTHWN_SHORT_BUFFER);
    CHECK(len == 0 && said == 0);
    for (size_t i = 0; i < sizeof table; i++) CHECK(table[i] == 7);
    for (size_t i = 0; i < FORTHWN_ORIGINS_LEN; i++) CHECK(origins[i] == 0x0707);
    for (size_t i = 0; i < FORTHWN_STATES_LEN; i++) CHECK(states[i] == 0x07070707);
    for (size_t i = 0; i < FORTHWN_PATH_LEN; i++) CHECK(arcs[i] == 0x0707 && labels[i] == 0x0707);
    for (size_t i = 0; i < sizeof text; i++) CHECK(text[i] == 7);
}

enum { ROOM = 1 << 21, PAINT = 0xa5 };

static uint32_t ignored[2];
static forthwn_head some_head;
static forthwn_path some_path;

/* The calls by number; 0 calls nothing. */
static void *one_call(void *number) {
    switch (*(const int *)number) {
    case 1: forthwn_refusal(left, left_len); break;
    case 2: forthwn_read(left, left_len, final_states, FORTHWN_FINALS_LEN, final_weights, FORTHWN_FINALS_LEN,
                         fields, FORTHWN_FIELDS_LEN, arc_weights, FORTHWN_WEIGHTS_LEN, &some_head); break;
    case 3: forthwn_write(some_head.states, some_head.arcs, some_head.finals, some_head.start, final_states, FORTHWN_FINALS_LEN,
                          final_weights, FORTHWN_FINALS_LEN, fields, FORTHWN_FIELDS_LEN, arc_weights, FORTHWN_WEIGHTS_LEN,
                          table, FORTHWN_TABLE_LEN, ignored); break;
    case 4: forthwn_compose(left, left_len, right, right_len, table, FORTHWN_TABLE_LEN, origins, FORTHWN_ORIGINS_LEN,
                            states, FORTHWN_STATES_LEN, ignored); break;
    case 5: forthwn_apply(string, 2, left, left_len, lattice, FORTHWN_TABLE_LEN, lattice_origins, FORTHWN_LATTICE_ORIGINS_LEN,
                          states, FORTHWN_STATES_LEN, ignored); break;
    case 6: forthwn_trim(left, left_len, table, FORTHWN_TABLE_LEN, origins, FORTHWN_ORIGINS_LEN, ignored); break;
    case 7: forthwn_count(left, left_len, ignored); break;
    case 8: forthwn_nth(left, left_len, 0, arcs, FORTHWN_PATH_LEN, labels, FORTHWN_PATH_LEN, &some_path); break;
    case 9: forthwn_shortest(left, left_len, arcs, FORTHWN_PATH_LEN, labels, FORTHWN_PATH_LEN, &some_path); break;
    case 10: forthwn_readings(left, left_len, right, right_len, string, 2, ignored); break;
    case 11: forthwn_list(left, left_len, right, right_len, code, code_len, text, FORTHWN_TEXT_LEN, ignored, ignored + 1); break;
    case 12: forthwn_distance(left, left_len, cells, FORTHWN_CELLS_LEN); break;
    case 13: forthwn_cascade(left, left_len, right, right_len, string, 2, table, FORTHWN_TABLE_LEN, origins, FORTHWN_ORIGINS_LEN,
                             states, FORTHWN_STATES_LEN, ignored); break;
    case 14: forthwn_cascade_readings(left, left_len, right, right_len, string, 2, ignored); break;
    case 15: forthwn_cascade_list(left, left_len, right, right_len, code, code_len, text, FORTHWN_TEXT_LEN, ignored, ignored + 1); break;
    default: break;
    }
    return NULL;
}

/* Bytes of a painted stack that are no longer as painted after a thread made one call. */
static size_t stack_taken(int number) {
    void *room = NULL;
    pthread_attr_t attributes;
    pthread_t thread;
    CHECK(posix_memalign(&room, 4096, ROOM) == 0);
    memset(room, PAINT, ROOM);
    CHECK(pthread_attr_init(&attributes) == 0 && pthread_attr_setstack(&attributes, room, ROOM) == 0);
    CHECK(pthread_create(&thread, &attributes, one_call, &number) == 0 && pthread_join(thread, NULL) == 0);
    const uint8_t *bytes = (const uint8_t *)room;
    size_t free_bytes = 0;
    while (free_bytes < ROOM && bytes[free_bytes] == PAINT) free_bytes++;
    free(room);
    pthread_attr_destroy(&attributes);
    return ROOM - free_bytes;
}

static void stacks(void) {
    static const char *const names[] = {"", "refusal", "read", "write", "compose", "apply", "trim", "count", "nth", "shortest", "readings", "list",
                                        "distance", "cascade", "cascade_readings", "cascade_list"};
    size_t nothing = stack_taken(0);
    for (int i = 1; i <= 15; i++) {
        size_t taken = stack_taken(i) - nothing;
        printf("%s %lu\n", names[i], (unsigned long)taken);
        CHECK(taken <= FORTHWN_STACK);
    }
}

int main(int argc, char **argv) {
    CHECK(argc > 1);
    left_len = load(argv[1], "left.tab", left, sizeof left);
    right_len = load(argv[1], "right.tab", right, sizeof right);
    code_len = load(argv[1], "code.lab", code, sizeof code);
    if (argc > 2 && strcmp(argv[2], "stack") == 0) {
        stacks();
        return 0;
    }
    names_and_words();
    read_and_written(left, left_len);
    read_and_written(right, right_len);
    chain();
    cascade();
    signs();
    costs_to_come();
    null_of_length_0();
    one_cell_short();
    return 0;
}
