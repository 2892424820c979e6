/*
 * Provokes what each macro of the header names and compares it with the number that document 01 has for it, which is
 * written out here once more: a number that is changed in the header alone is found. One refusal can't be provoked any
 * more; its number alone is compared. What reads the outgoing edges of a record is tried on numbers of one half and of
 * two, and on records that a page wrote; what reads a bit of the packed table, on rows of three numbers. The one
 * argument is the number that the program `isolated` told of a text that is too long. Ends with status 1 at the first
 * difference.
 */
#include "isolated.h"

#include <stdio.h>
#include <stdlib.h>
#include <string.h>

enum { MOST = 1024, OVER = MOST + 1, CLAW = 4 };

static uint8_t byte_table[OVER * OVER], bytes[OVER];
static uint64_t table[OVER * 17];
static uint16_t degrees[OVER], output[MOST + 3], work[16 * OVER];

/* What a call told and the macro are both the number; or the macro is, whose effect is tried beside it. */
#define SAME(told, macro, number) same(#macro, told, macro, number)
#define IS(macro, number) same(#macro, macro, macro, number)

static void same(const char *name, size_t told, size_t macro, size_t number) {
    if (told == number && macro == number) return;
    printf("%s: told %zu, in the header %zu, to be %zu\n", name, told, macro, number);
    exit(1);
}

static void hold(const char *what, int holds) {
    if (holds) return;
    printf("not so: %s\n", what);
    exit(1);
}

/* What the calls that take a graph are given; `bytes` is the position or the set, u and v are the ends of an edit. */
typedef struct call {
    size_t n, table_length, degrees_length, bytes_length, output_length, work_length;
    uint32_t notion, kind, c, budget;
    size_t u, v;
} call;

/* The bit of v in the row of u, by its number and its weight. */
static uint64_t *number_of(size_t n, size_t u, size_t v) { return &table[u * ((n + 63) / 64) + v / 64]; }
static uint64_t weight_of(size_t v) { return (uint64_t)1 << (v % 64); }

static int has(size_t n, size_t u, size_t v) { return (*number_of(n, u, v) & weight_of(v)) != 0; }
static void set(size_t n, size_t u, size_t v) { *number_of(n, u, v) |= weight_of(v); }

static void put(size_t n, size_t u, size_t v) {
    set(n, u, v);
    set(n, v, u);
    degrees[u]++, degrees[v]++;
}

/* A call that is accepted, on n vertices with no edge and nothing decided or in the set. */
static call on_vertices(size_t n) {
    call it = {n, n * ((n + 63) / 64), n, n, n + 3, 8 * n, 0, 0, 1, 0, 0, 1};
    memset(table, 0, sizeof table);
    memset(degrees, 0, sizeof degrees);
    memset(bytes, 0, sizeof bytes);
    return it;
}

/* The same on the claw: vertex 0 is joined to 1, 2 and 3. */
static call on_claw(void) {
    call it = on_vertices(CLAW);
    put(CLAW, 0, 1);
    put(CLAW, 0, 2);
    put(CLAW, 0, 3);
    return it;
}

static isolated_page_answer page(call it) {
    return isolated_page(table, it.table_length, degrees, it.degrees_length, bytes, it.bytes_length, output,
                         it.output_length, work, it.work_length, it.n, it.notion, it.kind, it.c, it.budget);
}

static isolated_set_answer query(call it) {
    return isolated_set_query(table, it.table_length, degrees, it.degrees_length, bytes, it.bytes_length, work,
                              it.work_length, it.n, it.notion, it.kind, it.c);
}

static isolated_edit_answer join(call it) {
    return isolated_join(table, it.table_length, degrees, it.degrees_length, it.n, it.u, it.v);
}

static isolated_edit_answer part(call it) {
    return isolated_part(table, it.table_length, degrees, it.degrees_length, it.n, it.u, it.v);
}

static uint32_t count(call it) { return isolated_degrees(table, it.table_length, degrees, it.degrees_length, it.n); }

static isolated_text_answer read_text(const char *text, size_t table_length) {
    return isolated_read_text((const uint8_t *)text, strlen(text), byte_table, table_length);
}

/* The byte table into the packed one, each with a length of its own. */
static uint32_t pack(size_t bytes_length, size_t packed_length, size_t n) {
    return isolated_pack(byte_table, bytes_length, table, packed_length, n);
}

/* What page and set query refuse alike. */
#define BOTH_REFUSE(it, macro, number)                                                                                 \
    do {                                                                                                               \
        SAME(page(it).refusal, macro, number);                                                                         \
        SAME(query(it).refusal, macro, number);                                                                        \
    } while (0)

/* What both edits refuse alike, and what all calls refuse that take a graph. */
#define EDITS_REFUSE(it, macro, number)                                                                                \
    do {                                                                                                               \
        SAME(join(it).refusal, macro, number);                                                                         \
        SAME(part(it).refusal, macro, number);                                                                         \
    } while (0)
#define ALL_REFUSE(it, macro, number)                                                                                  \
    do {                                                                                                               \
        BOTH_REFUSE(it, macro, number);                                                                                \
        EDITS_REFUSE(it, macro, number);                                                                               \
        SAME(count(it), macro, number);                                                                                \
    } while (0)

static void refusals_of_the_graph(void) {
    call it = on_claw();
    ALL_REFUSE(it, ISOLATED_REFUSED_NOT, 0);
    it = on_claw(), it.n = OVER, it.table_length = OVER * 17;
    ALL_REFUSE(it, ISOLATED_REFUSED_VERTICES, 1);
    it = on_claw(), it.table_length--;
    ALL_REFUSE(it, ISOLATED_REFUSED_TABLE_LENGTH, 2);
    it = on_claw(), set(CLAW, 2, CLAW);
    ALL_REFUSE(it, ISOLATED_REFUSED_STRAY_BIT, 45);
    it = on_claw(), set(CLAW, 3, 63);
    ALL_REFUSE(it, ISOLATED_REFUSED_STRAY_BIT, 45);
    it = on_claw(), set(CLAW, 0, 0);
    ALL_REFUSE(it, ISOLATED_REFUSED_DIAGONAL, 4);
    it = on_claw(), set(CLAW, 1, 2);
    ALL_REFUSE(it, ISOLATED_REFUSED_SYMMETRY, 5);
    it = on_claw(), it.degrees_length--;
    ALL_REFUSE(it, ISOLATED_REFUSED_DEGREES, 42);
    it = on_claw(), it.degrees_length++;
    ALL_REFUSE(it, ISOLATED_REFUSED_DEGREES, 42);
    it = on_claw(), degrees[3]++;
    BOTH_REFUSE(it, ISOLATED_REFUSED_DEGREES, 42);
    EDITS_REFUSE(it, ISOLATED_REFUSED_DEGREES, 42);
    SAME(count(it), ISOLATED_REFUSED_NOT, 0); /* it writes the right one */
    BOTH_REFUSE(it, ISOLATED_REFUSED_NOT, 0);
}

/* A byte table of three vertices, 0 and 2 joined: its faults, and then what it is packed into. */
static void refusals_of_a_packing(void) {
    static const uint8_t pair[] = {0, 0, 1, 0, 0, 0, 1, 0, 0};
    memset(table, 9, sizeof table);
    SAME(pack(OVER * OVER, OVER * 17, OVER), ISOLATED_REFUSED_VERTICES, 1);
    SAME(pack(8, 3, 3), ISOLATED_REFUSED_TABLE_LENGTH, 2);
    SAME(pack(9, 4, 3), ISOLATED_REFUSED_TABLE_LENGTH, 2);
    memcpy(byte_table, pair, sizeof pair), byte_table[2] = 2;
    SAME(pack(9, 3, 3), ISOLATED_REFUSED_TABLE_BYTE, 3);
    memcpy(byte_table, pair, sizeof pair), byte_table[4] = 1;
    SAME(pack(9, 3, 3), ISOLATED_REFUSED_DIAGONAL, 4);
    memcpy(byte_table, pair, sizeof pair), byte_table[6] = 0;
    SAME(pack(9, 3, 3), ISOLATED_REFUSED_SYMMETRY, 5);
    hold("a refused packing writes nothing", table[0] == table[4] && table[1] == table[4] && table[2] == table[4]);
    memcpy(byte_table, pair, sizeof pair);
    SAME(pack(9, 3, 3), ISOLATED_REFUSED_NOT, 0);
    hold("0 and 2 are joined", table[0] == 4 && table[1] == 0 && table[2] == 1);
}

static void refusals_of_an_edit(void) {
    call it = on_claw();
    it.v = CLAW;
    EDITS_REFUSE(it, ISOLATED_REFUSED_NO_VERTEX, 43);
    it = on_claw(), it.u = it.v = CLAW;
    EDITS_REFUSE(it, ISOLATED_REFUSED_NO_VERTEX, 43);
    it = on_claw(), it.u = it.v = 3;
    EDITS_REFUSE(it, ISOLATED_REFUSED_EQUAL_ENDS, 44);
}

/* The claw without its first edge, joined again, then once more; and parted, then once more. */
static void edits(void) {
    call it = on_claw();
    isolated_edit_answer answer = part(it);
    hold("a pair is parted", answer.refusal == 0 && answer.unchanged == 0 && table[0] == 12 && table[1] == 0);
    hold("its degrees follow", degrees[0] == 2 && degrees[1] == 0 && degrees[2] == 1 && degrees[3] == 1);
    answer = part(it);
    hold("nothing is left to part", answer.refusal == 0 && answer.unchanged == 1 && degrees[0] == 2);
    answer = join(it);
    hold("a pair is joined", answer.refusal == 0 && answer.unchanged == 0 && table[0] == 14 && table[1] == 1);
    answer = join(it);
    hold("nothing is left to join", answer.refusal == 0 && answer.unchanged == 1 && degrees[0] == 3);
}

static void refusals_of_the_input(void) {
    call it = on_claw();
    it.notion = 3;
    BOTH_REFUSE(it, ISOLATED_REFUSED_NOTION, 6);
    it = on_claw(), it.kind = 2;
    BOTH_REFUSE(it, ISOLATED_REFUSED_KIND, 7);
    it = on_claw(), it.c = 0;
    BOTH_REFUSE(it, ISOLATED_REFUSED_FACTOR, 8);
    it = on_claw(), it.bytes_length--;
    BOTH_REFUSE(it, ISOLATED_REFUSED_LENGTH, 9);
    it = on_claw(), it.work_length--;
    BOTH_REFUSE(it, ISOLATED_REFUSED_WORK, 10);
    it = on_claw(), bytes[0] = 2;
    SAME(query(it).refusal, ISOLATED_REFUSED_SET_BYTE, 11);
}

static void refusals_of_the_position(void) {
    call it = on_claw();
    bytes[0] = 3;
    SAME(page(it).refusal, ISOLATED_REFUSED_POSITION_BYTE, 21);
    it = on_claw(), bytes[1] = 1;
    SAME(page(it).refusal, ISOLATED_REFUSED_POSITION_ORDER, 22);
    it = on_claw(), bytes[0] = bytes[1] = bytes[2] = 1; /* two leaves are not joined */
    SAME(page(it).refusal, ISOLATED_REFUSED_POSITION_DEAD, 23);
}

static void refusals_of_the_text(void) {
    SAME(read_text("p edge 2 1\ne 1 2\n", 4).refusal, ISOLATED_REFUSED_NOT, 0);
    SAME(read_text("a\n", 4).refusal, ISOLATED_REFUSED_LINE_START, 31);
    SAME(read_text("p edge 2\n", 4).refusal, ISOLATED_REFUSED_FORM, 32);
    SAME(read_text("e 1 2\n", 4).refusal, ISOLATED_REFUSED_NO_P_LINE, 33);
    SAME(read_text("p edge 2 0\np edge 2 0\n", 4).refusal, ISOLATED_REFUSED_SECOND_P_LINE, 34);
    SAME(read_text("p edge 1025 0\n", sizeof byte_table).refusal, ISOLATED_REFUSED_TEXT_VERTICES, 35);
    SAME(read_text("p edge 2 1\ne 1 3\n", 4).refusal, ISOLATED_REFUSED_RANGE, 36);
    SAME(read_text("p edge 2 1\ne 1 1\n", 4).refusal, ISOLATED_REFUSED_SAME_VERTEX, 37);
    SAME(read_text("p edge 2 2\ne 1 2\n", 4).refusal, ISOLATED_REFUSED_EDGE_COUNT, 39);
    SAME(read_text("p edge 2 0\n", 3).refusal, ISOLATED_REFUSED_TABLE_SHORT, 40);
}

/* No text gets 38 any more. Its name keeps its number, and the text that got it is read: two e lines, one edge. */
static void repeated_pair(void) {
    static const uint8_t one_edge[] = {0, 1, 1, 0};
    isolated_text_answer answer;
    IS(ISOLATED_REFUSED_REPEATED_PAIR, 38);
    memset(byte_table, 9, sizeof one_edge);
    answer = read_text("p edge 2 2\ne 1 2\ne 2 1\n", sizeof one_edge);
    SAME(answer.refusal, ISOLATED_REFUSED_NOT, 0);
    hold("N is 2 and M is 2", answer.vertices == 2 && answer.edges == 2 && answer.line == 0);
    hold("the byte table has one edge", memcmp(byte_table, one_edge, sizeof one_edge) == 0);
    SAME(read_text("p edge 2 1\ne 1 2\ne 2 1\n", 4).refusal, ISOLATED_REFUSED_EDGE_COUNT, 39);
}

/* Each bound is accepted and one past it is refused. */
static void bounds(void) {
    call it = on_vertices(MOST);
    it.n = ISOLATED_VERTICES;
    BOTH_REFUSE(it, ISOLATED_REFUSED_NOT, 0);
    it.n = ISOLATED_VERTICES + 1;
    BOTH_REFUSE(it, ISOLATED_REFUSED_VERTICES, 1);
    IS(ISOLATED_VERTICES, 1024);

    it = on_claw(), it.c = ISOLATED_FACTOR;
    BOTH_REFUSE(it, ISOLATED_REFUSED_NOT, 0);
    it.c = ISOLATED_FACTOR + 1;
    BOTH_REFUSE(it, ISOLATED_REFUSED_FACTOR, 8);
    IS(ISOLATED_FACTOR, 1024);

    it = on_claw(), it.work_length = ISOLATED_WORK(CLAW);
    BOTH_REFUSE(it, ISOLATED_REFUSED_NOT, 0);
    it.work_length = ISOLATED_WORK(CLAW) - 1;
    BOTH_REFUSE(it, ISOLATED_REFUSED_WORK, 10);
    it = on_vertices(MOST), it.work_length = ISOLATED_WORK(MOST);
    BOTH_REFUSE(it, ISOLATED_REFUSED_NOT, 0);
    it.work_length = ISOLATED_WORK(MOST) - 1;
    BOTH_REFUSE(it, ISOLATED_REFUSED_WORK, 10);
    IS(ISOLATED_WORK(MOST), 8192);
}

/* A table of so many numbers is accepted, and one that has one more or less is not. */
static void table_lengths(void) {
    static const size_t vertices[] = {0, 1, 63, 64, 65, 128, 129, MOST};
    static const size_t rows[] = {0, 1, 1, 1, 2, 2, 3, 16};
    for (size_t i = 0; i < sizeof vertices / sizeof *vertices; i++) {
        size_t n = vertices[i], row = ISOLATED_ROW(n), length = ISOLATED_TABLE(n);
        call it = on_vertices(n);
        same("ISOLATED_ROW", row, row, rows[i]);
        same("ISOLATED_TABLE", length, length, n * rows[i]);
        it.table_length = ISOLATED_TABLE(n);
        BOTH_REFUSE(it, ISOLATED_REFUSED_NOT, 0);
        it.table_length = ISOLATED_TABLE(n) + 1;
        BOTH_REFUSE(it, ISOLATED_REFUSED_TABLE_LENGTH, 2);
        it.table_length = ISOLATED_TABLE(n) - 1;
        if (n > 0) BOTH_REFUSE(it, ISOLATED_REFUSED_TABLE_LENGTH, 2);
    }
}

/* Whether the packed table of n vertices is that of the byte table: as the header reads it, and number by number. */
static int is_packed(size_t n) {
    for (size_t at = 0; at < n * n; at++) {
        size_t u = at / n, v = at % n;
        if (isolated_is_joined(table, n, u, v) != byte_table[at] || has(n, u, v) != byte_table[at]) return 0;
    }
    return 1;
}

/* The bits that are read are those that edits and a packing set, in each number of a row. */
static void bits_of_a_row(void) {
    enum { N = 130 };
    static const size_t ends[][2] = {{0, 63}, {1, 64}, {62, 129}, {63, 65}, {127, 128}};
    call it = on_vertices(N);
    memset(byte_table, 0, sizeof byte_table);
    for (size_t i = 0; i < sizeof ends / sizeof *ends; i++) {
        it.u = ends[i][0], it.v = ends[i][1];
        hold("a pair of a longer row is joined", join(it).refusal == 0);
        byte_table[it.u * N + it.v] = byte_table[it.v * N + it.u] = 1;
    }
    hold("the pairs that were joined are read", is_packed(N));
    memset(table, 9, sizeof table);
    SAME(pack((size_t)N * N, ISOLATED_TABLE(N), N), ISOLATED_REFUSED_NOT, 0);
    hold("the pairs that were packed are read", is_packed(N));
    IS(ISOLATED_BIT(0), 1);
    IS(ISOLATED_BIT(63), (uint64_t)1 << 63);
    IS(ISOLATED_BIT(64), 1);
    IS(ISOLATED_BIT(130), 4);
}

/* Entries that no record of these tests has, and whether the output still has them from entry `used` on. */
static void mark_output(void) {
    for (size_t i = 0; i < sizeof output / sizeof *output; i++) output[i] = (uint16_t)(40000 + i);
}

static int is_marked_from(size_t used) {
    for (size_t i = used; i < sizeof output / sizeof *output; i++) {
        if (output[i] != 40000 + i) return 0;
    }
    return 1;
}

/* An output for a group of two holds the first pair of the claw, and one that is an entry shorter does not. What is
   not used stays as it was. A page that is lent less than was wanted makes no step; one that is lent as much moves
   on. */
static void record_lengths(void) {
    call it = on_claw();
    isolated_page_answer answer;
    it.budget = 1000, it.output_length = ISOLATED_RECORD(2) - 1;
    mark_output();
    answer = page(it);
    hold("a pair wants 5 entries", answer.stop == 3 && answer.groups == 0 && answer.wanted == 5);
    hold("where nothing fits, nothing is written", answer.used == 0 && is_marked_from(0));
    answer = page(it);
    hold("with 4 entries it goes no further", answer.stop == 3 && answer.steps == 0 && answer.wanted == 5);
    it.output_length = answer.wanted;
    answer = page(it);
    hold("with the wanted entries it does", answer.stop == 3 && answer.steps > 0 && answer.groups == 1);
    it = on_claw(), it.budget = 1000, it.output_length = ISOLATED_RECORD(2);
    mark_output();
    answer = page(it);
    hold("a pair fits into 5 entries", answer.stop == 3 && answer.groups == 1 && answer.used == 5);
    hold("nothing is written past them", is_marked_from(5));
    it = on_claw(), it.budget = 1000, it.output_length = 2 * ISOLATED_RECORD(2) - 1;
    mark_output();
    answer = page(it);
    hold("two pairs do not fit into 9 entries", answer.stop == 3 && answer.groups == 1 && answer.used == 5);
    hold("the 4 that are not used stay as they were", is_marked_from(5));
    IS(ISOLATED_RECORD(2), 5);
    IS(ISOLATED_RECORD(MOST), 1027);
}

/* The two halves of a number are read, and nothing beside them. */
static void outgoing_edges(void) {
    static const struct {
        uint16_t record[4];
        uint32_t edges;
    } cases[] = {
        {{9, 0, 0, 9}, 0},           {{9, 0, 65535, 9}, 65535},   {{9, 1, 0, 9}, 65536},
        {{9, 1, 65535, 9}, 131071},  {{9, 2, 769, 9}, 131841},    {{9, 3, 65024, 9}, 261632},
        {{9, 4, 0, 9}, 262144},      {{9, 65535, 65535, 9}, 0xffffffff},
    };
    for (size_t i = 0; i < sizeof cases / sizeof *cases; i++) {
        same("isolated_outgoing_edges", isolated_outgoing_edges(cases[i].record), cases[i].edges, cases[i].edges);
    }
}

/* Vertices 0 to 255, pairwise joined, and 257 further ones that are joined to all of these and not to one another. A
   group is the former and one of the latter, and 256 edges lead from each of the former to the others of the latter:
   65,536, which the lower half alone doesn't hold. They are counted in the table too. */
static void many_outgoing_edges(void) {
    enum { JOINED = 256, FURTHER = 257, ALL = JOINED + FURTHER, RECORD = JOINED + 1 + 3 };
    call it = on_vertices(ALL);
    isolated_page_answer answer;
    for (size_t u = 0; u < JOINED; u++) {
        for (size_t v = u + 1; v < ALL; v++) put(ALL, u, v);
    }
    it.budget = 10000, it.output_length = 2 * RECORD;
    answer = page(it);
    hold("two groups are written", answer.refusal == 0 && answer.groups == 2 && answer.used == 2 * RECORD);
    for (const uint16_t *record = output; record < output + answer.used; record += ISOLATED_RECORD(record[0])) {
        uint8_t inside[ALL] = {0};
        uint32_t edges = 0;
        hold("a group has 257 vertices", record[0] == JOINED + 1);
        for (size_t i = 0; i < record[0]; i++) inside[record[3 + i]] = 1;
        for (size_t at = 0; at < (size_t)ALL * ALL; at++) {
            edges += inside[at / ALL] && !inside[at % ALL] && has(ALL, at / ALL, at % ALL);
        }
        same("the outgoing edges of a group", isolated_outgoing_edges(record), edges, 65536);
    }
}

/* Whether the claw's whole list is these entries. */
static int lists(uint32_t notion, uint32_t kind, uint32_t c, const uint16_t *entries, size_t length) {
    call it = on_claw();
    isolated_page_answer answer;
    it.notion = notion, it.kind = kind, it.c = c, it.budget = 1000, it.output_length = OVER;
    answer = page(it);
    return answer.refusal == 0 && answer.stop == 1 && answer.used == length &&
           memcmp(output, entries, length * sizeof *entries) == 0;
}

/* The claw has another list under each notion, and under each kind: K5 to K8 of document 01, with the records of
   document 02, C-14. */
static void notions_and_kinds(void) {
    static const uint16_t leaves[] = {1, 0, 1, 1, 1, 0, 1, 2, 1, 0, 1, 3};
    static const uint16_t pairs[] = {2, 0, 2, 1, 0, 2, 0, 2, 2, 0, 2, 0, 2, 3, 0};
    hold("min lists the pairs at factor 1", lists(ISOLATED_MIN, ISOLATED_MAXIMAL_ISOLATED, 1, pairs, 15));
    hold("avg lists nothing at factor 1", lists(ISOLATED_AVG, ISOLATED_MAXIMAL_ISOLATED, 1, pairs, 0));
    hold("avg lists the pairs at factor 2", lists(ISOLATED_AVG, ISOLATED_MAXIMAL_ISOLATED, 2, pairs, 15));
    hold("max lists the leaves at factor 2", lists(ISOLATED_MAX, ISOLATED_MAXIMAL_ISOLATED, 2, leaves, 12));
    hold("max lists no leaf as isolated maximal", lists(ISOLATED_MAX, ISOLATED_ISOLATED_MAXIMAL, 2, leaves, 0));
    IS(ISOLATED_MIN, 0);
    IS(ISOLATED_AVG, 1);
    IS(ISOLATED_MAX, 2);
    IS(ISOLATED_MAXIMAL_ISOLATED, 0);
    IS(ISOLATED_ISOLATED_MAXIMAL, 1);
}

/* The stops, and the bytes of a position: K5 of document 01, and K9 as document 02, C-14, has it. */
static void stops_and_positions(void) {
    call it = on_claw();
    isolated_page_answer answer;
    it.notion = 2, it.c = 2, it.output_length = 3;
    memset(bytes, ISOLATED_OPEN, CLAW);
    it.budget = 1;
    SAME(page(it).stop, ISOLATED_STOP_SPENT, 2);
    SAME(bytes[0], ISOLATED_TAKEN, 1);
    SAME(bytes[1], ISOLATED_OPEN, 0);
    it.budget = 7;
    answer = page(it);
    SAME(answer.stop, ISOLATED_STOP_FULL, 3);
    hold("6 steps, and 4 entries are wanted", answer.steps == 6 && answer.wanted == 4);
    SAME(bytes[0], ISOLATED_TAKEN, 1);
    SAME(bytes[1], ISOLATED_LEFT, 2);
    it.output_length = OVER, it.budget = 1000;
    answer = page(it);
    SAME(answer.stop, ISOLATED_STOP_FINISHED, 1);
    hold("3 groups in the 13 steps that are left", answer.groups == 3 && answer.steps == 13);
    SAME(bytes[0], ISOLATED_LEFT, 2);
    it.c = 0;
    SAME(page(it).stop, ISOLATED_STOP_REFUSED, 0);
}

/* The text of the version is made of its numbers. */
static void version(void) {
    char text[32];
    snprintf(text, sizeof text, "%d.%d.%d", ISOLATED_VERSION_MAJOR, ISOLATED_VERSION_MINOR, ISOLATED_VERSION_PATCH);
    hold("the version's text and its numbers are the same", strcmp(text, ISOLATED_VERSION) == 0);
}

int main(int count, char **words) {
    refusals_of_the_graph();
    refusals_of_a_packing();
    refusals_of_an_edit();
    edits();
    refusals_of_the_input();
    refusals_of_the_position();
    refusals_of_the_text();
    repeated_pair();
    bounds();
    table_lengths();
    bits_of_a_row();
    record_lengths();
    outgoing_edges();
    many_outgoing_edges();
    notions_and_kinds();
    stops_and_positions();
    version();
    IS(ISOLATED_STACK, 196608); /* tried in stack.c */
    hold("the program's number is the one argument", count == 2);
    SAME(strtoul(words[1], NULL, 10), ISOLATED_REFUSED_TEXT_LENGTH, 41);
    return 0;
}
