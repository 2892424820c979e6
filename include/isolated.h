/*
 * isolated.h: the isolated cliques of a graph.
 *
 * Seven calls. isolated_page() walks a graph and lists its groups, as many at a time as the caller likes;
 * isolated_set_query() says whether one set is such a group; isolated_join() and isolated_part() change one pair of
 * the graph; isolated_degrees() counts its degrees; isolated_read_text() reads a graph in the DIMACS edge layout into
 * a byte table; isolated_pack() packs that into the table which the five others take. No call allocates, keeps
 * anything between two calls or touches memory other than what it is lent. Every reply, and the contents of all lent
 * memory after the call, follow from the arguments alone; the one exception is the contents of an accepted work slice,
 * which are left open.
 *
 * Linking (x86-64)
 *   After `./install PREFIX`, and with PREFIX/lib/pkgconfig in PKG_CONFIG_PATH where it is not looked up anyway:
 *     cc program.c $(pkg-config --cflags --libs isolated)
 *   At the top of the repository, after `tools/library`, which proves and builds the archive:
 *     cc -Iinclude program.c target/lib/libisolated.a
 *   The archive asks for memcpy() and memset() and for nothing else from outside; that is tested of this archive.
 *
 * How memory is lent
 *   A slice is passed as a pointer and then its length in ELEMENTS (not bytes). Entries of degrees, output and work
 *   are 16-bit numbers, those of a packed table 64-bit numbers, and their pointers must be aligned for uint16_t and
 *   uint64_t. With length 0 the pointer may be null, as the data() of an empty C++ vector is: no call looks at the
 *   pointer of an empty slice, or through it. That is tested of this archive, for each slice of each call, and not
 *   proved. With any other length the pointer must lead to that many elements, also where the call is refused. Memory
 *   that a call may write must not overlap any other memory lent to the same call.
 *
 * The graph
 *   n vertices, 0 to n - 1, n at most 1,024. The table is packed: of each vertex a row, and each row ISOLATED_ROW(n)
 *   numbers of 64 bits, which are n / 64 rounded up; ISOLATED_TABLE(n) numbers in all, row by row. In the row of u, bit
 *   v % 64 of number v / 64 is 1 where u and v are joined, else 0. So the number is table[u * ISOLATED_ROW(n) + v / 64]
 *   and the weight of the bit in it, 2 to the power v % 64, is ISOLATED_BIT(v); isolated_is_joined() reads it. Bits of
 *   a row that are no vertex's, at or past n, are 0. The table is symmetric with a diagonal of zeros. The degree of a
 *   vertex is the ones in its row, and the list of degrees has n entries, one a vertex. It is lent beside the table,
 *   and a call that takes both turns back a list that is not this table's. Rank 0 is the vertex of least degree; equal
 *   degrees go by smaller vertex number.
 *   The byte table of a graph has n * n bytes, row by row: byte u * n + v is 1 where u and v are joined, else 0. Only
 *   isolated_read_text() and isolated_pack() know it.
 *
 * A graph that changes
 *   A program that keeps a graph up to date has a table and a list, and goes about it like this:
 *     1. It fills the table: with zeros, which are n vertices without an edge, or from a text, by isolated_read_text()
 *        and then isolated_pack(). The byte table that was lent larger to the first is lent with length exactly n * n
 *        to the second, and needed no more after it.
 *     2. It fills the list by one isolated_degrees().
 *     3. As shared chunks come and go it calls isolated_join() and isolated_part(). Each writes the pair in both rows
 *        and its two degrees, and nothing else, so that steps 3 and 4 follow one another all day in any order.
 *     4. It lists by isolated_page() from a fresh position, n zeros, or asks by isolated_set_query().
 *   In C, where 7 and 9 now share chunks and 7 and 8 no longer do:
 *     isolated_pack(bytes, n * n, table, ISOLATED_TABLE(n), n);
 *     isolated_degrees(table, ISOLATED_TABLE(n), degrees, n, n);
 *     isolated_join(table, ISOLATED_TABLE(n), degrees, n, n, 7, 9);
 *     isolated_part(table, ISOLATED_TABLE(n), degrees, n, n, 7, 8);
 *     memset(position, 0, n);
 *     do {
 *         page = isolated_page(table, ISOLATED_TABLE(n), degrees, n, position, n, output, ISOLATED_RECORD(n), work,
 *                              ISOLATED_WORK(n), n, ISOLATED_MAX, ISOLATED_MAXIMAL_ISOLATED, 2, 1000000);
 *         for (const uint16_t *record = output; record < output + page.used; record += ISOLATED_RECORD(record[0])) {
 *             // record[0] vertices, from record[3] on; isolated_outgoing_edges(record) of their edges lead outside
 *         }
 *     } while (page.refusal == 0 && page.stop != ISOLATED_STOP_FINISHED);
 *   The first four tell a refusal too, which this leaves out. A page moves on by ranks, and an edit changes degrees
 *   and so ranks: a walk that was begun before an edit starts again from a fresh position. A stale position goes
 *   unnoticed: one from before an edit is mostly accepted, and the list is then wrong; no call notices it. Only where
 *   the edits between two pages have all been undone, so that the table is again as it was, may the walk go on.
 *   Each edit tests the whole table. To make many changes at once, write them into the table, each pair in both rows,
 *   and count once by isolated_degrees():
 *     table[7 * ISOLATED_ROW(n) + 9 / 64] |= ISOLATED_BIT(9), table[9 * ISOLATED_ROW(n) + 7 / 64] |= ISOLATED_BIT(7);
 *     table[7 * ISOLATED_ROW(n) + 8 / 64] &= ~ISOLATED_BIT(8), table[8 * ISOLATED_ROW(n) + 7 / 64] &= ~ISOLATED_BIT(7);
 *   Who writes the table must count again in any case, since a list that is not the table's is refused (42).
 *   The number of vertices stays. One that leaves is parted from all its neighbours; it is then listed by itself, as
 *   every vertex without neighbours is.
 *
 * The groups
 *   A clique is a non-empty set of pairwise joined vertices. A member's outside count is the number of its
 *   neighbours that are not in the set; the outside counts of all members add up to the number of outgoing edges, those
 *   between a member and a vertex outside. A clique of k members is isolated with factor c when
 *     ISOLATED_MIN  some member has outside count less than c,
 *     ISOLATED_AVG  the outside counts sum to less than c * k,
 *     ISOLATED_MAX  every member has outside count less than c.
 *   It is a group when moreover
 *     ISOLATED_MAXIMAL_ISOLATED  no larger set that contains it is an isolated clique,
 *     ISOLATED_ISOLATED_MAXIMAL  no larger set that contains it is a clique.
 *
 * Threads
 *   The library has no variables of its own and takes no lock. Calls may run at once in any number of threads, as
 *   long as memory that one of them may write is neither lent to another nor touched by anybody meanwhile. What
 *   calls only read may be lent to several at once while nobody writes it: one table with its list of degrees serves
 *   many walks, each with a position, output and work of its own. The pages of one walk follow one another, in
 *   whichever threads. An edit writes the table and the list, so nothing else may run on them meanwhile.
 *
 * Time
 *   Each call that takes a graph tests the whole table again, and but for isolated_degrees(), which counts them, the
 *   degrees against it: time in proportion to the numbers of the table, whatever its edges and the budget. For an edit
 *   that is nearly all. For a page on a graph of 1,024 vertices it is as long as some 15,000 steps, so with smaller
 *   budgets most of the time goes into these tests.
 *   A step takes time in proportion to n at most, and how many steps a walk has follows from the graph and c alone.
 *   Where all ranks are decided the taken set is tested before the step. Under ISOLATED_AVG and ISOLATED_MAX with
 *   ISOLATED_MAXIMAL_ISOLATED that test may search the common neighbours of an isolated clique, of which there are
 *   fewer than c; its time is exponential in their number in the worst case. Any other test of a taken set takes
 *   time in proportion to n * c at most. So a budget bounds the time of a page but for these searches.
 *   isolated_set_query() has no budget and makes at most one such search. isolated_read_text() takes time in
 *   proportion to the text's length and N * N, and isolated_pack() in proportion to n * n.
 *
 * Stack
 *   No call uses more than ISOLATED_STACK bytes of stack, whatever its arguments. Most is used by the search above,
 *   which calls itself for each vertex that it adds: at most min(c, n - c) - 1 at a time, and so at most 511. That is
 *   tested of this archive, in a thread of that size and PTHREAD_STACK_MIN with a graph that takes the search so deep,
 *   and not proved.
 */
#ifndef ISOLATED_H
#define ISOLATED_H

#include <stddef.h>
#include <stdint.h>

#ifdef __cplusplus
extern "C" {
#endif

/* The version of this header and of the archive that belongs to it, by numbers and as text. What was compiled with an
   earlier header may link with this archive, and must not be run with it. Before 0.4.0 a graph was lent as its byte
   table: that has another length, which is refused, but for n = 1, where 8 bytes are then read and 1 is lent. Before
   0.3.0 a record was the size and the vertices alone. */
#define ISOLATED_VERSION_MAJOR 0
#define ISOLATED_VERSION_MINOR 4
#define ISOLATED_VERSION_PATCH 0
#define ISOLATED_VERSION "0.4.0"

/* The most vertices of a graph, and the largest factor. */
#define ISOLATED_VERTICES 1024
#define ISOLATED_FACTOR 1024

/* The numbers of a row of the packed table of n vertices, and those of the whole table. */
#define ISOLATED_ROW(n) (((size_t)(n) + 63) / 64)
#define ISOLATED_TABLE(n) (ISOLATED_ROW(n) * (size_t)(n))

/* The weight of vertex v in its number of a row. */
#define ISOLATED_BIT(v) ((uint64_t)1 << ((size_t)(v) % 64))

/* The entries that a work slice needs for n vertices. */
#define ISOLATED_WORK(n) (8 * (size_t)(n))

/* The entries of the record of a group of k vertices. An output of ISOLATED_RECORD(n) entries holds any group of a
   graph of n vertices. */
#define ISOLATED_RECORD(k) ((size_t)(k) + 3)

/* The bytes of stack that no call exceeds: a thread that calls needs them beside what it uses itself. */
#define ISOLATED_STACK 196608

/* Notions of isolation. */
#define ISOLATED_MIN 0
#define ISOLATED_AVG 1
#define ISOLATED_MAX 2

/* Kinds of maximality. */
#define ISOLATED_MAXIMAL_ISOLATED 0
#define ISOLATED_ISOLATED_MAXIMAL 1

/* Bytes of a position, one a rank. */
#define ISOLATED_OPEN 0
#define ISOLATED_TAKEN 1
#define ISOLATED_LEFT 2

/* Why a page stopped; 0 where the call was refused. */
#define ISOLATED_STOP_REFUSED 0
#define ISOLATED_STOP_FINISHED 1 /* the walk is over: the whole list is out */
#define ISOLATED_STOP_SPENT 2    /* as many steps as the budget allows were made */
#define ISOLATED_STOP_FULL 3     /* the next group does not fit into the unused output: see isolated_page() */

/* Accepted. */
#define ISOLATED_REFUSED_NOT 0

/* Refusals of the graph, by every call that takes a packed table, tested in this order and before all others: of
   several faults the first is told. isolated_degrees() tests of the last the length of the list alone.
   isolated_refusal_text() below says what each refusal means. */
#define ISOLATED_REFUSED_VERTICES 1
#define ISOLATED_REFUSED_TABLE_LENGTH 2
#define ISOLATED_REFUSED_STRAY_BIT 45
#define ISOLATED_REFUSED_DIAGONAL 4
#define ISOLATED_REFUSED_SYMMETRY 5
#define ISOLATED_REFUSED_DEGREES 42

/* Refusal of isolated_pack() alone, in the place of 45: it tests a byte table by 1 to 5, in this order. */
#define ISOLATED_REFUSED_TABLE_BYTE 3

/* Refusals of isolated_join() and isolated_part() alone, tested after those of the graph and in this order. */
#define ISOLATED_REFUSED_NO_VERTEX 43
#define ISOLATED_REFUSED_EQUAL_ENDS 44

/* Refusals of isolated_page() and isolated_set_query(), tested after those of the graph, 42 among them, and in this
   order. The last is isolated_set_query()'s alone. */
#define ISOLATED_REFUSED_NOTION 6
#define ISOLATED_REFUSED_KIND 7
#define ISOLATED_REFUSED_FACTOR 8
#define ISOLATED_REFUSED_LENGTH 9
#define ISOLATED_REFUSED_WORK 10
#define ISOLATED_REFUSED_SET_BYTE 11

/* Refusals of isolated_page() alone, tested after those above and in this order. */
#define ISOLATED_REFUSED_POSITION_BYTE 21
#define ISOLATED_REFUSED_POSITION_ORDER 22
#define ISOLATED_REFUSED_POSITION_DEAD 23

/* Refusals of isolated_read_text(): of the first faulty line, and in that line in the order
   31, 33, 34, 32, 35, 40, 36, 37; at the end of the text 33, then 39. No call returns 38 any more, since a pair may
   be repeated; its name is kept, so that programs that have it still compile. */
#define ISOLATED_REFUSED_LINE_START 31
#define ISOLATED_REFUSED_FORM 32
#define ISOLATED_REFUSED_NO_P_LINE 33
#define ISOLATED_REFUSED_SECOND_P_LINE 34
#define ISOLATED_REFUSED_TEXT_VERTICES 35
#define ISOLATED_REFUSED_RANGE 36
#define ISOLATED_REFUSED_SAME_VERTEX 37
#define ISOLATED_REFUSED_REPEATED_PAIR 38
#define ISOLATED_REFUSED_EDGE_COUNT 39
#define ISOLATED_REFUSED_TABLE_SHORT 40

/* Told by the program `isolated` only, by no call. */
#define ISOLATED_REFUSED_TEXT_LENGTH 41

/*
 * isolated_refusal_text(): what a refusal means, in a sentence.
 *
 *   refusal  a number that an answer holds or that the program `isolated` printed.
 *
 * Returns a text that is never freed and has no full stop: "accepted" for 0, and "no refusal has this number" where
 * the number means nothing.
 */
static inline const char *isolated_refusal_text(uint32_t refusal) {
    switch (refusal) {
    case ISOLATED_REFUSED_NOT: return "accepted";
    case ISOLATED_REFUSED_VERTICES: return "n is over 1,024";
    case ISOLATED_REFUSED_TABLE_LENGTH: return "the table's length is not that for n vertices";
    case ISOLATED_REFUSED_TABLE_BYTE: return "a table byte is neither 0 nor 1";
    case ISOLATED_REFUSED_DIAGONAL: return "a vertex is joined to itself";
    case ISOLATED_REFUSED_SYMMETRY: return "the table is not symmetric";
    case ISOLATED_REFUSED_NOTION: return "the notion is over 2";
    case ISOLATED_REFUSED_KIND: return "the kind is over 1";
    case ISOLATED_REFUSED_FACTOR: return "the factor c is 0 or over 1,024";
    case ISOLATED_REFUSED_LENGTH: return "the position's or the set's length is not n";
    case ISOLATED_REFUSED_WORK: return "the work slice has fewer than 8 * n entries";
    case ISOLATED_REFUSED_SET_BYTE: return "a set byte is over 1";
    case ISOLATED_REFUSED_POSITION_BYTE: return "a position byte is over 2";
    case ISOLATED_REFUSED_POSITION_ORDER: return "a decided rank stands after an open one";
    case ISOLATED_REFUSED_POSITION_DEAD: return "the position with its last decided rank opened is dead";
    case ISOLATED_REFUSED_LINE_START:
        return "a line is empty, starts with another letter than c, p or e, or has no space after it";
    case ISOLATED_REFUSED_FORM: return "a word or a line does not have the form asked for";
    case ISOLATED_REFUSED_NO_P_LINE: return "an e line stands before the p line, or there is no p line";
    case ISOLATED_REFUSED_SECOND_P_LINE: return "there is a second p line";
    case ISOLATED_REFUSED_TEXT_VERTICES: return "N is over 1,024";
    case ISOLATED_REFUSED_RANGE: return "U or V is 0 or over N";
    case ISOLATED_REFUSED_SAME_VERTEX: return "U equals V";
    case ISOLATED_REFUSED_REPEATED_PAIR:
        return "the pair stood before, in this direction or the other (no call returns this any more)";
    case ISOLATED_REFUSED_EDGE_COUNT: return "M differs from the number of e lines";
    case ISOLATED_REFUSED_TABLE_SHORT: return "the table has fewer than N * N bytes";
    case ISOLATED_REFUSED_TEXT_LENGTH: return "the text is over 65,536 bytes";
    case ISOLATED_REFUSED_DEGREES: return "a degree is not the ones in its row, or the list of degrees is not n long";
    case ISOLATED_REFUSED_NO_VERTEX: return "a vertex is not below n";
    case ISOLATED_REFUSED_EQUAL_ENDS: return "both ends of the pair are the same vertex";
    case ISOLATED_REFUSED_STRAY_BIT: return "a row of the packed table has a bit at or past n";
    }
    return "no refusal has this number";
}

/*
 * isolated_is_joined(): whether two vertices are joined.
 *
 *   table  the packed table of a graph. One number of it is read, and nothing else.
 *   n      the vertices.
 *   u, v   two vertices below n, which may be the same.
 *
 * Returns 1 where they are joined, else 0.
 */
static inline int isolated_is_joined(const uint64_t *table, size_t n, size_t u, size_t v) {
    return (table[u * ISOLATED_ROW(n) + v / 64] & ISOLATED_BIT(v)) != 0;
}

/*
 * isolated_outgoing_edges(): how many edges lead from a group's members to vertices outside.
 *
 *   record  where the record of the group begins in an output of isolated_page(). Its entries 1 and 2 are read, and
 *           nothing else.
 *
 * Returns entry 1 * 65,536 + entry 2: entry 1 is the upper half of the number, entry 2 the lower.
 */
static inline uint32_t isolated_outgoing_edges(const uint16_t *record) {
    return (uint32_t)record[1] * 65536u + record[2];
}

/* What isolated_page() returns. Where refusal is not 0 all other numbers are 0. */
typedef struct isolated_page_answer {
    uint32_t refusal; /* 0, or the first of 1, 2, 45, 4, 5, 42, 6 to 10 and 21 to 23 that fits */
    uint32_t stop;    /* ISOLATED_STOP_... */
    uint32_t groups;  /* groups written by this call */
    uint32_t steps;   /* steps of the walk made by this call, at most budget */
    size_t used;      /* entries of output that this call used */
    size_t wanted;    /* at ISOLATED_STOP_FULL the entries of the next group's record, its size + 3, else 0 */
} isolated_page_answer;

/* What isolated_set_query() returns. Where refusal is not 0, yes is 0. */
typedef struct isolated_set_answer {
    uint32_t refusal; /* 0, or the first of 1, 2, 45, 4, 5, 42 and 6 to 11 that fits */
    uint32_t yes;     /* 1 where the set is a group, else 0 */
} isolated_set_answer;

/* What isolated_join() and isolated_part() return. Where refusal is not 0, unchanged is 0. */
typedef struct isolated_edit_answer {
    uint32_t refusal;   /* 0, or the first of 1, 2, 45, 4, 5 and 42 to 44 that fits */
    uint32_t unchanged; /* 1 where the pair was so already and nothing was written, else 0 */
} isolated_edit_answer;

/* What isolated_read_text() returns. Where refusal is not 0, vertices and edges are 0. */
typedef struct isolated_text_answer {
    uint32_t refusal;  /* 0, or one of 31 to 37, 39 and 40 */
    uint32_t vertices; /* N */
    uint32_t edges;    /* M, the number of e lines: more than the graph has edges where a pair is repeated */
    size_t line;       /* 0, or the faulty line, counted from 1; at the end of the text the line count plus 1 */
} isolated_text_answer;

/*
 * isolated_page(): goes on with the walk over a graph and writes the groups it meets.
 *
 * The walk visits sets in a fixed order: at the lowest rank where two sets differ, the one that holds this rank
 * comes first. Start with a position of n zeros and call again with the position as the last call left it, the
 * same table, notion, kind and c, until stop is ISOLATED_STOP_FINISHED. The used entries of all calls, end to
 * end, are then the whole list, each group once. Output, work and budget may differ from call to call. Where an edit
 * leaves another table for a later page, nothing is said of the list that was begun before it: start again with a
 * position of n zeros.
 *
 *   table, table_length        the packed table, as "The graph" above has it; read only. table_length is
 *                              ISOLATED_TABLE(n).
 *   degrees, degrees_length    its degrees, as isolated_degrees() counts them; read only. degrees_length is n.
 *   position, position_length  n bytes, one a rank. Read, and set to the last position reached. All 0 is the
 *                              start, all 2 the end (with n = 0 the start is the end).
 *   output, output_length      any length. From entry 0 on, the record of each group, one right after the other;
 *                              entries past `used` keep their contents. The record of a group of k vertices with E
 *                              outgoing edges has ISOLATED_RECORD(k) entries, which are k + 3:
 *                                entry 0     k, its size
 *                                entry 1     E / 65,536, rounded down: the upper half of E
 *                                entry 2     E % 65,536: the lower half of E
 *                                entry 3 on  its k vertices in rank order
 *                              So E is entry 1 * 65,536 + entry 2, as isolated_outgoing_edges() puts it together, and
 *                              below 262,144. A record is written whole or not at all. With ISOLATED_RECORD(n)
 *                              entries, which are n + 3, and a budget of 1 or more, an unfinished walk moves on.
 *                              Where stop is ISOLATED_STOP_FULL, read the used entries and call again with `wanted`
 *                              entries of output or more: each call begins with an empty output, so the next group
 *                              needs so many in all. With fewer, a call with a budget of 1 or more makes no step and
 *                              stops so again.
 *   work, work_length          at least ISOLATED_WORK(n) entries with any contents. Its contents after an accepted
 *                              call are open.
 *   n                          the vertices.
 *   notion, kind, c            which groups to list.
 *   budget                     the most steps to make. With 0 the call only tests its arguments and says
 *                              ISOLATED_STOP_SPENT, or ISOLATED_STOP_FINISHED where the position is finished.
 *
 * A refusal leaves every slice as it was, work among them.
 */
isolated_page_answer isolated_page(const uint64_t *table, size_t table_length, const uint16_t *degrees,
                                   size_t degrees_length, uint8_t *position, size_t position_length, uint16_t *output,
                                   size_t output_length, uint16_t *work, size_t work_length, size_t n, uint32_t notion,
                                   uint32_t kind, uint32_t c, uint32_t budget);

/*
 * isolated_set_query(): says whether one set is a group.
 *
 *   table, table_length      the packed table, as "The graph" above has it; read only. table_length is
 *                            ISOLATED_TABLE(n).
 *   degrees, degrees_length  its degrees; read only. degrees_length is n.
 *   set, set_length          n bytes, one a VERTEX: 1 for a member, 0 for another. Read only. The empty set is no
 *                            group.
 *   work, work_length        as for isolated_page().
 *   n, notion, kind, c       as for isolated_page().
 *
 * A refusal leaves every slice as it was.
 */
isolated_set_answer isolated_set_query(const uint64_t *table, size_t table_length, const uint16_t *degrees,
                                       size_t degrees_length, const uint8_t *set, size_t set_length, uint16_t *work,
                                       size_t work_length, size_t n, uint32_t notion, uint32_t kind, uint32_t c);

/*
 * isolated_join(): joins two vertices.
 *
 *   table, table_length      the packed table, as "The graph" above has it. table_length is ISOLATED_TABLE(n). The
 *                            bit of v in the row of u and that of u in the row of v are set to 1.
 *   degrees, degrees_length  its degrees. degrees_length is n. The entries u and v are raised by 1.
 *   n                        the vertices.
 *   u, v                     the pair, in either order: two different vertices below n.
 *
 * No other bit and no other entry is touched. Where the two are joined already, nothing is written and unchanged is 1;
 * else unchanged is 0. Table and list are then those of the new graph: the next call takes them as they are. What a
 * walk makes of an edit is told at isolated_page().
 *
 * A refusal leaves both slices as they were.
 */
isolated_edit_answer isolated_join(uint64_t *table, size_t table_length, uint16_t *degrees, size_t degrees_length,
                                   size_t n, size_t u, size_t v);

/*
 * isolated_part(): parts two vertices. It undoes an isolated_join() of the same pair that answered unchanged 0, entry
 * for entry, and isolated_join() undoes such an isolated_part().
 *
 *   table, table_length      the packed table, as "The graph" above has it. table_length is ISOLATED_TABLE(n). The
 *                            bit of v in the row of u and that of u in the row of v are set to 0.
 *   degrees, degrees_length  its degrees. degrees_length is n. The entries u and v are lowered by 1.
 *   n, u, v                  as for isolated_join().
 *
 * No other bit and no other entry is touched. Where the two are not joined, nothing is written and unchanged is 1;
 * else unchanged is 0.
 *
 * A refusal leaves both slices as they were.
 */
isolated_edit_answer isolated_part(uint64_t *table, size_t table_length, uint16_t *degrees, size_t degrees_length,
                                   size_t n, size_t u, size_t v);

/*
 * isolated_degrees(): counts the degrees of a graph, for the first list of it or one that went astray.
 *
 *   table, table_length      the packed table, as "The graph" above has it; read only. table_length is
 *                            ISOLATED_TABLE(n).
 *   degrees, degrees_length  n entries with any contents. Accepted: entry v is set to the degree of vertex v.
 *   n                        the vertices.
 *
 * Returns 0, or the refusal: the first of 1, 2, 45, 4, 5, and 42 where degrees_length is not n. A refusal leaves both
 * slices as they were.
 */
uint32_t isolated_degrees(const uint64_t *table, size_t table_length, uint16_t *degrees, size_t degrees_length,
                          size_t n);

/*
 * isolated_read_text(): reads a graph in the DIMACS edge layout.
 *
 * Lines end in byte 10; the last may lack it. A line is `c` alone, `c` with a space and any bytes, `p edge N M`,
 * or `e U V` with U and V from 1 to N for vertices U - 1 and V - 1, which differ. One p line stands before all e
 * lines, and M is the number of e lines. Fields are parted by one space. A number is 1 to 6 digits, without leading
 * zero except 0.
 *
 * A pair may be given more than once, in either direction: it is one edge, and M counts the lines. So `edges` of the
 * answer, which is M, is not the number of edges where a pair is repeated. That number is half the sum of the
 * degrees, which isolated_degrees() counts.
 *
 *   text, text_length    the text, of any length; read only.
 *   table, table_length  at least N * N bytes with any contents. Accepted: the first N * N bytes hold the graph's
 *                        byte table, the rest is untouched. Refused before a p line has passed: nothing is written.
 *                        Refused after it: the first N * N bytes, with that line's N, are 0. isolated_pack(), which
 *                        makes a packed table of them, wants them with length exactly N * N, also where more was lent
 *                        here.
 */
isolated_text_answer isolated_read_text(const uint8_t *text, size_t text_length, uint8_t *table, size_t table_length);

/*
 * isolated_pack(): packs a byte table, one that isolated_read_text() filled or that the caller wrote.
 *
 *   bytes, bytes_length    the byte table, as "The graph" above has it; read only. bytes_length is n * n.
 *   packed, packed_length  ISOLATED_TABLE(n) numbers with any contents. Accepted: all of them are set, to the packed
 *                          table of the same graph.
 *   n                      the vertices.
 *
 * Each call that takes a packed table accepts that one: of a graph that has passed here only its list of degrees can
 * still be refused.
 *
 * Returns 0, or the refusal: the first of 1 to 5 that fits, 2 where one of the two lengths is another. A refusal leaves
 * both slices as they were.
 */
uint32_t isolated_pack(const uint8_t *bytes, size_t bytes_length, uint64_t *packed, size_t packed_length, size_t n);

#ifdef __cplusplus
}
#endif

#endif
