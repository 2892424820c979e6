/*
 * Reads the claw from a text, packs it, lists its groups with their outgoing edges, page by page, and asks about three
 * sets. C99, and C++ too.
 */
#include "isolated.h"

#include <stdio.h>
#include <string.h>

enum { VERTICES = 4 };

static const char text[] = "c the claw\np edge 4 3\ne 1 2\ne 1 3\ne 1 4\n";

static void list(const uint64_t *table, const uint16_t *degrees, size_t n, uint32_t notion, uint32_t kind, uint32_t c) {
    uint8_t position[VERTICES] = {0};
    uint16_t output[ISOLATED_RECORD(VERTICES)];
    uint16_t work[ISOLATED_WORK(VERTICES)];
    uint32_t groups = 0, steps = 0;
    isolated_page_answer page;
    printf("notion %u kind %u c %u\n", notion, kind, c);
    do {
        page = isolated_page(table, ISOLATED_TABLE(n), degrees, n, position, n, output, ISOLATED_RECORD(VERTICES), work,
                             ISOLATED_WORK(VERTICES), n, notion, kind, c, 5);
        if (page.refusal != ISOLATED_REFUSED_NOT) {
            printf("refused %u: %s\n", page.refusal, isolated_refusal_text(page.refusal));
            return;
        }
        for (const uint16_t *record = output; record < output + page.used; record += ISOLATED_RECORD(record[0])) {
            for (size_t i = 0; i < record[0]; i++) printf("%u ", record[3 + i] + 1u);
            printf("(%u outgoing)\n", isolated_outgoing_edges(record));
        }
        groups += page.groups;
        steps += page.steps;
    } while (page.stop != ISOLATED_STOP_FINISHED);
    printf("end %u %u\n", groups, steps);
}

static void ask(const uint64_t *table, const uint16_t *degrees, size_t n, const uint8_t *set) {
    uint16_t work[ISOLATED_WORK(VERTICES)];
    isolated_set_answer answer =
        isolated_set_query(table, ISOLATED_TABLE(n), degrees, n, set, n, work, ISOLATED_WORK(VERTICES), n, ISOLATED_MAX,
                           ISOLATED_MAXIMAL_ISOLATED, 2);
    printf("set %u%u%u%u: refusal %u, %s\n", set[0], set[1], set[2], set[3], answer.refusal, answer.yes ? "yes" : "no");
}

int main(void) {
    uint8_t bytes[VERTICES * VERTICES];
    uint64_t table[ISOLATED_TABLE(VERTICES)];
    uint16_t degrees[VERTICES];
    isolated_text_answer read = isolated_read_text((const uint8_t *)text, strlen(text), bytes, sizeof bytes);
    printf("read %u: %u vertices, %u e lines, line %zu\n", read.refusal, read.vertices, read.edges, read.line);
    if (read.refusal != ISOLATED_REFUSED_NOT) return 1;
    size_t n = read.vertices;
    if (isolated_pack(bytes, n * n, table, ISOLATED_TABLE(n), n) != ISOLATED_REFUSED_NOT) return 1;
    if (isolated_degrees(table, ISOLATED_TABLE(n), degrees, n, n) != ISOLATED_REFUSED_NOT) return 1;

    list(table, degrees, n, ISOLATED_MAX, ISOLATED_MAXIMAL_ISOLATED, 2);
    list(table, degrees, n, ISOLATED_MAX, ISOLATED_ISOLATED_MAXIMAL, 2);
    list(table, degrees, n, ISOLATED_AVG, ISOLATED_MAXIMAL_ISOLATED, 2);
    list(table, degrees, n, ISOLATED_MIN, ISOLATED_ISOLATED_MAXIMAL, 1);
    list(table, degrees, n, ISOLATED_MIN, ISOLATED_ISOLATED_MAXIMAL, ISOLATED_FACTOR + 1);

    const uint8_t leaf[VERTICES] = {0, 0, 1, 0}, pair[VERTICES] = {1, 0, 1, 0}, no_set[VERTICES] = {0, 0, 2, 0};
    ask(table, degrees, n, leaf);
    ask(table, degrees, n, pair);
    ask(table, degrees, n, no_set);

    read = isolated_read_text((const uint8_t *)text, strlen(text) - 1, bytes, sizeof bytes - 1);
    printf("read %u: line %zu, as named: %d\n", read.refusal, read.line, read.refusal == ISOLATED_REFUSED_TABLE_SHORT);
    return 0;
}
