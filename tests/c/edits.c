/*
 * Keeps a graph up to date for a day: the table starts from zeros, pairs are joined and parted as shares come and go,
 * and after each change the groups are listed from a fresh position. C99, and C++ as well.
 */
#include "isolated.h"

#include <stdio.h>

enum { N = 5 };

static uint64_t table[ISOLATED_TABLE(N)];
static uint16_t degrees[N];

/* Lists all groups; each listing starts anew, since an edit may have changed the ranks. */
static void list(void) {
    uint8_t position[N] = {0};
    uint16_t output[ISOLATED_RECORD(N)], work[ISOLATED_WORK(N)];
    isolated_page_answer page;
    printf("   ");
    do {
        page = isolated_page(table, ISOLATED_TABLE(N), degrees, N, position, N, output, ISOLATED_RECORD(N), work,
                             ISOLATED_WORK(N), N, ISOLATED_MAX, ISOLATED_MAXIMAL_ISOLATED, 1, 1000);
        if (page.refusal != ISOLATED_REFUSED_NOT) {
            printf(" refused %u: %s\n", (unsigned)page.refusal, isolated_refusal_text(page.refusal));
            return;
        }
        for (const uint16_t *record = output; record < output + page.used; record += ISOLATED_RECORD(record[0])) {
            for (size_t i = 0; i < record[0]; i++) printf("%s%u", i == 0 ? " {" : " ", (unsigned)record[3 + i]);
            printf("}");
        }
    } while (page.stop != ISOLATED_STOP_FINISHED);
    printf("\n");
}

/* Tells what an edit did, and the degrees after it. */
static void tell(const char *edit, size_t u, size_t v, isolated_edit_answer answer) {
    printf("%s %zu %zu: ", edit, u, v);
    if (answer.refusal != ISOLATED_REFUSED_NOT) {
        printf("refused %u: %s\n", (unsigned)answer.refusal, isolated_refusal_text(answer.refusal));
        return;
    }
    printf("%s, degrees", answer.unchanged ? "nothing to do" : "done");
    for (size_t vertex = 0; vertex < N; vertex++) printf(" %u", (unsigned)degrees[vertex]);
    printf("\n");
}

static void join(size_t u, size_t v) {
    tell("join", u, v, isolated_join(table, ISOLATED_TABLE(N), degrees, N, N, u, v));
}

static void part(size_t u, size_t v) {
    tell("part", u, v, isolated_part(table, ISOLATED_TABLE(N), degrees, N, N, u, v));
}

static uint32_t count(void) { return isolated_degrees(table, ISOLATED_TABLE(N), degrees, N, N); }

int main(void) {
    /* Five vertices without an edge: each is a group. */
    if (count() != ISOLATED_REFUSED_NOT) return 1;
    list();

    /* A triangle, with a fourth vertex that hangs on it. */
    join(0, 1);
    join(1, 2);
    join(2, 0);
    join(2, 3);
    join(3, 2);
    list();

    /* The fourth lets go. */
    part(3, 2);
    part(3, 2);
    list();

    /* Vertex 1 leaves: it is parted from whatever it is joined to, and stays as a vertex without an edge. */
    for (size_t v = 0; v < N; v++) {
        if (isolated_is_joined(table, N, 1, v)) part(1, v);
    }
    list();

    /* Mistakes change nothing. */
    join(4, 5);
    join(4, 4);

    /* Whoever writes the table by himself counts the degrees again. */
    table[3 * ISOLATED_ROW(N) + 4 / 64] |= ISOLATED_BIT(4);
    table[4 * ISOLATED_ROW(N) + 3 / 64] |= ISOLATED_BIT(3);
    join(0, 1);
    list();
    if (count() != ISOLATED_REFUSED_NOT) return 1;
    join(0, 1);
    list();
    return 0;
}
