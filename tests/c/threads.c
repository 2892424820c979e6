/* Several walks over one table in threads that run at once: each lists what it lists alone. */
#include "isolated.h"

#include <pthread.h>
#include <stdio.h>
#include <string.h>

enum { N = 48, C = 6, THREADS = 4, ROUNDS = 25, ROOM = 4096 };

static uint8_t bytes[N * N];
static uint64_t table[ISOLATED_TABLE(N)];
static uint16_t degrees[N];

/* One walk: its settings, and the joined output and the totals of its pages. */
typedef struct walk {
    uint32_t notion, kind, groups, steps;
    size_t used;
    uint16_t list[ROOM];
    int whole;
} walk;

static void *list(void *of) {
    walk *it = (walk *)of;
    uint8_t position[N] = {0};
    uint16_t work[ISOLATED_WORK(N)];
    isolated_page_answer page;
    it->groups = it->steps = 0, it->used = 0;
    do {
        page = isolated_page(table, ISOLATED_TABLE(N), degrees, N, position, N, it->list + it->used, ROOM - it->used,
                             work, ISOLATED_WORK(N), N, it->notion, it->kind, C, 50);
        it->groups += page.groups, it->steps += page.steps, it->used += page.used;
    } while (page.stop == ISOLATED_STOP_SPENT);
    it->whole = page.stop == ISOLATED_STOP_FINISHED;
    return NULL;
}

static int same(const walk *a, const walk *b) {
    return a->whole && b->whole && a->groups == b->groups && a->steps == b->steps && a->used == b->used &&
           memcmp(a->list, b->list, a->used * sizeof *a->list) == 0;
}

int main(void) {
    static walk alone[THREADS], at_once[THREADS];
    pthread_t threads[THREADS];
    for (size_t u = 0; u < N; u++) {
        for (size_t v = 0; v < u; v++) bytes[u * N + v] = bytes[v * N + u] = (u * u + v * v) % 7 < 2 || u / 4 == v / 4;
    }
    if (isolated_pack(bytes, sizeof bytes, table, ISOLATED_TABLE(N), N) != ISOLATED_REFUSED_NOT) return 2;
    if (isolated_degrees(table, ISOLATED_TABLE(N), degrees, N, N) != ISOLATED_REFUSED_NOT) return 2;
    for (int i = 0; i < THREADS; i++) {
        alone[i].notion = at_once[i].notion = i % 2 == 0 ? ISOLATED_MAX : ISOLATED_MIN;
        alone[i].kind = at_once[i].kind = i / 2 == 0 ? ISOLATED_MAXIMAL_ISOLATED : ISOLATED_ISOLATED_MAXIMAL;
        list(&alone[i]);
        printf("notion %u kind %u: %u groups, %u steps\n", (unsigned)alone[i].notion, (unsigned)alone[i].kind,
               (unsigned)alone[i].groups, (unsigned)alone[i].steps);
    }
    for (int round = 0; round < ROUNDS; round++) {
        for (int i = 0; i < THREADS; i++) {
            if (pthread_create(&threads[i], NULL, list, &at_once[i]) != 0) return 2;
        }
        for (int i = 0; i < THREADS; i++) {
            if (pthread_join(threads[i], NULL) != 0) return 2;
            if (!same(&alone[i], &at_once[i])) return 1;
        }
    }
    return 0;
}
