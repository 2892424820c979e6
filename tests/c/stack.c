/*
 * Each call in a thread that has ISOLATED_STACK bytes of stack for it and a page below them that cannot be touched:
 * page and set query at the deepest search that a graph can ask for, a set query whose search drops candidates, the
 * edits, the count of the degrees, the reader and the packing. Prints what each used.
 */
#define _GNU_SOURCE /* for MAP_ANONYMOUS */
#include "isolated.h"

#include <limits.h>
#include <pthread.h>
#include <stdio.h>
#include <stdlib.h>
#include <string.h>
#include <sys/mman.h>
#include <unistd.h>

enum { N = ISOLATED_VERTICES, C = N / 2, UNTOUCHED = 0xa5 };

static uint8_t bytes[N * N], position[N], set[N];
static uint64_t table[ISOLATED_TABLE(N)];
static uint16_t degrees[N], output[ISOLATED_RECORD(N)], work[ISOLATED_WORK(N)];
static char text[12 * N];

static unsigned char *from; /* where the call was made, on the thread's stack */
static int answered;        /* whether the answer was the one expected */
static unsigned yes = 1;    /* the answer that a set query is to give */

static void join(size_t u, size_t v) { bytes[u * N + v] = bytes[v * N + u] = 1; }

/*
 * Vertex 0 alone is a group at factor C, and before the search says so it has added all its C - 1 neighbours, one upon
 * the other. All but the last of these have degree N - 2: at least C neighbours outside each smaller set, so that none
 * is isolated, but C - 1 outside the whole, so that the search goes on to the last. That has degree N - 1, and so
 * not even the whole is isolated.
 * No search is deeper: a set that it goes on from is not isolated, so a member has at least c neighbours outside and
 * the set at most n - c members, one of them not added; and what it adds are common neighbours, fewer than c.
 */
static void make_deepest_graph(void) {
    memset(bytes, 0, sizeof bytes);
    for (size_t v = 1; v < C; v++) {
        for (size_t u = 0; u < N; u++) {
            if (u != v && (u != N - 1 || v == C - 1)) join(u, v);
        }
    }
}

/*
 * The same where for each added neighbour another one drops out, so that the search is half as deep: it has added 255
 * of vertex 0's C - 1 neighbours, each not joined to one of 255 more, when the last makes a set that is isolated.
 */
static void make_dropping_graph(void) {
    memset(bytes, 0, sizeof bytes);
    for (size_t v = 1; v < C; v++) {
        size_t further = v < C / 2 ? C / 2 + 1 : v < C - 1 ? C / 2 + 2 : C / 2;
        for (size_t u = 0; u < v; u++) {
            if (u == 0 || u + C / 2 - 1 != v) join(u, v);
        }
        for (size_t u = C; u < C + further; u++) join(u, v);
    }
}

static void *ask_page(void *unused) {
    unsigned char here;
    isolated_page_answer answer;
    from = &here;
    answer = isolated_page(table, ISOLATED_TABLE(N), degrees, N, position, N, output, ISOLATED_RECORD(N), work,
                           ISOLATED_WORK(N), N, ISOLATED_MAX, ISOLATED_MAXIMAL_ISOLATED, C, 1);
    answered = answer.refusal == 0 && answer.groups == 1 && output[0] == 1 &&
               isolated_outgoing_edges(output) == C - 1 && output[3] == 0;
    return unused;
}

static void *ask_set(void *unused) {
    unsigned char here;
    isolated_set_answer answer;
    from = &here;
    answer = isolated_set_query(table, ISOLATED_TABLE(N), degrees, N, set, N, work, ISOLATED_WORK(N), N, ISOLATED_MAX,
                                ISOLATED_MAXIMAL_ISOLATED, C);
    answered = answer.refusal == 0 && answer.yes == yes;
    return unused;
}

static void *ask_join(void *unused) {
    unsigned char here;
    isolated_edit_answer answer;
    from = &here;
    answer = isolated_join(table, ISOLATED_TABLE(N), degrees, N, N, 0, N - 1);
    answered = answer.refusal == 0 && answer.unchanged == 0;
    return unused;
}

static void *ask_part(void *unused) {
    unsigned char here;
    isolated_edit_answer answer;
    from = &here;
    answer = isolated_part(table, ISOLATED_TABLE(N), degrees, N, N, 0, N - 1);
    answered = answer.refusal == 0 && answer.unchanged == 0;
    return unused;
}

static void *ask_degrees(void *unused) {
    unsigned char here;
    from = &here;
    answered = isolated_degrees(table, ISOLATED_TABLE(N), degrees, N, N) == 0 && degrees[C - 1] == N - 1;
    return unused;
}

static void *ask_pack(void *unused) {
    unsigned char here;
    from = &here;
    answered = isolated_pack(bytes, sizeof bytes, table, ISOLATED_TABLE(N), N) == 0 &&
               isolated_is_joined(table, N, N - 1, C - 1) && !isolated_is_joined(table, N, N - 1, 0);
    return unused;
}

static void *ask_text(void *unused) {
    unsigned char here;
    isolated_text_answer answer;
    from = &here;
    answer = isolated_read_text((const uint8_t *)text, strlen(text), bytes, sizeof bytes);
    answered = answer.refusal == 0 && answer.vertices == N && answer.edges == N - 1;
    return unused;
}

/* Makes the call in a thread of its own. Where it used less than `least` bytes it was not the call that is meant. */
static void measure(const char *name, void *(*call)(void *), size_t least) {
    /* The thread itself, its start and what the C library keeps for it take part of its stack: PTHREAD_STACK_MIN is
       enough for these, as the C library says. */
    size_t size = ISOLATED_STACK + (size_t)PTHREAD_STACK_MIN, guard = (size_t)sysconf(_SC_PAGESIZE), used;
    unsigned char *memory, *stack, *lowest;
    pthread_attr_t attributes;
    pthread_t thread;
    memory = (unsigned char *)mmap(NULL, guard + size, PROT_READ | PROT_WRITE, MAP_PRIVATE | MAP_ANONYMOUS, -1, 0);
    if (memory == MAP_FAILED || mprotect(memory, guard, PROT_NONE) != 0) exit(2);
    stack = lowest = memory + guard;
    memset(stack, UNTOUCHED, size);
    answered = 0;
    if (pthread_attr_init(&attributes) != 0 || pthread_attr_setstack(&attributes, stack, size) != 0) exit(2);
    if (pthread_create(&thread, &attributes, call, NULL) != 0 || pthread_join(thread, NULL) != 0) exit(2);
    while (*lowest == UNTOUCHED) lowest++;
    used = (size_t)(from - lowest);
    printf("%s: %zu bytes of stack\n", name, used);
    if (!answered || used > ISOLATED_STACK || used < least) {
        printf("%s: not as expected\n", name);
        exit(1);
    }
    pthread_attr_destroy(&attributes);
    munmap(memory, guard + size);
}

int main(void) {
    size_t length = (size_t)sprintf(text, "p edge %d %d\n", N, N - 1);
    for (int v = 1; v < N; v++) length += (size_t)sprintf(text + length, "e %d %d\n", v, v + 1);
    measure("reader", ask_text, 0);
    make_deepest_graph();
    measure("pack", ask_pack, 0);
    measure("degrees", ask_degrees, 0);
    measure("join", ask_join, 0);
    measure("part", ask_part, 0);
    set[0] = 1;
    measure("set query", ask_set, ISOLATED_STACK / 2);
    /* Vertex 0 has rank 1: only vertex N - 1, of degree 1, comes before it. */
    memset(position, ISOLATED_LEFT, N);
    position[1] = ISOLATED_TAKEN;
    measure("page", ask_page, ISOLATED_STACK / 2);
    make_dropping_graph();
    if (isolated_pack(bytes, sizeof bytes, table, ISOLATED_TABLE(N), N) != 0) exit(2);
    if (isolated_degrees(table, ISOLATED_TABLE(N), degrees, N, N) != 0) exit(2);
    yes = 0;
    measure("set query that drops candidates", ask_set, 256 * 128);
    return 0;
}
