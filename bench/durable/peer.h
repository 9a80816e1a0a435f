/* What the peers of example_durable share: threads that change two of 1,024 numbers again and again, each change waited for until it
   is durable, with a connection each or with a leader that commits for all that wait; and the line that example_durable prints. */
#include <pthread.h>
#include <stdint.h>
#include <stdio.h>
#include <stdlib.h>
#include <time.h>
#include <unistd.h>

#define MOST 4000000
#define KEYS 1024

struct change {
    unsigned keys[2];
    long number;
    int is_durable;
    struct change *next;
};

static const char *file;
static long seconds, start, ended, handles, groups, waits[MOST];

static long now(void) {
    struct timespec t;
    clock_gettime(CLOCK_MONOTONIC, &t);
    return t.tv_sec * 1000000 + t.tv_nsec / 1000;
}

static void must(int is_so, const char *what) {
    if (!is_so) {
        fprintf(stderr, "%s\n", what);
        _exit(1);
    }
}

static void durable(long begun) {
    long end = now(), at = __atomic_fetch_add(&handles, 1, __ATOMIC_SEQ_CST);
    must(at < MOST, "too many");
    waits[at] = end - begun;
    for (long seen = ended; seen < end && !__atomic_compare_exchange_n(&ended, &seen, end, 0, __ATOMIC_SEQ_CST, __ATOMIC_SEQ_CST);)
        ;
}

/* One change after the other, by a thread, until the seconds are over. */
static void change_again(intptr_t place, void (*change)(struct change *, void *), void *with) {
    uint64_t draw = (uint64_t)place;
    struct change mine = {{0, 0}, 0, 0, NULL};
    for (long begun; (begun = now()) - start < seconds * 1000000; mine.number++) {
        draw = draw * 6364136223846793005u + 1442695040888963407u;
        mine.keys[0] = draw >> 8 & (KEYS - 1), mine.keys[1] = draw >> 24 & (KEYS - 1);
        change(&mine, with);
        durable(begun);
    }
}

static pthread_mutex_t lock = PTHREAD_MUTEX_INITIALIZER;
static pthread_cond_t is_committed = PTHREAD_COND_INITIALIZER;
static struct change *waiting;
static int has_leader;

/* A change by a leader: the first thread that finds none commits all that wait, by one transaction. */
static void change_by_leader(struct change *mine, void (*commit)(struct change *)) {
    pthread_mutex_lock(&lock);
    mine->is_durable = 0, mine->next = waiting, waiting = mine;
    while (!mine->is_durable) {
        if (has_leader) {
            pthread_cond_wait(&is_committed, &lock);
            continue;
        }
        struct change *group = waiting;
        has_leader = 1, waiting = NULL;
        pthread_mutex_unlock(&lock);
        commit(group);
        pthread_mutex_lock(&lock);
        for (; group; group = group->next)
            group->is_durable = 1;
        has_leader = 0, groups++;
        pthread_cond_broadcast(&is_committed);
    }
    pthread_mutex_unlock(&lock);
}

static int order(const void *a, const void *b) { return (*(long *)a > *(long *)b) - (*(long *)a < *(long *)b); }

/* So many threads at work, and then the line. */
static void run_threads(int count, void *(*work)(void *)) {
    pthread_t threads[64];
    must(count <= 64, "threads");
    start = now();
    for (intptr_t at = 0; at < count; at++)
        must(pthread_create(&threads[at], 0, work, (void *)at) == 0, "thread");
    for (int at = 0; at < count; at++)
        pthread_join(threads[at], NULL);
}

static void print_line(void) {
    qsort(waits, handles, sizeof *waits, order);
    printf("%ld handles in %ld us, %ld transactions, each in %ld us, 99 of 100 in %ld us\n", handles, ended - start,
           groups ? groups : handles, waits[handles * 50 / 100], waits[handles * 99 / 100]);
}
