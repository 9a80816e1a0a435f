/* replay IMAGE CALLS RUNS: makes the reads, writes and syncs that the file CALLS lists, over again, and prints the least seconds of
   RUNS: by the clock, and of the processor. A call is a line `r LENGTH OFFSET`, `w LENGTH OFFSET` or `s`. The bytes that it writes
   are any; so what is measured is the calls alone. */
#include <fcntl.h>
#include <stdio.h>
#include <stdlib.h>
#include <sys/resource.h>
#include <time.h>
#include <unistd.h>

struct call {
    char kind;
    size_t length;
    off_t offset;
};

static double seconds(struct timeval t) { return t.tv_sec + t.tv_usec / 1e6; }

int main(int argc, char **argv) {
    if (argc != 4)
        return 2;
    FILE *list = fopen(argv[2], "r");
    int image = open(argv[1], O_RDWR);
    if (!list || image < 0)
        return 2;
    size_t count = 0, room = 1 << 16, most = 1;
    struct call *calls = malloc(room * sizeof *calls);
    char line[128];
    while (fgets(line, sizeof line, list)) {
        struct call c = {line[0], 0, 0};
        long long offset = 0;
        if (c.kind != 's' && sscanf(line + 1, "%zu %lld", &c.length, &offset) != 2)
            return 2;
        c.offset = offset;
        if (c.length > most)
            most = c.length;
        if (count == room)
            calls = realloc(calls, (room *= 2) * sizeof *calls);
        calls[count++] = c;
    }
    char *bytes = calloc(most, 1);
    double clock = 1e9, processor = 1e9;
    for (int run = atoi(argv[3]); run > 0; run--) {
        struct timespec from, to;
        struct rusage before, after;
        getrusage(RUSAGE_SELF, &before);
        clock_gettime(CLOCK_MONOTONIC, &from);
        for (size_t i = 0; i < count; i++) {
            struct call *c = &calls[i];
            ssize_t done = c->kind == 'r' ? pread(image, bytes, c->length, c->offset)
                : c->kind == 'w' ? pwrite(image, bytes, c->length, c->offset)
                : fdatasync(image);
            if (done < 0)
                return 1;
        }
        clock_gettime(CLOCK_MONOTONIC, &to);
        getrusage(RUSAGE_SELF, &after);
        double took = to.tv_sec - from.tv_sec + (to.tv_nsec - from.tv_nsec) / 1e9;
        double used = seconds(after.ru_utime) - seconds(before.ru_utime) + seconds(after.ru_stime) - seconds(before.ru_stime);
        if (took < clock)
            clock = took;
        if (used < processor)
            processor = used;
    }
    printf("%.4f %.4f\n", clock, processor);
    return 0;
}
