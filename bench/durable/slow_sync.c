/* In front of the system's fdatasync and fsync: each takes SYNC_MICROS longer, and the file SYNC_COUNT counts them, in eight bytes. */
#define _GNU_SOURCE
#include <dlfcn.h>
#include <fcntl.h>
#include <stdlib.h>
#include <sys/mman.h>
#include <time.h>
#include <unistd.h>

static long none, *syncs = &none;

__attribute__((constructor)) static void begin(void) {
    const char *name = getenv("SYNC_COUNT");
    int fd = name ? open(name, O_RDWR | O_CREAT, 0600) : -1;
    if (fd < 0 || ftruncate(fd, sizeof *syncs))
        return;
    void *shared = mmap(NULL, sizeof *syncs, PROT_READ | PROT_WRITE, MAP_SHARED, fd, 0);
    if (shared != MAP_FAILED)
        syncs = shared;
}

static int slowly(const char *name, int fd) {
    const char *micros = getenv("SYNC_MICROS");
    struct timespec delay = {0, micros ? atol(micros) * 1000 : 0};
    __atomic_add_fetch(syncs, 1, __ATOMIC_SEQ_CST);
    if (delay.tv_nsec)
        nanosleep(&delay, NULL);
    return ((int (*)(int))dlsym(RTLD_NEXT, name))(fd);
}

int fdatasync(int fd) { return slowly("fdatasync", fd); }

int fsync(int fd) { return slowly("fsync", fd); }
