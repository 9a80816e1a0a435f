/* Fails calls of a program on the files of the folder FAIL_UNDER: its reads, writes and syncs, which are counted from 1 on over all
 * threads. The call of number FAIL_CALL fails with the system's error FAIL_WITH; where that is 0 it moves half of its bytes, and one at
 * least. Where FAIL_STAYS is set each later call of the same kind fails so, too. A line on descriptor FAIL_TO names each call that failed
 * and its file, and the last one says how many calls there were. It is preloaded with LD_PRELOAD. */
#define _GNU_SOURCE
#include <errno.h>
#include <stdatomic.h>
#include <stdio.h>
#include <stdlib.h>
#include <string.h>
#include <sys/syscall.h>
#include <unistd.h>

enum kind { READ, WRITE, SYNC };
static const char *const names[] = { "read", "write", "sync" };
static atomic_long calls;
static atomic_int stuck = -1;
static long wanted;
static int error, stays, to = -1;
static const char *under = "";

__attribute__((constructor)) static void begin(void)
{
	const char *word = getenv("FAIL_UNDER");
	if (word == NULL || getenv("FAIL_TO") == NULL)
		return;
	under = word;
	to = atoi(getenv("FAIL_TO"));
	wanted = getenv("FAIL_CALL") == NULL ? 0 : atol(getenv("FAIL_CALL"));
	error = getenv("FAIL_WITH") == NULL ? EIO : atoi(getenv("FAIL_WITH"));
	stays = getenv("FAIL_STAYS") != NULL;
}

/* Writes a line to the descriptor that FAIL_TO names. */
static void tell(const char *line, int length)
{
	if (to >= 0 && syscall(SYS_write, to, line, (size_t)length) < 0)
		syscall(SYS_exit_group, 99);
}

__attribute__((destructor)) static void end(void)
{
	char line[64];
	tell(line, snprintf(line, sizeof line, "calls %ld\n", atomic_load(&calls)));
	to = -1;
}

/* A program with threads ends here. */
void _exit(int status)
{
	end();
	for (;;)
		syscall(SYS_exit_group, status);
}

/* Whether this call of a file is one to fail. */
static int fails(enum kind kind, int file)
{
	char link[64], path[4096], line[4200];
	ssize_t length;
	if (to < 0 || file <= 2 || file == to)
		return 0;
	snprintf(link, sizeof link, "/proc/self/fd/%d", file);
	length = readlink(link, path, sizeof path - 1);
	if (length < 0)
		return 0;
	path[length] = 0;
	if (strncmp(path, under, strlen(under)) != 0)
		return 0;
	long number = atomic_fetch_add(&calls, 1) + 1;
	if (number == wanted && stays)
		atomic_store(&stuck, (int)kind);
	if (number != wanted && (int)kind != atomic_load(&stuck))
		return 0;
	tell(line, snprintf(line, sizeof line, "%s %ld %s\n", names[kind], number, path));
	return 1;
}

/* The answer of a read or a write: as the system gives it, but where it is to fail. */
static ssize_t moved(enum kind kind, int file, long call, const void *at, size_t count, off_t place)
{
	if (fails(kind, file)) {
		if (error != 0) {
			errno = error;
			return -1;
		}
		count -= count / 2;
	}
	return syscall(call, file, at, count, place);
}

ssize_t read(int file, void *to, size_t count) { return moved(READ, file, SYS_read, to, count, 0); }
ssize_t write(int file, const void *from, size_t count) { return moved(WRITE, file, SYS_write, from, count, 0); }
ssize_t pread(int file, void *to, size_t count, off_t at) { return moved(READ, file, SYS_pread64, to, count, at); }
ssize_t pread64(int file, void *to, size_t count, off64_t at) { return moved(READ, file, SYS_pread64, to, count, at); }
ssize_t pwrite(int file, const void *from, size_t count, off_t at) { return moved(WRITE, file, SYS_pwrite64, from, count, at); }
ssize_t pwrite64(int file, const void *from, size_t count, off64_t at) { return moved(WRITE, file, SYS_pwrite64, from, count, at); }

/* The answer of a sync. */
static int synced(int file, long call)
{
	if (fails(SYNC, file)) {
		errno = error == 0 ? EIO : error;
		return -1;
	}
	return (int)syscall(call, file);
}

int fsync(int file) { return synced(file, SYS_fsync); }
int fdatasync(int file) { return synced(file, SYS_fdatasync); }
