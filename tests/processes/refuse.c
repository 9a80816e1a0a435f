/* Refuses one allocation of a program: the one of number REFUSE, counted from 0, between an open of "/refuse/on" and one of
 * "/refuse/off", or from the start where REFUSE_FROM_START is set. At the end it says on descriptor REFUSE_TO whether one was
 * refused. Where REFUSE_WRITES is set, no block of a file is written; where REFUSE_LENGTH is set, a file gets this many bytes more than
 * are asked for. It is preloaded with LD_PRELOAD. */
#define _GNU_SOURCE
#include <dlfcn.h>
#include <errno.h>
#include <fcntl.h>
#include <stdarg.h>
#include <stdatomic.h>
#include <stdlib.h>
#include <string.h>
#include <sys/syscall.h>
#include <unistd.h>

extern void *__libc_malloc(size_t size);
extern void *__libc_calloc(size_t count, size_t size);
extern void *__libc_realloc(void *old, size_t size);
extern void *__libc_memalign(size_t align, size_t size);

static atomic_int counting;
static atomic_long left = -1;
static atomic_int met;

/* Whether this allocation is the one to refuse. */
static int refused(void)
{
	if (!atomic_load(&counting))
		return 0;
	if (atomic_fetch_sub(&left, 1) != 0)
		return 0;
	atomic_store(&met, 1);
	errno = ENOMEM;
	return 1;
}

void *malloc(size_t size) { return refused() ? NULL : __libc_malloc(size); }
void *calloc(size_t count, size_t size) { return refused() ? NULL : __libc_calloc(count, size); }
void *realloc(void *old, size_t size) { return refused() ? NULL : __libc_realloc(old, size); }
void *aligned_alloc(size_t align, size_t size) { return refused() ? NULL : __libc_memalign(align, size); }
void *memalign(size_t align, size_t size) { return refused() ? NULL : __libc_memalign(align, size); }

int posix_memalign(void **at, size_t align, size_t size)
{
	void *got = refused() ? NULL : __libc_memalign(align, size);
	if (got == NULL)
		return ENOMEM;
	*at = got;
	return 0;
}

/* Writes to the descriptor that REFUSE_TO names whether one was refused. */
static void tell(void)
{
	const char *to = getenv("REFUSE_TO");
	const char *line = atomic_load(&met) ? "refused\n" : "none\n";
	if (to != NULL && write(atoi(to), line, strlen(line)) < 0)
		syscall(SYS_exit_group, 99);
}

__attribute__((constructor)) static void begin(void)
{
	const char *number = getenv("REFUSE");
	if (number != NULL)
		atomic_store(&left, atol(number));
	if (number != NULL && getenv("REFUSE_FROM_START") != NULL)
		atomic_store(&counting, 1);
}

__attribute__((destructor)) static void end(void)
{
	atomic_store(&counting, 0);
	tell();
}

/* A program with threads ends here. */
void _exit(int status)
{
	end();
	for (;;)
		syscall(SYS_exit_group, status);
}

/* Answers for the two paths, and 0 for any other one. */
static int marked(const char *path)
{
	if (strcmp(path, "/refuse/on") == 0)
		atomic_store(&counting, 1);
	else if (strcmp(path, "/refuse/off") == 0)
		atomic_store(&counting, 0);
	else
		return 0;
	errno = ENOENT;
	return 1;
}

static int opened(const char *name, const char *path, int flags, mode_t mode)
{
	int (*real)(const char *, int, ...) = (int (*)(const char *, int, ...))dlsym(RTLD_NEXT, name);
	return real(path, flags, mode);
}

int open(const char *path, int flags, ...)
{
	va_list more;
	va_start(more, flags);
	mode_t mode = va_arg(more, mode_t);
	va_end(more);
	return marked(path) ? -1 : opened("open", path, flags, mode);
}

int open64(const char *path, int flags, ...)
{
	va_list more;
	va_start(more, flags);
	mode_t mode = va_arg(more, mode_t);
	va_end(more);
	return marked(path) ? -1 : opened("open64", path, flags, mode);
}

ssize_t pwrite64(int file, const void *from, size_t count, off64_t at)
{
	if (getenv("REFUSE_WRITES") == NULL)
		return syscall(SYS_pwrite64, file, from, count, at);
	errno = EIO;
	return -1;
}

ssize_t pwrite(int file, const void *from, size_t count, off_t at) { return pwrite64(file, from, count, at); }

int ftruncate64(int file, off64_t length)
{
	const char *more = getenv("REFUSE_LENGTH");
	return syscall(SYS_ftruncate, file, length + (more == NULL ? 0 : atol(more)));
}

int ftruncate(int file, off_t length) { return ftruncate64(file, length); }
