/* Preloaded under the program: refuses the allocation, read or write whose number REFUSE_NUMBER gives, counted from 1,
   and moves at most REFUSE_PIECE bytes a read or write. REFUSE_TIMES calls in a row are refused, else one. A refused read or
   write fails, or is interrupted under REFUSE_HOW=interrupt, or takes no byte under REFUSE_HOW=empty.
   It writes one byte to descriptor 9 where it refused a call. */
#define _GNU_SOURCE
#include <dlfcn.h>
#include <errno.h>
#include <stdlib.h>
#include <string.h>
#include <sys/syscall.h>
#include <unistd.h>

static int refused(const char *kind)
{
	static long calls;
	const char *want = getenv("REFUSE_KIND");
	const char *number = getenv("REFUSE_NUMBER");
	const char *times = getenv("REFUSE_TIMES");
	if (want == NULL || number == NULL || strcmp(want, kind) != 0)
		return 0;
	calls += 1;
	if (calls < atol(number) || calls >= atol(number) + (times == NULL ? 1 : atol(times)))
		return 0;
	syscall(SYS_write, 9, "x", 1);
	return 1;
}

/* What a refused read or write answers. */
static ssize_t refusal(void)
{
	const char *how = getenv("REFUSE_HOW");
	if (how != NULL && strcmp(how, "empty") == 0)
		return 0;
	errno = how != NULL && strcmp(how, "interrupt") == 0 ? EINTR : EIO;
	return -1;
}

static size_t piece(size_t count)
{
	const char *most = getenv("REFUSE_PIECE");
	size_t bound = most == NULL ? 0 : (size_t)atol(most);
	return bound > 0 && bound < count ? bound : count;
}

void *malloc(size_t size)
{
	static void *(*next)(size_t);
	if (next == NULL)
		next = (void *(*)(size_t))dlsym(RTLD_NEXT, "malloc");
	return refused("alloc") ? NULL : next(size);
}

void *realloc(void *at, size_t size)
{
	static void *(*next)(void *, size_t);
	if (next == NULL)
		next = (void *(*)(void *, size_t))dlsym(RTLD_NEXT, "realloc");
	return refused("alloc") ? NULL : next(at, size);
}

ssize_t read(int file, void *at, size_t count)
{
	if (refused("read"))
		return refusal();
	return syscall(SYS_read, file, at, piece(count));
}

ssize_t write(int file, const void *at, size_t count)
{
	if (refused("write"))
		return refusal();
	return syscall(SYS_write, file, at, piece(count));
}
