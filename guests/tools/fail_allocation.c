/* Preloaded into a program, it makes one allocation fail: the one whose number FAIL_ALLOCATION gives, counted from 1.
   Then the file that FAIL_ALLOCATION_TOLD names is made. */
#define _GNU_SOURCE
#include <dlfcn.h>
#include <fcntl.h>
#include <stdlib.h>
#include <unistd.h>

static long count;

static int fails(void)
{
    const char *number = getenv("FAIL_ALLOCATION");
    if (!number || __atomic_add_fetch(&count, 1, __ATOMIC_RELAXED) != atol(number))
        return 0;
    const char *told = getenv("FAIL_ALLOCATION_TOLD");
    if (told)
        close(open(told, O_CREAT | O_WRONLY, 0666));
    return 1;
}

void *malloc(size_t size)
{
    void *(*next)(size_t) = dlsym(RTLD_NEXT, "malloc");
    return fails() ? NULL : next(size);
}

void *realloc(void *old, size_t size)
{
    void *(*next)(void *, size_t) = dlsym(RTLD_NEXT, "realloc");
    return fails() ? NULL : next(old, size);
}
