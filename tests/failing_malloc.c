/* Refuses the FAIL_ALLOC-th allocation that the program itself makes, and no other, and makes the file FAIL_ALLOC_MARK then,
   where that is named. It is loaded before the C library. */
#define _GNU_SOURCE
#include <dlfcn.h>
#include <fcntl.h>
#include <stdlib.h>
#include <string.h>
#include <unistd.h>

static long wanted = -1;
static long seen = 0;

/* Whether the file of that path is one of the two programs, or the tests of worlds. */
static int is_program(const char *path)
{
    const char *name = strrchr(path, '/');
    name = name ? name + 1 : path;
    return strstr(name, "scanimage") || !strcmp(name, "saned") || !strcmp(name, "world_tests_tests");
}

static int refuses(void)
{
    const char *mark = getenv("FAIL_ALLOC_MARK");
    if (mark)
        close(open(mark, O_CREAT | O_WRONLY, 0600));
    return 1;
}

static int is_refused(void *caller)
{
    Dl_info from;
    if (wanted < 0) {
        const char *told = getenv("FAIL_ALLOC");
        wanted = told ? atol(told) : 0;
    }
    if (!dladdr(caller, &from) || !from.dli_fname || !is_program(from.dli_fname))
        return 0;
    return ++seen == wanted && refuses();
}

void *malloc(size_t size)
{
    static void *(*next)(size_t);
    if (!next)
        next = (void *(*)(size_t))dlsym(RTLD_NEXT, "malloc");
    return is_refused(__builtin_return_address(0)) ? 0 : next(size);
}

void *realloc(void *at, size_t size)
{
    static void *(*next)(void *, size_t);
    if (!next)
        next = (void *(*)(void *, size_t))dlsym(RTLD_NEXT, "realloc");
    return is_refused(__builtin_return_address(0)) ? 0 : next(at, size);
}
