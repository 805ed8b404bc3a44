/* Makes the calls of a program that move bytes hostile: with FAULTS=short each moves one byte, with FAULTS=again one in two
   is interrupted, by a fixed chance, with FAULTS=both it is both. With BAD_SEEK=N the Nth seek fails. It is loaded before the
   C library. */
#define _GNU_SOURCE
#include <dlfcn.h>
#include <errno.h>
#include <stdlib.h>
#include <string.h>
#include <sys/socket.h>
#include <sys/types.h>
#include <sys/uio.h>

static int is_short = -1, is_again;
static unsigned long chance = 28;

static int is_interrupted(void)
{
    if (is_short < 0) {
        const char *told = getenv("FAULTS");
        is_again = told && (!strcmp(told, "again") || !strcmp(told, "both"));
        is_short = told && (!strcmp(told, "short") || !strcmp(told, "both"));
    }
    chance = chance * 6364136223846793005ul + 1442695040888963407ul;
    if (is_again && chance >> 63) {
        errno = EINTR;
        return 1;
    }
    return 0;
}

static size_t most(size_t size)
{
    return is_short && size > 1 ? 1 : size;
}

#define NEXT(name) ((__typeof__(&name))dlsym(RTLD_NEXT, #name))

ssize_t read(int from, void *at, size_t size)
{
    return is_interrupted() ? -1 : NEXT(read)(from, at, most(size));
}

ssize_t write(int to, const void *at, size_t size)
{
    return is_interrupted() ? -1 : NEXT(write)(to, at, most(size));
}

ssize_t recv(int from, void *at, size_t size, int flags)
{
    return is_interrupted() ? -1 : NEXT(recv)(from, at, most(size), flags);
}

ssize_t send(int to, const void *at, size_t size, int flags)
{
    return is_interrupted() ? -1 : NEXT(send)(to, at, most(size), flags);
}

int accept4(int at, struct sockaddr *who, socklen_t *size, int flags)
{
    return is_interrupted() ? -1 : NEXT(accept4)(at, who, size, flags);
}

int accept(int at, struct sockaddr *who, socklen_t *size)
{
    return is_interrupted() ? -1 : NEXT(accept)(at, who, size);
}

static int is_bad_seek(void)
{
    static long seeks;
    const char *told = getenv("BAD_SEEK");
    if (told && ++seeks == atol(told)) {
        errno = EIO;
        return 1;
    }
    return 0;
}

off_t lseek(int in, off_t by, int from)
{
    return is_bad_seek() ? -1 : NEXT(lseek)(in, by, from);
}

off64_t lseek64(int in, off64_t by, int from)
{
    return is_bad_seek() ? -1 : NEXT(lseek64)(in, by, from);
}
