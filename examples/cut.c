/* Cuts the power of a program at one of its writes, to be loaded before it: CUT_AT=3 ends it at the third call that changes
 * something on the medium. Half of a write is done before. What the program still held is lost, as with a cut.
 * What this cannot show is a medium that does not keep what fsync brought to it. */
#define _GNU_SOURCE
#include <dlfcn.h>
#include <stdlib.h>
#include <sys/types.h>
#include <unistd.h>

/* Whether the power goes at this call. */
static int is_cut(void)
{
    static long calls;
    const char *at = getenv("CUT_AT");

    return at && ++calls == strtol(at, NULL, 10);
}

static void *next(const char *name)
{
    void *function = dlsym(RTLD_NEXT, name);

    if (!function)
        _exit(3);
    return function;
}

ssize_t pwrite(int file, const void *bytes, size_t length, off_t at)
{
    ssize_t (*real)(int, const void *, size_t, off_t);

    *(void **)&real = next("pwrite");
    if (is_cut()) {
        real(file, bytes, length / 2, at);
        _exit(9);
    }
    return real(file, bytes, length, at);
}

int fsync(int file)
{
    int (*real)(int);

    *(void **)&real = next("fsync");
    if (is_cut())
        _exit(9);
    return real(file);
}

int renameat(int from_folder, const char *from, int to_folder, const char *to)
{
    int (*real)(int, const char *, int, const char *);

    *(void **)&real = next("renameat");
    if (is_cut())
        _exit(9);
    return real(from_folder, from, to_folder, to);
}
