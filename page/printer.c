/* The card printer as a program for the page: where the proved program starts, and the functions of a system that it
 * calls, with the lengths that it has on any processor. */
#include <errno.h>
#include <stdint.h>
#include <string.h>
#include <unistd.h>

extern int32_t rattle_start(void);

int64_t rattle_read(int32_t fd, void *bytes, int64_t length)
{
    return read(fd, bytes, (size_t)length);
}

int64_t rattle_write(int32_t fd, const void *bytes, int64_t length)
{
    return write(fd, bytes, (size_t)length);
}

/* The number of what failed last, and its text. */
int32_t rattle_errno(void)
{
    return errno;
}

int32_t rattle_strerror_r(int32_t number, char *text, int64_t length)
{
    return strerror_r(number, text, (size_t)length);
}

int main(void)
{
    return rattle_start();
}
