/* For report_files.py and night_files.py, loaded before the C library: every other read is interrupted and the others give at most 5
 * bytes; a write takes at most 3. */
#define _GNU_SOURCE
#include <errno.h>
#include <sys/syscall.h>
#include <unistd.h>

static unsigned reads;

static size_t at_most(size_t most, size_t size)
{
    return size < most ? size : most;
}

ssize_t read(int fd, void *bytes, size_t size)
{
    if (reads++ % 2 == 0) {
        errno = EINTR;
        return -1;
    }
    return syscall(SYS_read, fd, bytes, at_most(5, size));
}

ssize_t write(int fd, const void *bytes, size_t size)
{
    return syscall(SYS_write, fd, bytes, at_most(3, size));
}
