/* A read of standard input that answers at most so many bytes, and from one call on fails so many times with an error; a write to standard error that does. */
#define _GNU_SOURCE
#include <errno.h>
#include <stdlib.h>
#include <sys/syscall.h>
#include <unistd.h>

/* What the environment says, or 0. */
static unsigned long setting(const char *name)
{
    const char *text = getenv(name);
    return text ? strtoul(text, NULL, 10) : 0;
}

ssize_t read(int fd, void *buffer, size_t size)
{
    static unsigned long calls;
    if (fd == STDIN_FILENO) {
        unsigned long first = setting("READ_FIRST");
        unsigned long most = setting("READ_MOST");
        calls++;
        if (first && calls >= first && calls - first < setting("READ_TIMES")) {
            errno = (int)setting("READ_ERROR");
            return -1;
        }
        if (most && size > most)
            size = most;
    }
    return syscall(SYS_read, fd, buffer, size);
}

ssize_t write(int fd, const void *buffer, size_t size)
{
    static unsigned long calls;
    if (fd == STDERR_FILENO) {
        unsigned long first = setting("TELL_FIRST");
        calls++;
        if (first && calls >= first && calls - first < setting("TELL_TIMES")) {
            errno = (int)setting("TELL_ERROR");
            return -1;
        }
    }
    return syscall(SYS_write, fd, buffer, size);
}
