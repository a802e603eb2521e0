/* Stands between a program and C's read and write (LD_PRELOAD) and lets them fall short or fail. READS and WRITES have a letter for each call, and
   begin anew at their end: `.` as it is, `h` half as many bytes, `1` one byte, `i` interrupted by a signal, `e` failed. WRITES is for standard
   output alone. */
#define _GNU_SOURCE
#include <errno.h>
#include <stdlib.h>
#include <sys/syscall.h>
#include <unistd.h>

struct plan {
    const char *name;
    size_t calls;
};

/* The letter for the next call. */
static char next_letter(struct plan *plan)
{
    const char *letters = getenv(plan->name);
    if (!letters || !*letters)
        return '.';
    if (!letters[plan->calls])
        plan->calls = 0;
    return letters[plan->calls++];
}

static ssize_t call(long number, char letter, int fd, const void *bytes, size_t count)
{
    if (letter == 'i' || letter == 'e') {
        errno = letter == 'i' ? EINTR : EIO;
        return -1;
    }
    if (letter == '1' && count > 1)
        count = 1;
    if (letter == 'h' && count > 1)
        count /= 2;
    return syscall(number, fd, bytes, count);
}

ssize_t read(int fd, void *bytes, size_t count)
{
    static struct plan plan = {"READS", 0};
    return call(SYS_read, next_letter(&plan), fd, bytes, count);
}

ssize_t write(int fd, const void *bytes, size_t count)
{
    static struct plan plan = {"WRITES", 0};
    return call(SYS_write, fd == STDOUT_FILENO ? next_letter(&plan) : '.', fd, bytes, count);
}
