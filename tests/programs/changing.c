/* Changes a file while a program reads it, at the same place each time: a library that is loaded before the C library
 * (LD_PRELOAD), so that its read is the one that the program calls. In the environment are
 *
 *     CHANGING   the file's name
 *     SHARE      a read of it gives at most so many bytes
 *     READS      after so many reads of it, it changes
 *     BECOMES    the name of a file: it has that one's bytes then. If this is not set, reading it fails from then on */
#define _GNU_SOURCE
#include <errno.h>
#include <fcntl.h>
#include <stdlib.h>
#include <sys/stat.h>
#include <sys/syscall.h>
#include <unistd.h>

enum { MOST_BYTES = 65536 };

static long reads;

static long number(const char *name)
{
    return atol(getenv(name));
}

static ssize_t system_read(int file, void *bytes, size_t size)
{
    return syscall(SYS_read, file, bytes, size);
}

static int is_the_one(int file)
{
    struct stat its, sought;
    return fstat(file, &its) == 0 && stat(getenv("CHANGING"), &sought) == 0 && its.st_dev == sought.st_dev &&
           its.st_ino == sought.st_ino;
}

static int is_time(void)
{
    return reads == number("READS");
}

static void change(void)
{
    static char bytes[MOST_BYTES];
    int from = open(getenv("BECOMES"), O_RDONLY), to = open(getenv("CHANGING"), O_WRONLY | O_TRUNC);
    ssize_t count = system_read(from, bytes, sizeof bytes);
    if (count < 0 || write(to, bytes, (size_t)count) != count)
        abort();
    close(from);
    close(to);
}

ssize_t read(int file, void *bytes, size_t size)
{
    if (!is_the_one(file))
        return system_read(file, bytes, size);
    if (!getenv("BECOMES") && is_time()) {
        errno = EIO;
        return -1;
    }
    if (reads == 0 && is_time())
        change();
    size_t share = (size_t)number("SHARE");
    ssize_t count = system_read(file, bytes, size < share ? size : share);
    reads++;
    if (getenv("BECOMES") && is_time())
        change();
    return count;
}
