/* Loaded before the C library: of the calls of the function named by FAILING_CALL (fchmod, fsync, ftruncate, rename, unlink
 * or lseek) the one whose number is in FAILING_AT, from 1, fails: as on a disk that is broken, or where FAILING_ERROR is set
 * with the error of this number. */
#define _GNU_SOURCE
#include <dlfcn.h>
#include <errno.h>
#include <stdlib.h>
#include <string.h>
#include <sys/stat.h>
#include <sys/types.h>

static int fails(const char *name)
{
    static long made;
    const char *call = getenv("FAILING_CALL"), *at = getenv("FAILING_AT");
    if (!call || !at || strcmp(call, name) || ++made != atol(at))
        return 0;
    errno = getenv("FAILING_ERROR") ? atoi(getenv("FAILING_ERROR")) : EIO;
    return 1;
}

int fchmod(int file, mode_t mode)
{
    int (*call)(int, mode_t) = (int (*)(int, mode_t))dlsym(RTLD_NEXT, "fchmod");
    return fails("fchmod") ? -1 : call(file, mode);
}

int fsync(int file)
{
    int (*call)(int) = (int (*)(int))dlsym(RTLD_NEXT, "fsync");
    return fails("fsync") ? -1 : call(file);
}

int ftruncate(int file, off_t length)
{
    int (*call)(int, off_t) = (int (*)(int, off_t))dlsym(RTLD_NEXT, "ftruncate");
    return fails("ftruncate") ? -1 : call(file, length);
}

int rename(const char *from, const char *to)
{
    int (*call)(const char *, const char *) = (int (*)(const char *, const char *))dlsym(RTLD_NEXT, "rename");
    return fails("rename") ? -1 : call(from, to);
}

int unlink(const char *path)
{
    int (*call)(const char *) = (int (*)(const char *))dlsym(RTLD_NEXT, "unlink");
    return fails("unlink") ? -1 : call(path);
}

off_t lseek(int file, off_t offset, int whence)
{
    off_t (*call)(int, off_t, int) = (off_t (*)(int, off_t, int))dlsym(RTLD_NEXT, "lseek");
    return fails("lseek") ? -1 : call(file, offset, whence);
}
