/* A library that is loaded before the C library's and fails one call of the system: the one of the number, counted from
   1, among those of the kind in the environment's FAILED, as "read 3". Kinds are `read`, of standard input; `write`, to
   standard output; and `disk`, whatever is done with another file. All other calls are the C library's, but that of
   standard input and to standard output at most so many bytes are taken at once as PIECES of the environment says. */
#define _GNU_SOURCE
#include <dlfcn.h>
#include <errno.h>
#include <fcntl.h>
#include <stdarg.h>
#include <stdlib.h>
#include <string.h>
#include <sys/file.h>
#include <sys/stat.h>
#include <unistd.h>

enum kind { READ, WRITE, DISK, NONE };

static const char *const NAMES[] = {"read", "write", "disk"};
static int begun;
static enum kind chosen = NONE;
static unsigned long left;
static size_t most;

static void begin(void)
{
    const char *failed = getenv("FAILED"), *pieces = getenv("PIECES");
    most = pieces ? strtoul(pieces, NULL, 10) : 0;
    begun = 1;
    for (int i = READ; failed && i < NONE; i++) {
        size_t length = strlen(NAMES[i]);
        if (strncmp(failed, NAMES[i], length) == 0 && failed[length] == ' ') {
            chosen = i;
            left = strtoul(failed + length, NULL, 10);
        }
    }
}

static int fails(enum kind kind)
{
    if (!begun)
        begin();
    if (kind != chosen || left == 0 || --left != 0)
        return 0;
    errno = EIO;
    return 1;
}

/* How many bytes of so many are taken at once. */
static size_t piece(int file, size_t size) { return file <= 2 && most && size > most ? most : size; }

/* What a call on this file is; of the standard streams only the reads and writes count. */
static enum kind on(int file, enum kind standard) { return file > 2 ? DISK : standard; }

#define NEXT(name) ((__typeof__(&name))dlsym(RTLD_NEXT, #name))

ssize_t read(int file, void *to, size_t size)
{
    return fails(on(file, file == 0 ? READ : NONE)) ? -1 : NEXT(read)(file, to, piece(file, size));
}

ssize_t write(int file, const void *from, size_t size)
{
    return fails(on(file, file == 1 ? WRITE : NONE)) ? -1 : NEXT(write)(file, from, piece(file, size));
}

ssize_t __write(int file, const void *from, size_t size) { return write(file, from, size); }

off_t lseek(int file, off_t to, int from) { return fails(on(file, NONE)) ? -1 : NEXT(lseek)(file, to, from); }

int fsync(int file) { return fails(on(file, NONE)) ? -1 : NEXT(fsync)(file); }

int fdatasync(int file) { return fails(on(file, NONE)) ? -1 : NEXT(fdatasync)(file); }

int ftruncate(int file, off_t size) { return fails(on(file, NONE)) ? -1 : NEXT(ftruncate)(file, size); }

int flock(int file, int how) { return fails(on(file, NONE)) ? -1 : NEXT(flock)(file, how); }

int fchmod(int file, mode_t mode) { return fails(on(file, NONE)) ? -1 : NEXT(fchmod)(file, mode); }

int open(const char *path, int how, ...)
{
    va_list more;
    va_start(more, how);
    mode_t mode = how & O_CREAT ? va_arg(more, mode_t) : 0;
    va_end(more);
    return fails(DISK) ? -1 : NEXT(open)(path, how, mode);
}
