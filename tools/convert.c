/* Converts the archive on standard input, and writes the new archive to a file.

       convert forward OUT     makes an archive of version 1 or 2 one of version 3
       convert back OUT        makes an archive of version 3 one of version 1 or 2

   Prints `refused` and the number where the conversion is refused, else nothing. ./wimboru has found that OUT is a plain file or is
   not there. The archive goes to a new file in the folder of OUT, which takes the place of OUT when all of it is on the disk. So
   OUT has the whole archive or is as it was, and nothing else is left in its folder. Exit status: 0 written or refused, 2 wrong
   usage, 3 the input could not be read or OUT could not be written. */
#define _POSIX_C_SOURCE 200809L
#include "input.h"
#include "wimboru.h"

#include <errno.h>
#include <fcntl.h>
#include <inttypes.h>
#include <signal.h>
#include <stdlib.h>
#include <string.h>
#include <unistd.h>

enum {
    DONE = 0,
    WRONG_USAGE = 2,
    FAILED = 3,
    NAME_BYTES = 64, /* more than the name of a new file has */
    NAMES = 1000,    /* that are tried for it */
};

typedef int64_t conversion(const uint8_t *, size_t, uint8_t *, size_t);

/* The conversion of a name, or NULL. */
static conversion *named(const char *name)
{
    if (strcmp(name, "forward") == 0) {
        return region_archive_forward;
    }
    return strcmp(name, "back") == 0 ? region_archive_back : NULL;
}

/* Makes a file in the folder of another one, under a name that no file there has. The path has NAME_BYTES more than the other. */
static int create_beside(const char *out, char *path)
{
    const char *slash = strrchr(out, '/');
    const size_t folder = slash == NULL ? 0 : (size_t)(slash - out) + 1;
    memcpy(path, out, folder);
    for (int i = 0; i < NAMES; i++) {
        snprintf(path + folder, NAME_BYTES, ".wimboru-%ld-%d", (long)getpid(), i);
        const int file = open(path, O_WRONLY | O_CREAT | O_EXCL, 0666);
        if (file >= 0 || errno != EEXIST) {
            return file;
        }
    }
    return -1;
}

static bool write_all(int file, const uint8_t *bytes, size_t length)
{
    while (length > 0) {
        const ssize_t count = write(file, bytes, length);
        if (count <= 0) {
            return false;
        }
        bytes += count;
        length -= (size_t)count;
    }
    return true;
}

/* Gives a new file its bytes, flushes them to the disk and closes it. */
static bool fill(int file, const uint8_t *bytes, size_t length)
{
    const bool flushed = write_all(file, bytes, length) && fsync(file) == 0;
    return close(file) == 0 && flushed;
}

/* Puts a new file in the place of OUT, or leaves OUT and removes the new file. */
static bool replace(const char *out, char *path, const uint8_t *bytes, size_t length)
{
    const int file = create_beside(out, path);
    if (file < 0) {
        return false;
    }
    if (fill(file, bytes, length) && rename(path, out) == 0) {
        return true;
    }
    const int reason = errno;
    unlink(path);
    errno = reason;
    return false;
}

/* No signal may end the program while the new file is there. All are held back until the program ends. */
static void hold_signals(void)
{
    sigset_t all;
    sigfillset(&all);
    sigprocmask(SIG_SETMASK, &all, NULL);
}

static int write_out(const char *out, const uint8_t *bytes, size_t length)
{
    char *path = malloc(strlen(out) + NAME_BYTES);
    hold_signals();
    const bool written = path != NULL && replace(out, path, bytes, length);
    if (!written) {
        fprintf(stderr, "convert: %s could not be written: %s\n", out, strerror(errno));
    }
    free(path);
    return written ? DONE : FAILED;
}

static int convert(conversion *call, struct input input, const char *out)
{
    static uint8_t image[REGION_LONGEST_IMAGE];
    const int64_t answer = call(input.bytes, input.length, image, sizeof image);
    if (answer < 0) {
        printf("refused %" PRId64 "\n", -answer);
        return DONE;
    }
    return write_out(out, image, (size_t)answer);
}

int main(int argc, char **argv)
{
    conversion *call = argc == 3 ? named(argv[1]) : NULL;
    if (call == NULL) {
        fprintf(stderr, "usage: convert forward|back OUT < FILE\n");
        return WRONG_USAGE;
    }
    struct input input;
    int status = FAILED;
    if (read_all(&input, stdin)) {
        status = convert(call, input, argv[2]);
    } else {
        fprintf(stderr, "convert: standard input could not be read\n");
    }
    free(input.bytes);
    return status;
}
