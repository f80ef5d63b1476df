/* Notes what a program does with one file and what it prints, and kills it at a moment, to be loaded before the C library. The file is the one that
   FILE_NAME names. A moment is a pread, a pwrite or an fsync of it, an fsync of its folder, or a write to standard output, and they are counted together
   from 1. With FILE_KILL_AT the program is killed at the moment of this number, where FILE_KILL_HOW is `before` before it is done, `within` when half of
   its bytes are written, and else behind it. With FILE_RECORD each moment that didn't fail is put down in the file of this name: a letter (r a pread, w a
   pwrite, s an fsync, f one of the folder, p a print), its offset and its length in eight bytes each, the low one first, and the bytes that were written.
   With FILE_COUNT the number of moments is written to standard error at the end. */
#define _GNU_SOURCE
#include <dlfcn.h>
#include <errno.h>
#include <fcntl.h>
#include <libgen.h>
#include <limits.h>
#include <signal.h>
#include <stdint.h>
#include <stdio.h>
#include <stdlib.h>
#include <string.h>
#include <sys/stat.h>
#include <sys/types.h>
#include <sys/uio.h>
#include <unistd.h>

static long moments, kill_at;
static int before, within, record = -1;

static ssize_t (*system_write)(int, const void *, size_t);
static ssize_t (*system_pread)(int, void *, size_t, off_t);
static ssize_t (*system_pwrite)(int, const void *, size_t, off_t);
static int (*system_fsync)(int);

__attribute__((constructor)) static void begin(void) {
    const char *name = getenv("FILE_RECORD"), *at = getenv("FILE_KILL_AT"), *how = getenv("FILE_KILL_HOW");
    system_write = (ssize_t (*)(int, const void *, size_t))dlsym(RTLD_NEXT, "write");
    system_pread = (ssize_t (*)(int, void *, size_t, off_t))dlsym(RTLD_NEXT, "pread");
    system_pwrite = (ssize_t (*)(int, const void *, size_t, off_t))dlsym(RTLD_NEXT, "pwrite");
    system_fsync = (int (*)(int))dlsym(RTLD_NEXT, "fsync");
    kill_at = at ? atol(at) : 0;
    before = how && !strcmp(how, "before");
    within = how && !strcmp(how, "within");
    if (name) record = open(name, O_WRONLY | O_CREAT | O_TRUNC | O_CLOEXEC, 0600);
}

__attribute__((destructor)) static void end(void) {
    if (getenv("FILE_COUNT")) fprintf(stderr, "%ld\n", moments);
}

static int is_open_as(int file, const char *name) {
    struct stat here, there;
    int error = errno;
    int is = !fstat(file, &here) && !stat(name, &there) && here.st_dev == there.st_dev && here.st_ino == there.st_ino;
    errno = error;
    return is;
}

static int is_the_file(int file) {
    const char *name = getenv("FILE_NAME");
    return name && is_open_as(file, name);
}

static int is_its_folder(int file) {
    const char *name = getenv("FILE_NAME");
    char copy[PATH_MAX];
    if (!name || strlen(name) >= sizeof copy) return 0;
    return is_open_as(file, dirname(strcpy(copy, name)));
}

/* A moment begins: how many of its bytes are still to be written, where the program is killed within it. */
static size_t begins(size_t length) {
    ++moments;
    if (moments != kill_at) return length;
    if (before) raise(SIGKILL);
    return within ? length / 2 : length;
}

static void ends(void) {
    if (moments == kill_at) raise(SIGKILL);
}

static void number(unsigned char *out, uint64_t value) {
    for (int i = 0; i < 8; ++i) out[i] = (unsigned char)(value >> 8 * i);
}

static void note(char what, uint64_t at, const void *bytes, size_t length) {
    unsigned char head[17] = {(unsigned char)what};
    int error = errno;
    if (record < 0) return;
    number(head + 1, at);
    number(head + 9, length);
    if (system_write(record, head, sizeof head) != (ssize_t)sizeof head || (length && system_write(record, bytes, length) != (ssize_t)length)) abort();
    errno = error;
}

static ssize_t reads(int file, void *out, size_t length, off_t at) {
    if (!is_the_file(file)) return system_pread(file, out, length, at);
    begins(0);
    ssize_t result = system_pread(file, out, length, at);
    if (result >= 0) note('r', (uint64_t)at, "", 0);
    ends();
    return result;
}

static ssize_t writes(int file, const void *bytes, size_t length, off_t at) {
    if (!is_the_file(file)) return system_pwrite(file, bytes, length, at);
    ssize_t result = system_pwrite(file, bytes, begins(length), at);
    if (result > 0) note('w', (uint64_t)at, bytes, (size_t)result);
    ends();
    return result;
}

ssize_t pread(int file, void *out, size_t length, off_t at) { return reads(file, out, length, at); }
ssize_t pread64(int file, void *out, size_t length, off_t at) { return reads(file, out, length, at); }
ssize_t pwrite(int file, const void *bytes, size_t length, off_t at) { return writes(file, bytes, length, at); }
ssize_t pwrite64(int file, const void *bytes, size_t length, off_t at) { return writes(file, bytes, length, at); }

int fsync(int file) {
    int folder = is_its_folder(file);
    if (!folder && !is_the_file(file)) return system_fsync(file);
    begins(0);
    int result = system_fsync(file);
    if (!result) note(folder ? 'f' : 's', 0, "", 0);
    ends();
    return result;
}

ssize_t write(int file, const void *bytes, size_t length) {
    if (file != 1) return system_write(file, bytes, length);
    ssize_t result = system_write(file, bytes, begins(length));
    if (result > 0) note('p', 0, bytes, (size_t)result);
    ends();
    return result;
}

ssize_t writev(int file, const struct iovec *parts, int count) {
    ssize_t sum = 0;
    for (int i = 0; i < count; ++i) {
        ssize_t result = write(file, parts[i].iov_base, parts[i].iov_len);
        if (result < 0) return sum ? sum : result;
        sum += result;
        if ((size_t)result < parts[i].iov_len) break;
    }
    return sum;
}
