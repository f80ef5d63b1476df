/* A pread, a pwrite and an fsync of which calls fail, counted together from 1, to be loaded before the C library. With FILE_FAIL_AT the call of this
   number fails with EIO and does nothing; with FILE_FAIL_ON each call from that number on. With FILE_SHORT_AT the call of this number, where it is
   a pwrite of two bytes or more, writes the first half alone; with FILE_TORN_AT, where it is a pwrite, it writes the first half and fails with EIO.
   With FILE_OTHER_AT the call of this number, where it is a pread, gives another first byte than the file has. With FILE_COUNT set, the number of
   calls is written to standard error at the end; with FILE_LOG each call is a line in the file of this name: what it is, its offset, its length, and
   its result. */
#define _GNU_SOURCE
#include <dlfcn.h>
#include <errno.h>
#include <stdio.h>
#include <stdlib.h>
#include <sys/types.h>

static long calls, fail_at, fail_on, short_at, torn_at, other_at;
static FILE *log_file;

static long number_in(const char *name) {
    const char *text = getenv(name);
    return text ? atol(text) : 0;
}

__attribute__((constructor)) static void begin(void) {
    const char *log_name = getenv("FILE_LOG");
    fail_at = number_in("FILE_FAIL_AT");
    fail_on = number_in("FILE_FAIL_ON");
    short_at = number_in("FILE_SHORT_AT");
    torn_at = number_in("FILE_TORN_AT");
    other_at = number_in("FILE_OTHER_AT");
    if (log_name) log_file = fopen(log_name, "a");
}

__attribute__((destructor)) static void end(void) {
    if (getenv("FILE_COUNT")) fprintf(stderr, "%ld\n", calls);
    if (log_file) fclose(log_file);
}

static int fails(void) {
    ++calls;
    if (calls == fail_at || (fail_on && calls >= fail_on)) {
        errno = EIO;
        return 1;
    }
    return 0;
}

static ssize_t noted(const char *call, off_t at, size_t length, ssize_t result) {
    int error = errno;
    if (log_file) {
        fprintf(log_file, "%s %lld %zu %zd\n", call, (long long)at, length, result);
        fflush(log_file);
    }
    errno = error;
    return result;
}

static ssize_t reads(int file, void *out, size_t length, off_t at) {
    static ssize_t (*system_pread)(int, void *, size_t, off_t);
    if (!system_pread) system_pread = (ssize_t (*)(int, void *, size_t, off_t))dlsym(RTLD_NEXT, "pread");
    ssize_t result = fails() ? -1 : system_pread(file, out, length, at);
    if (calls == other_at && result > 0) *(unsigned char *)out ^= 0xff;
    return noted("pread", at, length, result);
}

static ssize_t writes(int file, const void *bytes, size_t length, off_t at) {
    static ssize_t (*system_pwrite)(int, const void *, size_t, off_t);
    if (!system_pwrite) system_pwrite = (ssize_t (*)(int, const void *, size_t, off_t))dlsym(RTLD_NEXT, "pwrite");
    if (fails()) return noted("pwrite", at, length, -1);
    if (calls == torn_at) {
        if (length > 1) system_pwrite(file, bytes, length / 2, at);
        errno = EIO;
        return noted("pwrite", at, length, -1);
    }
    return noted("pwrite", at, length, system_pwrite(file, bytes, calls == short_at && length > 1 ? length / 2 : length, at));
}

ssize_t pread(int file, void *out, size_t length, off_t at) { return reads(file, out, length, at); }
ssize_t pread64(int file, void *out, size_t length, off_t at) { return reads(file, out, length, at); }
ssize_t pwrite(int file, const void *bytes, size_t length, off_t at) { return writes(file, bytes, length, at); }
ssize_t pwrite64(int file, const void *bytes, size_t length, off_t at) { return writes(file, bytes, length, at); }

int fsync(int file) {
    static int (*system_fsync)(int);
    if (!system_fsync) system_fsync = (int (*)(int))dlsym(RTLD_NEXT, "fsync");
    return (int)noted("fsync", 0, 0, fails() ? -1 : system_fsync(file));
}
