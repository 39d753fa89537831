/* A library before the C library: while a file named by WAITING_WRITE is there, what writes to a file with the name `edits` waits, and while one named by
   WAITING_SYNC is there, so does what puts such a file on the disk. Whoever waits makes a file of the same name with `.begun` behind it. */
#define _GNU_SOURCE
#include <dlfcn.h>
#include <fcntl.h>
#include <limits.h>
#include <stdio.h>
#include <stdlib.h>
#include <string.h>
#include <sys/uio.h>
#include <unistd.h>

static int is_journal(int file) {
    static const char name[] = "/edits";
    char link[64], path[PATH_MAX];
    snprintf(link, sizeof link, "/proc/self/fd/%d", file);
    ssize_t length = readlink(link, path, sizeof path);
    ssize_t own = sizeof name - 1;
    return length >= own && memcmp(path + length - own, name, own) == 0;
}

static void wait_while(int file, const char *variable) {
    const char *path = getenv(variable);
    if (path == NULL || access(path, F_OK) != 0 || !is_journal(file)) return;
    char begun[PATH_MAX];
    snprintf(begun, sizeof begun, "%s.begun", path);
    close(open(begun, O_CREAT | O_WRONLY, 0600));
    while (access(path, F_OK) == 0) usleep(1000);
}

#define NEXT(name) ((__typeof__(&name))dlsym(RTLD_NEXT, #name))

ssize_t write(int file, const void *bytes, size_t count) {
    wait_while(file, "WAITING_WRITE");
    return NEXT(write)(file, bytes, count);
}

ssize_t writev(int file, const struct iovec *parts, int count) {
    wait_while(file, "WAITING_WRITE");
    return NEXT(writev)(file, parts, count);
}

int fdatasync(int file) {
    wait_while(file, "WAITING_SYNC");
    return NEXT(fdatasync)(file);
}

int fsync(int file) {
    wait_while(file, "WAITING_SYNC");
    return NEXT(fsync)(file);
}
