/* A disk on which something happens while a file is read, for tests alone: it is loaded before the C library and stands in for a few of its functions.
 *
 *   DISK_FILE      how the path of the file that is meant ends
 *   DISK_AT        the byte of it that matters
 *   DISK_RUNS      a command that is run once, before that byte or one behind it is read
 *   DISK_FAILS     reading that byte or one behind it is an input/output error
 *   DISK_DENIED    how the path of a file or a folder ends that cannot be opened
 *   DISK_READ_ONLY no folder can be made
 *   DISK_FULL      no room can be set aside for more than so many bytes
 *   DISK_TERMINAL  standard error is a terminal
 *   DISK_SYNCS     a file that gets a byte for each call that has something written to the disk
 */
#define _GNU_SOURCE
#include <dirent.h>
#include <dlfcn.h>
#include <errno.h>
#include <fcntl.h>
#include <stdarg.h>
#include <stdio.h>
#include <stdlib.h>
#include <string.h>
#include <sys/stat.h>
#include <unistd.h>

static int ends_with(const char *path, const char *name) {
    const char *end = getenv(name);
    if (end == NULL || strlen(end) > strlen(path)) {
        return 0;
    }
    return strcmp(path + strlen(path) - strlen(end), end) == 0;
}

static int is_meant(int file) {
    char link[64], path[4096];
    snprintf(link, sizeof link, "/proc/self/fd/%d", file);
    ssize_t length = readlink(link, path, sizeof path - 1);
    if (length < 0) {
        return 0;
    }
    path[length] = 0;
    return ends_with(path, "DISK_FILE");
}

/* Whether a read of so many bytes reaches the byte that matters; one that would go over it is cut before it. */
static int reaches(int file, size_t *size) {
    const char *text = getenv("DISK_AT");
    off_t at = text == NULL ? 0 : atol(text), here = lseek(file, 0, SEEK_CUR);
    if (here >= at) {
        return 1;
    }
    if (*size > (size_t)(at - here)) {
        *size = at - here;
    }
    return 0;
}

ssize_t read(int file, void *room, size_t size) {
    static int done;
    ssize_t (*real)(int, void *, size_t) = dlsym(RTLD_NEXT, "read");
    if (is_meant(file) && reaches(file, &size)) {
        if (getenv("DISK_FAILS") != NULL) {
            errno = EIO;
            return -1;
        }
        char command[4096];
        if (getenv("DISK_RUNS") != NULL && !__atomic_exchange_n(&done, 1, __ATOMIC_SEQ_CST)) {
            snprintf(command, sizeof command, "unset LD_PRELOAD; %s", getenv("DISK_RUNS"));
            if (system(command) != 0) {
                abort();
            }
        }
    }
    return real(file, room, size);
}

int open64(const char *path, int flags, ...) {
    va_list rest;
    va_start(rest, flags);
    int mode = va_arg(rest, int);
    va_end(rest);
    if (ends_with(path, "DISK_DENIED")) {
        errno = EACCES;
        return -1;
    }
    int (*real)(const char *, int, ...) = dlsym(RTLD_NEXT, "open64");
    return real(path, flags, mode);
}

DIR *opendir(const char *path) {
    if (ends_with(path, "DISK_DENIED")) {
        errno = EACCES;
        return NULL;
    }
    DIR *(*real)(const char *) = dlsym(RTLD_NEXT, "opendir");
    return real(path);
}

int mkdir(const char *path, mode_t mode) {
    if (getenv("DISK_READ_ONLY") != NULL) {
        errno = EROFS;
        return -1;
    }
    int (*real)(const char *, mode_t) = dlsym(RTLD_NEXT, "mkdir");
    return real(path, mode);
}

int fallocate(int file, int mode, off_t start, off_t size) {
    const char *most = getenv("DISK_FULL");
    if (most != NULL && size > atol(most)) {
        errno = ENOSPC;
        return -1;
    }
    int (*real)(int, int, off_t, off_t) = dlsym(RTLD_NEXT, "fallocate");
    return real(file, mode, start, size);
}

static int counted(int file, const char *name) {
    const char *path = getenv("DISK_SYNCS");
    FILE *counts = path == NULL ? NULL : fopen(path, "a");
    if (counts != NULL) {
        fputc('.', counts);
        fclose(counts);
    }
    int (*real)(int) = dlsym(RTLD_NEXT, name);
    return real(file);
}

int fsync(int file) {
    return counted(file, "fsync");
}

int fdatasync(int file) {
    return counted(file, "fdatasync");
}

int syncfs(int file) {
    return counted(file, "syncfs");
}

int isatty(int file) {
    int (*real)(int) = dlsym(RTLD_NEXT, "isatty");
    return getenv("DISK_TERMINAL") != NULL || real(file);
}
