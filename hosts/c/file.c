/* Whole files: read at once, and replaced so that a kill or a power cut leaves the old one or the new one. */
#define _POSIX_C_SOURCE 200809L
#include "file.h"

#include <errno.h>
#include <fcntl.h>
#include <stdio.h>
#include <stdlib.h>
#include <string.h>
#include <sys/stat.h>
#include <unistd.h>

/* Reads until the end or until the room is full. */
static int read_all(int fd, unsigned char *bytes, size_t room, size_t *len) {
    *len = 0;
    while (*len < room) {
        ssize_t got = read(fd, bytes + *len, room - *len);
        if (got < 0 && errno == EINTR)
            continue;
        if (got < 0)
            return 0;
        if (got == 0)
            break;
        *len += (size_t)got;
    }
    return 1;
}

static int write_all(int fd, const unsigned char *bytes, size_t len) {
    while (len > 0) {
        ssize_t put = write(fd, bytes, len);
        if (put < 0 && errno == EINTR)
            continue;
        if (put < 0)
            return 0;
        bytes += put;
        len -= (size_t)put;
    }
    return 1;
}

/* Closes, and keeps errno where there was a fault already. */
static int close_after(int fd, int good) {
    int kept = errno;
    int closed = close(fd) == 0;
    if (!good)
        errno = kept;
    return good && closed;
}

int file_read(const char *name, unsigned char *bytes, size_t room, size_t *len) {
    int fd = name == NULL ? STDIN_FILENO : open(name, O_RDONLY);
    if (fd < 0)
        return 0;
    return close_after(fd, read_all(fd, bytes, room, len));
}

int file_print(const unsigned char *bytes, size_t len) { return write_all(STDOUT_FILENO, bytes, len); }

char *file_new_name(const char *name) {
    char *joined = malloc(strlen(name) + sizeof ".new");
    if (joined != NULL)
        strcat(strcpy(joined, name), ".new");
    return joined;
}

/* Writes a file and waits until it is on the disk. */
static int write_new(const char *name, const unsigned char *bytes, size_t len) {
    int fd = open(name, O_WRONLY | O_CREAT | O_TRUNC, 0666);
    if (fd < 0)
        return 0;
    return close_after(fd, write_all(fd, bytes, len) && fsync(fd) == 0);
}

/* Waits until the names in the file's folder are on the disk. */
static int sync_folder(const char *name) {
    const char *slash = strrchr(name, '/');
    size_t len = slash == NULL ? 0 : (size_t)(slash - name) + 1;
    char *folder = malloc(len + 2);
    int fd;
    if (folder == NULL)
        return 0;
    memcpy(folder, name, len);
    strcpy(folder + len, len == 0 ? "." : "");
    fd = open(folder, O_RDONLY);
    free(folder);
    if (fd < 0)
        return 0;
    return close_after(fd, fsync(fd) == 0);
}

/* What kind of file it is, 0 where there is none. */
static mode_t mode_of(const char *name) {
    struct stat found;
    return stat(name, &found) == 0 ? found.st_mode : 0;
}

int file_is_regular(const char *name) { return S_ISREG(mode_of(name)); }

/* A pipe or a device must not give way to a file. */
static int is_special(const char *name) { return mode_of(name) != 0 && !file_is_regular(name); }

static int write_into(const char *name, const unsigned char *bytes, size_t len) {
    int fd = open(name, O_WRONLY);
    if (fd < 0)
        return 0;
    return close_after(fd, write_all(fd, bytes, len));
}

int file_replace(const char *name, const unsigned char *bytes, size_t len) {
    char *fresh;
    int good;
    if (is_special(name))
        return write_into(name, bytes, len);
    fresh = file_new_name(name);
    if (fresh == NULL)
        return 0;
    good = write_new(fresh, bytes, len) && rename(fresh, name) == 0 && sync_folder(name);
    free(fresh);
    return good;
}

static int gone(const char *name) { return unlink(name) == 0 || errno == ENOENT; }

int file_remove(const char *name) {
    char *fresh = file_new_name(name);
    int good;
    if (fresh == NULL)
        return 0;
    good = gone(fresh) && gone(name) && sync_folder(name);
    free(fresh);
    return good;
}
