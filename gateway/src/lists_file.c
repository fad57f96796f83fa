#include "lists_file.h"

#include <errno.h>
#include <fcntl.h>
#include <limits.h>
#include <stdio.h>
#include <string.h>
#include <sys/stat.h>
#include <unistd.h>

static const char SUFFIX[] = ".new";

/* The folder of a path, with its last slash, or "." */
static bool folder_of(const char *path, char folder[PATH_MAX])
{
    const char *slash = strrchr(path, '/');
    int length = slash == NULL ? snprintf(folder, PATH_MAX, ".") : snprintf(folder, PATH_MAX, "%.*s", (int)(slash - path + 1), path);
    return length > 0 && length < PATH_MAX;
}

/* The file's bytes; their number, or -1 with errno. */
static ssize_t read_all(int fd, char *bytes, size_t size)
{
    size_t length = 0;
    while (length < size) {
        ssize_t got = read(fd, bytes + length, size - length);
        if (got < 0 && errno == EINTR)
            continue;
        if (got < 0)
            return -1;
        if (got == 0)
            break;
        length += (size_t)got;
    }
    return (ssize_t)length;
}

static bool refuse(struct lists_error *error, const char *text)
{
    error->line = 0;
    snprintf(error->text, sizeof error->text, "%s", text);
    return false;
}

/* The file whole. 0, or errno; EFBIG where it is longer than a text can be. */
static int read_text(const char *path, struct lists_text *text)
{
    char past;
    int fd = open(path, O_RDONLY | O_CLOEXEC);
    if (fd < 0)
        return errno;
    ssize_t length = read_all(fd, text->bytes, sizeof text->bytes);
    ssize_t more = length == (ssize_t)sizeof text->bytes ? read_all(fd, &past, 1) : 0;
    int number = length < 0 || more < 0 ? errno : more > 0 ? EFBIG : 0;
    if (close(fd) != 0 && number == 0)
        number = errno;
    text->length = length > 0 ? (size_t)length : 0;
    return number;
}

bool lists_file_load(const char *path, uint32_t ports, struct lists *lists, struct lists_text *known, struct lists_error *error)
{
    char folder[PATH_MAX];
    int number = read_text(path, known);
    if (number == ENOENT)
        return refuse(error, "no such file (an empty one clears every pair)");
    if (number == EFBIG)
        return refuse(error, "a file of over 49,152 bytes");
    if (number != 0)
        return refuse(error, strerror(number));
    if (!folder_of(path, folder) || access(folder, W_OK) != 0)
        return refuse(error, "its folder cannot be written to, so no list could be saved");
    return lists_parse(known->bytes, known->length, ports, lists, error);
}

static int write_all(int fd, const char *bytes, size_t length)
{
    while (length > 0) {
        ssize_t put = write(fd, bytes, length);
        if (put < 0 && errno == EINTR)
            continue;
        if (put < 0)
            return errno;
        bytes += put;
        length -= (size_t)put;
    }
    return 0;
}

/* A new file with these bytes, on the disk when it returns. 0, or errno. */
static int write_synced(const char *path, const char *bytes, size_t length)
{
    int fd = open(path, O_WRONLY | O_CREAT | O_TRUNC | O_CLOEXEC, S_IRUSR | S_IWUSR | S_IRGRP | S_IROTH);
    if (fd < 0)
        return errno;
    int number = write_all(fd, bytes, length);
    if (number == 0 && fsync(fd) != 0)
        number = errno;
    if (close(fd) != 0 && number == 0)
        number = errno;
    return number;
}

static int sync_folder(const char *folder)
{
    int fd = open(folder, O_RDONLY | O_DIRECTORY | O_CLOEXEC);
    if (fd < 0)
        return errno;
    int number = fsync(fd) == 0 ? 0 : errno;
    if (close(fd) != 0 && number == 0)
        number = errno;
    return number;
}

static bool same_text(const struct lists_text *a, const struct lists_text *b)
{
    return a->length == b->length && memcmp(a->bytes, b->bytes, a->length) == 0;
}

/* Somebody else wrote the file. One that was taken away holds nothing that a save could overwrite. */
static int check_unedited(const char *path, const struct lists_text *known, const struct lists_text *text)
{
    static struct lists_text there;
    int number = read_text(path, &there);
    if (number == ENOENT)
        return 0;
    if (number == EFBIG)
        return LISTS_EDITED;
    return number != 0 || same_text(&there, known) || same_text(&there, text) ? number : LISTS_EDITED;
}

int lists_file_save(const char *path, const struct lists_text *known, const struct lists_text *text)
{
    char beside[PATH_MAX], folder[PATH_MAX];
    int path_length = snprintf(beside, sizeof beside, "%s%s", path, SUFFIX);
    if (path_length < 0 || path_length >= PATH_MAX || !folder_of(path, folder))
        return ENAMETOOLONG;
    int number = check_unedited(path, known, text);
    if (number == 0)
        number = write_synced(beside, text->bytes, text->length);
    if (number == 0 && rename(beside, path) != 0)
        number = errno;
    if (number != 0)
        return number;
    return sync_folder(folder) == 0 ? 0 : LISTS_UNSYNCED;
}
