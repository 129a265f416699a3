/* A library for a test of power loss, which LD_PRELOAD loads. The folder ON_DISK holds what is on
 * the disk for sure. A call of fsync or fdatasync copies a file to ON_DISK/NAME. A call of fsync
 * for a folder adds an empty file ON_DISK/NAME.named for each name in it, and removes all others.
 * After a kill, the test drops everything else. */
#define _GNU_SOURCE

#include <dirent.h>
#include <fcntl.h>
#include <stdio.h>
#include <stdlib.h>
#include <string.h>
#include <sys/stat.h>
#include <unistd.h>

static void die(const char *what)
{
    perror(what);
    abort();
}

/* Opens ON_DISK/NAME with this ending, empty. */
static int created(const char *name, const char *ending)
{
    char path[4096];
    int file;
    snprintf(path, sizeof path, "%s/%s%s", getenv("ON_DISK"), name, ending);
    file = open(path, O_WRONLY | O_CREAT | O_TRUNC, 0600);
    if (file < 0)
        die(path);
    return file;
}

static void copy(int from, const char *name)
{
    char data[65536], path[4096], next[4096];
    const int to = created(name, ".new");
    off_t at = 0;
    ssize_t n;
    while ((n = pread(from, data, sizeof data, at)) > 0) {
        if (write(to, data, (size_t)n) != n)
            die(name);
        at += n;
    }
    close(to);
    snprintf(next, sizeof next, "%s/%s.new", getenv("ON_DISK"), name);
    snprintf(path, sizeof path, "%s/%s", getenv("ON_DISK"), name);
    if (rename(next, path) != 0)
        die(path);
}

/* Removes all files of the folder ON_DISK with the ending `.named`. */
static void forget_names(void)
{
    DIR *const opened = opendir(getenv("ON_DISK"));
    const struct dirent *it;
    if (opened == NULL)
        die(getenv("ON_DISK"));
    while ((it = readdir(opened)) != NULL) {
        const size_t length = strlen(it->d_name);
        if (length > 6 && strcmp(it->d_name + length - 6, ".named") == 0)
            unlinkat(dirfd(opened), it->d_name, 0);
    }
    closedir(opened);
}

static void name_all(const char *folder)
{
    DIR *const opened = opendir(folder);
    const struct dirent *it;
    if (opened == NULL)
        die(folder);
    forget_names();
    while ((it = readdir(opened)) != NULL) {
        if (it->d_type == DT_REG)
            close(created(it->d_name, ".named"));
    }
    closedir(opened);
}

int fsync(int file)
{
    char link[64], path[4096];
    struct stat found;
    ssize_t n;
    snprintf(link, sizeof link, "/proc/self/fd/%d", file);
    n = readlink(link, path, sizeof path - 1);
    if (n < 0 || fstat(file, &found) != 0)
        die(link);
    path[n] = 0;
    if (S_ISDIR(found.st_mode))
        name_all(path);
    else
        copy(file, strrchr(path, '/') + 1);
    return 0;
}

int fdatasync(int file)
{
    return fsync(file);
}
