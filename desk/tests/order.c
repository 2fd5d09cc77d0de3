/*
 * order.so, loaded in front of the C library, prints on standard output the order in which a program writes, flushes and renames files. What goes to
 * standard output is named "answer".
 */
#define _GNU_SOURCE
#include <dlfcn.h>
#include <limits.h>
#include <stdio.h>
#include <string.h>
#include <unistd.h>

static ssize_t (*real_write)(int, const void *, size_t);

static void say(const char *what, const char *path)
{
    char line[2 * PATH_MAX];
    const char *name = strrchr(path, '/');
    int len = snprintf(line, sizeof line, "%s %s\n", what, name ? name + 1 : path);
    real_write(STDOUT_FILENO, line, (size_t)len);
}

static void say_open(const char *what, int file)
{
    char link[64], path[PATH_MAX];
    snprintf(link, sizeof link, "/proc/self/fd/%d", file);
    ssize_t len = readlink(link, path, sizeof path - 1);
    path[len > 0 ? len : 0] = 0;
    say(what, file == STDOUT_FILENO ? "answer" : path);
}

__attribute__((constructor)) static void find(void)
{
    real_write = dlsym(RTLD_NEXT, "write");
}

ssize_t write(int file, const void *bytes, size_t len)
{
    say_open("write", file);
    return real_write(file, bytes, len);
}

int fsync(int file)
{
    say_open("fsync", file);
    return ((int (*)(int))dlsym(RTLD_NEXT, "fsync"))(file);
}

int rename(const char *from, const char *to)
{
    say("rename", to);
    return ((int (*)(const char *, const char *))dlsym(RTLD_NEXT, "rename"))(from, to);
}
