// Meets one call of the program that it is laid before: the call CALL of the number NUMBER, counted from 1. The command BEFORE is run
// before it, the call fails with the error ERROR, or else the command AFTER is run after it. The file LOG gets a line for each call that
// is looked at, but for reads, looks, locks, random bytes and owners. Where LINKS is an error, each call of link fails with it. A look that is
// met and doesn't fail tells of another disk. Where BUILT names a program, no call of another is met: a stand-in of tests/liars runs it.
#define _GNU_SOURCE
#include <dlfcn.h>
#include <errno.h>
#include <fcntl.h>
#include <stdarg.h>
#include <stdio.h>
#include <stdlib.h>
#include <string.h>
#include <sys/file.h>
#include <sys/stat.h>
#include <unistd.h>

static int count;

static const char *word(const char *name)
{
    const char *value = getenv(name);
    return value ? value : "";
}

static void run(const char *command)
{
    char text[4096];
    if (!*command)
        return;
    snprintf(text, sizeof text, "unset LD_PRELOAD LOG; { %s; } > said 2>&1", command);
    if (system(text) == -1)
        _exit(99);
}

// Whether this is the program whose calls are met.
static int is_program(void)
{
    static int is_known, is_it = 1;
    char own[4096];
    if (is_known || !*word("BUILT"))
        return is_it;
    ssize_t size = readlink("/proc/self/exe", own, sizeof own - 1);
    own[size < 0 ? 0 : size] = 0;
    is_known = 1;
    return is_it = strcmp(own, word("BUILT")) == 0;
}

static void note(const char *call)
{
    FILE *log = fopen(word("LOG"), "a");
    if (!log)
        return;
    fprintf(log, "%s\n", call);
    fclose(log);
}

// Whether this is the call that is met; the command before it is run.
static int meets(const char *call)
{
    if (!is_program())
        return 0;
    if (!strstr(" read statx flock random owner ", call))
        note(call);
    if (strcmp(call, word("CALL")) != 0 || ++count != atoi(word("NUMBER")))
        return 0;
    run(word("BEFORE"));
    return 1;
}

static int fails(int is_met)
{
    errno = is_met ? atoi(word("ERROR")) : 0;
    return errno != 0;
}

// The command after a call that is met.
static void after(int is_met)
{
    int error = errno;
    if (is_met)
        run(word("AFTER"));
    errno = error;
}

#define MET(type, call, failed, real, given) \
    int is_met = meets(call); \
    if (fails(is_met)) \
        return failed; \
    type got = ((type(*) real)dlsym(RTLD_NEXT, __func__)) given; \
    after(is_met); \
    return got

int link(const char *old, const char *new)
{
    if (*word("LINKS") && is_program()) {
        errno = atoi(word("LINKS"));
        return -1;
    }
    MET(int, "link", -1, (const char *, const char *), (old, new));
}

int rename(const char *old, const char *new)
{
    MET(int, "rename", -1, (const char *, const char *), (old, new));
}

int unlink(const char *name)
{
    MET(int, "unlink", -1, (const char *), (name));
}

char *realpath(const char *name, char *found)
{
    MET(char *, "realpath", NULL, (const char *, char *), (name, found));
}

int fsync(int file)
{
    struct stat it;
    int is_folder = fstat(file, &it) == 0 && S_ISDIR(it.st_mode);
    MET(int, is_folder ? "fsync folder" : "fsync", -1, (int), (file));
}

int futimens(int file, const struct timespec times[2])
{
    MET(int, "date", -1, (int, const struct timespec *), (file, times));
}

int flock(int file, int how)
{
    MET(int, "flock", -1, (int, int), (file, how));
}

int getentropy(void *bytes, size_t size)
{
    MET(int, "random", -1, (void *, size_t), (bytes, size));
}

int fchown(int file, uid_t user, gid_t group)
{
    MET(int, "owner", -1, (int, uid_t, gid_t), (file, user, group));
}

int fcntl(int file, int how, ...)
{
    va_list rest;
    va_start(rest, how);
    long given = va_arg(rest, long);
    va_end(rest);
    MET(int, how == F_DUPFD_CLOEXEC ? "dup" : "fcntl", -1, (int, int, ...), (file, how, given));
}

int open(const char *name, int how, ...)
{
    char call[4096];
    const char *last = strrchr(name, '/');
    va_list rest;
    va_start(rest, how);
    int mode = va_arg(rest, int);
    va_end(rest);
    snprintf(call, sizeof call, "open %s", last ? last + 1 : name);
    MET(int, call, -1, (const char *, int, ...), (name, how, mode));
}

int statx(int folder, const char *name, int how, unsigned mask, struct statx *found)
{
    int is_met = meets("statx");
    if (fails(is_met))
        return -1;
    int got = ((int (*)(int, const char *, int, unsigned, struct statx *))dlsym(RTLD_NEXT, __func__))(folder, name, how, mask, found);
    found->stx_dev_minor += is_met;
    return got;
}

ssize_t read(int file, void *bytes, size_t size)
{
    MET(ssize_t, "read", -1, (int, void *, size_t), (file, bytes, size));
}

ssize_t write(int file, const void *bytes, size_t size)
{
    MET(ssize_t, file == 1 ? "print" : "write", -1, (int, const void *, size_t), (file, bytes, size));
}
