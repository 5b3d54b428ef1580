/* Loaded before the C library (LD_PRELOAD), this writes down each call by which a program handles files, and has one of them fail or
   the program killed at it. Calls on standard input, output and error are written down with the number 0, and never fail.

     FAULTS_LOG    the file to write to, a line for each call: its number, its name, and the files that it is about
     FAULTS_AT     the number of the call that fails, counted from 1; 0 for none
     FAULTS_WITH   the error that it fails with, a number; 0 kills the program in place of the call
     FAULTS_ON     where it is set, the calls after that one fail too
     FAULTS_CALL   every call of this name fails
     FAULTS_SHORT  where it is set, a write to a file takes one byte */
#define _GNU_SOURCE
#include <dlfcn.h>
#include <errno.h>
#include <fcntl.h>
#include <limits.h>
#include <signal.h>
#include <stdarg.h>
#include <stdio.h>
#include <stdlib.h>
#include <string.h>
#include <sys/stat.h>
#include <unistd.h>

/* The C library's function of this name. */
#define REAL(call) ((__typeof__(&call))dlsym(RTLD_NEXT, #call))

enum { FILES = 64, LOG_FILE = 200 };

static int count, at, with, on, one_byte, logs = -1;
static const char *every;
static const char *const standard[] = {"input", "output", "error"};
static char names[FILES][PATH_MAX];

static int number_of(const char *variable)
{
    const char *value = getenv(variable);
    return value ? atoi(value) : 0;
}

/* The log has a descriptor far from those that the program is given, which stay what they are without this library. */
__attribute__((constructor)) static void begin(void)
{
    int file = REAL(open)(getenv("FAULTS_LOG"), O_WRONLY | O_CREAT | O_TRUNC, 0600);
    logs = fcntl(file, F_DUPFD_CLOEXEC, LOG_FILE);
    REAL(close)(file);
    at = number_of("FAULTS_AT");
    with = number_of("FAULTS_WITH");
    on = getenv("FAULTS_ON") != NULL;
    every = getenv("FAULTS_CALL");
    one_byte = getenv("FAULTS_SHORT") != NULL;
}

/* Writes a call down, and says whether it is to fail. */
static int fails(int standard, const char *call, const char *name, const char *other)
{
    int before = errno;
    int number = standard ? 0 : ++count;
    dprintf(logs, "%d %s %s%s%s\n", number, call, name, *other ? " " : "", other);
    errno = before;
    int named = every && strcmp(every, call) == 0;
    if (!named && (at == 0 || (number != at && !(on && number > at))))
        return 0;
    if (with == 0)
        kill(getpid(), SIGKILL);
    errno = with;
    return 1;
}

static const char *name_of(int file)
{
    if (file >= 0 && file <= STDERR_FILENO)
        return standard[file];
    return file >= 0 && file < FILES ? names[file] : "?";
}

static int fails_on(int file, const char *call) { return fails(file <= STDERR_FILENO, call, name_of(file), ""); }

static int named(int file, const char *name)
{
    if (file >= 0 && file < FILES)
        snprintf(names[file], PATH_MAX, "%s", name);
    return file;
}

/* Opening a file that is not to be there yet is written down as making it. */
int open(const char *path, int flags, ...)
{
    va_list rest;
    va_start(rest, flags);
    mode_t mode = flags & O_CREAT ? va_arg(rest, mode_t) : 0;
    va_end(rest);
    return fails(0, flags & O_EXCL ? "create" : "open", path, "") ? -1 : named(REAL(open)(path, flags, mode), path);
}

int mkstemp(char *name)
{
    if (fails(0, "mkstemp", name, ""))
        return -1;
    int file = REAL(mkstemp)(name);
    return named(file, name);
}

ssize_t write(int file, const void *bytes, size_t length)
{
    if (fails_on(file, "write"))
        return -1;
    return REAL(write)(file, bytes, one_byte && length > 1 && file > STDERR_FILENO ? 1 : length);
}

/* A close that fails has closed the file all the same, as the system's has. */
int close(int file)
{
    int failed = fails_on(file, "close");
    int error = errno;
    int closed = REAL(close)(file);
    errno = failed ? error : errno;
    return failed ? -1 : closed;
}

/* A call on an open file, and one on a file by its name. */
#define ON_FILE(type, call, takes, gives) \
    type call takes { return fails_on(file, #call) ? -1 : REAL(call) gives; }
#define ON_NAME(call, takes, gives) \
    int call takes { return fails(0, #call, path, "") ? -1 : REAL(call) gives; }

ON_FILE(ssize_t, read, (int file, void *bytes, size_t length), (file, bytes, length))
ON_FILE(int, fstat, (int file, struct stat *found), (file, found))
ON_FILE(int, fchmod, (int file, mode_t mode), (file, mode))
ON_FILE(int, fchown, (int file, uid_t owner, gid_t group), (file, owner, group))
ON_NAME(stat, (const char *path, struct stat *found), (path, found))
ON_NAME(lstat, (const char *path, struct stat *found), (path, found))
ON_NAME(access, (const char *path, int asked), (path, asked))
ON_NAME(mkdir, (const char *path, mode_t mode), (path, mode))
ON_NAME(rmdir, (const char *path), (path))
ON_NAME(unlink, (const char *path), (path))

int statx(int folder, const char *path, int flags, unsigned asked, struct statx *found)
{
    return fails(0, "statx", path, "") ? -1 : REAL(statx)(folder, path, flags, asked, found);
}

/* The letters of a new file's name come from here. */
int getentropy(void *bytes, size_t length) { return fails(0, "getentropy", "", "") ? -1 : REAL(getentropy)(bytes, length); }

int rename(const char *from, const char *to) { return fails(0, "rename", from, to) ? -1 : REAL(rename)(from, to); }

/* Syncing is written down and not done: what is tried is the order of the calls and what follows from each, not the disk. */
int fsync(int file) { return fails_on(file, "fsync") ? -1 : 0; }
int fdatasync(int file) { return fails_on(file, "fdatasync") ? -1 : 0; }
