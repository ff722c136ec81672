/* Laid under the program (LD_PRELOAD), it notes each read, write and sync of the host in the order in which they are made, a line
   each, in the file that CALLS names. It kills the program before the write or sync that CALLS_KILL gives, counted from 1 over
   both. It makes calls fail as CALLS_FAIL says: a list of CALL:NAME:NUMBER:OUTCOME, separated by commas. CALL and NAME are as
   they are noted, NUMBER counts the calls of that kind and name from 1, or is 0 for all of them, and OUTCOME is the error that the
   call answers, or the number of bytes that it moves at the most. */
#define _GNU_SOURCE
#include <dlfcn.h>
#include <errno.h>
#include <signal.h>
#include <stdio.h>
#include <stdlib.h>
#include <string.h>
#include <unistd.h>

struct fault {
    char call[8], name[64], outcome[16];
    long number, seen;
};

static ssize_t (*next_read)(int, void *, size_t);
static ssize_t (*next_pread)(int, void *, size_t, off_t);
static ssize_t (*next_write)(int, const void *, size_t);
static ssize_t (*next_pwrite)(int, const void *, size_t, off_t);
static int (*next_fsync)(int);
static FILE *notes;
static long calls;
static struct fault faults[16];
static int fault_count;

static void begin(void) {
    if (next_write)
        return;
    next_read = dlsym(RTLD_NEXT, "read");
    next_pread = dlsym(RTLD_NEXT, "pread");
    next_write = dlsym(RTLD_NEXT, "write");
    next_pwrite = dlsym(RTLD_NEXT, "pwrite");
    next_fsync = dlsym(RTLD_NEXT, "fsync");
    if (getenv("CALLS"))
        notes = fopen(getenv("CALLS"), "w");
    char *list = getenv("CALLS_FAIL") ? strdup(getenv("CALLS_FAIL")) : NULL;
    for (char *word = list ? strtok(list, ",") : NULL; word && fault_count < 16; word = strtok(NULL, ",")) {
        struct fault *fault = &faults[fault_count++];
        if (sscanf(word, "%7[^:]:%63[^:]:%ld:%15s", fault->call, fault->name, &fault->number, fault->outcome) != 4)
            abort();
    }
}

static void name_of(int file, char *name, size_t size) {
    char path[4096], link[64];
    snprintf(link, sizeof link, "/proc/self/fd/%d", file);
    ssize_t length = readlink(link, path, sizeof path - 1);
    path[length < 0 ? 0 : length] = 0;
    char *slash = strrchr(path, '/');
    snprintf(name, size, "%s", file == 0 ? "input" : file == 1 ? "answer" : slash ? slash + 1 : path);
}

/* What the call is to come to, or NULL where it is to succeed. */
static const char *outcome_of(const char *call, const char *name) {
    const char *outcome = NULL;
    for (int i = 0; i < fault_count; i++) {
        struct fault *fault = &faults[i];
        if (strcmp(fault->call, call) || strcmp(fault->name, name))
            continue;
        fault->seen++;
        if (fault->number == 0 || fault->number == fault->seen)
            outcome = fault->outcome;
    }
    return outcome;
}

/* Notes a call. Answers 0 where it is to fail, and errno is set then; else count is what it is to move at the most. */
static int note(const char *call, int file, size_t *count) {
    begin();
    if (strcmp(call, "read") && ++calls && getenv("CALLS_KILL") && calls == atol(getenv("CALLS_KILL")))
        kill(getpid(), SIGKILL);
    char name[256];
    name_of(file, name, sizeof name);
    const char *outcome = outcome_of(call, name);
    if (notes) {
        fprintf(notes, "%s %s %ld%s%s\n", call, name, (long)*count, outcome ? " " : "", outcome ? outcome : "");
        fflush(notes);
    }
    if (!outcome)
        return 1;
    if (outcome[0] != 'E') {
        size_t most = strtoul(outcome, NULL, 10);
        if (*count > most)
            *count = most;
        return 1;
    }
    errno = !strcmp(outcome, "EINTR") ? EINTR : !strcmp(outcome, "ENOSPC") ? ENOSPC : EIO;
    return 0;
}

ssize_t read(int file, void *bytes, size_t count) {
    return note("read", file, &count) ? next_read(file, bytes, count) : -1;
}

ssize_t pread(int file, void *bytes, size_t count, off_t place) {
    return note("read", file, &count) ? next_pread(file, bytes, count, place) : -1;
}

ssize_t write(int file, const void *bytes, size_t count) {
    begin();
    if (notes && file == fileno(notes))
        return next_write(file, bytes, count);
    return note("write", file, &count) ? next_write(file, bytes, count) : -1;
}

ssize_t pwrite(int file, const void *bytes, size_t count, off_t place) {
    return note("write", file, &count) ? next_pwrite(file, bytes, count, place) : -1;
}

int fsync(int file) {
    size_t none = 0;
    return note("sync", file, &none) ? next_fsync(file) : -1;
}
